#!/usr/bin/env python3
"""speed/best_mip.py FILE: what solvers of mixed integer programs take for the small tables that `best small FILE` wrote, rows of interest
beside those of speed/best.c. Each table becomes a shortest path with a budget, in the LP format of CPLEX: a variable that is 0 or 1 for
each setting of scan 0 and for each allowed pair of settings of two consecutive scans, one setting for scan 0, as much out of a setting as
into it, one row for the rate, and the weighted distortion as the objective. The least distortion must be the one that the call answered;
the solvers are not asked for the least rate, nor for the first sequence. A solver's time is that of its whole run, with reading the
program and without writing it."""

import os
import shutil
import statistics
import subprocess
import sys
import tempfile
import time

FORBIDDEN = 4294967295
TURNS = 3
PATIENCE = 300


def tables(numbers):
    """The tables of a file, each as the arguments of `program`, with the call's distortion and its time in nanoseconds."""
    at = iter(numbers)
    for scans in at:
        settings, law, budget = next(at), next(at), next(at)
        _, distortion, _, took = next(at), next(at), next(at), next(at)
        cells = settings + (scans - 1) * settings * settings
        weights = [next(at) for _ in range(scans)]
        rates = [next(at) for _ in range(cells)]
        distortions = [next(at) for _ in range(cells)]
        yield (scans, settings, law, budget, weights, rates, distortions), distortion, took


def allowed(law, before, setting):
    return law == 0 or (setting <= before + 2 and (law == 2 or before <= setting + 2))


def variables(scans, settings, law, rates):
    """Name, scan, setting before (None in scan 0), setting, and cell of each choice that is allowed."""
    for q in range(settings):
        if rates[q] != FORBIDDEN:
            yield "x0_%d" % q, 0, None, q, q
    for i in range(1, scans):
        for p in range(settings):
            for q in range(settings):
                cell = settings + (i - 1) * settings * settings + p * settings + q
                if allowed(law, p, q) and rates[cell] != FORBIDDEN:
                    yield "x%d_%d_%d" % (i, p, q), i, p, q, cell


def total(terms):
    """A sum, one term in a line, since the format bounds a line."""
    return "\n".join("  %s %d %s" % ("+" if factor >= 0 else "-", abs(factor), name) for factor, name in terms)


def program(scans, settings, law, budget, weights, rates, distortions):
    choices = list(variables(scans, settings, law, rates))
    flows = {(i, q): [] for i in range(scans - 1) for q in range(settings)}
    for name, i, p, q, _ in choices:
        if i < scans - 1:
            flows[i, q].append((1, name))
        if i > 0:
            flows[i - 1, p].append((-1, name))
    lines = ["Minimize", " distortion:", total((weights[i] * distortions[cell], name) for name, i, _, _, cell in choices), "Subject To"]
    lines += [" begin:", total((1, name) for name, i, _, _, _ in choices if i == 0), "  = 1"]
    for (i, q), terms in flows.items():
        if terms:
            lines += [" flow%d_%d:" % (i, q), total(terms), "  = 0"]
    lines += [" rate:", total((rates[cell], name) for name, _, _, _, cell in choices), "  <= %d" % budget]
    lines += ["Binary"] + ["  " + name for name, _, _, _, _ in choices] + ["End", ""]
    return len(choices), "\n".join(lines)


def glpsol(lp, out):
    return ["glpsol", "--lp", lp, "--write", out]


def glpsol_objective(text):
    """The line "s mip ROWS COLUMNS o OBJECTIVE", where o says that it is the optimum."""
    for words in map(str.split, text.splitlines()):
        if words[:2] == ["s", "mip"] and words[4] == "o":
            return float(words[5])
    return None


def cbc(lp, out):
    return ["cbc", lp, "ratio", "0", "allow", "0", "solve", "solution", out]


def cbc_objective(text):
    """The first line, "Optimal - objective value OBJECTIVE"."""
    words = text.splitlines()[0].split() if text else []
    return float(words[-1]) if words[:1] == ["Optimal"] else None


SOLVERS = (("glpsol", glpsol, glpsol_objective), ("cbc", cbc, cbc_objective))


def solved(command, objective, lp, out):
    """The median time in seconds and the objective, or None where the solver runs over PATIENCE seconds."""
    took = []
    for _ in range(TURNS):
        start = time.perf_counter()
        try:
            subprocess.run(command(lp, out), stdout=subprocess.DEVNULL, stderr=subprocess.DEVNULL, timeout=PATIENCE, check=True)
        except subprocess.TimeoutExpired:
            return None
        took.append(time.perf_counter() - start)
    with open(out, encoding="ascii") as file:
        return statistics.median(took), objective(file.read())


def row(table, distortion, took, folder):
    scans, settings, law, budget = table[:4]
    lp, out = os.path.join(folder, "best.lp"), os.path.join(folder, "best.out")
    count, text = program(*table)
    with open(lp, "w", encoding="ascii") as file:
        file.write(text)
    said = "mip   N %2d Q %2d B %4d law %d  %4d variables  the call %.1f us" % (scans, settings, budget, law, count, took / 1e3)
    for name, command, objective in SOLVERS:
        if shutil.which(name) is None:
            said += "  %s NOT RUN" % name
            continue
        found = solved(command, objective, lp, out)
        if found is None:
            said += "  %s over %d s" % (name, PATIENCE)
            continue
        if found[1] is None or abs(found[1] - distortion) > 1e-4:
            sys.exit("%s: the least distortion is %s, and the call's %d" % (name, found[1], distortion))
        said += "  %s %.3f s" % (name, found[0])
    print(said, flush=True)


def main():
    if len(sys.argv) != 2:
        sys.exit(__doc__)
    if not any(shutil.which(name) for name, _, _ in SOLVERS):
        print("NOT RUN: there is neither glpsol nor cbc here, so no mixed integer program was solved "
              "(Debian: apt-get install glpk-utils coinor-cbc)")
        return
    with open(sys.argv[1], encoding="ascii") as file:
        numbers = list(map(int, file.read().split()))
    with tempfile.TemporaryDirectory() as folder:
        for table, distortion, took in tables(numbers):
            row(table, distortion, took, folder)


main()
