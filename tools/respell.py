#!/usr/bin/env python3
"""Brings the repository's own definitions, lemmas, fields and local names to snake case: a dash becomes an underscore, a capital inside a name
that begins small becomes an underscore and a small letter, and the quotes of a name that no longer needs them go. A name that begins with a
type, as T-finite, keeps its dash.

usage: tools/respell.py [--list]      at the top; --list says what it would do and what would fall together, and writes nothing

It goes by the names that crates/*/specs and crates/*/proofs declare. What rattle makes (goals, steps of the code) keeps its name; so does what
is imported from the library, also where one of ours has its name (then only the files that have ours are turned). Comments and pages are
turned between backticks alone. Strings, src/ outside clauses, must-fail edits and stored cases are left. The crate `bytes`, of which the
library has one too, becomes `octets`, and the modules `Hidden` of proofs/, a name that rattle makes itself, `HiddenLaws`."""

import collections
import glob
import os
import re
import sys

STOP = r"\s(){}\[\];,.\"`«»"
TOKEN = re.compile(r"«?[^%s]+»?" % STOP)
DECLARED = re.compile(r"^\s*(?:(?:abbrev|unfoldable|pub)\s+)*([^%s:]+)\s*:\s+(\S+)" % STOP, re.M)
BOUND = re.compile(r"[({]\s*([^(){}:;.]+?)\s+:\s")
LET = re.compile(r"\blet\s+([^%s:=]+)\s*[:=]" % STOP)
LAMBDA = re.compile(r"λ\s+([^.()]+)\.")
PATTERN = re.compile(r"\{([^\s(){}:;.=]+)(?:\s*=\s*[^(){}]+)?\}")
ALIAS = re.compile(r"\bas\s+([^%s]+)" % STOP)
USE = re.compile(r"^\s*(?:ghost |pub )?use\s+([^\s{;]+?)\.?(?:\{([^}]*)\})?(?:\s+as\s+\S+)?;?\s*$", re.M)
RESERVED = set("""data record deriving module where use mod pub package open as unfoldable abbrev axiom unfold unfolding ruleset mutual infix
    infixl infixr elim let in do coe fcoe tcoe hcom com""".split())
MADE = ("tie.", "lts.", "common-lts.", "reads.", "goal.")


def files(*ends):
    return sorted(f for e in ends for f in glob.glob("crates/*/" + e, recursive=True) if "/out/" not in f)


ANTT = files("specs/**/*.antt", "proofs/**/*.antt")
RT = files("src/**/*.rt")
CRATES = {f.split("/")[1] for f in ANTT + RT}


def snake(name):
    if re.match(r"[A-Z]", name):
        return name
    return re.sub(r"(?<=[a-z])([A-Z])", lambda m: "_" + m.group(1).lower(), name.replace("getD", "get_or").replace("-", "_"))


def turns(name):
    return bool(re.match(r"[^\WA-Z\d_]|κ|\+", name)) and snake(name) != name and not name.startswith("-")


def ours(module):
    words = module.split(".")
    return words[0] == "Rattle" and len(words) > 1 and words[1] in CRATES


def imported(text):
    own, other = set(), set()
    for module, names in USE.findall(text):
        for name in (names or "").split(","):
            word = name.strip().split(" as ")[0].strip().strip("«»")
            if word:
                (own if ours(module) else other).add(word)
    return own, other


def bare(text):
    """The text without its comments."""
    return re.sub(r"(?m)(?:^|(?<=\s))(?:--|//).*$", "", text)


def gather():
    own, library = collections.defaultdict(set), set()
    for f in ANTT:
        text = bare(open(f).read())
        library |= {n for n in imported(text)[1] if turns(n)}
        for name, kind in DECLARED.findall(text):
            if turns(name) and not kind.startswith(MADE):
                own[name].add(f)
        for many in BOUND.findall(text) + LAMBDA.findall(text):
            for name in many.split():
                name = name.strip("({")
                if turns(name) and "-" in name[1:-1]:
                    own[name].add(f)
        for name in LET.findall(text) + ALIAS.findall(text) + PATTERN.findall(text):
            if turns(name) and re.search(r"\w-\w", name):
                own[name].add(f)
    for f in RT:
        library |= {n for n in imported(bare(open(f).read()))[1] if turns(n)}
    return own, library


def turner(names):
    def one(m):
        word = m.group(0)
        name = word.strip("«»")
        if name in names:
            return snake(name)
        return name if word != name and re.fullmatch(r"[a-z]\w*", name) and name not in RESERVED else word
    return one


def comment_turner(names):
    return lambda m: "`" + TOKEN.sub(turner(names), m.group(1)) + "`"


def turned(text, names, mark):
    out = []
    for line in text.split("\n"):
        at = re.search(r"(?:^|\s)%s" % mark, line) if mark else None
        code, note = (line, "") if not at else (line[:at.start()], line[at.start():])
        code = TOKEN.sub(turner(names), code)
        out.append(code + re.sub(r"`([^`]*)`", comment_turner(names), note))
    return "\n".join(out)


def moved(text):
    """The crate bytes as octets, the modules Hidden of proofs/ as HiddenLaws."""
    text = re.sub(r"\bRattle\.bytes\b", "Rattle.octets", text)
    text = re.sub(r"\b(Rattle\.\w+\.proofs)\.Hidden\b", r"\1.HiddenLaws", text)
    return re.sub(r"(?m)^(use )bytes::", r"\1octets::", text)


def now(f):
    """Where a file is after move()."""
    return f.replace("crates/bytes/", "crates/octets/").replace("/proofs/Hidden.antt", "/proofs/HiddenLaws.antt")


def move():
    if os.path.isdir("crates/bytes"):
        os.rename("crates/bytes", "crates/octets")
    for old in files("proofs/Hidden.antt"):
        os.rename(old, now(old))
    text = re.sub(r"\bbytes\b", "octets", open("crates.txt").read())
    open("crates.txt", "w").write(text)
    for lib in files("proofs/Lib.antt"):
        text = open(lib).read()
        open(lib, "w").write(re.sub(r"(?m)^((?:pub )?mod) Hidden$", r"\1 HiddenLaws", text))


def main():
    own, library = gather()
    own = {n: at | {now(f) for f in at} for n, at in own.items()}
    shared = set(own) & library
    if "--list" in sys.argv:
        taken = collections.defaultdict(set)
        for n in own:
            taken[snake(n)].add(n)
        plain = collections.defaultdict(set)
        for f in ANTT:
            text = bare(open(f).read())
            for name, kind in DECLARED.findall(text):
                plain[name].add(f)
            for name in imported(text)[1]:
                plain[name].add("library, in " + f)
        for new, olds in sorted(taken.items()):
            if len(olds) > 1:
                print("together:", sorted(olds), "->", new)
            if new in plain:
                print("there is:", new, "beside", sorted(olds), sorted(plain[new])[:3], sorted(own[sorted(olds)[0]])[:3])
        print("of the library too:", sorted(shared))
        fields = set()
        for f in RT:
            text = bare(open(f).read())
            fields |= set(re.findall(r"\b([a-z_]\w*)\s*:\s", text)) | set(re.findall(r"\bfn\s+(\w+)", text))
        for f in RT:
            text = bare(open(f).read())
            params = set(re.findall(r"\b([a-z_]\w*)\s*:\s", text))
            for name in imported(text)[0]:
                if snake(name) in params:
                    print("a parameter or field of its name:", f, name)
        print(len(own), "names")
        return
    move()
    for f in files("specs/**/*.antt", "proofs/**/*.antt", "src/**/*.rt"):
        text = open(f).read()
        mine, other = imported(text)
        here = {n for n, at in own.items() if n not in shared or f in at or n in mine}
        here -= other - mine
        new = moved(turned(text, here, "--" if f.endswith(".antt") else "//"))
        if new != text:
            open(f, "w").write(new)
    whole = set(own) - shared
    for f in sorted(["README.md"] + glob.glob("docs/**/*.md", recursive=True)):
        text = open(f).read()
        new = re.sub(r"`([^`\n]*)`", comment_turner(whole), text)
        if new != text:
            open(f, "w").write(new)


main()
