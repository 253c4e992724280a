"""The vectors of filing: what crates/filing_cases, which reads nothing, must write. Each line is a planning call on table T or U, or on V
under a law, with all weights 1, or on table T under law 1 with the weights given; where it gives a plan, the plan's fields go through the
writer of planfile.py, with the mark 1 exactly where some weight differs from 1, and the line shows the file buffer."""

import planfile
from buffers import pattern
from crate_files import store
from lines import line
from plan_worked import T, U, V
from planner import AVERAGE, MINMAX, ByTryingAll, answer, ones

# where the pattern of the file buffer starts, and its length
START, ROOM = 13, 1029

ASKED = [(T, ones(2), (8, 9, 12, 13, 17, 18)), (U, ones(1), (1, 7, 9))]
# under each law, and under 3, which is none
ASKED += [(V[:2] + (law,) + V[3:], ones(2), budgets) for law, budgets in ((0, (6,)), (1, (7, 9)), (2, (6, 7)), (3, (7,)))]
# scans of unequal weight, and at last of equal
WEIGHED = (((2, 1), (17, 12)), ((0, 1), (13,)), ((1, 0), (13, 12)), ((0, 0), (9,)), ((1, 1), (17,)))
ASKED += [(T[:2] + (1,) + T[3:], bytes(weights), budgets) for weights, budgets in WEIGHED]


def average_fields(budget, values):
    n, d, rate, distortion, peak, floor = values
    return {"kind": 0, "budget": budget, "n": n, "d": d, "rate": rate, "distortion": distortion, "peak": peak, "floor": floor}


def minmax_fields(budget, values):
    _, rate, distortion, peak = values
    return {"kind": 1, "budget": budget, "n": 0, "d": 0, "rate": rate, "distortion": distortion, "peak": peak, "floor": 0}


def filed(table, weights, call, budget, fields):
    scans, settings, law, rates, distortions = table
    lent = bytes(scans), bytes(scans * settings)
    number, values, plan, _ = answer(ByTryingAll, call, scans, settings, law, (budget, 0), rates, distortions, weights, *lent)
    if number != 0:
        return line(number, values)
    mark = int(any(weight != 1 for weight in weights))
    told = dict(scans=scans, settings=settings, law=law, weighted=mark, **fields(budget, values))
    number, values, content = planfile.write(told, plan, pattern(ROOM, START))
    return line(number, values, ("b", content, START))


def cases():
    for table, weights, budgets in ASKED:
        for budget in budgets:
            yield filed(table, weights, AVERAGE, budget, average_fields)
            yield filed(table, weights, MINMAX, budget, minmax_fields)


def make(into):
    stdout = "".join(cases()).encode()
    store(into, "filing_cases", None, stdout)
    print("plans filed %d" % stdout.count(b"\n"))
