#!/usr/bin/env python3
"""What the calls of the C surface must give back and leave, from include/qpl.h and documents 01 and 02, sharing nothing with the library."""

import fits
import lists
import planfile
import planner
import room
from planner import AVERAGE, CEILING, MINMAX, MULTIPLIER

NAMES = {CEILING: "ceiling", MULTIPLIER: "multiplier", MINMAX: "minmax", AVERAGE: "average"}
NEEDS = {CEILING: 24, MULTIPLIER: 24, MINMAX: 32, AVERAGE: 48}
ROOM_NEEDS, READ_NEEDS, EXPORT_NEEDS, BEST_NEEDS, FITS_NEEDS = 24, 104, 8, 24, 8

# The documents' orders: a buffer that is too short is 6, after these and before all others.
BEFORE_ROOM = {1, 2, 3, 4, 5, 11, 12, 13, 19}


def word(number, carried):
    return number | carried << 32


def with_values(values, answer):
    content = b"".join(value.to_bytes(8, "little") for value in values)
    return content + answer[len(content) :]


def room_call(channels, scans, settings, answer):
    number, *values = room.room(channels, scans, settings)
    if number:
        return word(number, values[0]), answer
    if len(answer) < ROOM_NEEDS:
        return word(6, 0), answer
    return 0, with_values(values, answer)


def plan_call(make, call, scans, settings, law, limits, rates, distortions, weights, plan, scratch, answer):
    """The number, and the buffers answer, plan and scratch."""
    if len(answer) < NEEDS[call]:
        early = planner.early_refusal(call, scans, settings, law, limits, rates, distortions, weights, len(plan), len(scratch))
        return word(*early) if early and early[0] in BEFORE_ROOM else word(6, 0), answer, plan, scratch
    number, values, plan, scratch = planner.answer(make, call, scans, settings, law, limits, rates, distortions, weights, plan, scratch)
    if number:
        return word(number, values[0]), answer, plan, scratch
    return 0, with_values(values, answer), plan, scratch


def best_call(make, scans, settings, law, budget, rates, distortions, weights, plan, choices, totals, answer):
    """The number, and the buffers answer, plan, choices and totals. A short answer buffer is 6 where a short plan is, and so before 7."""
    asked = scans, settings, law, budget, rates, distortions, weights
    if len(answer) < BEST_NEEDS:
        early = planner.early_best_refusal(*asked, (len(plan), len(choices), len(totals)))
        return word(*early) if early and early[0] in BEFORE_ROOM else word(6, 0), answer, plan, choices, totals
    number, values, *after = planner.best_answer(make, *asked, plan, choices, totals)
    if number:
        return word(number, values[0]), answer, *after
    return 0, with_values(values, answer), *after


def fits_call(make, scans, settings, law, budget, rates, distortions, answer):
    """The number, and the buffer answer. A short answer buffer is 6, for yes and for no, and comes last."""
    number, values = fits.answer(make, scans, settings, law, budget, rates, distortions)
    if number:
        return word(number, values[0]), answer
    if len(answer) < FITS_NEEDS:
        return word(6, 0), answer
    return 0, with_values(values, answer)


def read_call(file, plan, answer):
    """The number, and the buffers answer and plan."""
    short = len(answer) < READ_NEEDS
    try:
        f, settings, version = planfile.reading(file, len(plan))
    except planfile.Refusal as refusal:
        return word(6, 0) if short and refusal.args[0] not in BEFORE_ROOM else word(*refusal.args), answer, plan
    if short:
        return word(6, 0), answer, plan
    return 0, with_values(planfile.values_of(f, version), answer), bytes(settings) + plan[len(settings) :]


def write_call(f, settings, file):
    number, values, file = planfile.write(f, settings, file)
    return (word(number, values[0]) if number else 0), file


def import_call(scans, settings, text, rates, distortions, scratch):
    """The number, and rates, distortions and scratch."""
    number, values, *after = lists.import_list(scans, settings, text, rates, distortions, scratch)
    return (word(number, values[0]) if number else 0), *after


def export_call(scans, settings, rates, distortions, text, answer):
    """The number, and the buffers answer and text. A short answer buffer is 6 where a short text is, and so after 7: an export of no bytes
    needs no text, and an answer buffer all the same."""
    number, values, after = lists.export_list(scans, settings, rates, distortions, text)
    if number:
        return word(number, values[0]), answer, text
    if len(answer) < EXPORT_NEEDS:
        return word(6, 0), answer, text
    return 0, with_values(values, answer), after
