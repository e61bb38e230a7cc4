"""Families of version 2: the loops `none` and `one`, and tests of texts."""

from itertools import product

from checks.codes.arithmetic import all_of, every
from checks.codes.families import jumps_of_loops, mispaired, paired
from checks.codes.parts import (
    FALSE,
    IN,
    IS_NIL,
    ITEM,
    LIST_3,
    LOAD,
    NIL,
    NOT,
    RETURN,
    TRUE,
    Codes,
    nested,
    shifted,
    whole,
)
from checks.oracle.operations import ENTERS, ENTERS_1, STEPS, STEPS_1, TEXT_TESTS, partner
from checks.oracle.values import text_holds

ENTERS_2 = tuple(enter for enter in ENTERS if enter not in ENTERS_1)
STEPS_2 = tuple(step for step in STEPS if step not in STEPS_1)
TEXTS = ("", "a", "ab", "b", "aab", "é", "aé", "éa", "ũ", "€", "A", "ba", "abab")


def text(content):
    return ("PushText", content)


def pairs_2():
    """An Enter and a Step, of which one at least is new."""
    codes = [paired(enter, step) for enter in ENTERS for step in STEPS if enter in ENTERS_2 or step in STEPS_2]
    return codes + mispaired(ENTERS_2)


def loops_2():
    """The new loops in one another, to the greatest depth and beyond, and over nothing."""
    codes: Codes = []
    for names in ("None One None One", "One One One One", "All None One Any", "Filter One Count None"):
        for more in ("", "One", "None Filter"):
            codes.append((LIST_3, nested([*names.split(), *more.split()], [TRUE]) + [IS_NIL, RETURN]))
    for name in ("None", "One"):
        codes.append((("list", "whole", 0), nested([name], [TRUE]) + [RETURN]))
        codes.append((("list", "whole", 0), nested([name], [FALSE]) + [RETURN]))
        codes.append((("optional", LIST_3), nested([name], [TRUE]) + [RETURN]))
        codes.append((("optional", LIST_3), nested([name], [TRUE], [LOAD, ("Need",)]) + [RETURN]))
        codes.append(("whole", nested([name], [TRUE]) + [RETURN]))
        codes.append((("list", "bool", 10_000), nested([name, name], [TRUE]) + [RETURN]))
        codes.append((("list", "bool", 10_000), nested([name, name, name], [TRUE]) + [RETURN]))
        codes.append((("list", "bool", 10), nested([name], [ITEM, LOAD, IN]) + [RETURN]))
    return codes


def decided_2():
    """Where the new loops end: at items that satisfy, in order, before and after one that is a fault."""
    some = ("list", ("optional", "bool"), 4)
    small = ("list", "whole", 5)
    quotient = [whole(10), ITEM, ("DivW",), ("PushDecimal", 4_000_000), ("GtD",)]
    codes: Codes = []
    for name in ("None", "One"):
        codes.append((("list", "bool", 4), nested([name], [ITEM]) + [RETURN]))
        codes.append((some, nested([name], [ITEM, ("Need",)]) + [RETURN]))
        codes.append((some, nested([name], [ITEM, IS_NIL]) + [NOT, RETURN]))
        codes.append((small, nested([name], quotient) + [RETURN]))
        inner = [LOAD, (name + "Enter", 6), ITEM, ("OneEnter", 5), ITEM, ("OneStep", 3), (name + "Step", 1), RETURN]
        codes.append((("list", ("list", "bool", 3), 3), inner))
        codes.append((("list", "bool", 4), [TRUE, NIL] + shifted(nested([name], [ITEM]), 2) + [RETURN]))
    return codes


def bodies_2():
    """Bodies of the new loops that cross them, take what lies below, or leave too much."""
    codes: Codes = []
    for enter in ENTERS_2:
        step = partner(enter)
        codes.append((LIST_3, [LOAD, (enter, 3), RETURN, (step, 1), RETURN]))
        codes.append((LIST_3, [TRUE, LOAD, (enter, 3), (step, 2), RETURN]))
        codes.append((LIST_3, [TRUE, LOAD, (enter, 4), NOT, (step, 2), RETURN]))
        codes.append((LIST_3, [LOAD, (enter, 4), TRUE, TRUE, (step, 1), RETURN]))
        codes.append((LIST_3, [LOAD, (enter, 3), ITEM, (step, 1), RETURN]))
        codes.append((LIST_3, [LOAD, (enter, 6), TRUE, ("AndJump", 6), TRUE, NOT, (step, 1), RETURN]))
        codes.append((LIST_3, [LOAD, (enter, 5), TRUE, ("OrJump", 6), TRUE, (step, 1), RETURN]))
        codes.append((LIST_3, [LOAD, (enter, 4), TRUE, ("Jump", 5), (step, 1), RETURN]))
        codes.append((LIST_3, [LOAD, (enter, 5), LOAD, ("AnyEnter", 6), TRUE, (step, 1), ("AnyStep", 3), RETURN]))
        codes.append((LIST_3, [NIL] * 63 + [LOAD, (enter, 67), ITEM, IS_NIL, (step, 64), RETURN]))
        codes.append((LIST_3, [LOAD, (enter, 3), TRUE, (step, 1)]))
    return codes


def texts_2():
    """Each test on texts of which one is a part of the other or isn't, each answer true where all is right."""
    codes: Codes = []
    for name in TEXT_TESTS:
        tests = []
        for one, other in product(TEXTS, repeat=2):
            tests.append([text(one), text(other), (name,)] + ([] if text_holds(name, one, other) else [NOT]))
        good = [test for test in tests if test[-1] != NOT]
        for part in range(4):
            codes.append(("text", all_of(every(good[part::4], 6) + every(tests[part::4], 8))))
        codes.append(("text", [LOAD, text("é"), (name,), RETURN]))
        codes.append(("text", [LOAD, LOAD, (name,), RETURN]))
        codes.append(("text", [text("aé€é"), LOAD, (name,), RETURN]))
        codes.append((("list", "text", 4), nested(["One"], [ITEM, text("a"), (name,)]) + [RETURN]))
    return codes


def kinds_2():
    """The tests of texts on operands of each kind, and on too few."""
    pushes = (TRUE, whole(4), ("PushDecimal", 2_500_000), text("a"), NIL, LOAD)
    codes: Codes = []
    for name in TEXT_TESTS:
        for one, other in product(pushes, repeat=2):
            codes.append((("optional", "text"), [one, other, (name,), RETURN]))
        codes.append((("optional", "text"), [LOAD, ("Need",), text(""), (name,), RETURN]))
        codes.append((("optional", "text"), [text("ab"), LOAD, ("Need",), (name,), RETURN]))
        codes.append(("text", [LOAD, (name,), RETURN]))
        codes.append(("text", [text("a"), ("MakeList", "text", 1), LOAD, (name,), RETURN]))
    return codes


def families_2():
    """Each family of version 2 by its name."""
    return {
        "jumps": jumps_of_loops(ENTERS_2 + STEPS_2),
        "pairs": pairs_2(),
        "loops": loops_2(),
        "decided": decided_2(),
        "bodies": bodies_2(),
        "texts": texts_2(),
        "kinds": kinds_2(),
    }
