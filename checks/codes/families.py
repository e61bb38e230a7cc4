"""Code written by hand, in families, for the reasons and the limits that random code seldom meets.

Each member is a shape and its operations.
"""

from checks.codes.arithmetic import numbers, orders
from checks.codes.limits import budgets, heights, stacks
from checks.codes.meetings import meetings, members, nils
from checks.codes.parts import (
    FALSE,
    IN,
    IS_NIL,
    ITEM,
    LAST_PLACE,
    LIST_3,
    LOAD,
    NIL,
    NOT,
    RETURN,
    TRUE,
    Codes,
    Op,
    nested,
    whole,
)
from checks.oracle.operations import ENTERS_1, JUMPS, SCALARS, STEPS_1, partner


def empty():
    return [("bool", []), (LIST_3, []), (("optional", "text"), [])]


def jumps():
    """Places outside, backward and at the limit, for each operation that has one."""
    codes: Codes = []
    for name in JUMPS:
        for place in (0, 1, 2, 3, 4, LAST_PLACE):
            codes.append(("bool", [LOAD, (name, place), TRUE, RETURN]))
    return codes + jumps_of_loops(ENTERS_1 + STEPS_1)


def jumps_of_loops(names):
    return [(LIST_3, [LOAD, (name, place), TRUE, RETURN]) for name in names for place in (0, 1, 2, 4, LAST_PLACE)]


def pairs():
    """Enters and Steps of two families, or that name another place."""
    codes = [paired(enter, step) for enter in ENTERS_1 for step in STEPS_1]
    return codes + mispaired(ENTERS_1)


def paired(enter, step):
    return LIST_3, [LOAD, (enter, 3), TRUE, (step, 1), IS_NIL, RETURN]


def mispaired(enters):
    """Steps that name another place than their Enter's, or come before it."""
    codes: Codes = []
    for enter in enters:
        codes.append((LIST_3, [LOAD, (enter, 3), TRUE, (partner(enter), 0), RETURN]))
        codes.append((LIST_3, [LOAD, LOAD, (enter, 4), TRUE, (partner(enter), 1), RETURN]))
        codes.append((LIST_3, [(partner(enter), 2), LOAD, (enter, 0), TRUE, RETURN]))
    return codes


def loops():
    """Loops to the greatest depth and beyond, and side by side there."""
    codes: Codes = []
    for names in ("All All All All", "Any All Count Filter", "Filter Filter Any Count", "Count Any Filter All"):
        four = names.split()
        codes.append((LIST_3, nested(four, [TRUE]) + [IS_NIL, RETURN]))
        codes.append((LIST_3, nested(four + ["Any"], [TRUE]) + [IS_NIL, RETURN]))
        codes.append((LIST_3, nested(four + ["All", "Filter"], [TRUE]) + [IS_NIL, RETURN]))
    for most in (0, 3):
        first = [LOAD, ("AllEnter", 6), LOAD, ("AnyEnter", 5), TRUE, ("AnyStep", 3), ("AllStep", 1)]
        second = [LOAD, ("CountEnter", 10), TRUE, ("CountStep", 8), IS_NIL]
        codes.append((("list", "whole", most), first + second + [RETURN]))
    return codes


def crossings():
    """Jumps into, out of and between loops, loops across one another, Return in a loop."""
    body = [LOAD, ("AllEnter", 5), TRUE, ("BranchFalse", 4), TRUE, ("AllStep", 1), RETURN]
    codes: Codes = []
    for name in JUMPS:
        for place in (2, 3, 4, 5, 6):
            codes.append((LIST_3, body[:3] + [(name, place)] + body[4:]))
        for place in (1, 2, 3, 5, 6, 7):
            codes.append((LIST_3, [TRUE, (name, place), LOAD, ("AnyEnter", 5), TRUE, ("AnyStep", 3), RETURN]))
    codes.append((LIST_3, [LOAD, ("AllEnter", 4), LOAD, ("AnyEnter", 6), TRUE, RETURN, TRUE]))
    for name, place in (("BranchFalse", 8), ("AndJump", 9), ("OrJump", 5), ("Jump", 8)):
        first = [LOAD, ("AllEnter", 5), TRUE, (name, place), TRUE, ("AllStep", 1)]
        codes.append((LIST_3, first + [LOAD, ("AnyEnter", 9), TRUE, ("AnyStep", 7), RETURN]))
    across = [LOAD, ("AllEnter", 5), LOAD, ("AnyEnter", 6), TRUE, ("AllStep", 1), ("AnyStep", 3), RETURN]
    codes.append((LIST_3, across))
    codes.append((LIST_3, [LOAD, ("AllEnter", 3), RETURN, ("AllStep", 1), RETURN]))
    codes.append((LIST_3, [LOAD, ("AllEnter", 4), TRUE, RETURN, ("AllStep", 1), RETURN]))
    return codes


def endings():
    """No Return at the end, Returns in the middle, what lies below the last Bool."""
    return [
        ("bool", [LOAD]),
        ("bool", [LOAD, ("Jump", 2), LOAD]),
        (LIST_3, [LOAD, ("AllEnter", 3), TRUE, ("AllStep", 1)]),
        ("bool", [RETURN]),
        ("bool", [LOAD, RETURN, RETURN]),
        ("bool", [LOAD, RETURN, NOT]),
        ("bool", [LOAD, ("BranchFalse", 4), TRUE, RETURN, FALSE, RETURN]),
        ("bool", [LOAD, ("AndJump", 4), TRUE, RETURN, RETURN]),
        ("bool", [LOAD, ("OrJump", 3), TRUE, RETURN]),
        ("whole", [LOAD, LOAD, NIL, TRUE, RETURN]),
        ("whole", [TRUE, LOAD, RETURN]),
        ("whole", [NIL, RETURN]),
        (("optional", "bool"), [LOAD, RETURN]),
        (("optional", "bool"), [LOAD, ("Need",), RETURN]),
        ("bool", [TRUE, ("Jump", 2), RETURN]),
        ("bool", [("Jump", 1), LOAD, RETURN]),
        ("bool", [("Jump", 2), LOAD, RETURN]),
        ("bool", [TRUE, ("Jump", 3), NOT, RETURN]),
        ("bool", [TRUE] * 99 + [("Jump", 101)]),
        ("bool", [TRUE] * 100 + [("Jump", 102)]),
    ]


def floors():
    """Bodies that would take what lies below them, and items outside of loops."""
    takers: list[list[Op]] = [
        [NOT],
        [TRUE, ("EqBool",)],
        [IS_NIL],
        [("Need",)],
        [("Default",)],
        [("MakeList", "bool", 1)],
        [("MakeList", "bool", 0)],
        [("AndJump", 5)],
        [("BranchFalse", 5)],
        [TRUE],
        [ITEM, IS_NIL],
        [IN],
    ]
    codes: Codes = []
    for taker in takers:
        ops: list[Op] = [TRUE, LOAD, ("AllEnter", None), *taker]
        if len(taker) == 1 and taker[0][0] in JUMPS:
            ops += [TRUE]
        ops[2] = ("AllEnter", len(ops))
        codes.append((LIST_3, ops + [("AllStep", 2), RETURN]))
    codes += [(LIST_3, [ITEM, IS_NIL, RETURN]), (LIST_3, [LOAD, ("AnyEnter", 3), TRUE, ("AnyStep", 1), ITEM, RETURN])]
    codes += [("whole", [LOAD, ("AddW",), IS_NIL, RETURN]), ("bool", [LOAD, ("MakeList", "bool", 2), IS_NIL, RETURN])]
    below = [TRUE, whole(1), LOAD, ("CountEnter", 6), ITEM, IS_NIL, ("CountStep", 3), ("EqNumber",), RETURN]
    return codes + [(LIST_3, below)]


def kinds():
    """Each operation of kinds, on operands of each sort."""
    pushes: dict[str, Op] = {
        "bool": TRUE,
        "whole": whole(4),
        "decimal": ("PushDecimal", 2_500_000),
        "text": ("PushText", "a"),
        "nil": NIL,
    }
    codes: Codes = []
    for kind in SCALARS:
        for other in pushes.values():
            shape = ("optional", kind)
            codes.append((shape, [LOAD, other, ("MakeList", kind, 1), IN, RETURN]))
            equal = {"bool": "EqBool", "text": "EqText"}.get(kind, "EqNumber")
            codes.append((shape, [LOAD, other, (equal,), RETURN]))
            codes.append((shape, [LOAD, other, ("Default",), pushes[kind], (equal,), RETURN]))
        codes.append((("list", ("optional", kind), 2), [NIL, ("Need",), LOAD, IN, RETURN]))
        codes.append((("list", ("optional", kind), 2), [pushes[kind], LOAD, IN, RETURN]))
        codes.append(
            (("optional", kind), [LOAD, ("ToDecimal",), NIL, ("PushDecimal", 1), ("Default",), ("EqNumber",), RETURN])
        )
    return codes


def unreachable():
    return [
        ("bool", [LOAD, RETURN, TRUE, RETURN]),
        ("bool", [("Jump", 2), TRUE, LOAD, RETURN]),
        (LIST_3, [TRUE, ("Jump", 6), LOAD, ("AllEnter", 5), TRUE, ("AllStep", 3), RETURN]),
        (LIST_3, [LOAD, ("AllEnter", 5), TRUE, ("Jump", 5), TRUE, ("AllStep", 1), RETURN]),
        (LIST_3, [LOAD, ("AnyEnter", 4), ("Jump", 4), TRUE, ("AnyStep", 1), RETURN]),
    ]


# Of version 2: the loops `none` and `one`, and tests of texts


def families():
    """Each family of version 1 by its name."""
    return {
        "empty": empty(),
        "jumps": jumps(),
        "pairs": pairs(),
        "loops": loops(),
        "crossings": crossings(),
        "endings": endings(),
        "floors": floors(),
        "meetings": meetings(),
        "heights": heights(),
        "stacks": stacks(),
        "budgets": budgets(),
        "kinds": kinds(),
        "unreachable": unreachable(),
        "numbers": numbers(),
        "orders": orders(),
        "nils": nils(),
        "members": members(),
    }
