"""Families at the limits of code: operands, and costs."""

from checks.codes.parts import (
    FALSE,
    IN,
    IS_NIL,
    ITEM,
    LIST_3,
    LOAD,
    NIL,
    NOT,
    RETURN,
    TRUE,
    Codes,
    Op,
    drop_bool,
    nested,
    shifted,
    whole,
)


def heights():
    """Operands of different heights, at ends of branches and at a Step."""
    return [
        ("bool", [LOAD, ("BranchFalse", 3), TRUE, RETURN]),
        ("bool", [LOAD, ("AndJump", 2), RETURN]),
        ("bool", [LOAD, ("OrJump", 2), TRUE, RETURN]),
        ("bool", [LOAD, ("AndJump", 3), NIL, IS_NIL, RETURN]),
        ("bool", [LOAD, ("BranchFalse", 4), TRUE, ("Jump", 5), NIL, RETURN]),
        ("bool", [TRUE, LOAD, ("BranchFalse", 5), LOAD, ("Jump", 5), RETURN]),
        (LIST_3, [LOAD, ("AllEnter", 4), TRUE, TRUE, ("AllStep", 1), RETURN]),
        (LIST_3, [LOAD, ("AllEnter", 4), whole(1), TRUE, ("AllStep", 1), RETURN]),
        (LIST_3, [LOAD, ("FilterEnter", 4), TRUE, whole(1), ("FilterStep", 1), RETURN]),
        (LIST_3, [LOAD, ("AllEnter", 3), ITEM, ("AllStep", 1), RETURN]),
        (LIST_3, [TRUE, LOAD, ("CountEnter", 4), NIL, ("CountStep", 2), RETURN]),
        (LIST_3, [LOAD, ("AnyEnter", 6), TRUE, ("AndJump", 6), TRUE, NOT, ("AnyStep", 1), RETURN]),
        (LIST_3, [LOAD, ("AnyEnter", 5), TRUE, ("AndJump", 5), NIL, ("AnyStep", 1), RETURN]),
    ]


def stacks():
    """Operands to the greatest depth and beyond."""
    codes: Codes = []
    for count in (63, 64, 65, 70):
        codes.append(("bool", [TRUE] * count + [RETURN]))
        codes.append(
            (LIST_3, [whole(5)] * (count - 1) + [LOAD, ("AllEnter", count + 2), TRUE, ("AllStep", count), RETURN])
        )
        codes.append((LIST_3, [NIL] * (count - 1) + [TRUE, ("AndJump", count + 2), FALSE, RETURN]))
        inside: list[Op] = [TRUE, LOAD, ("AllEnter", None)] + [TRUE] * (count - 1)
        inside += [drop_bool(len(inside) + more) for more in range(count - 2)]
        inside[2] = ("AllEnter", len(inside))
        codes.append((LIST_3, inside + [("AllStep", 2), RETURN]))
    lists = [whole(1)] * 16 + [("MakeList", "whole", 16)]
    codes.append(("whole", [LOAD] * 48 + lists + [IN, RETURN]))
    codes.append(("whole", [LOAD] * 49 + lists + [IN, RETURN]))
    codes.append((LIST_3, [NIL] * 63 + [LOAD, ("AnyEnter", 67), ITEM, IS_NIL, ("AnyStep", 64), RETURN]))
    codes.append((LIST_3, [NIL] * 64 + [LOAD, ("AnyEnter", 68), ITEM, IS_NIL, ("AnyStep", 65), RETURN]))
    return codes


def budgets():
    """Budgets at the limit, one below and above it, and far beyond what 64 bits hold."""
    large = ("list", "bool", 10_000)
    codes: Codes = []
    for inner in (11, 12, 13):
        codes += exact_budgets(inner)
    for names in (["All"], ["Any", "All"], ["Count", "All", "Any"], ["All", "Filter", "Count", "Any"]):
        codes.append((large, nested(names, [TRUE]) + [IS_NIL, RETURN]))
        codes.append((large, nested(names, [TRUE, LOAD, IN]) + [IS_NIL, RETURN]))
        never = nested(["All"] + names[:3], [TRUE, LOAD, IN])
        codes.append((large, [("MakeList", "bool", 0)] + never[1:] + [RETURN]))
    codes += branch_budgets(large)
    return codes


def exact_budgets(inner):
    """Two loops whose budget is one below, at and one above the limit; the inner one costs so much an item."""
    found = [
        (outer, (1_000_000_000 - 4 - padding) // outer - 4, padding)
        for outer in range(10_000, 7_000, -1)
        for padding in range(1, 25)
        if (1_000_000_000 - 4 - padding) % outer == 0
    ]
    outer, each, padding = next(way for way in found if way[1] % inner == 0 and way[1] <= 10_000 * inner)
    shape = ("record", (("a", ("list", "bool", outer)), ("b", ("list", "bool", each // inner))))
    last = 6 + inner
    loops = [LOAD, ("Field", "a"), ("AllEnter", last), LOAD, ("Field", "b"), ("AnyEnter", last - 1), TRUE]
    loops += [NOT] * (inner - 2) + [("AnyStep", 5), ("AllStep", 2)]
    return [(shape, loops + [NOT] * (padding + more) + [RETURN]) for more in (-1, 0, 1)]


def branch_budgets(large):
    """The more expensive of two ways, where the cheap one is the longer or the last."""
    expensive = [TRUE, LOAD, IN]
    cheap = [TRUE, NOT, NOT, NOT, NOT, NOT]
    codes: Codes = []
    for first, second in ((expensive, cheap), (cheap, expensive), (expensive, expensive), (cheap, cheap)):
        ops = [TRUE, ("BranchFalse", 3 + len(first))] + first + [("Jump", 3 + len(first) + len(second))] + second
        codes.append((large, ops + [RETURN]))
        codes.append((large, first + [("OrJump", len(first) + 1 + len(second))] + second + [RETURN]))
        codes.append(
            (("list", "bool", 4), [LOAD, ("AnyEnter", len(ops) + 2)] + shifted(ops, 2) + [("AnyStep", 1), RETURN])
        )
        early = first + [("BranchFalse", len(first) + 3), TRUE, RETURN] + second + [RETURN]
        codes.append((large, early))
    return codes
