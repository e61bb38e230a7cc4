"""Families of kinds that meet: at the end of jumps, in lists, and in the place of nil."""

from checks.codes.parts import FALSE, IN, IS_NIL, ITEM, LIST_3, LOAD, NIL, NOT, RETURN, TRUE, Codes, Op, whole
from checks.oracle.operations import SCALARS


def meetings():
    """Two branches that meet with operands of two kinds, of which some have a common one."""
    two = ("record", (("few", LIST_3), ("many", ("list", "whole", 9)), ("maybe", ("optional", ("list", "whole", 5)))))
    deep = (
        "record",
        (
            ("a", ("list", LIST_3, 2)),
            ("b", ("list", ("list", "whole", 7), 1)),
            ("c", ("list", ("list", ("optional", "whole"), 7), 1)),
        ),
    )
    scalars = ("record", (("d", ("optional", "decimal")), ("w", ("optional", "whole")), ("x", "whole")))
    operands = [
        (two, [(("Field", name),) for name in ("few", "many", "maybe")] + [None]),
        (deep, [(("Field", name),) for name in ("a", "b", "c")] + [None]),
        (scalars, [(("Field", name),) for name in ("d", "w", "x")] + [None]),
    ]
    codes: Codes = []
    for shape, ways in operands:
        for one in ways:
            for other in ways:
                codes.append((shape, meeting(one, other)))
                codes.append((shape, defaulted(one, other)))
    return codes


def nils():
    """Nil in one branch and a plain operand in the other, taken as plain, unwrapped, or tested."""
    three = [whole(1), whole(2), ("MakeList", "whole", 2)]
    users: tuple[tuple[list[Op], list[Op]], ...] = (
        ([whole(1)], [whole(2), ("AddW",), IS_NIL]),
        ([whole(1)], [("Need",), whole(2), ("AddW",), IS_NIL]),
        ([whole(1)], [whole(1), ("EqNumber",)]),
        ([TRUE], []),
        ([TRUE], [("Need",)]),
        ([TRUE], [NOT]),
        (three, [("Len",), IS_NIL]),
        (three, [("Need",), ("Len",), IS_NIL]),
        ([NIL], [("Need",), IS_NIL]),
    )
    codes: Codes = []
    for plain, user in users:
        for first, second in (([NIL], plain), (plain, [NIL])):
            ops = [LOAD, ("BranchFalse", 3 + len(first))] + first + [("Jump", 3 + len(first) + len(second))]
            codes.append(("bool", ops + second + user + [RETURN]))
    return codes


def members():
    """IsIn of an operand of one kind in a list of another, and of nil."""
    pushes = {"bool": TRUE, "whole": whole(2), "decimal": ("PushDecimal", 2_000_000), "text": ("PushText", "b")}
    codes: Codes = []
    for kind in SCALARS:
        codes.append(("bool", [NIL, pushes[kind], ("MakeList", kind, 1), IN, RETURN]))
        for other in SCALARS:
            codes.append((("optional", kind), [LOAD, pushes[other], ("MakeList", other, 1), IN, RETURN]))
    return codes


def load(way):
    return [NIL] if way is None else [LOAD] + list(way)


def meeting(one, other):
    """`true ? one : other`, and then what a list allows, or a test for nil."""
    first, second = load(one), load(other)
    ops = [TRUE, ("BranchFalse", 3 + len(first))] + first + [("Jump", 3 + len(first) + len(second))] + second
    if one and other and one[0][1] in ("few", "many", "a", "b") and other[0][1] in ("few", "many", "a", "b"):
        step = len(ops) + 3
        return ops + [("AllEnter", step), ITEM, IS_NIL, ("AllStep", step - 3), RETURN]
    return ops + [IS_NIL, RETURN]


def defaulted(one, other):
    ops = load(one) + load(other) + [("Default",)]
    if other and other[0][1] in ("few", "many"):
        step = len(ops) + 2
        return ops + [("AnyEnter", step), FALSE, ("AnyStep", step - 2), RETURN]
    return ops + [IS_NIL, RETURN]
