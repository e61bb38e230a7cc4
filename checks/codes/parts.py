"""Operations that families of code are made of."""

from typing import Any, TypeAlias

from checks.oracle.operations import has_place

# An operation and its fields; code with the shape that it is for.
Op: TypeAlias = tuple[Any, ...]
Codes: TypeAlias = list[tuple[Any, list[Op]]]
TRUE: Op = ("PushBool", True)
FALSE: Op = ("PushBool", False)
NIL: Op = ("PushNil",)
LOAD: Op = ("LoadResult",)
ITEM: Op = ("Item",)
NOT: Op = ("Not",)
IN: Op = ("IsIn",)
IS_NIL: Op = ("IsNil",)
RETURN: Op = ("Return",)
LIST_3: Any = ("list", "whole", 3)
LAST_PLACE = 2**32 - 1


def whole(number):
    return ("PushWhole", number)


def drop_bool(place):
    """What takes off the Bool above, at this place."""
    return ("BranchFalse", place + 1)


def nested(families, body, list_of=(LOAD,)):
    """Loops in one another, each over what `list_of` leaves; ends without a Return."""
    ops = []
    enters = []
    for family in families:
        ops += list(list_of)
        enters.append(len(ops))
        ops.append((family + "Enter", None))
    ops += list(body)
    for enter in reversed(enters):
        family = ops[enter][0][:-5]
        ops[enter] = (family + "Enter", len(ops))
        ops.append((family + "Step", enter))
        if family in ("Count", "Filter") and enter != enters[0]:
            ops.append(IS_NIL)
    return ops


def shifted(ops, by):
    return [(op[0], op[1] + by) if has_place(op) else op for op in ops]
