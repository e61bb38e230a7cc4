"""The operations of docs/design/machine.md, and what each takes.

An operation is a tuple of its name and its fields; PushText and Field hold the text and the name themselves.
"""


SCALARS = ("bool", "whole", "decimal", "text")
FAMILY = {"bool": "bool", "whole": "number", "decimal": "number", "text": "text"}
JUMPS = ("AndJump", "OrJump", "BranchFalse", "Jump")
# The loops of version 1, and all.
ENTERS_1 = ("AllEnter", "AnyEnter", "CountEnter", "FilterEnter")
STEPS_1 = ("AllStep", "AnyStep", "CountStep", "FilterStep")
ENTERS = ENTERS_1 + ("NoneEnter", "OneEnter")
STEPS = STEPS_1 + ("NoneStep", "OneStep")
# What operations of plain scalars alone take and give.
PLAIN: dict[str, tuple[tuple[str, ...], str]] = {
    "Not": (("bool",), "bool"),
    "NegW": (("whole",), "whole"),
    "NegD": (("decimal",), "decimal"),
}
for _sign in ("Add", "Sub", "Mul", "Div"):
    PLAIN[_sign + "W"] = (("whole", "whole"), "decimal" if _sign == "Div" else "whole")
    PLAIN[_sign + "D"] = (("decimal", "decimal"), "decimal")
PLAIN["RemW"] = (("whole", "whole"), "whole")
for _sign in ("Lt", "Le", "Gt", "Ge"):
    PLAIN[_sign + "W"] = (("whole", "whole"), "bool")
    PLAIN[_sign + "D"] = (("decimal", "decimal"), "bool")
MIXED = ("LtM", "LeM", "GtM", "GeM")
EQUAL = {"EqBool": "bool", "EqNumber": "number", "EqText": "text"}
TEXT_TESTS = ("Contains", "StartsWith", "EndsWith")


def has_place(op):
    return op[0] in JUMPS + ENTERS + STEPS


def partner(name):
    """The Step of an Enter, the Enter of a Step."""
    return name[:-5] + "Step" if name in ENTERS else name[:-4] + "Enter"


def taken(op):
    name = op[0]
    if name in PLAIN:
        return len(PLAIN[name][0])
    if name == "MakeList":
        return op[2]
    if name in ("PushBool", "PushWhole", "PushDecimal", "PushText", "PushNil", "LoadResult", "Item", "Jump"):
        return 0
    if name in MIXED or name in EQUAL or name in TEXT_TESTS or name in ("Index", "Default", "IsIn"):
        return 2
    return 1
