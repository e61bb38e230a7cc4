"""Families of numbers: comparisons and arithmetic at their limits."""

from itertools import product

from checks.codes.parts import IS_NIL, ITEM, LIST_3, LOAD, NIL, NOT, RETURN, TRUE, Codes, nested, shifted, whole
from checks.oracle.operations import ENTERS, MIXED, PLAIN
from checks.oracle.values import Fault, arithmetic, exact, ordered


def orders():
    """Two faults or three: of two passes, at two places of one, and at one place."""
    deep = nested(["All", "Any", "Count", "Filter", "All"], [TRUE])
    fifth = [place for place, op in enumerate(deep) if op[0] in ENTERS][4]
    crossing = list(deep)
    crossing[deep[fifth][1]] = NOT
    crossing[fifth] = ("AllEnter", len(deep) + 1)
    loop = [LOAD, ("AllEnter", 3), TRUE, ("AllStep", 1)]
    expensive = nested(["All", "All", "All"], [TRUE])
    large = ("list", "bool", 10_000)
    return [
        (LIST_3, [ITEM, IS_NIL, ("BranchFalse", 9), TRUE, RETURN]),
        (LIST_3, [ITEM, IS_NIL, ("Jump", 2), RETURN]),
        (LIST_3, [("Jump", 3)] + shifted(loop, 1) + [("Jump", 0), RETURN]),
        (LIST_3, [("Jump", 3)] + shifted(loop, 1) + [("AnyStep", 2), RETURN]),
        (LIST_3, [("Jump", 3)] + shifted(loop, 1)),
        (LIST_3, [("Jump", 1), NOT, LOAD, ("AllEnter", 5), RETURN, ("AllStep", 3), RETURN]),
        (LIST_3, [NOT, LOAD, ("AllEnter", 4), RETURN, ("AllStep", 2), RETURN]),
        (LIST_3, [NOT] + shifted(loop, 1)),
        (LIST_3, crossing + [TRUE, ("AllStep", fifth), RETURN]),
        (large, expensive + [("AddW",), RETURN]),
        (large, expensive + [whole(1)]),
        (large, [NIL] * 66 + shifted(expensive, 66) + [RETURN]),
        (LIST_3, [NIL] * 64 + [ITEM, RETURN]),
        (LIST_3, [TRUE, ("BranchFalse", 3), TRUE, ("AddW",), RETURN]),
        (LIST_3, [TRUE, ("BranchFalse", 4), TRUE, ("Jump", 5), whole(1), ("AddW",), RETURN]),
        (LIST_3, [LOAD, ("AllEnter", 4), whole(1), whole(2), ("AllStep", 1), RETURN]),
        (LIST_3, [("Jump", 7), ("Jump", 0), RETURN]),
        (LIST_3, [("Jump", 0), ("Jump", 7), RETURN]),
    ]


EDGES = (0, 1, -1, 3, -7, 1_000_000, -1_500_000, 9_223_372_036_855, 2**63 - 1, -(2**63))
ARITHMETIC = [name for name in PLAIN if PLAIN[name][1] != "bool" and name != "Not"]
ORDERS = [name for name in PLAIN if name[:2] in ("Lt", "Le", "Gt", "Ge")] + list(MIXED)


def push(kind, number):
    return ("Push" + kind.capitalize(), number)


def computed(name):
    """Operands with the code that compares what an operation gives for them, or with None where it faults."""
    takes, gives = PLAIN[name]
    for numbers in product(EDGES, repeat=len(takes)):
        ops = [push(kind, number) for kind, number in zip(takes, numbers)] + [(name,)]
        try:
            yield ops + [push(gives, arithmetic(name, numbers)), ("EqNumber",)], False
        except Fault:
            yield ops + [push(gives, 0), ("EqNumber",)], True


def compared(name):
    """Operands with an order of them, made true."""
    kinds = [PLAIN[name][0]] if name in PLAIN else list(product(("whole", "decimal"), repeat=2))
    for takes, numbers in product(kinds, product(EDGES, repeat=2)):
        values = [(kind, number) for kind, number in zip(takes, numbers)]
        holds = ordered(name, exact(values[0]), exact(values[1]))
        yield [push(*value) for value in values] + [(name,)] + ([] if holds else [NOT]), False


def all_of(tests):
    """`and` of tests, with one end."""
    end = sum(len(test) for test in tests) + len(tests) - 1
    ops = list(tests[0])
    for test in tests[1:]:
        ops += [("AndJump", end)] + list(test)
    return ops + [RETURN]


def every(tests, count):
    """`count` of the tests, spread evenly."""
    return [tests[len(tests) * number // count] for number in range(min(count, len(tests)))]


def numbers():
    """Arithmetic and orders on edges, each answer true where all is right; and with a fault after that."""
    codes: Codes = []
    for name in ARITHMETIC:
        cases = list(computed(name))
        good = [test for test, faults in cases if not faults]
        codes.append(("bool", all_of(every(good, 7))))
        codes.append(("bool", all_of(every(good, 2) + every([test for test, faults in cases if faults], 1))))
    for name in ORDERS:
        codes.append(("bool", all_of(every([test for test, _ in compared(name)], 8))))
    return codes
