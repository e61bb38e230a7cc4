"""Random changes of code."""

from collections.abc import Callable
from typing import Any

from checks.codes.shapes import DECIMALS, TEXTS_2, WHOLES
from checks.oracle.operations import ENTERS, ENTERS_1, JUMPS, PLAIN, SCALARS, STEPS, STEPS_1, TEXT_TESTS, has_place


def moved(ops, at, by):
    """The operations with every place that isn't before `at` moved."""
    return [op[:1] + (op[1] + by,) if has_place(op) and op[1] >= at else op for op in ops]


def random_op(random, ops, place, version):
    """One operation, of any sort."""
    loops = ENTERS_1 + STEPS_1 if version == 1 else ENTERS + STEPS
    near = max(0, place + random.choice((-2, -1, 1, 1, 2, 2, 3, 4, 6)))
    sorts: tuple[Callable[[], tuple[Any, ...]], ...] = (
        lambda: (random.choice(JUMPS), near),
        lambda: (random.choice(loops), near),
        lambda: (random.choice(list(PLAIN)),),
        lambda: (random.choice(("LtM", "GeM", "EqBool", "EqNumber", "EqText", "IsIn", "Default", "Index")),),
        lambda: (random.choice(("Need", "IsNil", "Len", "ToDecimal", "Item", "LoadResult", "PushNil", "Not")),),
        lambda: ("PushBool", random.random() < 0.5),
        lambda: ("PushWhole", random.choice(WHOLES)),
        lambda: ("PushDecimal", random.choice(DECIMALS)),
        lambda: ("MakeList", random.choice(SCALARS), random.randrange(3)),
        lambda: ("Return",),
        lambda: random.choice(ops),
    )
    if version == 2:
        sorts += (lambda: (random.choice(TEXT_TESTS),), lambda: ("PushText", random.choice(TEXTS_2)))
    return random.choice(sorts)()


def change(random, ops, version):
    """One operation changed, removed, added or swapped, or one place moved."""
    ops = list(ops)
    at = random.randrange(len(ops))
    placed = [place for place, op in enumerate(ops) if has_place(op)]
    choice = random.randrange(8)
    if choice == 0:
        ops[at] = random_op(random, ops, at, version)
    elif choice in (1, 2):
        ops = moved(ops[:at] + ops[at + 1 :], at + 1, -1) if choice == 1 else ops[:at] + ops[at + 1 :]
    elif choice in (3, 4):
        if choice == 3:
            ops = moved(ops, at, 1)
        ops.insert(at, random_op(random, ops, at, version))
    elif choice == 5:
        other = min(len(ops) - 1, at + 1)
        ops[at], ops[other] = ops[other], ops[at]
    elif placed:
        at = random.choice(placed)
        ops[at] = (ops[at][0], max(0, ops[at][1] + random.choice((-3, -2, -1, 1, 1, 2, 3, 8))))
    return ops or [("Return",)]


def changed(random, ops, version=1):
    for _ in range(random.choice((1, 1, 2))):
        ops = change(random, ops, version)
    return ops
