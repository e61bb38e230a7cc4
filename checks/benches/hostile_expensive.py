"""Documents whose conditions are expensive to verify, and code that no condition has."""

import json
from typing import Any

from checks.benches.hostile_parts import balanced, either, lists, nested, record, wide
from checks.oracle.images import encode, image_of

MOST_OPERATIONS = 4096

# what makes it expensive, the condition, what makes the shapes of its metrics, how many runs
DOCUMENTS = {
    "runs": ("conditions of 4 KB in each metric of each run", balanced(400), lambda: ["whole"] * 64, 64),
    "copies": ("a shape for each condition of each run", "isNil(result)", lambda: [record(2000)] * 64, 64),
    "items": (
        "an item's shape at each Enter and Step",
        f"len({nested('filter(result, true)', 'default(filter(result, true), {})', 58)}) == 0",
        lambda: [{"list": record(100_000), "max": 10}],
        1,
    ),
    "joins": (
        "whole shapes at each join",
        f"isNil({nested(f'({balanced(200)} ? result : result)', 'default(result, {})', 50)})",
        lambda: [record(100_000)],
        1,
    ),
    "choices": (
        "a shape in common, made by the checker at each choice",
        balanced(60).replace("true", "isNil(true ? result.first : result.second)"),
        lambda: [either(wide(50_000, 10, 20), wide(50_000, 20, 10))],
        1,
    ),
}


def meetings():
    """Code in which nil and the measured value meet again and again, each time for an operand that is soon consumed."""
    ops: list[tuple[Any, ...]] = []
    while len(ops) + 9 <= MOST_OPERATIONS:
        at = len(ops)
        ops += [("PushBool", True), ("BranchFalse", at + 4), ("PushNil",), ("Jump", at + 5), ("LoadResult",)]
        ops += [("IsNil",), ("BranchFalse", at + 7)]
    return ops + [("PushBool", True), ("Return",)]


def held_over():
    """Code that keeps operands on the stack at which nil and the measured value met, past many joins."""
    ops: list[tuple[Any, ...]] = []
    for _ in range(50):
        at = len(ops)
        ops += [("PushBool", True), ("BranchFalse", at + 4), ("PushNil",), ("Jump", at + 5), ("LoadResult",)]
    while len(ops) + 4 <= MOST_OPERATIONS:
        ops += [("PushBool", True), ("BranchFalse", len(ops) + 2)]
    return ops + [("PushBool", True), ("Return",)]


def two_ways(*sources):
    """Code that holds as many operands as may be on each of two ways, of which the operands meet at many places.

    A source is what makes an operand of one way, as operations.
    """
    held = 62
    made = [[op for _ in range(held) for op in source] for source in sources]
    places = (MOST_OPERATIONS - 6 - sum(map(len, made))) // 6
    begins = 2 + len(made[0]) + 2 * places + 2
    meets = begins + len(made[1]) + 2 * places + 2
    branches = [op for place in range(places) for op in [("PushBool", True), ("BranchFalse", meets + 2 * place)]]
    end = [("PushBool", True), ("Return",)]
    first = [("PushBool", True), ("BranchFalse", begins), *made[0], *branches, *end]
    return first + [*made[1], *branches, *end] + end * places


def nil_or_record():
    return two_ways([("PushNil",)], [("LoadResult",)])


def first_or_second():
    return two_ways([("LoadResult",), ("Field", "first")], [("LoadResult",), ("Field", "second")])


# what makes it expensive, the code, the shape of the measured value
CODES = {
    "meetings": ("nil and a record at each join", meetings, record(2000)),
    "two_ways": ("62 operands that are nil or a record, at each of many joins", nil_or_record, record(2000)),
    "longer": (
        "62 lists, one longer than the other, at each of many joins",
        first_or_second,
        either({"list": record(1000), "max": 20}, {"list": record(1000), "max": 10}),
    ),
    "crossing": (
        "62 records of a longer and a shorter list, at each of many joins",
        first_or_second,
        either(lists(record(500), 10, 20), lists(record(500), 20, 10)),
    ),
    "held": ("operands compared at each join", held_over, record(2000)),
}


def case(ops, shape):
    """A line of the conformance suite that has the code verified."""
    line = {"call": "verify", "image": encode(image_of(ops)).hex(), "shape": shape}
    return (json.dumps(line) + "\n").encode()
