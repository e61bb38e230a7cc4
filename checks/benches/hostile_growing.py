"""Documents of which something is made larger and larger."""

from collections.abc import Callable
from typing import Any

from checks.benches.hostile_parts import (
    arguments_called,
    balanced,
    deep,
    document,
    either,
    left_out,
    many_arguments,
    measured_json,
    named,
    put_in,
    record,
    wide,
    with_own,
)
from checks.harness import ENGINE
from checks.hostile.colliding import once_fed, under_the_default

CHECK = [ENGINE, "check"]
EVAL = [ENGINE, "eval"]
LIST = [ENGINE, "list"]
PLAIN = [ENGINE, "run", "--plain"]


def left_out_in_eval(items):
    shape, value = left_out(items, 500)
    return {"condition": "len(result) > 0", "shape": shape, "value": value}


def left_out_in_run(items, fields=500):
    shape, value = left_out(items, fields)
    entry = {"run": "r0", "metric": "m0", "value": value}
    return document({"successCondition": "len(result) > 0"}, [shape], named(1), measurements=[entry])


def colliding_once_fed(names):
    """Names that collide in a map once as many other names were fed."""
    groups = ((names - 1) // 9).bit_length()
    return arguments_called(once_fed(names, groups, [f"argument-{number}" for number in range(names)]))


def own_conditions(operand, shape, metrics, runs):
    """Metrics with two conditions that have the operand 40 times, and runs that each bind a text of their own."""
    condition = '"{{args.own}}" != "" && ' + balanced(40).replace("true", operand)
    fields = {"successCondition": condition, "failureCondition": f"!({condition})"}
    return document(fields, [shape] * metrics, with_own(runs), [{"name": "own"}])


def choices_of_records(fields):
    shape = either(wide(fields, 10, 20), wide(fields, 20, 10))
    return own_conditions("isNil(true ? result.first : result.second)", shape, 8, 16)


def last_field(fields):
    return own_conditions(f"result.f{fields - 1}", record(fields), 1, 16)


def shared_texts(metrics, runs):
    """Two conditions of 4 KB of each metric, which all runs share."""
    fields = {"successCondition": balanced(400), "failureCondition": f"!{balanced(400)}"}
    return document(fields, ["whole"] * metrics, named(runs))


# what there is more and more of, the words of the program, what makes the document of a size, the least of its three
# sizes, and the exit status
GROWING: dict[str, tuple[str, list[Any], Callable[[int], Any], int, int]] = {
    "left_out": ("`{}` in a list, each of a record of 500 optional fields", EVAL, left_out_in_eval, 1000, 0),
    "left_out_measured": ("the same, measured in a run", PLAIN, left_out_in_run, 1000, 0),
    "left_out_of_many": (
        "optional fields of a record, and as many `{}` in a list, measured in a run",
        PLAIN,
        lambda items: left_out_in_run(items, items),
        2_500,
        0,
    ),
    "condition": (
        "bytes of an argument that a condition has 100 times",
        CHECK,
        lambda length: put_in("successCondition", length),
        50_000,
        2,
    ),
    "limit": (
        "bytes of an argument that a limit has 100 times",
        CHECK,
        lambda length: put_in("failureLimit", length),
        50_000,
        2,
    ),
    "arguments": ("names of arguments, which a run has, too", CHECK, many_arguments, 10_000, 0),
    "colliding": (
        "the same, of names that collide under the hasher that maps take by default",
        CHECK,
        lambda names: arguments_called(under_the_default(names)),
        10_000,
        0,
    ),
    "colliding_once_fed": (
        "the same, of names that collide under a hasher that was fed as many other names",
        CHECK,
        colliding_once_fed,
        1_000,
        0,
    ),
    "own_choices": (
        "fields of records between which 256 conditions of 16 runs choose",
        CHECK,
        choices_of_records,
        250,
        0,
    ),
    "listings": (
        "runs, of each of which 128 conditions of 4 KB are listed",
        LIST,
        lambda runs: shared_texts(64, runs),
        16,
        0,
    ),
    "last_field": ("fields of a record, of which 32 conditions of 16 runs name the last", CHECK, last_field, 10_000, 0),
    "empty_names": ('`{"":0}` in a measured list', PLAIN, lambda items: measured_json([{"": 0}] * items), 100_000, 0),
    "long_names": (
        "objects with a name of 1,000 bytes in a measured list",
        PLAIN,
        lambda items: measured_json([{"n" * 1000: 0}] * items),
        1000,
        0,
    ),
    "nested": (
        "lists nested 120 deep in a measured list",
        PLAIN,
        lambda items: measured_json([deep(120)] * items),
        4000,
        0,
    ),
}
