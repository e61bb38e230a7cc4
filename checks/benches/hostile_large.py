"""Large documents, and how the program has to end on each."""

from checks.benches.hostile_growing import shared_texts
from checks.benches.hostile_parts import (
    arguments_called,
    balanced,
    deep,
    document,
    either,
    left_out,
    many_arguments,
    measured_json,
    named,
    record,
    wide,
)
from checks.hostile.colliding import under_the_default


def shared_choices(fields):
    shape = either(wide(fields, 10, 20), wide(fields, 20, 10))
    condition = balanced(40).replace("true", "isNil(true ? result.first : result.second)")
    return document({"successCondition": condition, "failureCondition": f"!({condition})"}, [shape] * 64, named(64))


def measured_each(values, shape="whole"):
    """Measurements, a value each."""
    entries = [{"run": "r0", "metric": "m0", "value": value} for value in values]
    return document({"successCondition": "true"}, [shape], named(1), measurements=entries)


def listed_record(name):
    return {"list": {"record": {name: "whole"}}, "max": 10_000}


def long_argument(field):
    """An argument of 1 MB that is put 1,000 times into a text of each of 64 metrics."""
    args = [{"name": "long", "value": "1" * 1_000_000}]
    return document({field: "{{args.long}}" * 1000}, ["whole"] * 64, named(1), args)


def many_left_out():
    record_of, value = left_out(2000, 2000)
    return measured_each([value] * 100, record_of)


def all_of(terms):
    """Terms in a tree of `&&` that is as shallow as it can be."""
    if len(terms) == 1:
        return terms[0]
    half = len(terms) // 2
    return f"({all_of(terms[:half])} && {all_of(terms[half:])})"


def many_fields():
    condition = all_of([f"result.f{number}" for number in range(12_900, 13_000)])
    return document({"successCondition": condition}, [record(13_000)] * 64, named(4))


NUMBERS = list(range(100, 10_000)) + [100] * 100

# what is large, the words of the program, what makes the document, and the exit status
LARGE = {
    "left_out": (
        "a list of 8,000 `{}` under a record of 2,000 optional fields",
        "eval",
        lambda: {"condition": "len(result) > 0", **dict(zip(("shape", "value"), left_out(8000, 2000)))},
        0,
    ),
    "left_out_measured": ("100 measurements of 2,000 such", "run --plain", many_left_out, 0),
    "condition": (
        "an argument of 1 MB, 1,000 times in a condition of 64 metrics",
        "check",
        lambda: long_argument("successCondition"),
        2,
    ),
    "limit": ("the same in a limit", "check", lambda: long_argument("failureLimit"), 2),
    "arguments": ("32,000 names of arguments, which a run has, too", "check", lambda: many_arguments(32_000), 0),
    "colliding": (
        "the same, of names that collide under the hasher that maps take by default",
        "check",
        lambda: arguments_called(under_the_default(32_000)),
        0,
    ),
    "choices": (
        "64 metrics x 64 runs x 2 conditions with choices between records of 2,000 fields",
        "check",
        lambda: shared_choices(2000),
        0,
    ),
    "texts": ("64 metrics x 64 runs x 2 conditions of 4 KB", "check", lambda: shared_texts(64, 64), 0),
    "listings": ("the same, listed", "list", lambda: shared_texts(64, 64), 0),
    "fields": ("100 fields of records of 13,000, named in conditions of 64 metrics in 4 runs", "check", many_fields, 0),
    "empty_names": (
        '15 MB of `{"":0},` in measured lists',
        "run --plain",
        lambda: measured_each([[{"": 0}] * 10_000] * 214, listed_record("")),
        0,
    ),
    "long_names": (
        "15 MB of objects with a name of 1,000 bytes in measured lists",
        "run --plain",
        lambda: measured_each([[{"n" * 1000: 0}] * 100] * 148, listed_record("n" * 1000)),
        0,
    ),
    "nested": (
        "15 MB of lists nested 120 deep, in a measurement that no shape has",
        "run --plain",
        lambda: measured_json([[deep(120)] * 1000] * 62),
        0,
    ),
    "numbers": (
        "15 MB of numbers in measured lists of 10,000",
        "run --plain",
        lambda: measured_each([NUMBERS] * 306, {"list": "whole", "max": 10_000}),
        0,
    ),
    "numbers_in_one": (
        "the same in one measurement",
        "run --plain",
        lambda: measured_each([[NUMBERS] * 306], {"list": {"list": "whole", "max": 10_000}, "max": 10_000}),
        0,
    ),
    "digits": (
        "15 MB of digits in measured lists of 10,000",
        "run --plain",
        lambda: measured_each([[1] * 10_000] * 749, {"list": "whole", "max": 10_000}),
        0,
    ),
}
