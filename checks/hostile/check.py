"""Holds the program to a limit of memory on small documents that once made it use a lot of memory.

    tests/hostile/check [PROGRAM]

PROGRAM is the built program, or crates/argo_judge/out/argo_judge. Each document is given to `check` with a limit of
address space. Those of DOCUMENTS have to be answered: one line for each condition of each run, with status 0. Those of
REFUSED have to be refused: nothing on standard output, status 2, and these words. Those of JUDGED are given to
`run --plain`, and each measurement has to be judged: a line for the run, one for the metric, and one for each
measurement, with status 0. Those of `colliding_names` have to be answered whatever their arguments are called: a line
for the condition of the run, which has the last of the template's arguments. A limit is a few times what the program
takes, and a small part of what it took when a cost grew with more than the document's size.
The last line has the counts, and the status is 0 where none failed.
"""

import json
import sys

from checks.harness import Counts, built, started
from checks.hostile.colliding import once_fed, under_the_default
from checks.made import document_of, template_of


def balanced(leaves):
    """A tree of `&&` that is as shallow as it can be."""
    if leaves == 1:
        return "true"
    return f"({balanced(leaves // 2)} && {balanced(leaves - leaves // 2)})"


def record(fields):
    return {"record": {f"f{number}": "bool" for number in range(fields)}}


def optional(fields):
    """A record whose fields may all be left out."""
    return {"record": {f"f{number}": {"optional": "bool"} for number in range(fields)}}


def document(members, shapes, runs, arguments=()):
    """A document with a metric for each shape, all with the same members, and with a value for each argument."""
    metrics = [{"name": f"m{number}", "interval": "1m", "count": 1, **members} for number in range(len(shapes))]
    given = [{"name": name, "value": value} for name, value in arguments]
    shapes = {f"m{number}": shape for number, shape in enumerate(shapes)}
    return document_of(
        template_of({"args": given, "metrics": metrics}), shapes, [f"r{number}" for number in range(runs)]
    )


SECONDS = 60

# what it has much of, its conditions, its shapes, how many runs, and the limit in megabytes
DOCUMENTS = (
    (
        "conditions of 4 KB in each metric of each run",
        {"successCondition": balanced(400), "failureCondition": "!" + balanced(400)},
        ["whole"] * 16,
        64,
        20,
    ),
    ("a shape for each condition of each run", {"successCondition": "isNil(result)"}, [record(200)] * 64, 64, 24),
)

# an argument of 1 MB, and a text that has it 1,000 times
LONG = (("a", "1" * 1_000_000),)
OFTEN = "{{args.a}}" * 1_000

# what it has much of, the members of each of 64 metrics, the limit in megabytes, and how the first of them is refused
REFUSED = (
    (
        "an argument of 1 MB put 1,000 times into two conditions",
        {"successCondition": OFTEN, "failureCondition": OFTEN},
        24,
        ", successCondition, byte 4096: TooLong: a condition has at most 4096 bytes",
    ),
    (
        "an argument of 1 MB put 1,000 times into a limit",
        {"failureLimit": OFTEN},
        24,
        ": BadLimit: `failureLimit` is a text of more than 256 bytes; expected 0 to 1000000000 in one to ten digits",
    ),
    (
        "an argument of 1 MB put 1,000 times before one that is unknown",
        {"successCondition": OFTEN + "{{args.b}}"},
        24,
        ': UnknownArg: "args.b" in braces; expected args.NAME with a name of `spec.args`; arguments are "a"',
    ),
)


# what it has much of, its condition, its shape, its values, and the limit in megabytes
JUDGED: tuple = (
    (
        "records that leave out each of 1,000 optional fields",
        "len(result) == 4000",
        {"list": optional(1_000), "max": 10_000},
        [[{}] * 4_000] * 2,
        20,
    ),
    (
        "records that have one of 1,000 optional fields",
        "all(result, isNil(#.f0))",
        {"list": optional(1_000), "max": 10_000},
        [[{"f999": True}] * 2_000] * 2,
        24,
    ),
    (
        "lists of numbers, whose JSON is dropped list by list",
        "len(result) == 10000",
        {"list": "whole", "max": 10_000},
        [[1] * 10_000] * 100,
        80,
    ),
)


# this many names that all collide would take minutes, each compared with all others
COLLIDING = 100_000


def judged(condition, shape, values):
    """A document with one run, one metric and these measurements."""
    case = document({"successCondition": condition, "count": len(values)}, [shape], 1)
    case["measurements"] = [{"run": "r0", "metric": "m0", "value": value} for value in values]
    return case


def colliding_names():
    """What the names of arguments collide under, the names, and the limit in megabytes."""
    fed = once_fed(1_000, 7)
    others = [name for name in once_fed(1_001, 7, fed) if name not in fed]
    return (
        ("the hasher that maps take by default", under_the_default(COLLIDING), 200),
        ("a hasher that was fed nothing", fed, 24),
        ("a hasher that was fed other names", others, 24),
        ("a hasher that was fed half of them", fed + others, 24),
    )


def called(names):
    """A document with an argument of each name, and a run that gives each but the first a value of its own."""
    condition = {"successCondition": f"result > {{{{args.{names[0]}}}}} && result < {{{{args.{names[-1]}}}}}"}
    case = document(condition, ["whole"], 1, [(name, "1") for name in names])
    case["runs"][0]["args"] = {name: "2" for name in names[1:]}
    return case


def cases():
    """What each has much of, the command, its document, the limit in megabytes, and the answer."""
    for much, conditions, shapes, runs, megabytes in DOCUMENTS:
        answer = (0, len(conditions) * len(shapes) * runs, "")
        yield much, ["check"], document(conditions, shapes, runs), megabytes, answer
    for much, members, megabytes, refusal in REFUSED:
        answer = (2, 0, f'argo_judge: run 0 "r0", metric 0 "m0"{refusal}')
        yield much, ["check"], document(members, ["whole"] * 64, 2, LONG), megabytes, answer
    for much, condition, shape, values, megabytes in JUDGED:
        yield much, ["run", "--plain"], judged(condition, shape, values), megabytes, (0, 2 + len(values), "")
    for what, names, megabytes in colliding_names():
        yield f"names that collide under {what}", ["check"], called(names), megabytes, (0, 1, "")


def main(words: list[str]) -> int:
    program, counts = built(words), Counts("hostile")
    for much, command, case, megabytes, expected in cases():
        ended = started([program, *command], json.dumps(case).encode(), SECONDS, megabytes)
        answer = (ended.status, ended.output.count("\n"), ended.errors.strip())
        counts.expect(answer == expected, f"{much}: with {megabytes} MB {answer}, and not {expected}")
    return counts.end()


if __name__ == "__main__":
    sys.exit(main(sys.argv[1:]))
