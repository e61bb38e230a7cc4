"""Writes conformance/random-runs.jsonl: random limits and events, with what the second reading of the rules says of
them.

The seed is fixed, so the same file is made each time.
"""

import random
import sys

from checks.data import CONFORMANCE, compact
from checks.oracle.phases import answer

SEED = 20240702
RUNS = 300
# After these, runs of metrics of which about half are dry.
DRY_RUNS = 200
MARKS = ("Successful", "Failed", "Inconclusive", "Error")
OUTPUT = CONFORMANCE / "random-runs.jsonl"
HEAD = """\
# Random limits and events, made by tests/phases/make_runs. The answers are those of checks/oracle/phases.py, which
# reads docs/use/phases.md a second time and knows nothing of the program.
"""


def random_limit(source, dry):
    """The limits of a metric, which is dry so often."""
    limit = [source.randrange(4) for _ in range(3)] + [source.choice((None, 1, 2, 3, 5, 8))]
    return limit + ["dry"] if dry and source.random() < dry else limit


def random_event(source, metrics, weights):
    if metrics == 0 or source.random() < 0.03:
        return "stop"
    return [source.randrange(metrics), source.choices(MARKS, weights)[0]]


def random_case(source, number, dry):
    limits = [random_limit(source, dry) for _ in range(source.choice((0, 1, 1, 2, 2, 3, 4)))]
    weights = [source.choice((1, 2, 5, 9)), *(source.choice((0, 1, 2)) for _ in range(3))]
    events = [random_event(source, len(limits), weights) for _ in range(source.randrange(1, 25))]
    return {"call": "phases", "name": str(number), "limits": limits, "events": events, "answer": answer(limits, events)}


def main(words: list[str]) -> int:
    source = random.Random(SEED)
    with OUTPUT.open("w", encoding="utf-8") as output:
        output.write(HEAD)
        for number in range(RUNS + DRY_RUNS):
            case = random_case(source, number, 0 if number < RUNS else 0.5)
            output.write(compact(case) + "\n")
    return 0


if __name__ == "__main__":
    sys.exit(main(sys.argv[1:]))
