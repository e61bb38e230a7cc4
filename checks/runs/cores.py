"""Holds the core of a board to the rules of checks/oracle/cores.py on random lists of steps.

    tests/cores/check [PROGRAM]

The program, or else that of crates/conformance as last built, answers all cases in one run. The seed is fixed, so the
same cases are made each time. The first cases that are answered otherwise are printed with both answers; the last line
has the counts, and the status is 0 where none failed.
"""

import json
import random
import sys

from checks.harness import SUITE, Counts, built
from checks.oracle.cores import answer, make, opening
from checks.runs.documents import KINDS, document_of, random_entry, random_limits
from checks.suite import printed as printed_for

SEED = 20240703
CASES = 10_000
SHOWN = 10
# How many entries a document has, and how many places a queue.
LENGTHS = (0, 1, 2, 3, 4, 5, 6, 7, 8, 9, 10, 11, 12, 12, 12, 12)
PLACES = (0, 1, 1, 1, 2, 2, 2, 3, 3, 4, 5)


def random_bundle(source):
    """A document, and the bundle of it as checks/oracle/cores.py takes it."""
    runs = source.randrange(1, 5)
    kinds = [source.choice(KINDS) for _ in range(source.randrange(1, 4))]
    limits = [random_limits(source) for _ in kinds]
    entries = [random_entry(source, runs, kinds) for _ in range(source.choice(LENGTHS))]
    document = document_of(runs, kinds, limits, entries)
    return document, {"limits": [[own for _, own in limits]] * runs, "entries": [event for _, event in entries]}


def random_step(source, workers, weights):
    kind = source.choices(("put", "take", "post"), weights)[0]
    if kind == "put":
        return kind
    # Now and then a worker that isn't there.
    worker = source.randrange(workers, workers + 3) if source.random() < 0.05 else source.randrange(workers)
    return [kind, worker]


def random_steps(source, bundle, workers, places, ordered):
    """Steps of which some can't be made: one that can't is mostly drawn anew."""
    weights = [source.choice((1, 2, 4)) for _ in range(3)]
    state = opening(bundle, workers, ordered)
    steps = []
    for _ in range(source.randrange(61)):
        step = random_step(source, workers, weights)
        while not make(bundle, places, state, step) and source.random() < 0.8:
            step = random_step(source, workers, weights)
        steps.append(step)
    return steps


def random_case(source):
    """A case, and its answer by checks/oracle/cores.py."""
    document, bundle = random_bundle(source)
    workers, places = source.choice((1, 2, 3, source.randrange(1, 17))), source.choice(PLACES)
    ordered = source.random() < 0.5
    steps = random_steps(source, bundle, workers, places, ordered)
    case = {"call": "core", "document": json.dumps(document), "workers": workers, "places": places, "steps": steps}
    if ordered:
        case["ordered"] = True
    return json.dumps(case), answer(bundle, workers, places, ordered, steps)


def main(words: list[str]) -> int:
    program, source, counts = built(words, SUITE), random.Random(SEED), Counts("cores", SHOWN)
    cases = [random_case(source) for _ in range(CASES)]
    printed, fault = printed_for(program, [case for case, _ in cases])
    if fault:
        print(fault)
    for (case, expected), got in zip(cases, printed + [""] * (CASES - len(printed))):
        counts.expect(got == expected, f"{case}\n  expected {expected}\n  got      {got}")
    return counts.end()


if __name__ == "__main__":
    sys.exit(main(sys.argv[1:]))
