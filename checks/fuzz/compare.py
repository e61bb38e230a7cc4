"""Compares two builds of the program on random documents: the status, standard output and standard error of commands.

    tests/fuzz/compare [--documents N] [--first S] PROGRAM [ARGO_JUDGE]

PROGRAM is another build, as one of an earlier revision; ARGO_JUDGE is the one of this checkout, unless it is named.
Each of N documents (10,000) is given to three commands, one in four to all, with an evaluation each, as text and
as JSON. Each difference is one line of JSON; the last line has the counts, and the status is 0 where there is none.
"""

import argparse
import functools
import json
import random
import sys
from concurrent.futures import ProcessPoolExecutor

from checks.fuzz.cases import document_bytes
from checks.fuzz.changes import changed_bytes
from checks.fuzz.check import LEVELS
from checks.fuzz.documents import random_evaluation
from checks.fuzz.many import corpus
from checks.fuzz.programs import command
from checks.fuzz.values import written
from checks.harness import Counts, built
from checks.oracle.commands import AS_JSON, COMMANDS, EVALS, EXPLAIN

BATCH = 10
ALL = [*COMMANDS, EXPLAIN + ("--event", "1"), EXPLAIN + ("--event", "0") + AS_JSON]


def tried(source):
    """Commands, and the documents that they are given."""
    document = document_bytes(source, corpus())
    for words in ALL if source.random() < 0.25 else source.sample(ALL, 3):
        yield words, document
    evaluation = written(source, random_evaluation(source)).encode("utf-8", "surrogatepass")
    for words in EVALS:
        yield words, changed_bytes(source, evaluation) if source.random() < 0.3 else evaluation


def batch(programs, seed):
    """How many commands of a seed do the same in both programs, and those that don't."""
    source, same, different = random.Random(seed), 0, []
    for words, document in (each for _ in range(BATCH) for each in tried(source)):
        first, second = (command(program, words, document) for program in programs)
        if first == second:
            same += 1
        else:
            different.append(
                {
                    "command": words,
                    "document": document.decode(errors="replace"),
                    "first": [str(part) for part in first],
                    "second": [str(part) for part in second],
                }
            )
    return same, different


def main(words: list[str]) -> int:
    sys.setrecursionlimit(LEVELS)
    options = argparse.ArgumentParser(description=__doc__, formatter_class=argparse.RawDescriptionHelpFormatter)
    options.add_argument("--documents", type=int, default=10_000)
    options.add_argument("--first", type=int, default=0)
    options.add_argument("programs", nargs="+", metavar="PROGRAM")
    given, counts = options.parse_args(words), Counts("compare")
    programs = [built(given.programs[:1]), built(given.programs[1:])]
    with ProcessPoolExecutor() as processes:
        seeds = range(given.first, given.first + -(-given.documents // BATCH))
        for same, different in processes.map(functools.partial(batch, programs), seeds):
            counts.passed += same
            for finding in different:
                counts.expect(False, json.dumps(finding, ensure_ascii=False))
    return counts.end()


if __name__ == "__main__":
    sys.exit(main(sys.argv[1:]))
