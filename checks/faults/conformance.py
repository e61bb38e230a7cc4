"""Runs the program of the conformance suite where the system refuses it memory, growth by growth.

    tests/faults/conformance [PROGRAM]

The program, or else that of crates/conformance as last built, is run on small cases of conformance/*.jsonl: for each
call, and each choice of members that it is called with, on the shortest case that succeeds and on the shortest that is
refused. Of each case the first growth of memory is refused, then the second, and so on until a run meets no refusal;
from the hundredth on some are left out, the more the further on. A run ends with status 3, one line on standard error
and no answer; or, where a text that may not grow by half as much again still grows by what it wants, with just the
expected answer. Lines that are no cases, and reads and writes that fail, end it with their own statuses. The last line
has the counts, and the status is 0 where none failed.
"""

import json
import os
import re
import sys
import tempfile
from typing import Any

from checks.data import files_of_suite, numbered_lines
from checks.faults.library import FOLDER, Library
from checks.harness import SUITE, Counts, built, side_by_side, started

NAME = "faults of the suite"
SECONDS = 60
LONGEST = 2000
EACH = 100

# First words of answers that are no refusals; others that begin with a capital letter are.
ANSWERS = {"Successful", "Failed", "Inconclusive", "Error", "Eval", "Check", "List", "Run", "Plain", "Ordered", "Help"}
IGNORED = {"name", "answer"}

# Lines that are no cases, as the program's errors name them, with what is said of them.
NO_CASES = {
    "NoJson": ("{", "expected one JSON value"),
    "UnknownCall": ('{"call":"unknown"}', "unknown call"),
    "Member": ('{"call":"decimal"}', "a member is missing, or nothing that this call takes"),
    "Member, where a condition is none": (
        '{"call":"verify","condition":"result >","shape":"whole"}',
        "a member is missing, or nothing that this call takes",
    ),
}


# A condition without a filter, and one with a filter that is run on two values.
WITHOUT_FILTER = json.dumps(
    {
        "call": "verify",
        "condition": "result[0] >= 0.95",
        "shape": {"list": "decimal", "max": 10},
        "values": [["0.9523809523809523"]],
    }
)
FILTER_TWICE = json.dumps(
    {
        "call": "verify",
        "condition": "len(filter(result, # > 1)) == 2",
        "shape": {"list": "whole", "max": 5},
        "values": [[1, 2, 3], [1, 2, 3]],
    }
)


# The choice of cases


def is_refusal(answer):
    word = re.match(r"(?:read: |bind: )?([A-Z]\w*)", answer)
    return word is not None and word[1] not in ANSWERS


def size_of(line, case):
    """The length of a case with all repeated pieces of its document."""
    pieces = case["document"] if in_pieces(case) else []
    return len(line) + sum(len(piece[0]) * piece[1] for piece in pieces if isinstance(piece, list))


def in_pieces(case):
    return isinstance(case.get("document"), list)


def chosen():
    """The shortest cases, by call, members, and whether the answer is a refusal."""
    found: dict[Any, Any] = {}
    for line in (line for path in files_of_suite() for _, line in numbered_lines(path)):
        case = json.loads(line)
        members = tuple(sorted(case.keys() - IGNORED))
        key = (case["call"], members, in_pieces(case), is_refusal(case["answer"]))
        size = size_of(line, case)
        if size <= LONGEST and (key not in found or size < found[key][0]):
            found[key] = (size, line)
    return [found[key][1] for key in sorted(found)]


# Runs


def is_out_of_memory(status, output, errors):
    return status == 3 and not output and errors == "conformance: line 1: out of memory\n"


def run(program, line, growth):
    """How a program ends on a line of which a growth of memory is refused, and whether one was."""
    path, library = program
    with library.asked(REFUSE_CALL=growth) as (given, has_refused):
        return started([path], f"{line}\n".encode(), SECONDS, **given), has_refused()


def refuse_in_turn(counts, program, name, line, expected):
    """Refuses growths of memory in turn, until a run meets no refusal. How many runs met one."""
    growth, runs = 1, 0
    while True:
        ended, refused = run(program, line, growth)
        good = ended == expected or (refused and is_out_of_memory(*ended))
        counts.expect(good, f"{name}, growth {growth}: {ended} of {line}")
        if not refused:
            return runs
        growth, runs = growth + 1 + growth // EACH, runs + 1


def refuse_case(program, line):
    """What was found of a case, and how many runs met a refusal."""
    case, counts = json.loads(line), Counts(NAME, prints=False)
    return counts, refuse_in_turn(counts, program, case["call"], line, (0, case["answer"] + "\n", ""))


def refuse_no_case(program, name):
    line, words = NO_CASES[name]
    counts = Counts(NAME, prints=False)
    return counts, refuse_in_turn(counts, program, name, line, (2, "", f"conformance: line 1: {words}\n"))


def answers_without(program, line):
    """What is answered where growths of memory are refused one by one, and what without a refusal, the last."""
    growth, answers = 1, []
    while True:
        (status, output, errors), refused = run(program, line, growth)
        answers.append(output.strip() if status == 0 and not errors else status)
        if not refused:
            return answers
        growth += 1


def refuse_runs(counts, program):
    """A run without a loop that keeps items takes no memory; one with such a loop that had none can be made again."""
    end = "accepted operations=6 depth=2 budget=6 / true cost=6"
    answers = set(answers_without(program, WITHOUT_FILTER))
    counts.expect(answers == {end, 3}, f"a run without a filter: {answers}")
    head, runs = "accepted operations=10 depth=2 budget=26", ("out of memory", "true cost=18")
    expected = {f"{head} / {first} / {second}" for first in runs for second in runs} - {
        f"{head} / {runs[0]} / {runs[0]}"
    }
    answers = set(answers_without(program, FILTER_TWICE))
    counts.expect(answers == expected | {3}, f"two runs with a filter: {answers}")


def fail_devices(counts, program):
    """`Device`: a read or a write that fails."""
    with open("/dev/full", "wb") as full:
        ended = started([program], b'{"call":"decimal","text":"1"}\n', stdout=full)
    counts.expect((ended.status, ended.errors.count("\n")) == (4, 1), f"Device, a full output: {ended}")
    folder = os.open(FOLDER, os.O_RDONLY)
    ended = started([program], stdin=folder)
    os.close(folder)
    counts.expect((ended.status, ended.errors.count("\n")) == (4, 1), f"Device, a folder as input: {ended}")


def main(words: list[str]) -> int:
    program, counts, cases = built(words, SUITE), Counts(NAME), chosen()
    with tempfile.TemporaryDirectory() as folder:
        refusing = (program, Library(folder))
        found = side_by_side(lambda line: refuse_case(refusing, line), cases)
        found += [refuse_no_case(refusing, name) for name in NO_CASES]
        refuse_runs(counts, refusing)
    for own, _ in found:
        counts.add(own)
    fail_devices(counts, program)
    refused = [runs for _, runs in found]
    counts.expect(min(refused) > 1, f"a line met {min(refused)} refusals of memory")
    return counts.end(f"{len(cases)} cases, {sum(refused)} refusals of memory: ")


if __name__ == "__main__":
    sys.exit(main(sys.argv[1:]))
