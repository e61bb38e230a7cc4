"""Runs a program on each line of commands.jsonl, and compares how it ends and what it writes.

A line is one JSON object:

  words       the words of the command line
  stdin       what comes on standard input: a text, or a list of texts and of pairs, a text and how
              often it comes
  document    in the place of stdin: a file of this folder
  status      the exit status
  stdout      all of standard output
  stdout_has  a text in standard output
  stderr      all of standard error
  refused     status 2, nothing on standard output, and one line on standard error, which after
              `argo_judge: ` is this text, or begins with it and a colon

What is left out isn't compared. A `run` with several workers has --ordered or --plain, or no run with two measurements:
otherwise it could come otherwise in the next start. The last line counts the lines that came so and those that didn't.
"""

import json
import pathlib
import sys
from collections.abc import Iterator
from typing import Any

from checks.data import EXAMPLES, numbered_lines, text_of
from checks.harness import Counts, Ended, built, named, side_by_side, started

COMMAND_LINES = EXAMPLES / "commands.jsonl"
MEMBERS = {"words", "stdin", "document", "status", "stdout", "stdout_has", "stderr", "refused"}


def input_of(case: dict[str, Any]) -> bytes:
    if "document" in case:
        return (EXAMPLES / case["document"]).read_bytes()
    return text_of(case.get("stdin", "")).encode()


def is_refused(got: Ended, expected: str) -> bool:
    """Whether a command was refused with one line that is this one, or begins with it and a colon."""
    line = f"argo_judge: {expected}"
    is_line = got.errors.count("\n") == 1 and got.errors.startswith((line + "\n", line + ": "))
    return is_line and (got.status, got.output) == (2, "") and got.errors.endswith("\n")


def differences(case: dict[str, Any], got: Ended) -> Iterator[str]:
    for name, own in (("status", got.status), ("stdout", got.output), ("stderr", got.errors)):
        if name in case and case[name] != own:
            yield f"{name} {own!r}, expected {case[name]!r}"
    if case.get("stdout_has", "") not in got.output:
        yield f"stdout {got.output!r}, expected {case['stdout_has']!r} in it"
    if "refused" in case and not is_refused(got, case["refused"]):
        yield f"{got}, expected refused {case['refused']!r}"


def is_open(case: dict[str, Any]) -> bool:
    """Whether the order of workers decides what comes of a case."""
    words = case["words"]
    if words[:1] != ["run"] or {"--plain", "--ordered"} & set(words) or words[1:] == ["--workers", "1"]:
        return False
    try:
        document = json.loads(input_of(case))
        runs = [entry["run"] for entry in document.get("measurements") or []]
    except (ValueError, AttributeError, KeyError, TypeError):
        return False
    return case.get("status") in (0, 1) and len(set(runs)) < len(runs)


def faults(program: pathlib.Path, case: dict[str, Any]) -> list[str]:
    if "words" not in case or not case.keys() <= MEMBERS or len(case) < 2:
        return [f"no case: {sorted(case)}"]
    if is_open(case):
        return ["expected --plain or --ordered, as a run has several measurements"]
    return list(differences(case, started([program, *case["words"]], input_of(case))))


def count_commands(program: pathlib.Path, counts: Counts) -> None:
    """Counts the lines that came as they have to."""
    cases = [(number, json.loads(line)) for number, line in numbered_lines(COMMAND_LINES)]
    for (number, case), found in zip(cases, side_by_side(lambda case: faults(program, case[1]), cases)):
        counts.case(f"{named(COMMAND_LINES)}, line {number}, {' '.join(case.get('words', []))}", found)


def main(words: list[str]) -> int:
    counts = Counts("commands")
    count_commands(built(words), counts)
    return counts.end()


if __name__ == "__main__":
    sys.exit(main(sys.argv[1:]))
