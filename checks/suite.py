"""Runs the program of the conformance suite on cases, line by line."""

import pathlib
import tempfile
from collections.abc import Iterable
from typing import Any

from checks.data import compact
from checks.harness import NO_END, started

SECONDS = 120


def printed(program: pathlib.Path, lines: list[str], seconds: float = SECONDS) -> tuple[list[str], str | None]:
    """What the program prints for cases, and what it says where it doesn't answer all.

    Input and output are files: over pipes each answer would wake this process.
    """
    with tempfile.TemporaryFile() as cases, tempfile.TemporaryFile() as output:
        cases.writelines(line.encode() + b"\n" for line in lines)
        cases.seek(0)
        ended = started([program], seconds=seconds, stdin=cases, stdout=output)
        output.seek(0)
        answers = output.read().decode(errors="replace").split("\n")[:-1]
    if ended.status == NO_END:
        return [], NO_END
    if ended.status == 0 and len(answers) == len(lines):
        return answers, None
    return answers, f"status {ended.status}, {len(answers)} answers to {len(lines)} cases: {ended.errors.strip()}"


def each_printed(program: pathlib.Path, lines: list[str]) -> list[str]:
    """The answers to cases; where the program doesn't answer all, each in a run of its own."""
    answers, fault = printed(program, lines)
    if fault is None:
        return answers
    found = []
    for line in lines:
        own, fault = printed(program, [line])
        found.append(fault or own[0])
    return found


def answers_to(program: pathlib.Path, cases: Iterable[Any]) -> list[str]:
    return each_printed(program, [compact(case) for case in cases])
