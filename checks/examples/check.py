"""Runs the built program on the examples and compares what it writes.

    examples/check [PROGRAM]    with that program, and builds none

eval/NAME.json is a document, NAME.stdout what is written, and NAME.status the exit status (0 where there is none). A
refused document writes nothing to standard output and one line to standard error.

bundles/NAME.json is a document with a template, shapes, runs and measurements. NAME.run is what `run --plain` and `run
--ordered` write, NAME.status its exit status (0 where there is none); NAME.check and NAME.list, where they are there,
what `check` and `list` write, which end with 0. NAME.warnings, where it is there, is what `run` and `check` write to
standard error; otherwise they write nothing there, and `list` never does. A refused document has NAME.refused in the
place of these: how the line on standard error continues after `argo_judge: `, up to a colon or to its end, for each of
the three commands.

providers/NAME.json are such documents too, one for each provider of docs/use/shapes.md.

The document in the help of check, list and run is one of them, too, with the output shown there.

conditions/*.jsonl has a document a line. Its first member is the expected line, "answer", or "refused", how the line on
standard error continues after `argo_judge: `; the program ignores both.

commands.jsonl has a command line a line, with its input and with what has to come of it; examples/check_commands says
which members a line may have.
"""

import itertools
import json
import pathlib
import sys
from collections.abc import Callable, Iterator
from typing import Any

from checks.data import EXAMPLES, files_of_conditions
from checks.examples.commands import count_commands, is_refused
from checks.harness import Counts, Ended, current, named, side_by_side, started

COMMANDS = (
    "run --plain",
    "run --ordered --workers 1",
    "run --ordered --workers 2",
    "run --ordered --workers 8",
    "check",
    "list",
)
OF_HELP = {"check": 0, "list": 0, "run --plain": 1}


def stored(path: pathlib.Path, default: str = "") -> str:
    """What a file has, or something else where it isn't there."""
    return path.read_text(encoding="utf-8") if path.is_file() else default


def differing(got: Ended, expected: Ended) -> Iterator[str]:
    """What is wrong with how a command ended."""
    if got != expected:
        yield f"expected {expected}\n  got      {got}"


def not_refused(got: Ended, expected: str) -> Iterator[str]:
    """What is wrong with how a command ended that has to be refused with a line."""
    if not is_refused(got, expected):
        yield f"expected status 2 and argo_judge: {expected}\n  got      {got}"


def eval_faults(program: pathlib.Path, document: pathlib.Path) -> Iterator[str]:
    got = started([program, "eval"], document.read_bytes())
    status = int(stored(document.with_suffix(".status"), "0"))
    output, lines = stored(document.with_suffix(".stdout")), int(status != 0)
    if (got.status, got.output, got.errors.count("\n")) != (status, output, lines) or bool(got.errors) != bool(lines):
        yield f"expected status {status}, {lines} lines on standard error, and {output!r}\n  got      {got}"


def has_answer(document: pathlib.Path, command: str) -> bool:
    """Whether a document has what a command writes, or is refused."""
    kind = command.split()[0]
    return kind == "run" or any(document.with_suffix(f".{ending}").is_file() for ending in (kind, "refused"))


def bundle_faults(program: pathlib.Path, document: pathlib.Path, command: str) -> Iterator[str]:
    got = started([program, *command.split()], document.read_bytes())
    status, kind = int(stored(document.with_suffix(".status"), "0")), command.split()[0]
    if document.with_suffix(".refused").is_file():
        if status != 2:
            yield f"its status is {status}, and it is refused"
        yield from not_refused(got, stored(document.with_suffix(".refused")).rstrip("\n"))
        return
    warnings = "" if kind == "list" else stored(document.with_suffix(".warnings"))
    output = document.with_suffix(f".{kind}").read_text(encoding="utf-8")
    yield from differing(got, Ended(status if kind == "run" else 0, output, warnings))


def shown_in_help(text: str) -> tuple[str, str]:
    """The document that a help shows, and the output that it shows for it."""
    lines = text.split("\n")
    document = lines[lines.index("  {") : lines.index("  }") + 1]
    begin = next(place for place, line in enumerate(lines) if line.startswith("Standard output"))
    after = itertools.dropwhile(lambda line: not line.startswith("  "), lines[begin:])
    shown = itertools.takewhile(lambda line: line.startswith("  "), after)
    return "\n".join(document), "".join(f"{line[2:]}\n" for line in shown)


def help_faults(program: pathlib.Path, command: str) -> Iterator[str]:
    document, output = shown_in_help(started([program, command.split()[0], "--help"]).output)
    if not document or not output:
        yield "there is none, or no output of it"
    yield from differing(started([program, *command.split()], document.encode()), Ended(OF_HELP[command], output, ""))


def condition_faults(program: pathlib.Path, line: str) -> Iterator[str]:
    got = started([program, "eval"], f"{line}\n".encode())
    document = json.loads(line)
    if line.startswith('{"answer":"'):
        yield from differing(got, Ended(0, f"{document['answer']}\n", ""))
    elif line.startswith('{"refused":"'):
        yield from not_refused(got, document["refused"])
    else:
        yield 'expected a member "answer" or "refused" first'


def cases() -> Iterator[tuple[str, Callable[..., Iterator[str]], tuple[Any, ...]]]:
    """All cases: what each is called, what looks at it, and what that is given."""
    for document in sorted((EXAMPLES / "eval").glob("*.json")):
        yield named(document), eval_faults, (document,)
    bundles = [path for folder in ("bundles", "providers") for path in sorted((EXAMPLES / folder).glob("*.json"))]
    for document, command in itertools.product(bundles, COMMANDS):
        if has_answer(document, command):
            yield f"{named(document)}, {command}", bundle_faults, (document, command)
    for command in OF_HELP:
        yield f"the document in the help of {command}", help_faults, (command,)
    for path in files_of_conditions():
        for number, line in enumerate(path.read_text(encoding="utf-8").rstrip("\n").split("\n"), 1):
            yield f"{named(path)}, line {number}", condition_faults, (line,)


def main(words: list[str]) -> int:
    program, counts, tried = current(words), Counts("examples"), list(cases())
    found = side_by_side(lambda case: list(case[1](program, *case[2])), tried)
    for (name, _, _), faults in zip(tried, found):
        counts.case(name, faults)
    count_commands(program, counts)
    return counts.end()


if __name__ == "__main__":
    sys.exit(main(sys.argv[1:]))
