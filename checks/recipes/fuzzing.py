"""Recipes on changed inputs: whatever an object has, each ends as it says.

    tests/recipes/fuzz                       2,000 cases, the same each time
    tests/recipes/fuzz --cases N --seed S    N others
    tests/recipes/fuzz --keep FOLDER         the inputs that fail are kept there

Each case is a stored AnalysisRun, template or suite with some changes, read by a recipe in a process of its own, which
is forked from one that has loaded the package. It has to end with status 0, 1 or 2, within 2 seconds of processor and
300 MB, the engine among them. Standard error has lines without control characters, the last of which says why where the
status is 2; so has what is written as text, in which no object has a line of its own. The last line counts the cases.
"""

import argparse
import importlib
import os
import pathlib
import resource
import signal
import sys
import tempfile
from collections.abc import Iterator, Sequence
from random import Random
from typing import Any, NamedTuple

from argo_judge import cli
from argo_judge.running import run_command
from checks import ROOT
from checks.data import EXAMPLES
from checks.harness import Counts, built
from checks.recipes.changing import FORGED, SOURCES, changed

SECONDS, MEGABYTES, LONGEST = 2.0, 300, 60
STRICTER, RUNS = EXAMPLES / "backtest/stricter.json", EXAMPLES / "backtest/runs.json"
# What is forked from loaded modules, by what the changed input is: the command's words, in which @ is the input.
COMMANDS: dict[str, tuple[str, ...]] = {
    "run": (
        "convert analysisrun @",
        "convert analysisrun --partial --shapes SHAPES @",
        "compare @",
        "shapes @",
        "shapes --annotate NAME @",
        f"backtest --template {STRICTER} @",
        f"backtest --template {STRICTER} --output json --shapes SHAPES @",
        f"backtest --template {STRICTER} --sweep threshold=0.9:0.99:0.01 --output svg @",
    ),
    "template": (
        "lint @",
        "lint --strict --output json @",
        "lint --output sarif @",
        "lint --output github @",
        f"backtest --template @ {RUNS}",
        "convert jsonl --allow-empty --template @ --shapes SHAPES /dev/null",
    ),
    "suite": ("test @", "test --mutate @", "test --output junit @", "test --output json @", "lint @"),
}
SHAPES = '{"success-rate": {"list": "decimal", "max": 10}, "rate": "decimal", "errors": "decimal"}'


class Case(NamedTuple):
    """A command line, and the bytes that it reads."""

    number: int
    words: list[str]
    data: bytes


class Ended(NamedTuple):
    """How a process ended: its status, or minus the signal; what it wrote; and what it took."""

    status: int
    output: bytes
    errors: bytes
    seconds: float
    megabytes: int


def case_of(seed: str, number: int, stored: dict[str, list[Any]], folder: pathlib.Path) -> Case:
    """The case of a number."""
    source = Random(f"{seed} {number}")
    what = source.choice(sorted(COMMANDS))
    command = source.choice(COMMANDS[what])
    files = {"@": folder / source.choice(("input", "input.json", "input.yaml")), "SHAPES": folder / "shapes.json"}
    words = [str(files.get(word, word)) for word in command.split()]
    data = changed(source, stored[what])
    files["@"].write_bytes(data)
    return Case(number, words, data)


# ---- one process


def started(words: Sequence[str], outputs: Sequence[int]) -> None:
    """Runs a command in this process, which ends with it."""
    resource.setrlimit(resource.RLIMIT_CPU, (int(4 * SECONDS), int(4 * SECONDS)))
    signal.alarm(LONGEST)
    for number, file in enumerate((os.open(os.devnull, os.O_RDONLY), *outputs)):
        os.dup2(file, number)
    sys.argv = ["argo-judge-tools", *words]
    run_command()


def ended(case: Case, folder: pathlib.Path) -> Ended:
    """Runs a case to its end."""
    paths = [folder / "output", folder / "errors"]
    outputs = [os.open(path, os.O_WRONLY | os.O_CREAT | os.O_TRUNC) for path in paths]
    sys.stdout.flush()
    child = os.fork()
    if child == 0:
        try:
            started(case.words, outputs)
        finally:
            os._exit(99)
    for file in outputs:
        os.close(file)
    _, status, took = os.wait4(child, 0)
    output, errors = (path.read_bytes() for path in paths)
    seconds = took.ru_utime + took.ru_stime
    return Ended(os.waitstatus_to_exitcode(status), output, errors, seconds, took.ru_maxrss >> 10)


# ---- what it has to be


def odd_characters(written: bytes) -> bool:
    """Whether lines have what a terminal would obey, or no text is."""
    try:
        text = written.decode("utf-8")
    except UnicodeDecodeError:
        return True
    return not all(character.isprintable() or character == "\n" for character in text)


def is_text(words: Sequence[str]) -> bool:
    """Whether a command writes text, which is no JSON."""
    return words[0] in ("lint", "test", "backtest", "compare") and not {"json", "sarif", "svg", "junit"} & set(words)


def faults_of(case: Case, found: Ended) -> Iterator[str]:
    """What is wrong with how a case ended."""
    lines = found.errors.decode("utf-8", "replace").splitlines()
    if found.status not in (0, 1, 2):
        yield f"status {found.status}: {lines[-1:]}"
    if found.status == 2 and not lines:
        yield "status 2 without a line"
    if odd_characters(found.errors) or any("Traceback" in line for line in lines):
        yield f"standard error: {found.errors[-200:]!r}"
    if is_text(case.words) and odd_characters(found.output):
        yield f"standard output: {found.output[-200:]!r}"
    if is_text(case.words) and any(line in FORGED for line in found.output.decode("utf-8", "replace").splitlines()):
        yield "a line of an object's own"
    if found.seconds > SECONDS or found.megabytes > MEGABYTES:
        yield f"{found.seconds:.1f} seconds, {found.megabytes} MB"


# ---- all cases


def loaded() -> None:
    """Loads what the commands load, so that a fork has it."""
    for one in cli.COMMANDS:
        importlib.import_module(f"argo_judge.{one.module}")


def some_cases(words: argparse.Namespace, first: int, step: int, counts: Counts) -> None:
    """Runs the cases of one process."""
    stored = {what: read() for what, read in SOURCES.items()}
    with tempfile.TemporaryDirectory() as work:
        folder = pathlib.Path(work)
        (folder / "shapes.json").write_text(SHAPES, encoding="utf-8")
        for number in range(first, words.cases, step):
            case = case_of(words.seed, number, stored, folder)
            faults = list(faults_of(case, ended(case, folder)))
            if faults and words.keep:
                (pathlib.Path(words.keep) / f"{words.seed}-{number}").write_bytes(case.data)
            command = " ".join(case.words).replace(f"{work}/", "").replace(f"{ROOT}/", "")
            counts.case(f"case {number} of seed {words.seed}, {command}", faults)


def part(words: argparse.Namespace, first: int, step: int, to: int) -> None:
    """Runs a part of the cases in this process, and writes what it counted."""
    counts = Counts("recipes on changed inputs", prints=False)
    some_cases(words, first, step, counts)
    lines = [f"{counts.passed} {counts.failed}", *(line for said in counts.said for line in said.splitlines())]
    with open(to, "w", encoding="utf-8", errors="backslashreplace") as file:
        file.write("\n".join(lines))


def counted(words: argparse.Namespace) -> Counts:
    """Runs all cases, on each processor some."""
    counts, readers, step = Counts("recipes on changed inputs", most=20), [], len(os.sched_getaffinity(0))
    for first in range(step):
        reader, writer = os.pipe()
        sys.stdout.flush()
        if os.fork() == 0:
            try:
                os.close(reader)
                part(words, first, step, writer)
            finally:
                os._exit(0)
        os.close(writer)
        readers.append(reader)
    for reader in readers:
        with open(reader, encoding="utf-8") as file:
            sums, *said = file.read().splitlines() or ["0 1", "a part of the cases was stopped"]
        passed, failed = map(int, sums.split())
        counts.passed, counts.failed = counts.passed + passed, counts.failed + failed
        for line in said[:20]:
            counts.say(line)
    return counts


def main(given: Sequence[str]) -> int:
    """Runs the cases of a command line."""
    parser = argparse.ArgumentParser(description=__doc__, formatter_class=argparse.RawDescriptionHelpFormatter)
    parser.add_argument("--cases", type=int, default=2000, metavar="N", help="how many")
    parser.add_argument("--seed", default="1", metavar="S", help="which ones")
    parser.add_argument("--keep", metavar="FOLDER", help="where the inputs are kept that fail")
    words = parser.parse_args(given)
    built([])
    loaded()
    return counted(words).end()


if __name__ == "__main__":
    sys.exit(main(sys.argv[1:]))
