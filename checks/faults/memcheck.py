"""Runs the built program under valgrind's memcheck.

    tests/faults/memcheck [PROGRAM]

The program, or else that of crates/argo_judge, which is built first where that is due, runs on the documents of
examples/bundles and examples/eval under memcheck: it touches no memory that isn't its own, uses no value that was never
set, and leaves no block that nothing points to. It ends and writes as it does without. Where valgrind is neither there
nor can be installed, this is skipped, which the last line says; else that line has the counts, and the status is 0
where none failed.
"""

import os
import shutil
import subprocess
import sys

from checks import ROOT
from checks.harness import Counts, current, named, side_by_side, started

# The status of a run in which memcheck found an error; the program has none of this number.
FOUND = 99
MEMCHECK = (
    "valgrind",
    "--quiet",
    f"--error-exitcode={FOUND}",
    "--leak-check=full",
    "--errors-for-leak-kinds=definite",
    "--show-leak-kinds=definite",
)
# One worker posts in the order of the document, so that its report is the same each time.
OF_BUNDLES = (
    "run --plain",
    "run --ordered --workers 2",
    "run --workers 1",
    "check",
    "list",
    "run --plain --output json",
    "check --output json",
)
INSTALL = ("apt-get", "install", "-y", "valgrind")


def has_valgrind():
    """Whether valgrind is there, or could be installed."""
    if shutil.which("valgrind") is None and shutil.which(INSTALL[0]):
        environment = {**os.environ, "DEBIAN_FRONTEND": "noninteractive"}
        subprocess.run(
            INSTALL,
            env=environment,
            stdin=subprocess.DEVNULL,
            stdout=subprocess.DEVNULL,
            stderr=subprocess.DEVNULL,
            check=False,
        )
    return shutil.which("valgrind") is not None


def cases():
    """The command lines, each with its document."""
    bundles = sorted((ROOT / "examples/bundles").glob("*.json"))
    made = [(words, path) for path in bundles for words in OF_BUNDLES]
    evaluated = sorted((ROOT / "examples/eval").glob("*.json"))
    return made + [(words, path) for words in ("eval", "eval --output json") for path in evaluated]


def ended(command, words, path):
    return started([*command, *words.split()], path.read_bytes())


def fault_of(program, case):
    """What is wrong with a run under memcheck."""
    words, path = case
    alone, watched = ended([program], words, path), ended([*MEMCHECK, program], words, path)
    if watched != alone:
        yield f"status {watched.status}, expected {alone.status}\n{watched.errors}"


def main(words: list[str]) -> int:
    program, counts = current(words), Counts("memcheck")
    if not has_valgrind():
        print("memcheck: skipped, since valgrind is not there and could not be installed")
        return counts.end("1 skipped, ", may_be_empty=True)
    tried = cases()
    for (command, path), faults in zip(tried, side_by_side(lambda case: list(fault_of(program, case)), tried)):
        counts.case(f"{command} of {named(path)}", faults)
    return counts.end()


if __name__ == "__main__":
    sys.exit(main(sys.argv[1:]))
