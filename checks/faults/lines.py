"""Command lines that are answered or refused, also into a full output."""

import errno

from checks.faults.documents import DECIMAL
from checks.faults.errors import has_failed_to_write

REFUSED = (
    "",
    "help",
    "run --workers 17",
    "run --workers 0",
    "run --plain --workers 17",
    "run --plain --plain",
    "check --plain",
    "eval now",
    "eval eval",
    "--workers 2",
)
SHOWN = ("--help", "--version", "eval --help", "check --help", "list --help", "run --help")


def jobs(program):
    def lines(counts):
        refuse(program, counts)
        show(program, counts)

    return [lines]


def refuse(program, counts):
    """Wrong command lines are refused with one line, whatever the input."""
    for words in REFUSED:
        ended = program.start(words, data=DECIMAL.encode())
        good = (ended.status, ended.output, ended.errors.count("\n")) == (2, "", 1)
        counts.expect(good, f"argo_judge {words}: {ended}")


def show(program, counts):
    """Help and version are written, or the failed write is reported."""
    for words in SHOWN:
        ended = program.start(words)
        counts.expect(ended.status == 0 and ended.output != "" and ended.errors == "", f"argo_judge {words}: {ended}")
        with open("/dev/full", "wb") as full:
            ended = program.start(words, stdout=full)
        counts.expect(has_failed_to_write(ended, "", errno.ENOSPC), f"argo_judge {words} into a full output: {ended}")
