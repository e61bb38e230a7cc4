"""Runs a command to its end: with a status, and with one line on standard error where that status is no verdict.

It is loaded before the command's own module, so that Ctrl-C is one line even while the rest is loaded.
"""
import errno
import io
import os
import signal
import sys
from collections.abc import Callable
from types import FrameType
from typing import NoReturn

from argo_judge.errors import GOOD, NO_MEMORY, NOT_WRITTEN, REFUSED, UNEXPECTED, Refused, Status
from argo_judge.notes import note


def stop(_signal: int = signal.SIGINT, _frame: FrameType | None = None) -> None:
    """Ends as Ctrl-C ends a program, so that a loop of the shell around it stops, too."""
    signal.signal(signal.SIGINT, signal.SIG_DFL)
    note("interrupted")
    os.kill(os.getpid(), signal.SIGINT)


def place_of(fault: BaseException) -> str:
    """The file and line in which an error was raised."""
    at = fault.__traceback__
    if at is None:
        return "a place that isn't known"
    while at.tb_next is not None:
        at = at.tb_next
    return f"{os.path.basename(at.tb_frame.f_code.co_filename)}, line {at.tb_lineno}"


def explained(fault: Exception) -> tuple[int, str]:
    """The status that an error ends a command with, and the line that says why."""
    if isinstance(fault, Refused):
        return REFUSED, str(fault)
    if isinstance(fault, RecursionError):
        return REFUSED, "input: values in values are too deep; expected at most 127 levels, as the engine reads"
    if isinstance(fault, UnicodeDecodeError):
        return REFUSED, f"input: expected UTF-8; byte {fault.start} is none"
    if isinstance(fault, UnicodeEncodeError):
        return REFUSED, "input: a text has half of a surrogate pair; expected whole characters"
    if isinstance(fault, MemoryError):
        return NO_MEMORY, "out of memory"
    if isinstance(fault, OSError):
        return NOT_WRITTEN, f"{fault.filename or 'output'}: it can't be written: {fault.strerror or fault}"
    return UNEXPECTED, f"{type(fault).__name__} in {place_of(fault)}: {fault}; please report this with the input"


def status_of(main: Callable[[], int | None]) -> int:
    """Runs a command to its end, output and all."""
    status: object
    try:
        if sys.stdout is None:
            raise OSError(errno.EBADF, "it is closed")
        if isinstance(sys.stdout, io.TextIOWrapper):
            sys.stdout.reconfigure(encoding="utf-8")  # whatever the locale is
        status = main()
    except SystemExit as done:
        status = done.code
    except Status as given:
        status = given.status
    sys.stdout.flush()
    if status is None:
        return GOOD
    return status if isinstance(status, int) else UNEXPECTED


def run(main: Callable[[], int | None]) -> NoReturn:
    """Runs a command and ends: what it refuses, and what fails, is one line on standard error."""
    status = UNEXPECTED
    try:
        signal.signal(signal.SIGINT, signal.default_int_handler)
        status = status_of(main)
    except KeyboardInterrupt:
        stop()
    except Exception as fault:
        status, line = explained(fault)
        note(line)
    # At once: what is left in the buffer of an output that can't be written would be tried once more.
    os._exit(status)


def run_command(recipe: str | None = None) -> NoReturn:
    """Runs the command of a recipe, or the one that the command line names, and ends."""
    signal.signal(signal.SIGINT, stop)
    from argo_judge import cli  # which takes time to load

    run(lambda: cli.main(recipe))
