"""Runs the program while the library refuses, cuts, interrupts or delays what it asks the system for."""

import subprocess
from typing import NamedTuple

from checks.faults.library import Library
from checks.harness import NO_END, started

# A run that takes longer never ends, as where workers wait for each other.
SECONDS = 60
# After this many runs that never ended no other one is started.
MOST_WITHOUT_END = 8


class LeftOut(Exception):
    """A run that is not started, since too many before it never ended."""


class Ended(NamedTuple):
    """How a run ended, and whether the library refused it something."""

    status: int | str
    output: str
    errors: str
    refused: bool = False


class Program:
    """The built program, and the library, which is made in the folder."""

    def __init__(self, path, folder):
        self.path = str(path)
        self.without_end = 0
        self.library = Library(folder)

    def run(self, words, document="", **asked):
        """Runs the program on a document with what is asked of the library, as REFUSE_CALL=3."""
        with self.library.asked(**asked) as (given, has_refused):
            ended = self.start(words, data=document.encode(), **given)
            return ended._replace(refused=has_refused())

    def start(self, words, through=(), **given):
        """Runs the program without the library, through a command that starts it if there is one, with what is given to
        the harness."""
        if self.without_end >= MOST_WITHOUT_END:
            raise LeftOut
        if "data" not in given:
            given.setdefault("stdin", subprocess.DEVNULL)
        ended = started([*through, self.path, *words.split()], seconds=SECONDS, **given)
        self.without_end += ended.status == NO_END
        return Ended(*ended)
