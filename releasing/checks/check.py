"""Tries what is made of the program's help, the wheel of python/, which files are packed, bin/install into a scratch
folder, bin/release and packaging/image.

    packaging/check [PROGRAM]    with that program in the place of the one last built, and only what is made of its help

What is installed and released is tried in a name space in which this checkout and the kit are empty, and in folders
that are the whole system, where the system allows that. What isn't tried is said in a line.
"""

import pathlib
import sys
import tempfile
from itertools import chain

from checks.harness import Counts, built
from releasing.checks.contents import of_contents
from releasing.checks.helps import of_helps
from releasing.checks.images import of_users
from releasing.checks.installs import of_install, prepare
from releasing.checks.releases import of_release
from releasing.checks.starts import BUILT, Tried, side_by_side
from releasing.checks.wheels import of_wheel


def checks(program: pathlib.Path, folder: pathlib.Path) -> Tried:
    if program != BUILT:
        yield from of_helps(program, folder)
        return
    prepare(folder)
    quick = chain(of_users(), of_contents(folder), of_helps(program, folder))
    yield from side_by_side(quick, of_wheel(folder), of_install(folder), of_release(folder))


def main(words: list[str]) -> int:
    program, counts = built(words), Counts("packaging")
    with tempfile.TemporaryDirectory() as scratch:
        for what, passed in list(checks(program, pathlib.Path(scratch))):
            counts.expect(passed, f"packaging: failed: {what}")
    return counts.end()


if __name__ == "__main__":
    sys.exit(main(sys.argv[1:]))
