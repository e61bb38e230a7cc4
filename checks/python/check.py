"""Holds Python to its form, and runs the units of python/.

    tests/python/check

By python/pyproject.toml and python/setup.cfg for python/, and by checks/pyproject.toml for `building`, `checks` and
`releasing`: black and isort (layout), flake8, mypy, and pytest on python/tests. A tool that isn't installed is left
out, and so is black of another version than pyproject.toml names; a line says so. Without any tool: no function has 40
lines, no file 300; nothing edits the path of modules; what people run imports Python's own library, the package and
PyYAML alone; its version is the program's; and executables are the same lines but for what they start.

Where coverage.py is installed, too, at least 85 % of the package's lines have to be run: by its units, or else with
some of the stored runs of recipes/tests. The last line counts, and each unit counts, too.
"""

import sys
from collections.abc import Callable

from checks.harness import Counts, side_by_side
from checks.python import forms, tools, units


def counted(count: Callable[[Counts], None]) -> Counts:
    """What a part of this check counts."""
    own = Counts("python", prints=False)
    count(own)
    return own


def main(words: list[str]) -> int:
    counts = Counts("python")
    for own in side_by_side(counted, (units.count_units, tools.count_tools, forms.count_forms)):
        counts.add(own)
    return counts.end()


if __name__ == "__main__":
    sys.exit(main(sys.argv[1:]))
