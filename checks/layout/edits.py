"""Looks whether .ci/layout refuses what it has to: public contracts of more than six lines, and code that answers out
of memory by itself.

    tests/contracts/check
    tests/memory/check

A line of edits.jsonl is an edit after which a contract has seven lines or more, or a body answers out of memory for
something else. The last line counts the edits, and the status is 0 where each was refused and the file was good before.
"""

import sys
from collections.abc import Callable, Iterator
from typing import Any

from checks import ROOT
from checks.data import cases_of
from checks.harness import Counts
from checks.layout.contracts import too_long
from checks.layout.memory import lines_made_up

# What refuses the edits of each folder in tests.
REFUSES: dict[str, Callable[[str], list[Any]]] = {"contracts": too_long, "memory": lines_made_up}


def fault(edit: dict[str, str], refused: Callable[[str], list[Any]]) -> Iterator[str]:
    """What is wrong with how an edit was judged."""
    text = (ROOT / edit["file"]).read_text(encoding="utf-8")
    if text.count(edit["old"]) != 1:
        yield "the text to replace isn't in the file exactly once"
    elif refused(text):
        yield "the file is refused as it is"
    elif not refused(text.replace(edit["old"], edit["new"])):
        yield "the edit is taken"


def main(words: list[str]) -> int:
    [name] = words
    counts = Counts(name)
    for edit in cases_of(ROOT / "tests" / name / "edits.jsonl"):
        about = edit["with"] if "with" in edit else f"out of memory for {edit['for']}"
        counts.case(f"{edit['file']}, {about}", fault(edit, REFUSES[name]))
    return counts.end()


if __name__ == "__main__":
    sys.exit(main(sys.argv[1:]))
