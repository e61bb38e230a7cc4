"""Refuses memory to a test of boards, growth by growth: a look that was refused says that it is out of memory.

    tests/faults/boards [PROGRAM]

PROGRAM is the built tests of crates/tests_of_runs, or those last built. The test posts a number, looks at its run,
posts the number again, looks again, and closes the board. A run in which a growth is refused ends with another text
than the test wants; this text has the looks' answers. The last line has the counts, and the status is 0 where none
failed.
"""

import sys
import tempfile

from checks import ROOT
from checks.faults.library import Library
from checks.harness import Counts, built, started

BUILT = ROOT / "crates/tests_of_runs/out/tests_of_runs_tests"
TEST = "boards::one_seat"
SECONDS = 60
POSTED = "Ok(Posted { place: 0, effect: Closed(Successful) })"
SEEN = "Ok(Snapshot { phase: Successful, metrics: [Successful], posts: [1] })"
REFUSED = "Err(OutOfMemory)"
# What the calls before a look answer, that look, and what a look answers that comes after one that was refused.
LOOKS = ([POSTED, REFUSED, "Err(Double)", SEEN], [POSTED, SEEN, "Err(Double)", REFUSED])


def said(program, library, growth):
    """What a run says whose growth of this number is refused, or None where none was."""
    with library.asked(REFUSE_CALL=growth) as (given, has_refused):
        ended = started([program, TEST], seconds=SECONDS, **given)
        return (ended.output + ended.errors).splitlines() if has_refused() else None


def has_lines(text, lines):
    """Whether a text has these lines, one directly after the other."""
    return any(text[at : at + len(lines)] == lines for at in range(len(text)))


def main(words: list[str]) -> int:
    program, counts = built(words, BUILT), Counts("faults of boards")
    texts, growth = [], 1
    with tempfile.TemporaryDirectory() as folder:
        library = Library(folder)
        while (text := said(program, library, growth)) is not None:
            texts.append(text)
            growth += 1
    for look in LOOKS:
        is_found = any(has_lines(text, look) for text in texts)
        counts.expect(is_found, f"boards: of {len(texts)} refusals none is of the look in {look}")
    return counts.end()


if __name__ == "__main__":
    sys.exit(main(sys.argv[1:]))
