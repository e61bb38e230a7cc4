"""Runs README's first command, `bin/try`, as a stranger would: from another folder, on a document with a run that
fails.

    tests/docs/look

What it writes and its status have to be the program's, after one line on standard error that says that nothing is
proved. It takes as long as compiling the sources. The last line has the counts, and the status is 0 where none failed.
"""

import sys
import tempfile

from checks import ROOT
from checks.harness import Counts, started

EXAMPLE = ROOT / "examples/bundles/cloudwatch-values"
SAID = "try: compiling the sources, which takes two to three minutes; nothing is proved\n"


def main(words: list[str]) -> int:
    document, report = (EXAMPLE.with_suffix(ending).read_text(encoding="utf-8") for ending in (".json", ".run"))
    with tempfile.TemporaryDirectory() as folder:
        ended = started([ROOT / "bin/try", "run", "--plain"], document.encode(), cwd=folder)
    counts = Counts("look")
    counts.expect(ended == (1, report, SAID), f"bin/try run --plain: {ended}")
    return counts.end()


if __name__ == "__main__":
    sys.exit(main(sys.argv[1:]))
