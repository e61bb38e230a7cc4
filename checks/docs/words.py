"""The words of README.md, CONTRIBUTING.md, CHANGELOG.md and docs/: how many a page may have, and which neither a page
nor a script has (checks/layout/words.py).

    tests/docs/words

What scripts write doesn't count as words of a page: the page of clauses, that of definitions, and the tables of what an
addition touches and of what proofs take. A script is a file in a folder of SCRIPTS that isn't data; of its text nothing
is left out, neither code nor comments. The last line counts pages and scripts, and the status is 0 where none failed.
"""

import os
import pathlib
import re
import sys
from collections.abc import Iterator

from checks import ROOT
from checks.docs.pages import PAGES
from checks.harness import Counts, named
from checks.layout import words as layout

MOST = {
    "README.md": 1145,
    "CONTRIBUTING.md": 1610,
    "CHANGELOG.md": 1130,
    "docs/use/recipes.md": 1670,
    "docs/use/formats.md": 3690,
    "docs/use/json.md": 875,
    "docs/use/explain.md": 970,
    "docs/use/backtest.md": 730,
    "docs/use/embed.md": 530,
    "docs/use/install.md": 800,
    "docs/use/lint.md": 1115,
    "docs/use/language.md": 3500,
    "docs/use/phases.md": 1220,
    "docs/use/shapes.md": 1000,
    "docs/use/troubleshooting.md": 1115,
    "docs/use/scaling.md": 700,
    "docs/use/test.md": 925,
    "docs/design/architecture.md": 2540,
    "docs/design/machine.md": 1600,
    "docs/design/verifier.md": 1200,
    "docs/DECISIONS.md": 3260,
    "docs/design/proof-cost.md": 1176,
    "docs/design/conformance.md": 1300,
    "docs/design/performance.md": 1080,
    "docs/trust/guarantees.md": 2630,
}
MADE = {"docs/trust/clauses.md", "docs/trust/definitions.md"}
# The tables that tests/docs/additions and benches/proofs write.
TABLES = re.compile(r"^\| Crate \| (?:Files|Seconds) \|.*?(?=^[^|])", re.M | re.S)
SCRIPTS = (
    ".ci",
    "benches",
    "bin",
    "building",
    "checks",
    "conformance",
    "examples",
    "packaging",
    "python",
    "recipes",
    "releasing",
    "tests",
)
# The list of these words itself.
LIST = "checks/layout/words.py"
# Folders of what is built, next to those that tools hide, and files of data by their endings or by their names: inputs,
# and what programs have to write.
BUILT = {"out", "__pycache__"}
DATA = {
    ".json",
    ".jsonl",
    ".run",
    ".check",
    ".list",
    ".status",
    ".stdout",
    ".refused",
    ".warnings",
    "stdout",
    "stderr",
    "status",
}


def faults_of_script(text: str) -> list[str]:
    without_marks = text.replace("`", " ")  # what is between two of them would be left out
    found = {(line, word): instead for line, word, instead in layout.found_in(without_marks)}
    lower = text.lower()
    if any(part in lower for part in layout.IN_NAMES):  # in most texts none is, and to look at each name takes long
        found |= {(line, name): instead for line, name, instead in layout.in_names(text)}
    return [f"line {line}: {word}: write {instead}" for (line, word), instead in sorted(found.items())]


def scripts() -> Iterator[pathlib.Path]:
    for folder in SCRIPTS:
        for path, folders, names in os.walk(ROOT / folder):
            folders[:] = [name for name in folders if name not in BUILT and not name.startswith(".")]
            files = [pathlib.Path(path, name) for name in names]
            yield from (file for file in files if not {file.name, file.suffix} & DATA and file != ROOT / LIST)


def faults_of(name: str, text: str) -> Iterator[str]:
    if name not in MOST:
        yield "a page without a number of words that it may have"
    elif (count := len(TABLES.sub("", text).split())) > MOST[name]:
        yield f"{count} words, where {MOST[name]} are the most"
    for line, word, instead in layout.found_in(text):
        yield f"line {line}: {word}: write {instead}"


def main(words: list[str]) -> int:
    counts, pages = Counts("words"), set(PAGES)
    for path in sorted({*PAGES, *scripts()}):
        text = path.read_text(encoding="utf-8")
        if named(path) in MADE:
            counts.case(named(path), [])
        else:
            counts.case(named(path), faults_of(named(path), text) if path in pages else faults_of_script(text))
    return counts.end()


if __name__ == "__main__":
    sys.exit(main(sys.argv[1:]))
