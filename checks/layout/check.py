"""Whether each file of code is as `rt fmt` lays it out, no line of it or of a file of definitions is wider than 120
columns, but for the lines that name tactics, imports and what to unfold, no contract of a public function has more than
six lines (contracts.py), and none answers out of memory by itself (memory.py): crates of the suite and of tests, which
judge nothing, may do that. No comment and no name has a word of words.py.

    .ci/layout                looks at all files
    .ci/layout --contracts    prints each public function with its contract, by crate and file: what two states of the
                              sources print can be compared by `diff`
"""

import pathlib
import re
import subprocess
import sys
from collections.abc import Iterable, Iterator
from typing import TypeAlias

from checks import ROOT
from checks.harness import Counts, named
from checks.layout import contracts, memory
from checks.layout import words as unwanted

# What is wrong with a file, with its line.
Found: TypeAlias = tuple[int, str]
WIDEST = 120


def formatter() -> pathlib.Path:
    """The kit's formatter: `bin/rattle` in the folder of the page that `rt doc` names."""
    page = subprocess.run(["rt", "doc"], capture_output=True, text=True, check=True).stdout.strip()
    return pathlib.Path(page).parent / "bin" / "rattle"


OF_THE_SUITE = {"cases_of_values", "cases_of_conditions", "conformance", "tests_of_runs"}

# A line that may be wider.
UNBROKEN = re.compile(r" *((pub )?(ghost )?use |#\[tactic\(|unfolding )")


def wide(text: str) -> list[int]:
    return [
        number for number, line in enumerate(text.splitlines(), 1) if len(line) > WIDEST and not UNBROKEN.match(line)
    ]


COMMENT = {
    ".rt": re.compile(r"""^(?:[^"/]|"(?:[^"\\]|\\.)*"|/(?!/))*(//.*)$""", re.M),
    ".antt": re.compile(r"""^(?:[^"-]|"(?:[^"\\]|\\.)*"|-(?!-))*(--(?:[ -].*)?)$""", re.M),
}


# Texts and comments, which have no names.
TEXT = {
    ".rt": re.compile(r""""(?:[^"\\]|\\.)*"|'(?:[^'\\\n]|\\[^\n]*?)'|//[^\n]*""", re.S),
    ".antt": re.compile(r""""(?:[^"\\]|\\.)*"|(?<!\S)--.*""", re.M),
}


def wordy(path: pathlib.Path, text: str) -> Iterator[Found]:
    """The lines whose comment or name has a word that it shouldn't have, each with what to write."""
    for comment in COMMENT[path.suffix].finditer(text):
        for _, word, instead in unwanted.found_in(comment[1]):
            yield text.count("\n", 0, comment.start()) + 1, f"{word}: write {instead}"
    code = TEXT[path.suffix].sub(lambda text: "\n" * text[0].count("\n"), text)
    for number, name, instead in unwanted.in_names(code):
        yield number, f"{name}: write {instead}"


def is_of_the_program(path: pathlib.Path) -> bool:
    """Whether a file belongs to the program, or to a crate that it uses."""
    return path.relative_to(ROOT).parts[1] not in OF_THE_SUITE


def faults_of_source(path: pathlib.Path, text: str) -> Iterator[Found]:
    """What is wrong with a source of a crate, each with its line."""
    yield from ((number, f"a line of over {WIDEST} columns") for number in wide(text))
    for number, name, count in contracts.too_long(text):
        yield number, f"a contract of {count} lines, that of {name}"
    if is_of_the_program(path):
        yield from ((number, "out of memory that no call answered") for number in memory.lines_made_up(text))
    yield from wordy(path, text)


def faults_of_definitions(path: pathlib.Path, text: str) -> Iterator[Found]:
    """What is wrong with a file of definitions or of proofs; proofs may be wide."""
    if path.relative_to(ROOT).parts[2] == "specs":
        yield from ((number, f"a line of over {WIDEST} columns") for number in wide(text))
    yield from wordy(path, text)


def main(words: list[str]) -> int:
    if words == ["--contracts"]:
        contracts.show()
        return 0
    counts, sources = Counts("layout"), sorted((ROOT / "crates").glob("*/src/**/*.rt"))
    formatted = subprocess.run([formatter(), "fmt", "--check", *sources], cwd=ROOT, check=False)
    counts.expect(formatted.returncode == 0, "a source isn't as `rt fmt` lays it out")
    for path in sources:
        found = faults_of_source(path, path.read_text(encoding="utf-8"))
        counts.expect(*without_faults(path, found))
    for path in sorted(path for part in ("specs", "proofs") for path in (ROOT / "crates").glob(f"*/{part}/**/*.antt")):
        found = faults_of_definitions(path, path.read_text(encoding="utf-8"))
        counts.expect(*without_faults(path, found))
    return counts.end()


def without_faults(path: pathlib.Path, found: Iterable[Found]) -> tuple[bool, str]:
    """Whether nothing was found in a file, and the lines that say what was."""
    lines = [f"{named(path)}:{number}: {fault}" for number, fault in found]
    return not lines, "\n".join(lines)


if __name__ == "__main__":
    sys.exit(main(sys.argv[1:]))
