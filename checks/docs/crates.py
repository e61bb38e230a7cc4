"""The table of crates in docs/design/architecture.md, whose sections and first two columns are those of crates.txt.

    tests/docs/crates            prints where the table isn't that of crates.txt, and fails there
    tests/docs/crates --write    writes these columns; what a crate is for and what is used of it stays
"""

import re
import sys
from collections.abc import Iterator

from checks import ROOT
from checks.docs.made import held

PAGE = ROOT / "docs" / "design" / "architecture.md"
HEAD = ["| Crate | Uses | For | What the crate above uses |", "|---|---|---|---|"]
NOTHING = "nothing is said of it"
ROW = re.compile(r"\| `(\w+)` \| [^|]* \| (.*) \|")


def sections() -> list[tuple[str, list[tuple[str, list[str]]]]]:
    """The sections of crates.txt, each with its crates and what these use."""
    found: list[tuple[str, list[tuple[str, list[str]]]]] = []
    for line in (ROOT / "crates.txt").read_text(encoding="utf-8").splitlines()[1:]:
        if line.startswith("# "):
            found.append((line[2:], []))
        elif line:
            name, _, libraries = line.partition(":")
            found[-1][1].append((name.split()[0], libraries.split()))
    return found


def rows(said: dict[str, str]) -> Iterator[str]:
    """The rows of the table, by what is said of each crate."""
    for title, crates in sections():
        yield f"| **{title}** | | | |"
        for name, libraries in crates:
            yield f"| `{name}` | {', '.join(libraries) or 'none'} | {said.get(name, f'**{NOTHING}** | ')} |"


def written(page: str) -> str:
    """The page with the table that it has to have."""
    lines = page.splitlines()
    begin = lines.index(HEAD[0])
    end = next(place for place in range(begin, len(lines)) if not lines[place].startswith("|"))
    said = {match[1]: match[2] for line in lines[begin:end] if (match := ROW.fullmatch(line))}
    return "\n".join([*lines[:begin], *HEAD, *rows(said), *lines[end:]]) + "\n"


def main(words: list[str]) -> int:
    wanted = written(PAGE.read_text(encoding="utf-8"))
    silent = ["docs/design/architecture.md: nothing is said of a crate"] * (NOTHING in wanted)
    return held("crates", PAGE, wanted, words, "tests/docs/crates", silent)


if __name__ == "__main__":
    sys.exit(main(sys.argv[1:]))
