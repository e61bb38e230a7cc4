"""The tables of CONTRIBUTING.md that say which files an addition to the language, to the commands or to metrics
touches: those in which what was added before, an example each, appears by name.

    tests/docs/additions            prints where a table isn't that of the sources, and fails there
    tests/docs/additions --write    writes the tables
"""

import pathlib
import re
import sys

from checks import ROOT
from checks.docs.made import held

PAGE = ROOT / "CONTRIBUTING.md"
HEAD = ["| Crate | Files |", "|---|---|"]
# The line above a table, and what its example is called in sources.
EXAMPLES = {
    "The files of `endsWith`:": r"(TextTest::|tests\.|[Pp]asses )EndsWith|^ *EndsWith,|\bendsWith\b",
    "The files of `in`:": r"(BinaryOperator::|binary\.)IsIn\b|(Binary::|binaries\.)In\b|^ *(IsIn|In),",
    "The files of `one`:": r"(Predicate::|predicates\.)One\b|^ *One,|one_means",
    "The files of `list`:": r"(Command::|commands\.)List\b|LIST_HELP|list_text|\blisting\b",
    "The files of `dryRun`:": r"\bdry\b|\bdryRun\b|\bDryRun\b|\bdry_run\b",
}
# Lines in which a name says nothing: comments, imports, and modules of a crate.
PASSED = re.compile(r"\s*(//|--|(pub )?(ghost )?use |(pub )?mod )")


def said(path: pathlib.Path) -> str:
    lines = path.read_text(encoding="utf-8").splitlines()
    return "\n".join(line for line in lines if not PASSED.match(line))


def sources() -> dict[pathlib.Path, str]:
    """What each file of the crates says, by its path."""
    files = [path for part in ("src", "specs", "proofs") for path in (ROOT / "crates").glob(f"*/{part}/**/*")]
    return {path: said(path) for path in sorted(files) if path.suffix in (".rt", ".antt")}


def rows(pattern: str, texts: dict[pathlib.Path, str]) -> list[str]:
    crates: dict[str, list[str]] = {}
    for path, text in texts.items():
        if re.search(pattern, text, flags=re.M):
            crate, *below = path.relative_to(ROOT / "crates").with_suffix("").parts
            crates.setdefault(crate, []).append(f"`{'/'.join(below)}`")
    return [f"| `{crate}` | {', '.join(files)} |" for crate, files in crates.items()]


def written(page: str) -> str:
    """The page with the tables that it has to have."""
    lines, texts = page.splitlines(), sources()
    for title, pattern in EXAMPLES.items():
        begin = lines.index(title) + 2
        end = next(place for place in range(begin, len(lines)) if not lines[place].startswith("|"))
        lines[begin:end] = [*HEAD, *rows(pattern, texts)]
    return "\n".join(lines) + "\n"


def main(words: list[str]) -> int:
    return held("additions", PAGE, written(PAGE.read_text(encoding="utf-8")), words, "tests/docs/additions")


if __name__ == "__main__":
    sys.exit(main(sys.argv[1:]))
