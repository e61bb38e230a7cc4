"""Which public functions have a contract of over six lines.

The lines of a contract are those of its clauses `requires`, `ensures` and `ghost`, with the lines that go on; comments
and empty lines between them are none. It reads sources as `rt fmt` lays them out: a clause begins a line, and the
function's body, if it has one, a line of its own. Methods of public traits are public.
"""

import re
import textwrap
from collections.abc import Iterator

from checks import ROOT
from checks.harness import named

MOST = 6
FUNCTION = re.compile(r"( *)pub (?:(?:const|unsafe) )*fn (\w+)")
METHOD = re.compile(r"( +)(?:(?:const|unsafe) )*fn (\w+)")
TRAIT = re.compile(r"pub (?:unsafe )?trait (\w+)")
IMPL = re.compile(r"impl\b(?:<[^{]*?>)? (?:.* for )?(\w+)")
CLAUSE = re.compile(r" *(requires|ensures|ghost)\b")


def contract_at(lines: list[str], first: int, margin: str) -> list[str]:
    """The lines of the clauses of a function, by the number of its first line and that line's indentation."""
    clauses: list[str] = []
    for place in range(first, len(lines)):
        line = lines[place]
        begins_body = place > first and line.startswith(margin + "{")
        if begins_body or not clauses and not CLAUSE.match(line) and line.endswith(("{", "{}", ";")):
            break
        if not line.strip() or line.lstrip().startswith("//"):
            continue
        if clauses or CLAUSE.match(line):
            clauses.append(line)
            if line.endswith(";"):
                break
    return clauses


def contracts(text: str) -> Iterator[tuple[int, str, list[str]]]:
    """Each public function of a file: the line that it begins in, its name with its type's, and its contract's
    lines."""
    lines = text.splitlines()
    owner, in_trait = None, False
    for number, line in enumerate(lines):
        if line.startswith("}"):
            owner, in_trait = None, False
        trait, impl = TRAIT.match(line), IMPL.match(line)
        if begun := trait or impl:
            owner, in_trait = begun[1], bool(trait)
        found = FUNCTION.match(line) or in_trait and METHOD.match(line)
        if found:
            name = f"{owner}::{found[2]}" if owner and found[1] else found[2]
            yield number + 1, name, contract_at(lines, number, found[1])


def too_long(text: str) -> list[tuple[int, str, int]]:
    """The public functions of a file whose contract is too long, each with its line and how many lines it has."""
    return [(number, name, len(contract)) for number, name, contract in contracts(text) if len(contract) > MOST]


def show() -> None:
    """Prints each public function with its contract, by crate and file."""
    for path in sorted((ROOT / "crates").glob("*/src/**/*.rt")):
        for _, name, contract in contracts(path.read_text(encoding="utf-8")):
            print(f"{named(path)} {name}", textwrap.dedent("\n".join(contract)), "", sep="\n")
