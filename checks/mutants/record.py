"""The record of the mutants that were refused: the file `tried`, a line for each crate that has some, with a hash of
all that they were tried on.

That is the crate's own src, specs and proofs, its mutants, and what can be seen of each crate below it: the definitions
and lemmas, and of the sources all but bodies, since a caller sees the contract of a function alone. Comments and blanks
count nowhere.
"""

import functools
import hashlib
import pathlib
import re
import threading
from collections.abc import Iterator

from building import crates as sources
from checks import ROOT

FOLDER = ROOT / "tests/mutants"
RECORD = FOLDER / "tried"
FUNCTION = re.compile(r"( *)(?:pub(?:\([\w:]+\))? )?(?:const |unsafe )*fn (\w+)")
KEEPING = threading.Lock()
COMMENT = {".rt": r"\s*//", ".antt": r"\s*--"}


def uses() -> dict[str, list[str]]:
    """The crates of this repository that each crate uses, lowest first."""
    return sources.uses_by_crate()


def edits_of(crate: str) -> list[pathlib.Path]:
    return sorted((FOLDER / crate).glob("*.edit"))


def crates() -> list[str]:
    """The crates that have mutants here."""
    return [crate for crate in uses() if edits_of(crate)]


def functions(text: str) -> Iterator[tuple[str, int, int]]:
    """Each function of a source: its name, and its first and last line, counted from one, attributes and all."""
    lines = text.splitlines()
    for number, line in enumerate(lines):
        found = FUNCTION.match(line)
        if not found:
            continue
        first = number
        while first and lines[first - 1].lstrip().startswith(("#[", "///")):
            first -= 1
        end = next((at for at in range(number, len(lines)) if lines[at].startswith(found[1] + "}")), number)
        yield found[2], first + 1, end + 1


def without_bodies(text: str) -> str:
    """A source without the bodies of its functions: a body begins after the brace that ends the signature's line, or
    that is a line of its own after a contract."""
    kept, ends = [], None
    indent = None
    for line in text.splitlines():
        if ends is not None:
            ends = None if line == ends else ends
            continue
        kept.append(line)
        if found := FUNCTION.match(line):
            indent = found[1]
        if indent is None:
            continue
        if (
            line == indent + "{"
            or line.endswith(" {")
            and line.startswith((f"{indent})", f"{indent}fn", f"{indent}pub", f"{indent}const", f"{indent}unsafe"))
        ):
            ends, indent = indent + "}", None
        elif line.endswith((";", "}")) and FUNCTION.match(line):
            indent = None
    return "\n".join(kept)


def meaning(path: pathlib.Path, is_own: bool = True) -> str:
    """What counts of a file: all but comments and blanks, and where it is of a crate below, all but bodies. A text that
    continues after a backslash at a line's end is one text, however it is broken."""
    text = path.read_text(encoding="utf-8")
    if path.suffix not in COMMENT:
        return text
    if path.suffix == ".rt":
        text = text if is_own else without_bodies(text)
        text = re.sub(r"\\\n\s*", "", text)
    lines = [line for line in text.splitlines() if not re.match(COMMENT[path.suffix], line)]
    return re.sub(r"\s+", "", "".join(lines))


def files_of(crate: str, is_own: bool) -> list[pathlib.Path]:
    """The files of a crate that count: of one below, the proofs of its functions don't."""
    folder = ROOT / "crates" / crate
    files = [path for part in ("src", "specs") for path in (folder / part).rglob("*")]
    files += (folder / "proofs").rglob("*") if is_own else (folder / "proofs").glob("*")
    return sorted(path for path in files if path.is_file())


@functools.cache
def seen_of(crate: str, is_own: bool) -> str:
    """A hash of what counts of a crate."""
    whole = hashlib.sha256()
    for path in files_of(crate, is_own):
        whole.update(f"{path.relative_to(ROOT)}\n{meaning(path, is_own)}\n".encode())
    return whole.hexdigest()


def hash_of(crate: str) -> str:
    """A hash of all that the mutants of a crate are tried on, and of them."""
    below = sorted(sources.below(crate, uses()) - {crate})
    parts = [seen_of(crate, True)] + [seen_of(name, False) for name in below]
    parts += [f"{edit.name}\n{edit.read_text(encoding='utf-8')}" for edit in edits_of(crate)]
    return hashlib.sha256("\n".join(parts).encode()).hexdigest()


def recorded() -> dict[str, str]:
    if not RECORD.is_file():
        return {}
    return dict(line.split() for line in RECORD.read_text(encoding="utf-8").splitlines())


def due() -> list[str]:
    """The crates whose record is out of date."""
    record = recorded()
    return [crate for crate in crates() if record.get(crate) != hash_of(crate)]


def keep(crate: str, tried_on: str) -> None:
    with KEEPING:
        record, known = recorded() | {crate: tried_on}, crates()
        lines = [f"{name} {record[name]}\n" for name in sorted(record) if name in known]
        RECORD.write_text("".join(lines), encoding="utf-8")
