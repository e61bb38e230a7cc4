"""docs/trust/clauses.md: each public call with the clauses of its contract and the mutants that attack its promise.

    tests/docs/clauses            compares the page with the sources, and fails where it is another
    tests/docs/clauses --write    writes it

A call's words are the first sentence of its docstring. A clause that names a record has the record's fields. A mutant
(`tests/mutants/NAME/*.edit`, and the few in `crates/NAME/must-fail`) is with the call that `tests/docs/mutants` names
for it, and otherwise with the function whose text it changes.
"""

import pathlib
import re
import sys
from collections.abc import Iterable, Iterator
from typing import Any

from building.crates import first_word
from checks import ROOT
from checks.docs.made import held

CRATES = ROOT / "crates"
PAGE = ROOT / "docs" / "trust" / "clauses.md"
MUTANTS = ROOT / "tests" / "docs" / "mutants"
HEAD = """# Clauses

`tests/docs/clauses --write` makes this page from the sources, and the gate compares. Each row is a public call: what it
does, the clauses of its contract by their names, and the mutants: edits, mostly of code, that the prover must refuse. A
clause without a name is its *result*; in brackets are the fields of the record that a clause names; *from_gives* is
that of a conversion. The words are those of the call's docstring, which promise nothing by themselves. What a call
requires is not listed. Where a call takes memory it may return out of memory instead. [Guarantees](guarantees.md) says
what these add up to.
"""
FUNCTION = re.compile(
    r"(?P<indent> *)(?P<public>pub(?:\([^)]*\))? )?(?:unsafe )?(?:const )?(?:extern \S+ )?fn (?P<name>\w+)"
)
OWNER = re.compile(r"impl(?:<.*?>)? (?:(?P<trait>.*?) for )?(?P<type>\w+)")
TRAIT = re.compile(r"pub trait (?P<type>\w+)")
CLAUSE = re.compile(r"\bensures (?:(\w+) )?\{\s*((?:\w+\.)*\w+)?")
GIVES = re.compile(r"\bghost from_gives\b")
RECORD = re.compile(r"pub record (\w+)")
# What a line of an item that is no function begins with.
ITEMS = ("pub struct", "struct", "pub enum", "enum", "impl", "const")
FIELD = re.compile(r"  pub (\w+) :")
LINK = re.compile(r"\[(`[^`]+`)\](?:\([^)]*\))?")


def records_of() -> dict[tuple[str, ...], Any]:
    """The fields of each record of specs/ and whether it speaks of a result, by crate, file and name."""
    found: dict[tuple[str, ...], Any] = {}
    for path in CRATES.glob("*/specs/**/*.antt"):
        inside = path.relative_to(CRATES).with_suffix("").parts
        key = None
        for line in path.read_text(encoding="utf-8").splitlines():
            if match := RECORD.match(line):
                key = (inside[0], ".".join(inside[2:]), match[1])
                found[key] = [False, []]
            elif line and not line.startswith((" ", "--")):
                key = None
            elif key and (match := FIELD.match(line)):
                found[key][1].append(match[1])
            if key and not found[key][1] and "(result :" in line:
                found[key][0] = True
    return found


RECORDS = records_of()
IMPORT = re.compile(r"ghost use Rattle\.(\w+)\.specs\.([\w.]+)\.\{([^}]*)\}")


def fields_in(text: str, head: str, is_named: object) -> list[str]:
    """The fields of the record that a clause names, as the file's imports resolve it."""
    for crate, file, names in IMPORT.findall(text):
        if head in [it.strip() for it in names.split(",")]:
            of_result, fields = RECORDS.get((crate, file, head), (False, []))
            return fields if of_result or not is_named else []
    return []


class Function:
    def __init__(self, name: str, is_public: bool, first: int, words: str) -> None:
        self.name, self.is_public, self.words = name, is_public, words
        self.first = self.last = first
        self.clauses: list[str] = []
        self.mutants: list[str] = []


def seen_from_outside(src: pathlib.Path) -> tuple[set[str], set[str]]:
    """The modules that are public, and the names that lib.rt hands on."""
    text = (src / "lib.rt").read_text(encoding="utf-8") if (src / "lib.rt").is_file() else ""
    modules = set(re.findall(r"^pub mod (\w+);", text, re.M))
    handed = set()
    for used in re.findall(r"^pub use ([^;]+);", text, re.M):
        listed = re.search(r"\{([^}]*)\}", used)
        handed |= {it.strip() for it in listed[1].split(",")} if listed else {used.split("::")[-1].strip()}
    return modules, handed


class Source:
    """A source that is read line by line: its functions, each with its clauses."""

    def __init__(self, path: pathlib.Path, seen: tuple[set[str], set[str]]) -> None:
        self.text = path.read_text(encoding="utf-8")
        inside = path.parts[path.parts.index("src") + 1 :]
        modules, self.handed = seen
        self.module = "::".join(inside).removesuffix(".rt")
        self.is_open = inside[0].removesuffix(".rt") in modules | {"lib"}
        self.hidden = set(re.findall(r"^(?:pub\(crate\) )?(?:struct|enum) (\w+)", self.text, re.M))
        self.owner: str | None = None
        self.made: re.Match[str] | None = None
        self.by_trait = self.in_contract = False
        self.words: list[str] = []
        self.found: list[Function] = []

    def enter(self, line: str) -> None:
        """Takes a line as one that a type's or a trait's functions begin or end with."""
        if match := OWNER.match(line):
            self.owner, self.by_trait = match["type"], bool(match["trait"])
            self.made = re.match(r"From<(.*)>$", match["trait"] or "")
        elif match := TRAIT.match(line):
            self.owner, self.by_trait, self.made = match["type"], True, None
        elif line.startswith("}"):
            self.owner, self.by_trait, self.made = None, False, None

    def begin(self, number: int, line: str) -> None:
        """Takes a line as the first one of a function, or of a conversion, if it is that."""
        owner, is_shown = self.owner, self.owner not in self.hidden
        if self.made and GIVES.search(line):
            is_public = (self.is_open or owner in self.handed) and is_shown
            self.found.append(Function(f"{owner}::from({self.made[1]})", is_public, number, ""))
            self.found[-1].clauses.append("from_gives")
        match = FUNCTION.match(line)
        if match and not (self.made and match["name"] == "from"):
            name = f"{owner}::{match['name']}" if owner else f"{self.module}::{match['name']}"
            is_public = match["public"] == "pub " or self.by_trait
            is_public = is_public and (self.is_open or (owner or match["name"]) in self.handed) and is_shown
            self.found.append(Function(name.removeprefix("lib::"), is_public, number, sentence_of(self.words)))
            self.in_contract = True

    def extend(self, number: int, line: str) -> None:
        """Takes a line as one of the function that was begun last, with clauses where it is of its contract."""
        last = self.found[-1]
        last.last = number
        for name, head in CLAUSE.findall(line) if self.in_contract else ():
            fields = fields_in(self.text, head, name)
            shown = name or ("" if fields else "*result*")
            last.clauses.append(f"{shown} ({', '.join(fields)})".strip() if fields else shown)

    def functions(self) -> list[Function]:
        for number, line in enumerate(self.text.splitlines()):
            self.enter(line)
            stripped = line.strip()
            if stripped.startswith("///"):
                self.words.append(stripped[3:].strip())
                continue
            self.begin(number, line)
            if self.found and (self.owner or not stripped.startswith(ITEMS)):
                self.extend(number, line)
            ends = re.search(r"[;{]$", stripped) and not stripped.startswith(("ensures", "requires"))
            if stripped in ("{", "{}") or ends:
                self.in_contract = False  # a body has begun, whose closures have contracts of their own
            if stripped and not stripped.startswith("#["):
                self.words = []
        return self.found


def sentence_of(words: list[str]) -> str:
    text = LINK.sub(r"\1", " ".join(words).split("  ")[0])
    text = re.split(r"(?<=[.])\s+(?=[A-Z`#])", text.split(" # ")[0])[0]
    return text.replace("|", "\\|").rstrip(".")


def mutants_of(crate: str) -> dict[str, pathlib.Path]:
    """The files of a crate's mutants, by their names."""
    folders = CRATES / crate / "must-fail", ROOT / "tests" / "mutants" / crate
    return {path.stem: path for folder in folders for path in folder.glob("*.edit")}


def edits_of(crate: str) -> Iterator[tuple[str, str, str]]:
    for _, path in sorted(mutants_of(crate).items()):
        lines = path.read_text(encoding="utf-8").splitlines()
        file = next(line.removeprefix("file: ") for line in lines if line.startswith("file: "))
        old = next(line.removeprefix("old: ") for line in lines if line.startswith("old: "))
        yield path.stem, file, old


def calls_of_mutants() -> dict[tuple[str, ...], str]:
    """The call that each mutant attacks, by its crate and name."""
    lines = MUTANTS.read_text(encoding="utf-8").splitlines()
    return {tuple(line.split()[:2]): line.split(None, 2)[2] for line in lines}


def section_of(crate: str, called: dict[tuple[str, ...], str]) -> Iterator[str]:
    src = CRATES / crate / "src"
    seen = seen_from_outside(src)
    by_file = {path: Source(path, seen).functions() for path in sorted(src.glob("**/*.rt"))}
    shown = {it.name: it for functions in by_file.values() for it in functions if it.is_public and it.clauses}
    short = {it.name.rpartition("::")[2]: it for it in shown.values() if it.name[0].islower()}
    others: dict[str, list[str]] = {}
    for name, file, old in edits_of(crate):
        path = CRATES / crate / file
        line = path.read_text(encoding="utf-8").split(old)[0].count("\n")
        owner = next((it for it in by_file.get(path, ()) if it.first <= line <= it.last), None)
        attacked = called.get((crate, name), "")
        call = shown.get(attacked) or short.get(attacked) or shown.get(owner.name if owner else "")
        if call:
            call.mutants.append(name)
        else:
            others.setdefault(f"`{owner.name}`" if owner else f"a constant of `{file}`", []).append(name)
    for it in shown.values():
        yield f"| `{it.name}` | {it.words} | {listed(it.clauses)} | {listed(it.mutants)} |"
    for name, names in others.items():
        yield f"| *inside* {name} | | | {listed(names)} |"


def listed(names: Iterable[str]) -> str:
    return ", ".join(dict.fromkeys(names))


def page() -> str:
    parts, called = [HEAD], calls_of_mutants()
    for line in (ROOT / "crates.txt").read_text(encoding="utf-8").splitlines():
        crate = first_word(line)
        rows = list(section_of(crate, called)) if crate else []
        if rows:
            parts += [
                f"## `{crate}`",
                "",
                "| Call | What it does | Clauses | Mutants |",
                "|---|---|---|---|",
                *rows,
                "",
            ]
    return "\n".join(parts)


def strangers() -> Iterator[str]:
    """The lines of tests/docs/mutants that name no mutant."""
    for crate, name in calls_of_mutants():
        if name not in mutants_of(crate):
            yield f"{crate} {name}"


def main(words: list[str]) -> int:
    strange = (f"tests/docs/mutants: no such mutant: {line}" for line in strangers())
    return held("clauses", PAGE, page(), words, "tests/docs/clauses", strange)


if __name__ == "__main__":
    sys.exit(main(sys.argv[1:]))
