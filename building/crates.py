"""The crates as crates.txt names them: which use which, and of what they are proved and built."""

import hashlib
import pathlib
import re
import shutil
from collections.abc import Collection, Container

from building import ROOT, plan

# The folders of a crate that it is proved and built of.
SOURCES = ("src", "specs", "proofs")


def uses_by_crate() -> plan.Uses:
    """The crates of this repository that each crate uses."""
    uses = {}
    for line in (ROOT / "crates.txt").read_text(encoding="utf-8").splitlines():
        name, _, libraries = line.split("#")[0].partition(":")
        if name.strip():
            uses[name.split()[0]] = [it for it in libraries.split() if (ROOT / "crates" / it).is_dir()]
    return uses


def is_library(name: str) -> bool:
    """Whether a crate is a static library, for C."""
    lines = (ROOT / "crates.txt").read_text(encoding="utf-8").splitlines()
    return any(line.startswith(f"{name} staticlib:") for line in lines)


def built_of(name: str) -> str:
    """The name of the file that the kit builds of a crate."""
    return f"lib{name}.a" if is_library(name) else name


def below(name: str, uses: plan.Uses) -> set[str]:
    found = {name}
    for library in uses[name]:
        found |= below(library, uses)
    return found


def copy_crates(names: Collection[str], copy: pathlib.Path) -> None:
    shutil.copy2(ROOT / "HANDLES", copy)
    (copy / "crates.txt").write_text(lines_of(names, ROOT), encoding="utf-8")
    for name in names:
        shutil.copytree(
            ROOT / "crates" / name, copy / "crates" / name, ignore=shutil.ignore_patterns("out", "must-fail")
        )


def first_word(line: str) -> str:
    """The crate that a line of crates.txt is of; nothing of another line."""
    return re.split(r"\W", line, maxsplit=1)[0]


def lines_of(names: Container[str], root: pathlib.Path) -> str:
    """The lines of crates.txt that are of these crates."""
    lines = (root / "crates.txt").read_text(encoding="utf-8").splitlines(keepends=True)
    return "".join(line for line in lines if first_word(line) in names)


def checksums(names: Collection[str], root: pathlib.Path) -> str:
    """A line for each file that the crates are proved and built of, as sha256sum writes it; crates.txt by its lines of
    these crates."""
    files = [path for name in names for part in SOURCES for path in (root / "crates" / name / part).rglob("*")]
    contents = {str(path.relative_to(root)): path.read_bytes() for path in files if path.is_file()}
    contents["HANDLES"] = (root / "HANDLES").read_bytes()
    contents["crates.txt"] = lines_of(names, root).encode("utf-8")
    return "".join(f"{hashlib.sha256(contents[name]).hexdigest()}  {name}\n" for name in sorted(contents))


def own_and_kit(name: str) -> tuple[list[str], list[str]]:
    """The libraries that a crate names: those of this repository, and those of the kit."""
    lines = (ROOT / "crates.txt").read_text(encoding="utf-8").splitlines()
    named = next(line for line in lines if first_word(line) == name).partition(":")[2].split()
    own = uses_by_crate()[name]
    return own, [it for it in named if it not in own]
