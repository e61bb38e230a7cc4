"""What a release's file PROVED says: of which commit, kit, gate and sources its program is, and what its files are."""
import pathlib
import re
from collections.abc import Iterator, Mapping
from typing import NamedTuple

from releasing import ROOT
from releasing.installing import Refused
from releasing.scripts import checksum
from releasing.tracked import git
from releasing.tree import LIBRARY_FILES, is_current

OUT = ROOT / "crates/argo_judge/out"
PROGRAM, OBJECT, SOURCES, GATE = (OUT / f"argo_judge{ending}" for ending in ("", ".o", ".sources", ".gate"))
LIBRARY_SOURCES = ROOT / "crates/argo_judge_c/out/argo_judge_c.sources"
# The line of GATE: the program's checksum, the commit that the gate ran on, and the gate's last line.
GATE_LINE = re.compile(r"([0-9a-f]{64}) ([0-9a-f]{40}(?:-dirty)?) (\d+ passed, 0 failed)\n")
# What git describe puts after a commit.
DIRTY = "-dirty"
# The lines of PROVED after which it lists checksums, as sha256sum prints them: of the release's files, then of sources.
OF_FILES = "files: their checksums but that of PROVED, as sha256sum prints them\n"
OF_SOURCES = "sources: their checksums, as bin/prove --sources argo_judge prints them\n"
LISTED = re.compile(r"^files: .*\n((?:[0-9a-f]{64}  .+\n)*)sources: ", re.M)
DIFFERENCE = (
    "the gate's program was built by the proof, and linked as the kit does; bin/argo_judge is linked of the "
    "same object file after the proof, statically and with the commit in the text of --version"
)


class Gate(NamedTuple):
    """What the last whole run of the gate left: which program it was of, and on which commit it ran."""

    program: str
    commit: str
    last_line: str


def gate() -> Gate | None:
    """What the last whole run of the gate left, if it ended well."""
    line = GATE_LINE.fullmatch(GATE.read_text(encoding="utf-8")) if GATE.is_file() else None
    return Gate(*line.groups()) if line else None


def doubts_of(found: Gate, program: str, head: str) -> Iterator[str]:
    """Why a line of the gate isn't that of a program and of the commit HEAD."""
    where, commit = GATE.relative_to(ROOT), found.commit.removesuffix(DIRTY)
    if found.program != program:
        yield f"{where} is of another program, where a whole .ci/run leaves one of the program there"
    if commit != head:
        yield f"{where} is of the commit {commit[:12]}, where a whole .ci/run leaves one of HEAD, {head[:12]}"
    if found.commit.endswith(DIRTY):
        yield f"{where} is of uncommitted changes, where a whole .ci/run on what is committed leaves one of a commit"


def doubts() -> Iterator[str]:
    """Why this checkout has no release yet, a text for each reason."""
    found = gate()
    if found is None:
        yield f"{GATE.relative_to(ROOT)} has no last line of the gate, where a whole .ci/run leaves one"
    else:
        yield from doubts_of(found, checksum(PROGRAM.read_bytes()), git("rev-parse", "HEAD"))
    if git("status", "--porcelain", "--untracked-files=normal"):
        yield "git has uncommitted changes, where a release has none"


def check_files() -> None:
    """Refuses a checkout without the program, or without what the program was made of."""
    for file, option in ((PROGRAM, ""), (SOURCES, ""), (OBJECT, "--object ")):
        if not file.is_file():
            raise Refused(f"{file.relative_to(ROOT)} isn't there; bin/prove {option}argo_judge makes it")


def check_sources() -> None:
    """Refuses a program that isn't that of the sources as they are."""
    if not is_current("argo_judge"):
        raise Refused("the program isn't that of the sources as they are; bin/prove argo_judge proves and builds it")


def of_library(tree: pathlib.Path) -> dict[str, str]:
    """The lines on the C library, where the release has it."""
    if not (tree / LIBRARY_FILES[0]).is_file():
        return {"C library": "none"}
    sources = checksum(LIBRARY_SOURCES.read_bytes())
    return {
        **{f"sha256 of {path}": checksum((tree / path).read_bytes()) for path in LIBRARY_FILES},
        "sha256 of what bin/prove --sources argo_judge_c prints": sources,
    }


def proved(lines: Mapping[str, str], files: Mapping[str, str]) -> str:
    """The text of PROVED: these lines, then the checksums of the release's files by their paths, and of the sources."""
    text = "".join(f"{name}: {value}\n" for name, value in lines.items())
    listed = "".join(f"{files[path]}  {path}\n" for path in sorted(files))
    return text + OF_FILES + listed + OF_SOURCES + SOURCES.read_text(encoding="utf-8")


def files_of(text: str) -> dict[str, str]:
    """The checksums of a release's files by their paths, as the text of its PROVED lists them."""
    found = LISTED.search(text)
    lines = [line.partition("  ") for line in (found[1] if found else "").splitlines()]
    return {path: checksum for checksum, _, path in lines}
