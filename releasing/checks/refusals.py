"""Tries what bin/release refuses in a copy of this checkout, whatever the gate said; a trial, too."""
import pathlib

from releasing import linking
from releasing.checks.archives import in_copy
from releasing.checks.starts import Tried, ended
from releasing.evidence import OBJECT, PROGRAM
from releasing.installing import Refused
from releasing.stamps import PLACEHOLDER, stamp_of


def of_stamps() -> Tried:
    """The stamp is as long as what it replaces, whatever the kit is called."""
    commit = "0123456789" * 4
    for kit, text in (
        ("rattle-kit-13f", f"(of commit {commit}, rattle-kit-13f)"),
        ("rattle-kit-1300", f"(of commit {commit[:39]}, rattle-kit-1300)"),
        ("rattle-kit-9", f"(of commit {commit}, rattle-kit-9  )"),
    ):
        yield f"the stamp of {kit}", stamp_of(commit, kit) == text
    try:
        yield "a kit whose name leaves no commit is refused", stamp_of(commit, "k" * 50) == ""
    except Refused:
        yield "a kit whose name leaves no commit is refused", True


def refusal(copy: pathlib.Path, *words: str) -> str:
    """The line with which the release of a copy is refused."""
    found = ended([copy / "bin/release", *words, "--to", copy / "dist"])
    is_one_line = found.stdout.startswith("release: ") and found.stdout.count("\n") == 1
    return found.stdout if found.returncode == 2 and is_one_line else ""


def of_refusals(copy: pathlib.Path) -> Tried:
    """A trial, too, is of the sources, and of the object file that the program was linked of."""
    program, object_file = in_copy(copy, PROGRAM), in_copy(copy, OBJECT)
    source = copy / "crates/argo_judge/src/main.rt"
    before = source.read_bytes()
    source.write_bytes(before + b"// changed\n")
    yield "changed sources are refused", "sources as they are" in refusal(copy, "--trial")
    source.write_bytes(before)
    other = object_file.read_bytes().replace(PLACEHOLDER.encode(), b"!" * len(PLACEHOLDER))
    object_file.write_bytes(other)
    yield "another object file is refused", "byte for byte" in refusal(copy, "--trial")
    linking.link_as_the_kit_does(object_file, program)
    yield "an object file without the place of the stamp is refused", "0 times" in refusal(copy, "--trial")
    object_file.unlink()
    yield "no object file is refused", "--object" in refusal(copy, "--trial")
