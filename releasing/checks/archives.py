"""What the checks of releases read: a copy of this checkout, an archive that was made, and what its PROVED says."""
import pathlib
import shutil
import subprocess
from typing import NamedTuple

from releasing import ROOT
from releasing.checks.starts import ended


def in_copy(copy: pathlib.Path, path: pathlib.Path) -> pathlib.Path:
    return copy / path.relative_to(ROOT)


def copy_of_checkout(copy: pathlib.Path) -> None:
    """A copy of this checkout with its uncommitted changes, its history, and what is built."""
    subprocess.run(["git", "clone", "--quiet", "--shared", "--no-checkout", ROOT, copy], check=True)
    subprocess.run(["git", "-C", copy, "reset", "--quiet"], check=True)
    listed = subprocess.run(
        ["git", "ls-files", "-z", "--cached", "--others", "--exclude-standard"],
        cwd=ROOT,
        stdout=subprocess.PIPE,
        text=True,
        check=True,
    ).stdout
    built = ROOT.glob("crates/argo_judge*/out/*")  # the program, and the C library where there is one
    for file in [*(ROOT / name for name in listed.split("\0")), *built]:
        if file.is_file():
            in_copy(copy, file).parent.mkdir(parents=True, exist_ok=True)
            shutil.copy2(file, in_copy(copy, file))


def unpacked(archive: pathlib.Path, folder: pathlib.Path) -> pathlib.Path:
    folder.mkdir()
    ended(["tar", "-xzf", archive, "-C", folder])
    return next(folder.iterdir())


def archive_in(folder: pathlib.Path) -> pathlib.Path:
    return next(folder.glob("*.tar.gz"))


class Proved(NamedTuple):
    """What PROVED says: its lines by their names, the checksums of the release's files, and those of the sources."""

    lines: dict[str, str]
    files: str
    sources: str


def values_of(tree: pathlib.Path) -> Proved:
    head, _, listed = (tree / "PROVED").read_text(encoding="utf-8").partition("\nfiles: ")
    files, _, sources = listed.partition("\nsources: ")
    lines = dict(line.partition(": ")[::2] for line in head.splitlines())
    return Proved(lines, files.partition("\n")[2] + "\n", sources.partition("\n")[2])
