"""Makes a release of the program that the gate proved and ran: dist/argo_judge-VERSION-linux-x86_64.tar.gz.

    bin/release                refuses where the gate hasn't ended well on this program and on HEAD, or git has
                               uncommitted changes
    bin/release --trial        makes one all the same, whose file PROVED says that it is a trial, and why
    bin/release .. --to FOLDER puts it into another folder than dist

The object file that the program was linked of is linked again as the kit does, which has to give the same bytes. Then
it gets the commit and the kit into the text of --version, and is linked statically. `bin/prove --object argo_judge`
makes the object file where the proof left none. The archive has files that git tracks and what is made of the program,
and PROVED with their checksums. Its bytes depend on these, the C compiler and the C library alone; its time is
SOURCE_DATE_EPOCH, else that of the commit. A refusal is one line, with status 2.
"""
import os
import pathlib
import re
import subprocess
import sys
import tempfile
from itertools import dropwhile

from releasing import ROOT, evidence, installing, linking, pages
from releasing.archives import compressed, file_of, tar
from releasing.evidence import OBJECT, PROGRAM
from releasing.installing import Refused
from releasing.scripts import CommandLine, checksum, ended
from releasing.stamps import stamp_of, stamped
from releasing.tracked import git
from releasing.tree import files_of, make, version_of

TIME = re.compile(r"[0-9]{1,10}", re.ASCII)
LICENCE = re.compile(r"\blicence\b", re.I)


def time_of_release() -> int:
    text = os.environ.get("SOURCE_DATE_EPOCH") or git("show", "-s", "--format=%ct", "HEAD")
    if not TIME.fullmatch(text):
        raise Refused(f"SOURCE_DATE_EPOCH is {text}; expected seconds since 1970")
    return int(text)


def check_object(scratch: pathlib.Path) -> None:
    """Refuses an object file that isn't the one that the program was linked of."""
    if linking.link_as_the_kit_does(OBJECT, scratch / "linked") != PROGRAM.read_bytes():
        raise Refused(
            f"{OBJECT.relative_to(ROOT)}, linked as the kit does, isn't the program byte for byte; expected "
            "the object file that it was linked of"
        )


def static_program(scratch: pathlib.Path, stamp: str) -> pathlib.Path:
    """The program of the release, which says in --version of which commit it is."""
    (scratch / "argo_judge.o").write_bytes(stamped(OBJECT.read_bytes(), stamp))
    program = scratch / "argo_judge"
    linking.link_statically(scratch / "argo_judge.o", program)
    line = subprocess.run([program, "--version"], stdout=subprocess.PIPE, text=True, check=True).stdout
    wanted = f"argo_judge {version_of(PROGRAM)} {stamp}\n"
    if line != wanted:
        raise Refused(f"the static program's --version prints {line!r}; expected {wanted!r}")
    return program


def lines_of_proved(tree: pathlib.Path, commit: str, doubts: list[str]) -> dict[str, str]:
    """The names and values of PROVED before the checksums of files."""
    found = evidence.gate()
    gate = found if found is not None and found.program == checksum(PROGRAM.read_bytes()) else None
    lines = {"trial": "; ".join(doubts)} if doubts else {}
    lines.update(
        {
            "commit": commit,
            "kit": linking.kit_line(),
            "gate": gate.last_line if gate else "none",
            "gate's commit": gate.commit if gate else "none",
            "sha256 of the gate's program": checksum(PROGRAM.read_bytes()),
            "sha256 of its object file": checksum(OBJECT.read_bytes()),
            "sha256 of bin/argo_judge": checksum((tree / "bin/argo_judge").read_bytes()),
            **evidence.of_library(tree),
            "difference": evidence.DIFFERENCE,
            "linked by": linking.tools(),
        }
    )
    return lines


def licence() -> str:
    """What README.md says of the licence: of the one line that names it, the sentence that does, and those after it."""
    text = (ROOT / "README.md").read_text(encoding="utf-8")
    lines = [line for line in text.splitlines() if LICENCE.search(line)]
    if len(lines) != 1:
        raise Refused(f"README.md has {len(lines)} lines on the licence; expected one")
    sentences = re.split(r"(?<=\.) ", lines[0])
    return " ".join(dropwhile(lambda sentence: not LICENCE.search(sentence), sentences))


def write_own_files(tree: pathlib.Path, version: str) -> None:
    """The files at the top of a release but for PROVED, which aren't installed."""
    (tree / "install").write_bytes(pathlib.Path(installing.__file__).read_bytes())
    (tree / "install").chmod(0o755)
    page = (ROOT / "packaging/README.release").read_text(encoding="utf-8")
    page = page.replace("VERSION", version).replace("LICENCE", licence())
    (tree / "README.md").write_text(pages.packed("README.md", page, files_of(tree)), encoding="utf-8")


def release(is_trial: bool, folder: pathlib.Path) -> pathlib.Path:
    """Makes the archive, with its checksum in a file next to it."""
    evidence.check_files()
    doubts = list(evidence.doubts())
    if doubts and not is_trial:
        raise Refused(doubts[0])
    evidence.check_sources()
    doubts += ["it was asked for"] if is_trial and not doubts else []
    commit, version = git("rev-parse", "HEAD"), version_of(PROGRAM)
    with tempfile.TemporaryDirectory() as made:
        scratch = pathlib.Path(made)
        tree = scratch / "tree"
        tree.mkdir()
        check_object(scratch)
        stamp = stamp_of(commit, linking.kit_line().split()[0])
        make(tree, static_program(scratch, stamp), stamp)
        write_own_files(tree, version)
        sums = {path: checksum((tree / path).read_bytes()) for path in files_of(tree)}
        proved = evidence.proved(lines_of_proved(tree, commit, doubts), sums)
        (tree / "PROVED").write_text(proved, encoding="utf-8")
        top = f"argo_judge-{version}-linux-x86_64"
        files = {f"{top}/{path}": file_of(tree / path) for path in files_of(tree)}
    content = compressed(tar(files, time_of_release()))
    folder.mkdir(parents=True, exist_ok=True)
    archive = folder / f"{top}.tar.gz"
    archive.write_bytes(content)
    archive.with_name(f"{archive.name}.sha256").write_text(f"{checksum(content)}  {archive.name}\n", encoding="utf-8")
    return archive


def main() -> pathlib.Path:
    parser = CommandLine("release", __doc__)
    parser.add_argument("--trial", action="store_true", help="make one before the gate has ended well, too")
    parser.add_argument("--to", metavar="FOLDER", type=pathlib.Path, default=ROOT / "dist", help="dist without it")
    words = parser.parse_args()
    return release(words.trial, words.to)


if __name__ == "__main__":
    sys.exit(ended("release", main))
