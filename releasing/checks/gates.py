"""Tries of which gate and commit bin/release makes a release, in a copy of this checkout, and the one that it makes."""
import hashlib
import os
import pathlib
import subprocess
from collections.abc import Iterator

from releasing.checks.archives import archive_in, in_copy, unpacked, values_of
from releasing.checks.contents import IGNORED, UNTRACKED, of_tracked_files
from releasing.checks.refusals import refusal
from releasing.checks.starts import Tried, ended, own_environment
from releasing.evidence import GATE, PROGRAM

TIME = 1_000_000_000
LAST_LINE = "3 passed, 0 failed"
OTHER = "0" * 40
AUTHOR = ["-c", "user.name=check", "-c", "user.email=check@example.com", "-c", "commit.gpgsign=false"]
# Files that users get and no proof sees: a change of them needs another run of the gate.
UNSEEN = ("recipes/lint", "python/argo_judge/cli.py", "include/argo_judge.h")


def commit_all(copy: pathlib.Path) -> str:
    """Commits what a copy has, and answers the commit."""
    subprocess.run(["git", "-C", copy, "add", "--all"], check=True)
    subprocess.run(["git", *AUTHOR, "-C", copy, "commit", "--quiet", "--allow-empty", "-m", "a check"], check=True)
    return ended(["git", "-C", copy, "rev-parse", "HEAD"]).stdout.strip()


def keep(copy: pathlib.Path, commit: str, program: str | None = None) -> None:
    """Keeps a last line of the gate: of a commit and, unless another is given, of the program."""
    own = program or hashlib.sha256(PROGRAM.read_bytes()).hexdigest()
    in_copy(copy, GATE).write_text(f"{own} {commit} {LAST_LINE}\n", encoding="utf-8")


def of_changes(copy: pathlib.Path, head: str) -> Tried:
    """What is committed after the gate ran isn't released."""
    keep(copy, head)
    for name in UNSEEN:
        with (copy / name).open("a", encoding="utf-8") as file:
            file.write("\n")
    now = commit_all(copy)
    yield "a commit after the gate is refused", f"leaves one of HEAD, {now[:12]}" in refusal(copy)
    subprocess.run(["git", "-C", copy, "checkout", "--quiet", head], check=True)


def of_lines(copy: pathlib.Path) -> Tried:
    """A release needs the last line of the gate, of this program and of HEAD, and everything committed."""
    in_copy(copy, GATE).unlink(missing_ok=True)
    yield "without the gate's last line there is no release", "argo_judge.gate has no last line" in refusal(copy)
    (copy / UNTRACKED).write_text("", encoding="utf-8")
    keep(copy, ended(["git", "-C", copy, "rev-parse", "HEAD"]).stdout.strip())
    yield "with uncommitted changes neither", "git has uncommitted changes" in refusal(copy)
    head = commit_all(copy)
    for what, commit, program, said in (
        ("of another program", head, OTHER + "0" * 24, "is of another program"),
        ("of another commit", OTHER, None, f"is of the commit {OTHER[:12]}"),
        ("of uncommitted changes", f"{head}-dirty", None, "is of uncommitted changes"),
        ("that isn't one", "HEAD", None, "has no last line"),
    ):
        keep(copy, commit, program)
        yield f"with a gate's line {what} neither", said in refusal(copy)
    yield from of_changes(copy, head)


def doubts_of_trial(copy: pathlib.Path, folder: pathlib.Path) -> Iterator[str]:
    """What PROVED of a trial says of a gate of another program, another commit and uncommitted changes."""
    keep(copy, f"{OTHER}-dirty", OTHER + "0" * 24)
    ended([copy / "bin/release", "--trial", "--to", folder / "doubted"])
    values = values_of(unpacked(archive_in(folder / "doubted"), folder / "of the doubted")).lines
    yield from values["trial"].split("; ")


def of_gate(copy: pathlib.Path, folder: pathlib.Path) -> Tried:
    yield from of_tracked_files(copy, folder)
    yield from of_lines(copy)
    doubts = list(doubts_of_trial(copy, folder))
    yield "a trial lists each reason", len(doubts) == 3 and all("argo_judge.gate is of" in doubt for doubt in doubts)
    head = commit_all(copy)
    keep(copy, head)
    given = {**own_environment(), "SOURCE_DATE_EPOCH": str(TIME)}
    made = ended([copy / "bin/release", "--to", folder / "released"], env=given)
    yield "a release", made.returncode == 0
    tree = unpacked(archive_in(folder / "released"), folder / "of the release")
    yield "a release has the time that it is given", {path.lstat().st_mtime for path in tree.rglob("*")} == {TIME}
    lines = values_of(tree).lines
    yield "PROVED has the gate's last line", lines["gate"] == LAST_LINE and "trial" not in lines
    yield "PROVED has the gate's commit", lines["gate's commit"] == lines["commit"] == head
    copied = os.path.join("lib/argo_judge", UNTRACKED)
    yield "a release has what is committed", (tree / copied).is_file()
    yield "a release has nothing that git ignores", not (tree / "lib/argo_judge" / IGNORED).exists()
