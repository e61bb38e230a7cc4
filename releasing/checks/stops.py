"""Tries what the installer leaves where it fails or is stopped at any step, and where it can't write.

    bin/module releasing.checks.stops FOLDER            at each step
    bin/module releasing.checks.stops --disks FOLDER    on disks of its own, for which it has to start in a name space

FOLDER is empty. It prints each check that failed, and then how many there were.
"""
import contextlib
import errno
import io
import itertools
import pathlib
import shutil
import subprocess
import sys
from collections.abc import Iterator
from typing import Any, NamedTuple

from releasing import installing
from releasing.checks.small import THEIRS, State, files, put_theirs, release, state, write
from releasing.checks.starts import Tried

# What Python announces of what a program does with files.
STEPS = {"fcntl.flock", "open"} | {
    f"os.{call}" for call in ("chmod", "listdir", "mkdir", "remove", "rename", "rmdir", "scandir", "symlink")
}
LIST = str(installing.LIST)
# What Python makes of a module of the small releases.
COMPILED = "lib/argo_judge/python/__pycache__/names.cpython-311.pyc"
PAGE = 4096


class Steps:
    """Counts the steps, and lets one of them fail; all after it, too, where nothing is to change any more."""

    def __init__(self) -> None:
        self.count = self.fails_at = 0
        self.for_good = False
        self.fault: type[BaseException] = OSError
        sys.addaudithook(self.hear)

    def hear(self, event: str, _: Any) -> None:
        if event in STEPS and self.fails_at:
            self.count += 1
            if self.count == self.fails_at or self.for_good and self.count > self.fails_at:
                raise OSError(errno.EIO, "stopped") if self.fault is OSError else self.fault()

    @contextlib.contextmanager
    def failing(self, number: int, way: str) -> Iterator[None]:
        self.count, self.fails_at, self.for_good = 0, number, way == "stopped"
        self.fault = KeyboardInterrupt if way == "interrupted" else OSError
        try:
            yield
        finally:
            self.fails_at = 0


class Change(NamedTuple):
    """A start of the installer, from one state of PREFIX to another."""

    name: str
    tree: pathlib.Path
    words: tuple[str, ...]
    start: pathlib.Path | None
    before: State
    after: State


class Ended(NamedTuple):
    status: int
    lines: list[str]


def started(tree: pathlib.Path, *words: object) -> Ended:
    """How the installer ended, and what it wrote to standard error."""
    errors = io.StringIO()
    sys.argv = ["install", *map(str, words)]
    with contextlib.redirect_stdout(io.StringIO()), contextlib.redirect_stderr(errors):
        status = installing.main("", lambda: contextlib.nullcontext(tree))
    return Ended(status, errors.getvalue().splitlines())


def is_temporary(path: str) -> bool:
    return path.endswith(".new")


def faults_of(change: Change, prefix: pathlib.Path, is_over: bool) -> Iterator[str]:
    """What is wrong with what is there after a failure; `is_over` where nothing hindered the installer then."""
    found, before, after = files(state(prefix)), files(change.before), files(change.after)
    paths = {path for path in {*found, *before, *after} if path != LIST and not is_temporary(path)}
    yield from (f"{it} is neither old nor new" for it in paths if found.get(it) not in (before.get(it), after.get(it)))
    if found.get(installing.PROGRAM) == after.get(installing.PROGRAM):
        yield from (f"{it} isn't as new as the program" for it in {*after} - {LIST} if found.get(it) != after[it])
    covered = {*installing.listed(prefix), *THEIRS, installing.staged(LIST), COMPILED}
    yield from (f"{it} isn't in the list" for it in {*found} - covered)
    if is_over:
        yield from (f"{it} stays" for it in found if is_temporary(it))
        if all(found.get(it) == before.get(it) for it in paths) and state(prefix) != change.before:
            yield "it isn't as before, though each file is"


def faults_of_removal(prefix: pathlib.Path, copy: pathlib.Path, theirs: State) -> Iterator[str]:
    """What is wrong after a removal of what a stop left."""
    shutil.rmtree(copy, ignore_errors=True)
    shutil.copytree(prefix, copy, symlinks=True)
    found = state(copy)
    of_others = {path: text for path, text in theirs.items() if path.endswith("/") or path in found}
    if LIST in found and (started(copy, "--uninstall", copy).status != 0 or state(copy) != of_others):
        yield "it can't be removed"


def faults_of_repeat(change: Change, prefix: pathlib.Path) -> Iterator[str]:
    """What is wrong after a repeat."""
    had_list = (prefix / LIST).exists()
    if change.words and not had_list:
        # The list is removed last.
        found, wanted = files(state(prefix)), files(change.after)
    else:
        started(change.tree, *change.words, prefix)
        found, wanted = state(prefix), dict(change.after)
    if not had_list:
        # Nothing says whose the folders are that a stop left.
        found, wanted = found | {LIST: ""}, wanted | {LIST: ""}
    if found != wanted:
        yield "a repeat doesn't complete it"


def of_change(steps: Steps, change: Change, folder: pathlib.Path, theirs: State) -> Tried:
    """Tries a change with a failure at each step, until none is left to fail."""
    prefix = folder / "prefix"
    for way in ("failed", "stopped", "interrupted"):
        for number in itertools.count(1):
            shutil.rmtree(prefix, ignore_errors=True)
            if change.start is not None:
                shutil.copytree(change.start, prefix, symlinks=True)
            with steps.failing(number, way):
                ended = started(change.tree, *change.words, prefix)
            if steps.count < number:
                break
            found = [*faults_of(change, prefix, way != "stopped")]
            if ended.status == 0 and state(prefix) != change.after:
                found.append("it ended well all the same")
            elif ended.status != 0 and (ended.status, len(ended.lines)) != (130 if way == "interrupted" else 2, 1):
                found.append(f"it ended with {ended}")
            if way == "stopped" and prefix.exists():
                found += faults_of_removal(prefix, folder / "copy", theirs)
            found += faults_of_repeat(change, prefix)
            yield f"{change.name}, {way} at step {number}: {'; '.join(found)}", not found
        yield f"{change.name}, not {way}", ended.status == 0 and state(prefix) == change.after and number > 20


def of_steps(folder: pathlib.Path) -> Tried:
    steps, old, new = Steps(), release(folder, "old"), release(folder, "new")
    installed, fresh, theirs = folder / "installed", folder / "fresh", folder / "theirs"
    started(old, installed)
    started(new, fresh)
    put_theirs(theirs)
    put_theirs(installed)
    write(installed / COMPILED, "made of the old one")
    before, after = state(installed), state(fresh) | state(theirs)
    yield from of_change(steps, Change("a first start", new, (), None, {}, state(fresh)), folder, {})
    yield from of_change(steps, Change("a second start", new, (), installed, before, after), folder, state(theirs))
    removal = Change("a removal", old, ("--uninstall",), installed, before, state(theirs))
    yield from of_change(steps, removal, folder, state(theirs))


# ---- disks


def fill(file: pathlib.Path, pages: int) -> None:
    """Fills a disk but for some pages."""
    with file.open("wb", buffering=0) as filler, contextlib.suppress(OSError):
        while True:
            filler.write(bytes(PAGE))
    with file.open("rb+") as filler:
        filler.truncate(max(0, filler.seek(0, io.SEEK_END) - pages * PAGE))


def of_full_disk(folder: pathlib.Path, old: pathlib.Path, new: pathlib.Path) -> Tried:
    disk = folder / "disk"
    disk.mkdir()
    subprocess.run(["mount", "-t", "tmpfs", "-o", "size=1m", "none", disk], check=True)
    prefix, first, fresh = disk / "prefix", disk / "first", folder / "fresh"
    started(new, fresh)
    for pages in itertools.count():
        shutil.rmtree(prefix, ignore_errors=True)
        started(old, prefix)
        change = Change("", new, (), prefix, state(prefix), state(fresh))
        fill(disk / "filler", pages)
        ended = started(new, prefix)
        if ended.status == 0:
            break
        what = f"on a disk with {pages} pages"
        yield f"{what}: {ended}", ended.status == 2 and len(ended.lines) == 1 and "No space left" in ended.lines[0]
        found = [*faults_of(change, prefix, True)]
        yield f"{what}: {'; '.join(found)}", not found and state(prefix) == change.before
        started(new, first)
        yield f"{what}, a first start", not first.exists() or state(first) == state(fresh)
        shutil.rmtree(first, ignore_errors=True)
        (disk / "filler").unlink()
        yield f"{what}, a repeat", started(new, prefix).status == 0 and state(prefix) == change.after
    yield "on a disk with enough pages", state(prefix) == change.after and pages > 20


def of_read_only(folder: pathlib.Path, old: pathlib.Path, new: pathlib.Path) -> Tried:
    """A folder that can't be written to, of new files or of those alone that are to be removed."""
    prefix, fresh = folder / "prefix", folder / "fresh"
    for path, changes in (("share/man", False), ("bin", False), ("lib/argo_judge", False), ("share/gone", True)):
        started(old, prefix)
        change = Change("", new, (), prefix, state(prefix), state(fresh))
        subprocess.run(["mount", "--bind", prefix / path, prefix / path], check=True)
        subprocess.run(["mount", "-o", "remount,bind,ro", prefix / path], check=True)
        ended, what = started(new, prefix), f"with a read-only {path}"
        yield f"{what}: {ended}", ended.status == 2 and len(ended.lines) == 1 and "Read-only" in ended.lines[0]
        found = [*faults_of(change, prefix, True)]
        yield f"{what}: {'; '.join(found)}", not found and (state(prefix) != change.before) == changes
        subprocess.run(["umount", prefix / path], check=True)
        yield f"{what} no more", started(new, prefix).status == 0 and state(prefix) == change.after
        shutil.rmtree(prefix)


def of_disks(folder: pathlib.Path) -> Tried:
    old, new = release(folder, "old", 10 * PAGE), release(folder, "new", 20 * PAGE)
    yield from of_full_disk(folder, old, new)
    yield from of_read_only(folder, old, new)


def main(words: list[str]) -> int:
    folder, count = pathlib.Path(words[-1]), 0
    failed = []
    for what, passed in of_disks(folder) if "--disks" in words else of_steps(folder):
        count += 1
        failed += [] if passed else [what]
    print("".join(f"{what}\n" for what in failed), end="")
    print(f"{count} checks")
    return 1 if failed else 0


if __name__ == "__main__":
    sys.exit(main(sys.argv[1:]))
