"""Tries the installer of small releases by the words of its command line, with any umask, and several at once."""
import contextlib
import fcntl
import os
import pathlib
import shutil
from collections.abc import Iterator
from concurrent.futures import ThreadPoolExecutor
from itertools import chain

from releasing.checks.small import BOTH, TEXT, Releases, install, is_done, is_refused, state, write
from releasing.checks.starts import ALLOWED, Tried, is_allowed, note, own_environment
from releasing.installing import PROGRAM


def of_words(releases: Releases) -> Tried:
    folder = releases.scratch()
    write(folder / "a file", TEXT)
    (folder / "round").symlink_to("round")
    refused = {
        "an empty one": ("", "PREFIX is ''"),
        "a user whom nobody knows": ("~nosuchuser", "~nosuchuser"),
        "a file": ("a file", "a file is no folder"),
        "below a file": ("a file/prefix", "a file is no folder"),
        "a line feed": ("a\nb", "a\\nb"),
        "an escape": ("a\x1b[2J", "a\\x1b"),
        "bytes that aren't UTF-8": ("a\udcff", "a\\udcff"),
        "a link to itself": ("round", "round"),
        "a name that is too long": ("a" * 300, "too long"),
    }
    before = state(folder)
    for what, (word, part) in refused.items():
        for words in BOTH:
            found = install(releases.new, *words, word, cwd=folder)
            yield f"as PREFIX {what}, {words}", is_refused(found, part) and state(folder) == before
    yield "two words", is_refused(install(releases.new, "one", "two", cwd=folder), "expected [--uninstall] [PREFIX]")
    home = own_environment() | {"HOME": str(folder)}
    yield "a home", is_done(releases.new, env=home) and (folder / ".local" / PROGRAM).is_file()
    if is_allowed():
        # The release isn't whole, so that nothing is installed where there is a home all the same.
        tree = releases.scratch()
        shutil.copy(releases.new / "install", tree)
        hides = 'for file in passwd nsswitch.conf; do mount --bind /dev/null "/etc/$file" || exit; done; exec "$@"'
        found = install(tree, before=[*ALLOWED, "sh", "-c", hides, "sh"], env=own_environment("HOME"))
        yield "no home", is_refused(found, "'~/.local'", "no home")
    else:
        note("no name space is allowed here, so nothing is installed without a home")


def modes(folder: pathlib.Path) -> set[tuple[str, str]]:
    """The modes of folders, of scripts and of other files, and which of these has one."""
    found = [path for path in (folder, *folder.rglob("*")) if not path.is_symlink()]
    kinds = ["folder" if path.is_dir() else "script" if path.read_bytes()[:2] == b"#!" else "file" for path in found]
    return {(kind, f"{path.stat().st_mode & 0o7777:o}") for kind, path in zip(kinds, found)}


def of_modes(releases: Releases) -> Tried:
    """What is installed is for all users, whatever the umask is, of who unpacks a release, too."""
    folder = releases.scratch()
    tree = shutil.copytree(releases.old, folder / "tree", symlinks=True)
    for path in tree.rglob("*"):
        if not path.is_symlink():
            path.chmod(path.stat().st_mode & 0o700)
    for umask in (0o077, 0o000, 0o777):
        made = folder / f"{umask}"
        for turn in ("first", "second"):
            yield f"umask {umask:o}, {turn}", is_done(tree, made / "on the way/prefix", umask=umask)
        yield f"umask {umask:o}, modes", modes(made) == {("folder", "755"), ("script", "755"), ("file", "644")}


@contextlib.contextmanager
def locked(folder: pathlib.Path) -> Iterator[None]:
    descriptor = os.open(folder, os.O_RDONLY)
    fcntl.flock(descriptor, fcntl.LOCK_EX)
    try:
        yield
    finally:
        os.close(descriptor)


def of_two(releases: Releases) -> Tried:
    prefix, other = releases.scratch(), releases.scratch()
    install(releases.old, prefix)
    install(releases.new, other)
    before = state(prefix)
    with locked(prefix):
        for words in BOTH:
            found = install(releases.new, *words, prefix)
            yield f"next to another start, {words}", is_refused(found, "another start") and state(prefix) == before
    trees = [releases.old, releases.new] * 4
    with ThreadPoolExecutor(len(trees)) as pool:
        ends = list(pool.map(lambda tree: install(tree, prefix), trees))
    yield "eight at once, one is done", any(one.returncode == 0 for one in ends)
    yield "the others are refused", all(one.returncode == 0 or is_refused(one, "another start") for one in ends)
    yield "what is there is of one", state(prefix) in (before, state(other))
    yield "installed again", is_done(releases.old, prefix) and state(prefix) == before


def of_words_and_locks(releases: Releases) -> Tried:
    """Tries all of that."""
    yield from chain(of_words(releases), of_modes(releases), of_two(releases))
