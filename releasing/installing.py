#!/usr/bin/env python3
"""Installs argo_judge from this unpacked release: the program, the recipes, kubectl's plugin, the manual page,
completions and, where the release has it, the C library.

    ./install [PREFIX]                ~/.local without PREFIX
    ./install --uninstall [PREFIX]    removes what was installed there

What is installed doesn't need this folder any more. Status 2, after one line, where a file of the release is missing,
where PREFIX has files of these names that were not installed so, and while another start works on PREFIX.

A second start replaces what the first one installed: it copies each file next to the old one as .NAME.new, renames
these, the program last, and then removes what the release has no more. A copy that fails changes nothing. A stop leaves
such copies, or, while it renames, recipes of both releases too; the program is new only where each recipe is. The next
start completes it, or --uninstall removes all of it.
"""
import contextlib
import fcntl
import os
import pathlib
import re
import shutil
import sys
from collections.abc import Callable, Collection, Iterable, Iterator

# What gives a tree to copy, while that is there.
Tree = Callable[[], contextlib.AbstractContextManager[pathlib.Path]]
# That of a release, once it is unpacked.
OWN_FOLDER = pathlib.Path(__file__).resolve().parent
LIBRARY = pathlib.PurePath("lib/argo_judge")
# The list of what is installed: the path of each file, and with a slash at its end that of each folder to remove once
# it is empty; last its own. It covers what is there at any moment.
LIST = LIBRARY / "installed"
PROGRAM = "bin/argo_judge"
UNPRINTABLE = re.compile(r"[\x00-\x1f\x7f-\x9f\u2028\u2029\ud800-\udfff]")


class Refused(Exception):
    """What can't be done, and why: what was found, and what was expected."""


# ---- lists


def is_path(line: str) -> bool:
    """Whether a list can have a line: a path of a folder, or of a file that is called argo_judge or is in LIBRARY."""
    path = pathlib.PurePath(line)
    is_below = path.name and not path.is_absolute() and ".." not in path.parts and line.removesuffix("/") == str(path)
    is_named = line.endswith("/") or "argo_judge" in path.name or line.startswith(f"{LIBRARY}/")
    return bool(is_below) and is_named and not UNPRINTABLE.search(line)


def listed(folder: pathlib.Path) -> list[str]:
    """The lines of the list of a release, or of what was installed into a folder."""
    file = folder / LIST
    if not file.is_file():
        return []
    try:
        lines = file.read_bytes().decode("utf-8").split("\n")
    except UnicodeDecodeError:
        raise Refused(f"{file} isn't UTF-8; expected a list of paths") from None
    for number, line in enumerate(lines[:-1], 1):
        if not is_path(line):
            raise Refused(f"{file}, line {number}, is {line!r}; expected a path below {folder} that is argo_judge's")
    if lines[-2:] != [str(LIST), ""]:
        raise Refused(f"{file} is cut off; expected {LIST} as its last line")
    return lines[:-1]


def write_list(prefix: pathlib.Path, lines: Collection[str]) -> None:
    """Puts a list into the place of the one that is there."""
    new = prefix / staged(str(LIST))
    new.parent.mkdir(parents=True, exist_ok=True)
    try:
        new.write_text("".join(f"{line}\n" for line in [*sorted({*lines} - {str(LIST)}), LIST]), encoding="utf-8")
        os.replace(new, prefix / LIST)
    finally:
        new.unlink(missing_ok=True)


def staged(path: str) -> str:
    """Where a file is copied to, before it replaces the one of this path."""
    own = pathlib.PurePath(path)
    return str(own.with_name(f".{own.name}.new"))


def folders_of(paths: Iterable[str]) -> set[str]:
    """The folders that paths lead through, as a list has them."""
    return {f"{folder}/" for path in paths for folder in pathlib.PurePath(path).parents if folder.name}


# ---- what is refused before anything changes


def files_of_release(tree: pathlib.Path) -> list[str]:
    """The files that a release has to install; one that it lacks is refused."""
    lines = listed(tree)
    if not lines:
        raise Refused(f"{tree / LIST} isn't there; expected the folder of an unpacked release")
    for path in lines:
        if not os.path.lexists(tree / path):
            raise Refused(f"{tree / path} is missing, which the release had; unpack it again")
    return [path for path in lines[:-1] if not path.endswith("/")]


def is_folder(path: pathlib.Path) -> bool:
    return path.is_dir() and not path.is_symlink()


def place(prefix: pathlib.Path, path: str) -> pathlib.Path:
    """Where a file is, by whatever links its folder is reached."""
    return pathlib.Path(os.path.realpath((prefix / path).parent), pathlib.PurePath(path).name)


def check_links(prefix: pathlib.Path, paths: Iterable[str]) -> None:
    """PREFIX/bin, lib and share may be links: all files there are called argo_judge. So may LIBRARY: it has the list.
    Folders in LIBRARY were made as folders, so what is in the place of one, and where that leads, is another's."""
    for folder in sorted(folders_of(paths) - {f"{LIBRARY}/"}):
        if folder.startswith(f"{LIBRARY}/") and (prefix / folder).is_symlink():
            raise Refused(f"{prefix / folder} is a link; expected the folder that was installed")


def check_free(prefix: pathlib.Path, files: Collection[str], own: Collection[str]) -> None:
    """Refuses what is in the way of files, and two files of which one would replace the other."""
    for folder in sorted(folders_of(files)):
        if os.path.lexists(prefix / folder) and not (prefix / folder).is_dir():
            raise Refused(f"{prefix / folder} is no folder; expected one, or nothing; remove it first")
    for path in [*files, str(LIST), *map(staged, files)]:
        if os.path.lexists(prefix / path) and (path not in own or is_folder(prefix / path)):
            raise Refused(f"{prefix / path} is there, and wasn't installed with argo_judge; remove it first")
    others: dict[pathlib.Path, str] = {}
    for path in files:
        if (other := others.setdefault(place(prefix, path), path)) != path:
            raise Refused(f"{prefix / path} is {prefix / other}, too, by a link; expected two files")


# ---- changes


@contextlib.contextmanager
def locked(prefix: pathlib.Path) -> Iterator[None]:
    """Makes PREFIX where it isn't there, for as long as something is in it, and keeps other starts off it meanwhile.
    The lock is the system's, on the folder, so it ends with this process, however that ends."""
    made = [folder for folder in (prefix, *prefix.parents) if not folder.exists()]
    prefix.mkdir(parents=True, exist_ok=True)
    with contextlib.ExitStack() as at_end:
        descriptor = os.open(prefix, os.O_RDONLY)
        at_end.callback(os.close, descriptor)
        try:
            fcntl.flock(descriptor, fcntl.LOCK_EX | fcntl.LOCK_NB)
        except BlockingIOError:
            raise Refused(f"another start works on {prefix}; expected this one alone; repeat it then") from None
        at_end.callback(remove_empty, made)
        yield


def remove_empty(folders: Iterable[pathlib.Path]) -> None:
    for folder in folders:
        if is_folder(folder) and not any(folder.iterdir()):
            folder.rmdir()


def remove_compiled(file: pathlib.Path) -> None:
    """Removes what Python keeps of a module that was started."""
    folder = file.parent / "__pycache__"
    if file.suffix == ".py" and is_folder(folder):
        for compiled in folder.glob(f"{file.stem}.*.pyc*"):
            compiled.unlink()
        remove_empty([folder])


def remove(prefix: pathlib.Path, lines: Iterable[str], kept: Collection[pathlib.Path] = ()) -> None:
    """Removes files that aren't in a place to keep, and folders that are empty then; last the list with its folders."""
    for line in sorted(sorted(lines, reverse=True), key=str(LIST).startswith):
        path = prefix / line
        if line.endswith("/"):
            remove_empty([path])
        elif not is_folder(path) and place(prefix, line) not in kept:
            with contextlib.suppress(FileNotFoundError, NotADirectoryError):
                path.lstat()  # on a disk that can't be written to, unlink fails for what isn't there, too
                remove_compiled(path)
                path.unlink()


def copy(file: pathlib.Path, to: pathlib.Path) -> None:
    """Copies a file or a link. Its mode is for all users, whatever that of the release's file is."""
    to.parent.mkdir(parents=True, exist_ok=True)
    to.unlink(missing_ok=True)
    if file.is_symlink():
        to.symlink_to(os.readlink(file))
    else:
        shutil.copyfile(file, to)
        to.chmod(0o755 if file.stat().st_mode & 0o100 else 0o644)


def put(tree: pathlib.Path, prefix: pathlib.Path, new: set[str], old: set[str]) -> None:
    """Puts the files of new lines into the place of those of the old ones."""
    files = sorted((line for line in new if not line.endswith("/")), key=lambda file: (file == PROGRAM, file))
    copies, changed = {staged(file) for file in files}, ""
    try:
        write_list(prefix, old | new | copies)
        for file in files:
            copy(tree / file, prefix / staged(file))
        for file in files:
            os.replace(prefix / staged(file), prefix / file)
            changed = "files of two releases are there until it is repeated"
        changed = "it is installed, but not all of the older release is removed until it is repeated"
        remove(prefix, (old | copies) - new - {str(LIST)}, {place(prefix, file) for file in files})
        for file in files:
            remove_compiled(prefix / file)
        write_list(prefix, new)
    except BaseException as fault:
        with contextlib.suppress(OSError):  # what can't be removed now stays in the list
            remove(prefix, copies if changed else copies | {*new, str(LIST)} - old)
            if old and not changed:
                write_list(prefix, old)
        if isinstance(fault, OSError):
            raise Refused(f"{prefix}: {fault}; {changed or 'nothing has changed'}") from fault
        raise


def install(tree: pathlib.Path, prefix: pathlib.Path) -> None:
    files = files_of_release(tree)
    with locked(prefix):
        old = {*listed(prefix)}
        check_links(prefix, [*old, *files])
        check_free(prefix, files, old)
        folders = folders_of([*files, str(LIST)])
        # Folders of others aren't removed, even where they are empty.
        own = {it for it in folders if it in old or it.startswith(f"{LIBRARY}/") or not (prefix / it).exists()}
        put(tree, prefix, own.union(files), old)
    print(f"argo_judge and kubectl's plugin are in {prefix / 'bin'}, the recipes in {prefix / LIBRARY / 'recipes'}")
    if os.path.realpath(prefix / "bin") not in [os.path.realpath(it) for it in os.environ.get("PATH", "").split(":")]:
        print(f"{prefix / 'bin'} isn't on the PATH")


def uninstall(prefix: pathlib.Path) -> None:
    if not listed(prefix):
        raise Refused(f"{prefix / LIST} isn't there; expected what was installed")
    with locked(prefix):
        lines = listed(prefix)
        check_links(prefix, lines)
        remove(prefix, [*lines, staged(str(LIST))])
    print(f"what was installed is removed from {prefix}")
    if (prefix / LIBRARY).is_dir() and any((prefix / LIBRARY).iterdir()):
        print(f"{prefix / LIBRARY} has files that weren't installed, which stay")


# ---- the command line


def prefix_of(text: str) -> pathlib.Path:
    """The folder that a word of the command line names."""
    try:
        path = pathlib.Path(text).expanduser().resolve()
    except RuntimeError:
        raise Refused(f"PREFIX is {text!r}, of no home that is known, or a link to itself; expected a folder") from None
    if not text or UNPRINTABLE.search(str(path)):
        raise Refused(f"PREFIX is {text and str(path)!r}; expected the path of a folder, without control characters")
    for folder in (path, *path.parents):
        if os.path.lexists(folder) and not folder.is_dir():
            raise Refused(f"{folder} is no folder; expected PREFIX to be one")
    return path


def obey(words: list[str], tree_to_copy: Tree) -> None:
    """Does what the words of the command line say."""
    others = [word for word in words if word != "--uninstall"]
    if len(others) > 1 or others and others[0].startswith("-"):
        raise Refused(f"the command line is {' '.join(words)!r}; expected [--uninstall] [PREFIX]; --help says more")
    prefix = prefix_of(others[0] if others else "~/.local")
    if (prefix / LIST).exists() and place(prefix, str(LIST)) == place(OWN_FOLDER, str(LIST)):
        raise Refused(f"{prefix} is the release itself; expected another folder")
    if "--uninstall" in words:
        uninstall(prefix)
        return
    with tree_to_copy() as tree:
        install(tree, prefix)


def main(text: str | None, tree_to_copy: Tree) -> int:
    """Installs the tree that `tree_to_copy` gives; the text is what --help prints."""
    words = sys.argv[1:]
    if {"-h", "--help"} & {*words}:
        print((text or "").strip())
        return 0
    os.umask(0o022)  # whatever the user's is, what is installed is for all
    try:
        obey(words, tree_to_copy)
    except (Refused, OSError) as fault:
        print(f"install: {fault}".replace("\n", "\\n"), file=sys.stderr)
        return 2
    except KeyboardInterrupt:
        print("install: interrupted", file=sys.stderr)
        return 130
    return 0


if __name__ == "__main__":
    sys.exit(main(__doc__, lambda: contextlib.nullcontext(OWN_FOLDER)))
