"""Starts of programs: as they are, with the checkout and the kit out of sight, and in a folder as the whole system."""
import functools
import os
import pathlib
import re
import shutil
import subprocess
import sys
from collections.abc import Iterator, Sequence
from concurrent.futures import ThreadPoolExecutor
from typing import Any, TypeAlias

from releasing import ROOT, tree

BUILT = ROOT / "crates/argo_judge/out/argo_judge"
Tried: TypeAlias = Iterator[tuple[str, bool]]
Words: TypeAlias = Sequence[str | os.PathLike[str]]
# A start in a name space of its own, in which folders can be hidden; and one for which a folder is the whole system.
ALLOWED = ["unshare", "--user", "--map-root-user", "--mount"]
IN_FOLDER = ["unshare", "--user", "--map-root-user", "chroot"]


def side_by_side(*groups: Tried) -> Tried:
    """The checks of several groups, which are tried at the same time."""
    with ThreadPoolExecutor(len(groups)) as pool:
        for found in list(pool.map(lambda group: list(group), groups)):
            yield from found


def own_environment(*without: str) -> dict[str, str]:
    """The environment of this check but for what would find modules of this checkout, and for more names."""
    return {name: value for name, value in os.environ.items() if name not in ("PYTHONPATH", *without)}


def ended(words: Words, **more: Any) -> "subprocess.CompletedProcess[str]":
    """How a start ended that finds no module of this checkout but by itself."""
    given: dict[str, Any] = {"env": own_environment(), "check": False, "errors": "backslashreplace", **more}
    return subprocess.run(words, stdout=subprocess.PIPE, stderr=subprocess.STDOUT, text=True, **given)


@functools.lru_cache(maxsize=None)
def note(text: str) -> None:
    """Says once what isn't tried."""
    print(f"packaging: {text}")


@functools.lru_cache(maxsize=None)
def is_there(program: str) -> bool:
    if shutil.which(program):
        return True
    note(f"{program} isn't installed, so nothing is tried by it")
    return False


@functools.lru_cache(maxsize=None)
def is_current(crate: str) -> bool:
    """Whether what is built of a crate is of the sources as they are."""
    return tree.is_current(crate)


@functools.lru_cache(maxsize=None)
def is_allowed() -> bool:
    """Whether the system allows name spaces."""
    return shutil.which("unshare") is not None and ended([*ALLOWED, "chroot", "/", "true"]).returncode == 0


def folders_to_hide() -> list[pathlib.Path]:
    rt = shutil.which("rt")
    return [ROOT] if rt is None else [ROOT, pathlib.Path(rt).resolve().parent.parent]


def hidden(words: Words) -> Words:
    """The words of a start for which the folders of this checkout and of the kit are empty; the words as they are,
    after a line that says so, where the system doesn't allow that."""
    if not is_allowed():
        note("no name space is allowed here, so what is installed is tried next to the checkout alone")
        return words
    folders = [str(folder) for folder in folders_to_hide()]
    script = 'while [ "$1" != -- ]; do mount -t tmpfs none "$1" || exit; shift; done; shift; exec "$@"'
    return [*ALLOWED, "bash", "-c", script, "bash", *folders, "--", *words]


# ---- a folder as the whole system


def libraries_of(program: str) -> list[str]:
    """The files that a program loads, none where it is static."""
    return re.findall(r"(/\S+) \(0x", ended(["ldd", program]).stdout)


def put(root: pathlib.Path, program: str, name: str) -> None:
    """Puts a program into a folder by a name, with what it loads."""
    (root / "bin").mkdir(parents=True, exist_ok=True)
    shutil.copy(program, root / "bin" / name)
    for path in libraries_of(program):
        (root / path.lstrip("/")).parent.mkdir(parents=True, exist_ok=True)
        shutil.copy(path, root / path.lstrip("/"))


def put_shell(root: pathlib.Path) -> None:
    """Puts a shell into a folder: busybox where it is installed, else sh."""
    put(root, shutil.which("busybox") or shutil.which("sh") or "/bin/sh", "sh")


def folders_of_python() -> list[str]:
    """The folders that this Python is in, with the system's libraries."""
    found = {"/lib", "/lib64", "/usr/lib", sys.base_prefix if sys.base_prefix != "/usr" else "/usr/bin"}
    return sorted(folder for folder in found if pathlib.Path(folder).is_dir())


def in_folder_with_python(root: pathlib.Path, words: Words) -> Words | None:
    """The words by which a script of sh starts in a folder that has nothing else of the system than a shell, readlink,
    this Python and libraries; None, after a line, where that isn't allowed."""
    if in_folder(root, words) is None:
        return None
    put_shell(root)
    put(root, shutil.which("readlink") or "/bin/readlink", "readlink")
    script = (
        'root=$1; shift; while [ "$1" != -- ]; do mkdir -p "$root$1" && mount --bind "$1" "$root$1" || exit; '
        'shift; done; shift; exec chroot "$root" "$@"'
    )
    start = ["/bin/sh", "-c", 'PATH=$0; export PATH; exec "$@"', f"{sys.base_prefix}/bin:/bin", *words]
    return [*ALLOWED, "bash", "-c", script, "bash", root, *folders_of_python(), "--", *start]


def in_folder(root: pathlib.Path, words: Words) -> Words | None:
    """The words of a start for which a folder is the whole system; None, after a line, where that isn't allowed."""
    if is_allowed():
        return [*IN_FOLDER, root, *words]
    note("no name space is allowed here, so nothing is tried in a folder as the whole system")
    return None
