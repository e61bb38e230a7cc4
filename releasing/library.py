"""The C library, made of the archive that the kit builds of the crate argo_judge_c.

The kit's archive needs a few lines of C of the kit's own: both are joined into one archive, and of it a shared object
is linked that exports the two calls alone.
"""
import ctypes
import pathlib
import shutil
import subprocess
import tempfile
from collections.abc import Iterable, Sequence
from typing import Any

from releasing import ROOT
from releasing.installing import Refused
from releasing.linking import kit
from releasing.stamps import stamped

BUILT = ROOT / "crates/argo_judge_c/out/libargo_judge_c.a"
HEADER = ROOT / "include/argo_judge.h"
CALLS = ("argo_judge_run", "argo_judge_version")
NAME = "libargo_judge"
LINK = ("-shared", "-s", "-Wl,--build-id=none", "-Wl,--gc-sections", "-Wl,-z,relro,-z,now", "-Wl,-z,defs")


def run(words: Sequence[object], **more: Any) -> None:
    ended = subprocess.run(
        [str(word) for word in words], stdout=subprocess.PIPE, stderr=subprocess.STDOUT, text=True, **more
    )
    if ended.returncode != 0:
        raise Refused(f"{words[0]} ended with status {ended.returncode}: {ended.stdout.strip()}")


def join(archives: Iterable[pathlib.Path], to: pathlib.Path) -> None:
    """Puts the members of some archives into one, without times and owners: the same members give the same bytes."""
    with tempfile.TemporaryDirectory() as scratch:
        members = []
        for number, archive in enumerate(archives):
            folder = pathlib.Path(scratch) / str(number)
            folder.mkdir()
            run(["ar", "x", archive.resolve()], cwd=folder)
            members += sorted(folder.iterdir())
        run(["ar", "rcsD", to, *members])


def link(archive: pathlib.Path, to: pathlib.Path) -> None:
    """Links a shared object that exports the calls alone."""
    with tempfile.TemporaryDirectory() as scratch:
        exported = pathlib.Path(scratch) / "exported"
        exported.write_text(f"{{ global: {' '.join(f'{call};' for call in CALLS)} local: *; }};\n", encoding="utf-8")
        wanted = [f"-Wl,-u,{call}" for call in CALLS]
        run(["cc", *LINK, f"-Wl,--version-script={exported}", f"-Wl,-soname,{to.name}", *wanted, archive, "-o", to])


def loaded(shared: pathlib.Path) -> ctypes.CDLL:
    """The calls of a shared object, with the types that argo_judge.h gives them."""
    own = ctypes.CDLL(str(shared.resolve()))
    output: list[Any] = [ctypes.c_char_p, ctypes.c_size_t, ctypes.POINTER(ctypes.c_size_t)]
    own.argo_judge_run.argtypes = [ctypes.c_uint32, ctypes.c_char_p, ctypes.c_size_t, *output]
    own.argo_judge_run.restype = ctypes.c_uint8
    own.argo_judge_version.argtypes = output
    own.argo_judge_version.restype = ctypes.c_bool
    return own


def version_of(shared: pathlib.Path, room: int) -> str | None:
    """The version that a shared object gives, with that much room; None where it is too little."""
    buffer, written = ctypes.create_string_buffer(room), ctypes.c_size_t()
    fits = loaded(shared).argo_judge_version(buffer, room, written)
    return buffer.raw[: written.value].decode("ascii") if fits else None


def check_stamp(shared: pathlib.Path, stamp: str) -> None:
    """Refuses a library whose version isn't the stamped one, whatever the room for it."""
    for more in (0, 1, 200):
        found = version_of(shared, len(version_of(shared, 200) or "") + more)
        if found is None or not found.endswith(f" {stamp}"):
            raise Refused(f"{shared.name} has the version {found}; expected it to end in {stamp}")


def made(folder: pathlib.Path, stamp: str | None = None, built: pathlib.Path = BUILT) -> list[pathlib.Path]:
    """Makes the library in `folder/include` and `folder/lib`, of an archive as the kit builds it, and returns its
    paths. With a stamp that is what the version says of where it comes from."""
    include, lib = folder / "include", folder / "lib"
    include.mkdir(parents=True, exist_ok=True)
    lib.mkdir(parents=True, exist_ok=True)
    archive, shared = lib / f"{NAME}.a", lib / f"{NAME}.so"
    header = pathlib.Path(shutil.copy(HEADER, include))
    archive.unlink(missing_ok=True)
    join([built, kit() / "c/liblibc_c.a"], archive)
    if stamp is not None:
        archive.write_bytes(stamped(archive.read_bytes(), stamp))
    link(archive, shared)
    if stamp is not None:
        check_stamp(shared, stamp)
    return [header, archive, shared]
