"""How an object file becomes a program: as the kit links it, and statically."""
import os
import pathlib
import shutil
import subprocess
from collections.abc import Sequence

from releasing.installing import Refused

# The kit's libraries that each program is linked with, by their paths in the kit.
LIBRARIES = ("c/libos_c.a", "c/liblibc_c.a")
STATIC = ("-static-pie", "-s", "-Wl,--build-id=none", "-Wl,--gc-sections", "-Wl,-z,relro,-z,now")
# A static program has to stay below this many bytes.
LIMIT = 2_200_000


def kit() -> pathlib.Path:
    """The kit's folder: the one above that of rt."""
    found = shutil.which("rt")
    if found is None:
        raise Refused("rt isn't on the PATH; expected the kit that README.md names")
    folder = pathlib.Path(found).resolve().parent.parent
    if not (folder / "KIT-ID").is_file():
        raise Refused(f"{folder} has no KIT-ID; expected the kit, with rt in its folder bin")
    return folder


def kit_line() -> str:
    """What `rt version` prints, the kit's name first."""
    return (kit() / "KIT-ID").read_text(encoding="utf-8").strip()


def linked(words: Sequence[str | pathlib.Path], program: pathlib.Path) -> bytes:
    """The program that these words link; what the linker says where it fails."""
    ended = subprocess.run(words, stdout=subprocess.PIPE, stderr=subprocess.STDOUT, text=True, errors="replace")
    if ended.returncode != 0:
        last = (ended.stdout.strip().splitlines() or ["it wrote nothing"])[-1]
        raise Refused(f"{pathlib.Path(words[0]).name} ended with {ended.returncode}: {last}")
    return program.read_bytes()


def link_as_the_kit_does(object_file: pathlib.Path, program: pathlib.Path) -> bytes:
    folder = kit()
    words = [
        str(folder / "bin/rattle-link"),
        "--target",
        "x86_64-unknown-linux-gnu",
        "--toolchain",
        str(folder / "toolchain"),
    ]
    return linked([*words, "-o", program, object_file, *(folder / name for name in LIBRARIES)], program)


def link_statically(object_file: pathlib.Path, program: pathlib.Path) -> bytes:
    if shutil.which("cc") is None:
        raise Refused("cc isn't installed; expected a C compiler that links statically")
    words = ["cc", *STATIC, str(object_file), *(str(kit() / name) for name in LIBRARIES), "-o", str(program)]
    content = linked(words, program)
    if len(content) >= LIMIT:
        raise Refused(f"the static program has {len(content)} bytes; expected less than {LIMIT}")
    return content


def tools() -> str:
    """The C compiler and the C library that a static program is linked by and with."""
    line = subprocess.run(["cc", "--version"], stdout=subprocess.PIPE, text=True, check=True).stdout.splitlines()[0]
    return f"{line}, {os.confstr('CS_GNU_LIBC_VERSION')}"
