"""Archives that are the same bytes whoever makes them, and wherever: names in order, no owner, one time."""
import gzip
import io
import os
import pathlib
import tarfile
from collections.abc import Iterable, Mapping
from typing import NamedTuple


class File(NamedTuple):
    """A file of an archive, or a link where it names what it leads to."""

    content: bytes = b""
    is_executable: bool = False
    link: str = ""


def file_of(path: pathlib.Path) -> File:
    if path.is_symlink():
        return File(link=os.readlink(path))
    return File(path.read_bytes(), os.access(path, os.X_OK))


def folders_of(files: Iterable[str]) -> set[str]:
    """The folders that the paths lead through."""
    found = {parent.as_posix() for path in files for parent in pathlib.PurePosixPath(path).parents}
    return found - {"."}


def member_of(path: str, file: File | None, time: int) -> tarfile.TarInfo:
    """The header of a file, or of a folder where there is no file."""
    member = tarfile.TarInfo(path)
    member.mtime = time
    member.mode = 0o755
    if file is None:
        member.type = tarfile.DIRTYPE
    elif file.link:
        member.type, member.linkname, member.mode = tarfile.SYMTYPE, file.link, 0o777
    else:
        member.size, member.mode = len(file.content), 0o755 if file.is_executable else 0o644
    return member


def tar(files: Mapping[str, File], time: int) -> bytes:
    """A tar archive of files by their paths."""
    made = io.BytesIO()
    with tarfile.open(fileobj=made, mode="w", format=tarfile.USTAR_FORMAT) as archive:
        for path in sorted({*files, *folders_of(files)}):
            file = files.get(path)
            archive.addfile(member_of(path, file, time), io.BytesIO(file.content if file else b""))
    return made.getvalue()


def compressed(content: bytes) -> bytes:
    """The content by gzip, with neither a name nor a time."""
    made = io.BytesIO()
    with gzip.GzipFile(filename="", mode="wb", fileobj=made, mtime=0) as archive:
        archive.write(content)
    return made.getvalue()
