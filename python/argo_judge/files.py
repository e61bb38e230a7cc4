"""Files and the standard streams: what is read, and what is written."""
import contextlib
import json
import sys
from collections.abc import Iterator
from typing import IO

from argo_judge.clear import escaped
from argo_judge.errors import Refused
from argo_judge.jsontext import parsed
from argo_judge.objects import Json


@contextlib.contextmanager
def opened(path: str, where: str) -> Iterator[IO[bytes]]:
    """A file, or standard input where the path is `-`; what can't be read is refused."""
    try:
        if path != "-":
            with open(path, "rb") as file:
                yield file
        elif sys.stdin is None:
            raise Refused(f"{where}: standard input is closed")
        else:
            yield sys.stdin.buffer
    except (OSError, ValueError) as fault:
        place = where if where == path else f"{where}: {path}"
        raise Refused(f"{place} can't be read: {getattr(fault, 'strerror', None) or fault}")


def decoded(found: bytes, where: str) -> str:
    """The text that bytes are."""
    try:
        return found.decode("utf-8")
    except UnicodeDecodeError as fault:
        raise Refused(f"{where}: expected UTF-8; byte {fault.start} is none")


def read_bytes(path: str, where: str) -> bytes:
    """What a file has, or standard input where the path is `-`."""
    with opened(path, where) as file:
        return file.read()


def read_text(path: str, where: str) -> str:
    """The text of a file, whose line ends stay as they are."""
    return decoded(read_bytes(path, where), where)


def read_lines(path: str, where: str) -> Iterator[tuple[str, str]]:
    """Each line of a file that isn't blank, with the place that it is at. One line at a time is in memory."""
    with opened(path, where) as file:
        for number, line in enumerate(file, 1):
            place = f"{where}, line {number}"
            if line.strip():
                yield decoded(line, place), place


def read_json(path: str, where: str) -> Json:
    """The JSON value of a file."""
    return parsed(read_text(path, where), where)


def write_text(text: str) -> None:
    """Writes a text to standard output, in UTF-8 whatever the locale is."""
    sys.stdout.buffer.write(text.encode("utf-8"))


def write_file(path: str, text: str) -> None:
    """Writes a text to a file."""
    with open(path, "w", encoding="utf-8") as file:
        file.write(text)


def write_json(value: Json) -> None:
    """Writes a JSON value: all of it or, where it can't be encoded, nothing."""
    write_text(escaped(json.dumps(value, ensure_ascii=False, indent=2)) + "\n")
