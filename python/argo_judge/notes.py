"""Lines on standard error: each stays one line, whatever the text has that it quotes."""
import contextlib
import sys
from collections.abc import Iterator

from argo_judge import PROGRAM


def one_line(text: str) -> str:
    """A text without line feeds and other characters that a terminal would obey."""
    if text.isprintable():
        return text
    return "".join(char if char.isprintable() else char.encode("unicode_escape").decode() for char in text)


# The lists that keep what is noted, of which the last one has it.
KEPT: list[list[str]] = []


@contextlib.contextmanager
def kept_notes() -> Iterator[list[str]]:
    """A list of what is noted meanwhile, which is then written to nowhere."""
    KEPT.append([])
    try:
        yield KEPT[-1]
    finally:
        KEPT.pop()


def say(text: str) -> None:
    """Writes a line to standard error, where there is one that can be written."""
    if sys.stderr is None:
        return
    try:
        sys.stderr.write(f"{one_line(text)}\n")
        sys.stderr.flush()
    except OSError:
        pass


def program() -> str:
    """The name that lines of the command begin with: that of the executable."""
    name = sys.argv[0].rsplit("/", 1)[-1]
    return PROGRAM if name == "__main__.py" else name


def note(text: str) -> None:
    """Writes a line of the command itself to standard error, or keeps it."""
    if KEPT:
        KEPT[-1].append(text)
    else:
        say(f"{program()}: {text}")
