"""Runs a command with a terminal as its standard output, and prints what that would get: a line of Python each."""

import os
import pty
import subprocess
import sys
from collections.abc import Sequence


def shown_by(words: Sequence[str]) -> bytes:
    """What a command writes to a terminal."""
    terminal, output = pty.openpty()
    with subprocess.Popen(words, stdin=subprocess.DEVNULL, stdout=output) as started:
        os.close(output)
        written = b""
        try:
            while part := os.read(terminal, 4096):
                written += part
        except OSError:  # how Linux says that the other end is closed
            pass
        print(f"status {started.wait()}")
    os.close(terminal)
    return written


def main(words: Sequence[str]) -> None:
    """Prints each line that a command writes to a terminal."""
    for line in shown_by(words).replace(b"\r\n", b"\n").split(b"\n")[:-1]:
        print(ascii(line.decode("utf-8", "backslashreplace")))


if __name__ == "__main__":
    main(sys.argv[1:])
