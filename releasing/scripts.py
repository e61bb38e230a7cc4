"""What bin/release and packaging/image share: command lines, how they end, and what they say of what they made."""
import argparse
import hashlib
import pathlib
import subprocess
import sys
import tarfile
from collections.abc import Callable
from typing import NoReturn

from releasing.installing import Refused


class CommandLine(argparse.ArgumentParser):
    """The words of a command line; those that don't fit are refused in one line, too."""

    def __init__(self, name: str, text: str | None) -> None:
        super().__init__(name, description=text, formatter_class=argparse.RawDescriptionHelpFormatter)

    def error(self, message: str) -> NoReturn:
        raise Refused(f"command line: {message}; --help says more")


def checksum(content: bytes) -> str:
    return hashlib.sha256(content).hexdigest()


def ended(name: str, does: Callable[[], pathlib.Path]) -> int:
    """The status of a script: 2, after one line, where it refuses."""
    try:
        file = does()
    except (Refused, OSError, tarfile.TarError, subprocess.CalledProcessError) as fault:
        print(f"{name}: {fault}", file=sys.stderr)
        return 2
    content = file.read_bytes()
    print(f"{file}, {len(content)} bytes, sha256 {checksum(content)}")
    return 0
