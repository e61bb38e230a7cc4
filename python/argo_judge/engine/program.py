"""Starts of the engine. A command never builds it: where it isn't there, that is refused."""
import json
import os
import subprocess
import tempfile
from collections.abc import Sequence

from argo_judge.errors import Refused
from argo_judge.objects import Json
from argo_judge.places import engine as program
from argo_judge.places import makes_engine

ENGINE = program()


def start_of(engine: str, words: Sequence[str]) -> list[str]:
    """The words of a start. Where the own program isn't built that is refused: a command never starts a proof."""
    if engine == ENGINE and os.path.isabs(ENGINE) and not os.path.isfile(ENGINE):
        raise Refused(f"{ENGINE} isn't there; expected the program, which {makes_engine()}")
    return [engine, *words]


def cannot_start(engine: str, fault: OSError) -> Refused:
    """The refusal of a program that can't be started."""
    return Refused(f"{engine} can't be started: {fault.strerror}")


def judged(engine: str, words: Sequence[str], made: Json) -> subprocess.CompletedProcess[str]:
    """A start of the engine on a document: its status, and what it wrote."""
    start = start_of(engine, words)
    try:
        return subprocess.run(start, input=json.dumps(made), encoding="utf-8", capture_output=True)
    except OSError as fault:
        raise cannot_start(engine, fault)


class Started:
    """A start of the engine that isn't waited for: what it reads and writes are files."""

    def __init__(self, engine: str, words: Sequence[str], made: Json) -> None:
        self.start = start_of(engine, words)
        self.files = [tempfile.TemporaryFile() for _ in range(3)]
        self.files[0].write(json.dumps(made).encode("utf-8"))
        self.files[0].seek(0)
        stdin, stdout, stderr = self.files
        try:
            self.process = subprocess.Popen(self.start, stdin=stdin, stdout=stdout, stderr=stderr)
        except OSError as fault:
            raise cannot_start(engine, fault)

    def ended(self) -> subprocess.CompletedProcess[str]:
        """Its status and what it wrote, once it has ended."""
        status = self.process.wait()
        for file in self.files:
            file.seek(0)
        output, errors = (file.read().decode("utf-8", "replace") for file in self.files[1:])
        for file in self.files:
            file.close()
        return subprocess.CompletedProcess(self.start, status, output, errors)


def judged_bytes(engine: str, words: Sequence[str], document: bytes) -> subprocess.CompletedProcess[bytes]:
    """A start of the engine on the bytes of a document, whatever they are."""
    start = start_of(engine, words)
    try:
        return subprocess.run(start, input=document, capture_output=True)
    except OSError as fault:
        raise cannot_start(engine, fault)


def handed_through(engine: str, words: Sequence[str], made: Json) -> int:
    """The status of a start on a document, of which what the engine writes is handed through."""
    start = start_of(engine, words)
    try:
        return shell_status(subprocess.run(start, input=json.dumps(made), encoding="utf-8").returncode)
    except OSError as fault:
        raise cannot_start(engine, fault)


def shell_status(returncode: int) -> int:
    """The status as a shell has it: that of a program that a signal ended is 128 and the signal's number."""
    return returncode if returncode >= 0 else 128 - returncode
