"""What all checks share: the built programs, how one is started, cases side by side, and how results are counted.

A check prints what failed, and then a last line of its own form, which .ci/run adds up: `NAME: N passed, M failed`. Its
status is 0 where something passed and nothing failed.
"""

import os
import pathlib
import resource
import shutil
import subprocess
import sys
from collections.abc import Callable, Iterable, Sequence
from concurrent.futures import ThreadPoolExecutor
from importlib.machinery import SourceFileLoader
from importlib.util import module_from_spec, spec_from_loader
from types import ModuleType
from typing import Any, NamedTuple, TypeVar

from checks import ROOT

ENGINE = ROOT / "crates/argo_judge/out/argo_judge"
SUITE = ROOT / "crates/conformance/out/conformance"
# What proves and builds each of them.
BUILDS = {ENGINE: "bin/argo_judge", SUITE: "`rt run` in crates/conformance"}
# The status of a program that was stopped, since it took too long.
NO_END = "no end"

Case = TypeVar("Case")
Found = TypeVar("Found")
Word = str | os.PathLike[str]


# Programs


def built(words: Sequence[str], program: pathlib.Path = ENGINE, builds: str = "") -> pathlib.Path:
    """The program that a command line names first, or else the one last built. The check ends where it isn't there."""
    path = pathlib.Path(words[0]).resolve() if words else program
    if not path.is_file() or not os.access(path, os.X_OK):
        sys.exit(f"{path} is not there: {builds or BUILDS.get(program, '.ci/run')} proves and builds it")
    return path


def current(words: Sequence[str]) -> pathlib.Path:
    """The same; that of this repository is built first where that is due."""
    if not words:
        subprocess.run([ROOT / "bin/argo_judge", "--version"], stdout=subprocess.DEVNULL, check=True)
    return built(words)


class Ended(NamedTuple):
    """How a program ended: its status, or NO_END, and what it wrote to standard output and to standard error."""

    status: int | str
    output: str
    errors: str


class EndedInBytes(NamedTuple):
    """The same, in bytes."""

    status: int | str
    output: bytes
    errors: bytes


def decoded(written: bytes | None) -> str:
    """What a program wrote, with bytes that aren't UTF-8 as escapes, which no expected text has."""
    return (written or b"").decode(errors="backslashreplace")


def limited(megabytes: int | None) -> Callable[[], None] | None:
    """What limits the address space of a program before it starts."""
    if megabytes is None:
        return None
    size = megabytes << 20
    return lambda: resource.setrlimit(resource.RLIMIT_AS, (size, size))


def started_in_bytes(
    command: Sequence[Word], data: bytes = b"", seconds: float | None = None, megabytes: int | None = None, **more: Any
) -> EndedInBytes:
    """Runs a command on standard input to its end, within limits; `more` is for subprocess.run."""
    given: dict[str, Any] = {
        "stdout": subprocess.PIPE,
        "stderr": subprocess.PIPE,
        "preexec_fn": limited(megabytes),
        **more,
    }
    if "stdin" not in given:
        given["input"] = data
    try:
        ended = subprocess.run(command, timeout=seconds, check=False, **given)
    except subprocess.TimeoutExpired:
        return EndedInBytes(NO_END, b"", b"")
    return EndedInBytes(ended.returncode, ended.stdout or b"", ended.stderr or b"")


def started(
    command: Sequence[Word], data: bytes = b"", seconds: float | None = None, megabytes: int | None = None, **more: Any
) -> Ended:
    """The same, with what was written as text."""
    ended = started_in_bytes(command, data, seconds, megabytes, **more)
    return Ended(ended.status, decoded(ended.output), decoded(ended.errors))


def python_with(*modules: str) -> str | None:
    """A Python from 3.11 on that has these modules: this one, that of the PATH, or the system's; None without one."""
    has_all = f"all(map(importlib.util.find_spec, {modules})) and sys.version_info >= (3, 11)"
    for python in (sys.executable, shutil.which("python3"), "/usr/bin/python3"):
        if python and shutil.which(python):
            words = [python, "-c", f"import importlib.util, sys; print({has_all}, sys.executable)"]
            answer = subprocess.run(words, stdout=subprocess.PIPE, text=True, check=False).stdout.strip()
            if answer.startswith("True "):
                return answer.removeprefix("True ")
    return None


def loaded(path: pathlib.Path) -> ModuleType:
    """A script or module by its file."""
    loader = SourceFileLoader(path.stem.replace("-", "_"), str(path))
    spec = spec_from_loader(loader.name, loader)
    assert spec is not None
    module = module_from_spec(spec)
    loader.exec_module(module)
    return module


# Cases


def side_by_side(act: Callable[[Case], Found], cases: Iterable[Case]) -> list[Found]:
    """What is found of each case, in their order; as many at a time as there are processors."""
    with ThreadPoolExecutor(len(os.sched_getaffinity(0))) as pool:
        return list(pool.map(act, cases))


def named(path: pathlib.Path) -> str:
    """A file as lines name it."""
    return str(path.relative_to(ROOT))


class Counts:
    """How many cases of a check held. Of those that didn't the first are printed, or only kept without `prints`."""

    def __init__(self, name: str, most: int | None = None, prints: bool = True) -> None:
        self.name, self.most, self.prints = name, most, prints
        self.passed = self.failed = 0
        self.said: list[str] = []

    def expect(self, holds: object, text: str | Callable[[], str]) -> bool:
        """Counts a case; the text says what was looked at and what came, for one that does not hold."""
        if holds:
            self.passed += 1
            return True
        self.failed += 1
        if self.most is None or self.failed <= self.most:
            self.say(text if isinstance(text, str) else text())
        return False

    def case(self, name: str, faults: Iterable[str], most: int | None = None) -> bool:
        """Counts a case with what is wrong with it, of which as many lines as wanted are shown."""
        found = list(faults)
        return self.expect(not found, "\n".join(f"{name}: {fault}" for fault in found[:most]))

    def say(self, text: str) -> None:
        self.said.append(text)
        if self.prints:
            print(text, flush=True)

    def add(self, other: "Counts") -> None:
        """Adds what another one counted and kept."""
        self.passed, self.failed = self.passed + other.passed, self.failed + other.failed
        for text in other.said:
            self.say(text)

    def end(self, remark: str = "", may_be_empty: bool = False) -> int:
        """Prints the last line, with a remark before its counts or none, and gives the status."""
        print(f"{self.name}: {remark}{self.passed} passed, {self.failed} failed", flush=True)
        return 0 if not self.failed and (self.passed or may_be_empty) else 1
