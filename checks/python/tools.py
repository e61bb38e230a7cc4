"""What tools find in Python: black, isort, flake8 and mypy, each by the settings of what it looks at."""

import pathlib
import re
import shutil
import subprocess
from typing import NamedTuple

import tomllib

from checks import ROOT
from checks.harness import Counts, Ended, side_by_side, started
from checks.python.forms import OWN, PYTHON

NAMES = ("black", "isort", "flake8", "mypy")


class Looked(NamedTuple):
    """What tools look at: the folder that they start in, its parts, and by which settings."""

    folder: pathlib.Path
    parts: tuple[str, ...]
    typed: tuple[str, ...]
    settings: pathlib.Path


LOOKED = (
    Looked(PYTHON, ("argo_judge", "tests", "__main__.py"), ("argo_judge", "__main__.py"), PYTHON / "pyproject.toml"),
    Looked(ROOT, OWN, OWN, ROOT / "checks/pyproject.toml"),
)


def words_of(name: str, looked: Looked) -> list[str]:
    """The words of a tool."""
    if name == "black":
        return ["--config", str(looked.settings), "--check", "--quiet", "--diff", *looked.parts]
    if name == "isort":
        return ["--settings-file", str(looked.settings), "--check-only", "--diff", "--quiet", *looked.parts]
    if name == "flake8":
        return ["--config", str(PYTHON / "setup.cfg"), *looked.parts]
    # The units' types are those of pytest, too.
    typed = looked.parts if shutil.which("pytest") else looked.typed
    return ["--config-file", str(looked.settings), "--cache-dir", "/dev/null", "--no-error-summary", *typed]


def why_left_out(name: str) -> str | None:
    """Why a tool isn't run; None where it is."""
    if shutil.which(name) is None:
        return f"{name} isn't installed"
    settings = tomllib.loads((PYTHON / "pyproject.toml").read_text(encoding="utf-8"))["tool"]
    wanted = settings.get(name, {}).get("required-version")
    if wanted is not None:
        version = re.search(r"\d+", started([name, "--version"]).output)
        if version is None or version[0] != wanted:
            return f"{name} isn't of version {wanted}"
    return None


def looked_at(name: str, looked: Looked) -> Ended:
    """How a tool ended on what it looks at."""
    return started([name, *words_of(name, looked)], cwd=looked.folder, stderr=subprocess.STDOUT)


def count_tools(counts: Counts) -> None:
    """Counts whether each tool that is there finds nothing; a line says which ones aren't."""
    reasons = {name: why_left_out(name) for name in NAMES}
    starts = [(name, looked) for name in NAMES if reasons[name] is None for looked in LOOKED]
    for (name, _), ended in zip(starts, side_by_side(lambda one: looked_at(*one), starts)):
        counts.expect(ended.status == 0, f"python, {name}:\n{ended.output.rstrip()}")
    if left_out := [why for why in reasons.values() if why is not None]:
        counts.say(f"python: left out: {', '.join(left_out)}")
