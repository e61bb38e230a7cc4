"""Runs the recipes on stored inputs.

    recipes/check [PROGRAM]    with that program in the place of the one last built

Each folder of recipes/tests has a `command` of bash, which is run in that folder with recipes/ and the kubectl of
recipes/tests/bin on the PATH and $ENGINE the program, and what it writes (`stdout`, and `stderr` where there is one)
and its `status` (0 where there is none). A test that `needs` PyYAML is left out, and a line says so, where that isn't
installed. The last line has the counts, and the status is 0 where none failed.
"""

import importlib.util
import os
import pathlib
import subprocess
import sys
from collections.abc import Iterator

from checks import ROOT
from checks.harness import Counts, built, named, side_by_side

RECIPES = ROOT / "recipes"
TESTS = RECIPES / "tests"
# What a test may need, and the module that has it.
NEEDS = {"PyYAML": "yaml"}


def stored(folder: pathlib.Path, name: str, default: str = "") -> str:
    file = folder / name
    return file.read_text(encoding="utf-8") if file.is_file() else default


def environment_of(engine: pathlib.Path) -> dict[str, str]:
    """What commands start with: no module of this checkout is found but by its own recipe."""
    own = {name: value for name, value in os.environ.items() if name != "PYTHONPATH"}
    path = f"{RECIPES}:{TESTS / 'bin'}:{own['PATH']}"
    return {**own, "PATH": path, "ENGINE": str(engine), "KUBECONFIG": os.devnull, "PYTHONDONTWRITEBYTECODE": "1"}


def differences(folder: pathlib.Path, engine: pathlib.Path) -> Iterator[str]:
    """What a test ends with that isn't what is stored."""
    ended = subprocess.run(
        ["bash", "-o", "pipefail", "command"],
        cwd=folder,
        env=environment_of(engine),
        capture_output=True,
        text=True,
        check=False,
    )
    expected = {
        "stdout": (stored(folder, "stdout"), ended.stdout),
        "stderr": (stored(folder, "stderr"), ended.stderr),
        "status": (stored(folder, "status", "0").strip(), str(ended.returncode)),
    }
    for name, (wanted, got) in expected.items():
        if wanted != got:
            yield f"{name}: expected\n{wanted}\ngot\n{got}"


def can_run(folder: pathlib.Path) -> bool:
    """Whether what a test needs is installed; otherwise a line says that the test is left out."""
    need = stored(folder, "needs").strip()
    if not need or importlib.util.find_spec(NEEDS[need]) is not None:
        return True
    print(f"{named(folder)}: left out: {need} isn't installed")
    return False


def main(words: list[str]) -> int:
    engine, counts = built(words), Counts("recipes")
    folders = [path.parent for path in sorted(TESTS.glob("*/command")) if can_run(path.parent)]
    for folder, found in zip(folders, side_by_side(lambda folder: list(differences(folder, engine)), folders)):
        counts.case(named(folder), found)
    return counts.end()


if __name__ == "__main__":
    sys.exit(main(sys.argv[1:]))
