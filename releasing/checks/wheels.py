"""Tries the wheel of python/: pip builds and installs it without a network, and it starts with the checkout hidden."""

import pathlib
import shutil
import zipfile

from argo_judge import PROGRAM, VERSION
from checks.harness import python_with
from releasing import ROOT
from releasing.checks.starts import Tried, ended, hidden, note

NEEDED = ("pip", "setuptools", "wheel", "venv", "ensurepip")
ANSWERS = ROOT / "recipes/tests/shapes-proposed/document.json"
# What no source has: what Python and tools keep next to it.
KEPT = ("__pycache__", "build", "*.egg-info", ".*")
QUIET = ("--quiet", "--no-index", "--no-cache-dir", "--disable-pip-version-check")


def files_of_package() -> set[str]:
    """The files of the package, as a wheel names them."""
    package = ROOT / "python/argo_judge"
    files = [path.relative_to(package.parent) for path in package.rglob("*") if path.is_file()]
    return {path.as_posix() for path in files if "__pycache__" not in path.parts}


def built_in(folder: pathlib.Path, python: str) -> pathlib.Path | None:
    """The wheel that pip builds in a folder of a copy of python/; None where it builds none."""
    shutil.copytree(ROOT / "python", folder / "python", ignore=shutil.ignore_patterns(*KEPT))
    where = ["--wheel-dir", str(folder / "wheels"), str(folder / "python")]
    found = ended([python, "-m", "pip", "wheel", *QUIET, "--no-deps", "--no-build-isolation", *where])
    if found.returncode != 0:
        print(f"packaging: {found.stdout}", end="")
        return None
    return next((folder / "wheels").glob("*.whl"), None)


def of_command(program: pathlib.Path, folder: pathlib.Path) -> Tried:
    """Tries the command that was installed: its version, its help, and a command that needs no engine."""
    shutil.copy(ANSWERS, folder / "answers.json")
    version = ended(hidden([program, "--version"])).stdout
    yield "of a wheel, the version", version == f"{PROGRAM} {VERSION}\n"
    yield "of a wheel, the help", ended(hidden([program, "--help"])).stdout.startswith(f"usage: {PROGRAM} ")
    proposed = ended(hidden([program, "shapes", folder / "answers.json"]))
    by_recipe = ended([ROOT / "recipes/shapes", folder / "answers.json"])
    same = proposed.stdout.replace(f"{PROGRAM}: ", "shapes: ") == by_recipe.stdout
    yield "of a wheel, shapes as the recipe proposes them", same and proposed.returncode == by_recipe.returncode == 0


def of_wheel(scratch: pathlib.Path) -> Tried:
    python, folder = python_with(*NEEDED), scratch / "wheel"
    if python is None:
        note(f"no Python here has {', '.join(NEEDED)}, so no wheel is built")
        return
    folder.mkdir()
    wheel = built_in(folder, python)
    yield "a wheel is built", wheel is not None
    if wheel is None:
        return
    with zipfile.ZipFile(wheel) as archive:
        packed = {name for name in archive.namelist() if name.startswith("argo_judge/")}
    yield "a wheel has the package's files, and no others", packed == files_of_package()
    yield "a new environment", ended([python, "-m", "venv", folder / "environment"]).returncode == 0
    pip = [str(folder / "environment/bin/python"), "-m", "pip"]
    words = [*pip, "install", *QUIET, "--find-links", str(wheel.parent), PROGRAM]
    yield "a wheel is installed", ended(words).returncode == 0
    yield from of_command(folder / "environment/bin" / PROGRAM, folder)
