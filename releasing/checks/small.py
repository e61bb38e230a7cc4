"""Small releases, for which nothing has to be built: an old one and a new one, each with the installer as it is."""
import os
import pathlib
import subprocess
import sys
from typing import Any, TypeAlias

from releasing import installing
from releasing.checks.starts import Words, ended
from releasing.tree import files_of

# The words that remove what is installed, and those that install it, before PREFIX.
BOTH: tuple[tuple[str, ...], ...] = ((), ("--uninstall",))
# What is in a folder by its paths: contents of files, where links lead, and folders, whose paths end in a slash.
State: TypeAlias = dict[str, str]
RECIPE = "lib/argo_judge/recipes/kubectl-argo_judge"
MODULE = "lib/argo_judge/python/names.py"
PAGE = "share/man/man1/argo_judge.1"
PLUGIN = "bin/kubectl-argo_judge"
# Where the plugin leads. Each has another path to it.
LEADS = {"old": f"../{RECIPE}", "new": f"../bin/../{RECIPE}"}
# What one of them has that the other one hasn't, in folders of its own, too.
ONLY = {
    "old": ("lib/argo_judge/gone/page", "share/gone/argo_judge"),
    "new": ("lib/argo_judge/added/page", "share/added/argo_judge"),
}
# Files of others that are put next to what is installed.
THEIRS = ("bin/another", "lib/argo_judge/recipes/mine", "share/gone/theirs")
TEXT = "another's\n"


def write(file: pathlib.Path, text: str, mode: int = 0o644) -> None:
    file.parent.mkdir(parents=True, exist_ok=True)
    file.write_text(text, encoding="utf-8")
    file.chmod(mode)


def release(folder: pathlib.Path, name: str, weight: int = 0) -> pathlib.Path:
    """Makes the old or the new release in a folder; its program has that many bytes more."""
    tree = folder / name
    write(tree / installing.PROGRAM, f"#!/bin/sh\necho {name}\n{'#' * weight}", 0o755)
    write(tree / RECIPE, f'#!/bin/sh\nexec python3 "${{0%/*/*}}/python" {name}\n', 0o755)
    (tree / PLUGIN).symlink_to(LEADS[name])
    write(tree / MODULE, f'NAME = "{name}"\n')
    write(tree / MODULE.replace("names", "__main__"), f"import names\n\nprint(names.NAME)  # {name}\n")
    for path in (PAGE, *ONLY[name]):
        write(tree / path, f"{name}\n")
    write(tree / installing.LIST, "".join(f"{path}\n" for path in [*files_of(tree), installing.LIST]))
    write(tree / "install", pathlib.Path(installing.__file__).read_text(encoding="utf-8"), 0o755)
    return tree


def put_theirs(prefix: pathlib.Path) -> None:
    for path in THEIRS:
        write(prefix / path, TEXT)


def state(folder: pathlib.Path) -> State:
    found = {}
    for path in folder.rglob("*"):
        name = path.relative_to(folder).as_posix()
        if path.is_symlink():
            found[name] = f"-> {os.readlink(path)}"
        elif path.is_dir():
            found[f"{name}/"] = ""
        else:
            found[name] = path.read_bytes().decode("utf-8", "backslashreplace")
    return found


def files(found: State) -> State:
    return {path: text for path, text in found.items() if not path.endswith("/")}


# ---- starts of their installers


class Releases:
    """The old release and the new one, and the folder in which each check has its own."""

    def __init__(self, folder: pathlib.Path) -> None:
        self.folder = folder
        self.old, self.new = release(folder, "old"), release(folder, "new")
        self.count = 0

    def scratch(self) -> pathlib.Path:
        self.count += 1
        made = self.folder / f"scratch {self.count}"
        made.mkdir()
        return made


def install(tree: pathlib.Path, *words: object, before: Words = (), **more: Any) -> "subprocess.CompletedProcess[str]":
    return ended([*before, sys.executable, tree / "install", *map(str, words)], **more)


def is_refused(found: "subprocess.CompletedProcess[str]", *parts: str) -> bool:
    """Whether a start ended with status 2 and one line, which has these parts."""
    is_line = found.stdout.startswith("install: ") and found.stdout.count("\n") == 1
    return found.returncode == 2 and is_line and all(part in found.stdout for part in parts)


def is_done(tree: pathlib.Path, *words: object, **more: Any) -> bool:
    return install(tree, *words, **more).returncode == 0
