"""The files that a release and an installation have, and where: the one table of them, and how they are made.

A tree has the same form as a folder into which it is installed, with the list of its files. What is copied is what git
tracks, with its uncommitted changes; from sources that have no .git, all but what Python and tools keep next to them.
"""
import os
import pathlib
import shutil
import subprocess
import sys

from releasing import ROOT, completions, library, pages, tracked
from releasing.helps import helps_of
from releasing.installing import LIBRARY, LIST
from releasing.manual import manual

PLUGIN = pathlib.PurePath("bin/kubectl-argo_judge")
# The recipes and the package that they start, callers of the C library, and the documents of README.md.
COPIED = ("recipes", "python", "examples/embed", "examples/bundles/success-rate.json", "examples/analysisrun.json")
# The pages for users, and where files are that they link to, which are copied, too.
PAGES = "docs/use"
LINKED = ("docs", "examples")
# What of COPIED isn't for users, and what Python keeps next to sources.
TESTS = ("tests", "check", "setup.cfg", "build")
MADE_BY_PYTHON = ("__pycache__", ".egg-info")
# The C library.
LIBRARY_FILES = ("include/argo_judge.h", "lib/libargo_judge.a", "lib/libargo_judge.so")


def version_of(program: pathlib.Path) -> str:
    """The version in the line that --version prints: `argo_judge 0.1.0`, and what it was built of."""
    line = subprocess.run([program, "--version"], stdout=subprocess.PIPE, text=True, check=True).stdout
    return line.split()[1]


def made_texts(program: pathlib.Path) -> dict[str, str]:
    """The files that are made of the program's help, by their paths."""
    own, commands = helps_of(program)
    return {
        "share/man/man1/argo_judge.1": manual(own, commands, version_of(program)),
        "share/bash-completion/completions/argo_judge": completions.bash(own, commands),
        "share/zsh/site-functions/_argo_judge": completions.zsh(own, commands),
        "share/fish/vendor_completions.d/argo_judge.fish": completions.fish(own, commands),
    }


def is_for_users(name: str) -> bool:
    """Whether a file is no test, and nothing that Python or a tool keeps next to sources."""
    parts = pathlib.PurePosixPath(name).parts
    return parts[1] not in TESTS and not any(part.startswith(".") or part.endswith(MADE_BY_PYTHON) for part in parts)


def copied_files(root: pathlib.Path = ROOT) -> list[str]:
    """The files that are copied, by their paths in a checkout."""
    users = [name for name in tracked.files(PAGES, root=root) if name.endswith(".md")]
    wanted = {link for page in users for link in pages.linked(page, (root / page).read_text(encoding="utf-8"))}
    found = {*users, *filter(is_for_users, tracked.files(*COPIED, root=root))}
    return sorted(found | wanted.intersection(tracked.files(*LINKED, root=root)))


def left_out(root: pathlib.Path = ROOT) -> list[str]:
    """The files that would be copied if git tracked them."""
    return list(filter(is_for_users, tracked.untracked(PAGES, *COPIED, root=root)))


def is_current(crate: str) -> bool:
    """Whether what is built of a crate is of the sources as they are."""
    return subprocess.run([ROOT / "bin/prove", "--unchanged", crate]).returncode == 0


def add_library(tree: pathlib.Path, stamp: str | None) -> None:
    """Adds LIBRARY_FILES, where they are built of the sources as they are; otherwise a line says that they aren't."""
    if library.BUILT.is_file() and is_current("argo_judge_c"):
        library.made(tree, stamp)
    else:
        print("without the C library, which bin/prove argo_judge_c builds of the sources as they are", file=sys.stderr)


def files_of(folder: pathlib.Path) -> list[str]:
    """The paths of the files and links of a folder, in their order."""
    found = [path for path in folder.rglob("*") if path.is_symlink() or not path.is_dir()]
    return sorted(path.relative_to(folder).as_posix() for path in found)


def copy_files(tree: pathlib.Path, root: pathlib.Path = ROOT) -> None:
    """Copies what a checkout has for users; pages have no links to what isn't copied."""
    names = copied_files(root)
    for name in names:
        source, file = root / name, tree / LIBRARY / name
        file.parent.mkdir(parents=True, exist_ok=True)
        if name.endswith(".md"):
            file.write_text(pages.packed(name, source.read_text(encoding="utf-8"), names), encoding="utf-8")
        else:
            shutil.copyfile(source, file)
        file.chmod(0o755 if os.access(source, os.X_OK) else 0o644)


def make(tree: pathlib.Path, program: pathlib.Path, stamp: str | None = None) -> None:
    """Makes the tree with that program in an empty folder; the C library gets the stamp that the program has."""
    copy_files(tree)
    if missing := left_out():
        print(f"without {', '.join(missing)}, which git doesn't track", file=sys.stderr)
    (tree / PLUGIN).parent.mkdir()
    (tree / PLUGIN).symlink_to(os.path.join("..", LIBRARY, "recipes", PLUGIN.name))
    shutil.copyfile(program, tree / "bin/argo_judge")
    (tree / "bin/argo_judge").chmod(0o755)
    for path, text in made_texts(program).items():
        (tree / path).parent.mkdir(parents=True, exist_ok=True)
        (tree / path).write_text(text, encoding="utf-8")
    add_library(tree, stamp)
    (tree / LIST).write_text("".join(f"{path}\n" for path in [*files_of(tree), LIST]), encoding="utf-8")
