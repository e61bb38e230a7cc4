"""What is seen without a tool: how long functions and files are, what they import, and what executables have."""

import ast
import os
import pathlib
import re
import subprocess
import sys
from collections.abc import Iterator

from checks import ROOT
from checks.harness import Counts, named

PYTHON = ROOT / "python"
PACKAGE = PYTHON / "argo_judge"
# What is for those who work on this repository alone.
OWN = ("building", "checks", "releasing")
# What has the program's version.
COMMAND_LINE = ROOT / "crates/ar_command_line/src/command_line.rt"
MOST_LINES, MOST_LINES_OF_FILE = 39, 299
# What people run may import, besides Python's own library.
OTHERS = {"argo_judge", "yaml"}
# What edits the path that modules are looked for on.
PATH_OF_MODULES = re.compile(r"\bsys\." + "path")
RECIPE = re.compile(
    r"#!/bin/sh\n# [^\n]+\n"
    r'own=\$\(readlink -f "\$0"\) && exec python3 "\$\{own%/\*/\*\}/python" (?P<starts>[\w-]+) "\$@"\n'
)
STARTER = re.compile(
    r"#!/bin/sh\n# [^\n]+\n"
    r'own=\$\(readlink -f "\$0"\) && exec "\$\{own%(?P<up>(?:/\*)+)\}/bin/module" (?P<starts>[\w.]+)(?: \w+)* "\$@"\n'
)
# What runs where no package is: the installer of a release, and an example for users of the C library.
ALONE = {"releasing/installing.py", "examples/embed/judge.py"}


def faults_of_lines(path: pathlib.Path) -> Iterator[str]:
    """What is too long in a module, and whether it edits the path of modules."""
    text = path.read_text(encoding="utf-8")
    if text.count("\n") > MOST_LINES_OF_FILE:
        yield f"{text.count(chr(10))} lines; expected at most {MOST_LINES_OF_FILE}"
    for node in ast.walk(ast.parse(text)):
        if isinstance(node, ast.FunctionDef | ast.AsyncFunctionDef):
            lines = (node.end_lineno or node.lineno) - node.lineno + 1
            if lines > MOST_LINES:
                yield f"line {node.lineno}: {node.name} has {lines} lines; expected at most {MOST_LINES}"
    for found in PATH_OF_MODULES.finditer(text):
        yield f"line {text.count(chr(10), 0, found.start()) + 1}: an edit of the path of modules"


def faults_of_imports(path: pathlib.Path) -> Iterator[str]:
    """What a module imports that people who run it may not have."""
    for node in ast.walk(ast.parse(path.read_text(encoding="utf-8"))):
        imported = [alias.name for alias in node.names] if isinstance(node, ast.Import) else []
        imported += [node.module or "."] if isinstance(node, ast.ImportFrom) else []
        for name in imported:
            if name.partition(".")[0] not in sys.stdlib_module_names | OTHERS:
                yield f"line {node.lineno}: imports {name}"


def faults_of_version(path: pathlib.Path) -> Iterator[str]:
    """Whether the package has the program's version."""
    version = re.search(r'^VERSION = "([^"]+)"$', path.read_text(encoding="utf-8"), re.M)
    if version is None or f'"{version[1]} (' not in COMMAND_LINE.read_text(encoding="utf-8"):
        yield f"expected the version of {named(COMMAND_LINE)}"


def faults_of_executable(path: pathlib.Path, text: str) -> Iterator[str]:
    """What is wrong with an executable that is one of Python, or starts what is."""
    if named(path) in ALONE or not re.search(r"python3|bin/module", text):
        return
    recipe, starter = RECIPE.fullmatch(text), STARTER.fullmatch(text)
    if recipe and recipe["starts"] == path.name:
        return
    if not starter:
        yield "expected the lines that each executable has which starts a recipe or a module"
    elif not (ROOT / f"{starter['starts'].replace('.', '/')}.py").is_file():
        yield f"there is no module {starter['starts']}"
    elif starter["up"].count("/") != len(path.relative_to(ROOT).parts):
        yield "expected to start bin/module of this checkout"


def executables() -> Iterator[tuple[pathlib.Path, str]]:
    """Each executable of this checkout with its text, but for bin/module itself and the gate."""
    words = ["git", "ls-files", "-z", "--cached", "--others", "--exclude-standard"]
    listed = subprocess.run(words, cwd=ROOT, stdout=subprocess.PIPE, text=True, check=True).stdout
    for path in sorted(ROOT / name for name in listed.split("\0") if name):
        if path.is_file() and os.access(path, os.X_OK) and named(path) not in ("bin/module", ".ci/run"):
            yield path, path.read_text(encoding="utf-8")


def modules(*names: str) -> list[pathlib.Path]:
    return [path for name in names for path in sorted((ROOT / name).rglob("*.py"))]


def count_forms(counts: Counts) -> None:
    """Counts whether each module and each executable has its form."""
    for path in modules("python", *OWN):
        counts.case(named(path), faults_of_lines(path))
    for path in [*modules("python/argo_judge"), PYTHON / "__main__.py"]:
        counts.case(named(path), faults_of_imports(path))
    counts.case(named(PACKAGE), faults_of_version(PACKAGE / "__init__.py"))
    for path, text in executables():
        counts.case(named(path), faults_of_executable(path, text))
