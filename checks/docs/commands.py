"""Runs the command lines of the pages (README.md, CONTRIBUTING.md and docs/) as they are there, in a scratch copy of
this repository.

    tests/docs/check [PROGRAM]    with that program in the place of the one last built

A fenced block says what it is: `sh` has command lines, which have to end with status 0 or 1 (a verdict) and write
nothing to standard error; `console` has command lines after `$ `, each with all that it writes; what else it may be
(DATA) is no command. Comments right before a block go with it:

    <!-- file: NAME -->          the block's text is put into the file NAME of the scratch copy
    <!-- not run: REASON -->     the block is excused
    <!-- needs: PyYAML -->       the block is left out, and a line says so, where PyYAML isn't installed

A page's blocks are run one after another in the same copy, in which there are also FILES, and the kubectl and the
curl of recipes/tests/bin in the place of a cluster and of a Prometheus. A block of any other language fails, and so
do an excuse that nothing needs and a link to what isn't there. Rows of docs/use/shapes.md have to be in the document
that they name. No page, no recipe and no example starts `run` without --plain or --ordered, whose status may be another
one at each start.
"""

import importlib.util
import os
import pathlib
import shutil
import subprocess
import sys
import tempfile
from collections.abc import Iterator

from checks import ROOT
from checks.docs.pages import PAGES, Block, blocks_of, broken_links, unordered_runs
from checks.docs.providers import wrong_rows
from checks.harness import ENGINE, Counts, built, named, side_by_side

DATA = {"c", "json", "text"}
FILES = {
    "document.json": "examples/bundles/phases.json",
    "template.json": "tests/docs/template.json",
    "shapes.json": "tests/docs/shapes.json",
    "answers.jsonl": "tests/docs/answers.jsonl",
}
# What a block may need, by the name that its note has, and the module that has it.
NEEDS = {"PyYAML": "yaml"}
# Lines that can't be run here, by how they begin.
EXCUSED = {
    "kubectl apply ": "wants a cluster",
    "kubectl wait ": "wants a cluster",
    "parallel ": "wants GNU parallel",
}


def scratch_copy(folder: pathlib.Path, engine: pathlib.Path) -> None:
    """A copy of what isn't code of crates, with the program as just built, so that nothing is proved."""
    listed = subprocess.run(
        ["git", "ls-files", "-z", "--cached", "--others", "--exclude-standard", "--", ".", ":!crates"],
        cwd=ROOT,
        capture_output=True,
        text=True,
        check=True,
    ).stdout
    for name in filter(None, listed.split("\0")):
        if (ROOT / name).is_file():
            (folder / name).parent.mkdir(parents=True, exist_ok=True)
            shutil.copy2(ROOT / name, folder / name)
    program = folder / ENGINE.relative_to(ROOT)
    program.parent.mkdir(parents=True)
    shutil.copy(engine, program)
    for name, source in FILES.items():
        shutil.copy(ROOT / source, folder / name)
    (folder / "home/.local/bin").mkdir(parents=True)


def environment_of(folder: pathlib.Path) -> dict[str, str]:
    return {
        "PATH": f"{folder}/recipes/tests/bin:{folder}/home/.local/bin:{os.environ['PATH']}",
        "HOME": f"{folder}/home",
        "KUBECONFIG": os.devnull,
        "PROMETHEUS": "http://prometheus.example.com:9090",
        "QUERY": "up",
        "PYTHONDONTWRITEBYTECODE": "1",
        "LC_ALL": "C.UTF-8",
    }


def run(folder: pathlib.Path, text: str, *options: str, stderr: int) -> "subprocess.CompletedProcess[str]":
    return subprocess.run(
        ["bash", *options, "-c", text],
        cwd=folder,
        env=environment_of(folder),
        stdin=subprocess.DEVNULL,
        stdout=subprocess.PIPE,
        stderr=stderr,
        text=True,
    )


def excuse_of(line: str) -> str | None:
    return next((begin for begin in EXCUSED if line.startswith(begin)), None)


def commands_of(lines: list[str]) -> list[tuple[str, list[str]]]:
    """The command lines of a `console` block, each with the lines that it writes."""
    commands: list[tuple[str, list[str]]] = []
    for line in lines:
        if line.startswith("$ "):
            commands.append((line[2:], []))
        elif commands and commands[-1][0].endswith("\\") and not commands[-1][1]:
            commands[-1] = (f"{commands[-1][0]}\n{line}", [])
        elif commands:
            commands[-1][1].append(line)
    return commands


def faults_of_console(block: Block, folder: pathlib.Path) -> Iterator[str]:
    if not block.lines or not block.lines[0].startswith("$ "):
        yield "expected `$ ` and a command line first"
    for command, shown in commands_of(block.lines):
        wrote = run(folder, command, stderr=subprocess.STDOUT).stdout
        if wrote.splitlines() != shown:
            yield f"{command}\n  writes\n{wrote}"


def faults_of_sh(block: Block, folder: pathlib.Path, used: set[str | None]) -> Iterator[str]:
    lines = [line for line in block.lines if excuse_of(line) is None]
    used.update(excuse_of(line) for line in block.lines)
    text = "\n".join(["trap 'status=$?; [ $status = 1 ] || exit $status' ERR", *lines])
    ended = run(folder, text, "-o", "pipefail", stderr=subprocess.PIPE)
    if ended.returncode not in (0, 1) or ended.stderr:
        yield f"status {ended.returncode}\n{ended.stderr}"


def is_missing(block: Block, need: str) -> bool:
    """Whether what a block needs isn't installed; then a line says that it is left out."""
    if importlib.util.find_spec(NEEDS[need]) is not None:
        return False
    print(f"{block.where}: left out: {need} isn't installed")
    return True


def faults_of(block: Block, folder: pathlib.Path, used: set[str | None]) -> Iterator[str]:
    """What is wrong with a block, which is run."""
    if "file" in block.notes:
        (folder / block.notes["file"]).write_text("".join(f"{line}\n" for line in block.lines), encoding="utf-8")
    if "not run" in block.notes or block.language in DATA:
        return
    if "needs" in block.notes:
        if block.notes["needs"] not in NEEDS:
            yield f"expected a need that is known: {', '.join(NEEDS)}"
            return
        if is_missing(block, block.notes["needs"]):
            return
    if block.language == "console":
        yield from faults_of_console(block, folder)
    elif block.language == "sh":
        yield from faults_of_sh(block, folder, used)
    else:
        yield f"expected the language sh or console, or {' or '.join(sorted(DATA))} of what is no command"


def checked_page(path: pathlib.Path, engine: pathlib.Path, used: set[str | None]) -> Iterator[tuple[str, list[str]]]:
    """The faults of a page, of each of its blocks and of its links."""
    with tempfile.TemporaryDirectory() as name:
        folder, blocks = pathlib.Path(name), blocks_of(path)
        if any(block.language in ("sh", "console") for block in blocks):
            scratch_copy(folder, engine)
        for block in blocks:
            yield block.where, list(faults_of(block, folder, used))
    yield f"{named(path)}, links", [f"{target}: it isn't there" for target in broken_links(path)]


def main(words: list[str]) -> int:
    engine, counts = built(words), Counts("docs")
    used: set[str | None] = set()
    for page in side_by_side(lambda path: list(checked_page(path, engine, used)), PAGES):
        for where, faults in page:
            counts.case(where, faults)
    counts.case("docs/use/shapes.md, rows", wrong_rows())
    counts.case("runs without an order", unordered_runs())
    counts.case("excuses", (f"{begin}: no line begins so" for begin in EXCUSED if begin not in used))
    return counts.end()


if __name__ == "__main__":
    sys.exit(main(sys.argv[1:]))
