"""Runs each block of docs/use/recipes.md and docs/use/scaling.md that ends in recipes/join, with an engine that judges
and with ones that fail on a part."""
import os
import pathlib
import subprocess
import tempfile
from collections.abc import Iterator

from checks import ROOT
from checks.docs.pages import blocks_of
from checks.recipes.many_runs import document

ENGINE = os.environ["ENGINE"]
DOCUMENT = document()
# An engine that fails on the part with this run, and judges the others.
FAILING = """#!/bin/sh
input=$(cat)
case $input in
*'{"name": "canary-17"'*) STATUS ;;
esac
printf '%s' "$input" | "$ENGINE" "$@"
"""
ENGINES = {"judges": ":", "ends with 2": "exit 2", "ends with 3": "exit 3", "is killed": "kill -9 $$"}


def blocks() -> Iterator[tuple[str, str]]:
    """The blocks that end in recipes/join and start the engine, each after a split."""
    for page in ("recipes", "scaling"):
        for block in blocks_of(ROOT / f"docs/use/{page}.md"):
            lines = [line for line in block.lines if not line.startswith("parallel ")]
            if lines and "recipes/join parts" in lines[-1] and "argo_judge run" in "\n".join(lines):
                split = [] if "recipes/split" in lines[0] else ["recipes/split --runs 4 document.json parts"]
                yield page, "\n".join([*split, *lines])


def run(text: str, ending: str) -> tuple[int, str]:
    """The status of a block with an engine, and what it printed."""
    with tempfile.TemporaryDirectory() as name:
        folder = pathlib.Path(name)
        (folder / "document.json").write_text(DOCUMENT, encoding="utf-8")
        (folder / "recipes").symlink_to(ROOT / "recipes")
        (folder / "bin").mkdir()
        (folder / "bin/argo_judge").write_text(FAILING.replace("STATUS", ending), encoding="utf-8")
        (folder / "bin/argo_judge").chmod(0o755)
        ended = subprocess.run(
            ["bash", "-c", text], cwd=folder, stdout=subprocess.PIPE, stderr=subprocess.DEVNULL, text=True
        )
        return ended.returncode, ended.stdout


def main() -> None:
    whole = subprocess.run([ENGINE, "run", "--plain"], input=DOCUMENT, capture_output=True, text=True)
    for page, text in blocks():
        for engine, ending in ENGINES.items():
            status, printed = run(text, ending)
            said = "the report of the whole" if printed == whole.stdout else f"{len(printed)} characters"
            print(f"{page}, an engine that {engine}: status {status}, {said}")


if __name__ == "__main__":
    main()
