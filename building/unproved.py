"""Runs argo_judge as its sources are now, before any proof: for a first look.

    try COMMAND ..    as argo_judge does, from any folder: what it reads, what it writes, and its exit status
    try --help        this text; `try run --help` and the like are the program's

It takes two to three minutes each time: `rt try` compiles the program with checks at run time, runs it, and keeps
nothing. Nothing is proved, and a line on standard error says so. Status 70: the sources can't be compiled, or `rt`
isn't on the PATH.
"""

import re
import shutil
import subprocess
import sys

from building import ROOT

CRATE = ROOT / "crates" / "argo_judge"
NOT_RUN = 70
# What the kit says after the program's own lines.
OF_THE_KIT = re.compile(r"(?:checked|races|run|note)[:=].*|rt: .*")


def split(lines: list[str]) -> tuple[list[str], str]:
    """The program's own lines on standard error, and the one in which the kit says how it ended."""
    own = [line for line in lines if not OF_THE_KIT.fullmatch(line.rstrip("\n"))]
    return own, lines[-1] if lines else ""


def run(words: list[str]) -> int:
    print(
        "try: compiling the sources, which takes two to three minutes; nothing is proved", file=sys.stderr, flush=True
    )
    ended = subprocess.run(
        ["rt", "try", "--", *words], cwd=CRATE, stderr=subprocess.PIPE, text=True, errors="replace", check=False
    )
    own, last = split(ended.stderr.splitlines(keepends=True))
    if not last.startswith("run=ended"):
        sys.stderr.write(ended.stderr)
        print("try: the program could not be compiled and run", file=sys.stderr)
        return NOT_RUN
    sys.stderr.write("".join(own))
    return ended.returncode


def main(words: list[str]) -> int:
    if not words or words == ["--help"]:
        print(__doc__.strip())
        return 0
    if shutil.which("rt") is None:
        print("try: the toolchain's `rt` isn't on the PATH", file=sys.stderr)
        return NOT_RUN
    return run(words)


if __name__ == "__main__":
    sys.exit(main(sys.argv[1:]))
