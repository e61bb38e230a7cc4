"""Runs the recipes against the real parts: Debian's `prometheus`, started on a free port of the loopback with data of
its own, and a real `kubectl` against a small API server on the loopback, which serves stored AnalysisRuns and
templates.

    tests/real/check [PROGRAM]    with that program in the place of the one last built

A part whose programs aren't installed is skipped, and a line says so.
"""

import pathlib
import shutil
import subprocess
import sys
import tempfile

from checks import ROOT
from checks.harness import Counts, built
from checks.real import cluster, prometheus

PARTS = {
    "prometheus": (prometheus.checks, ("prometheus", "promtool", "curl")),
    "kubectl": (cluster.checks, ("kubectl",)),
}


def version_of(program):
    words = {"kubectl": ["version", "--client"]}.get(program, ["--version"])
    ended = subprocess.run([program, *words], stdout=subprocess.PIPE, stderr=subprocess.STDOUT, text=True)
    return ended.stdout.split("\n")[0].partition(" (")[0][:64]


def tried(name, engine, counts):
    """Counts the checks of a part."""
    checks, programs = PARTS[name]
    missing = [program for program in programs if shutil.which(program) is None]
    if missing:
        print(f"{name}: skipped, since {', '.join(missing)} isn't installed")
        return
    print(f"{name}: {', '.join(map(version_of, programs))}")
    with tempfile.TemporaryDirectory() as folder:
        for what, fault in checks(ROOT, engine, pathlib.Path(folder)):
            counts.expect(fault is None, f"{name}: {what}: {fault}")


def main(words: list[str]) -> int:
    engine, counts = built(words), Counts("real parts")
    for name in PARTS:
        tried(name, engine, counts)
    return counts.end(may_be_empty=True)


if __name__ == "__main__":
    sys.exit(main(sys.argv[1:]))
