"""The units of python/tests, and which lines of the package are run by them and by the stored runs of recipes/tests."""

import json
import os
import pathlib
import re
import shutil
import subprocess
import tempfile

from checks.harness import ENGINE, Counts, python_with, side_by_side, started
from checks.python.forms import PACKAGE, PYTHON
from checks.recipes.check import TESTS, can_run, environment_of

UNITS = ["-q", "--no-header", "-p", "no:cacheprovider", "tests"]
# Stored runs of recipes/tests that start, in some seconds, what units can't without the program.
STORED = (
    "backtest-outputs",
    "go-on-warnings",
    "jsonl",
    "kubectl-run",
    "lint-findings",
    "lint-yaml",
    "split-by-job",
    "test-fails",
    "test-outputs",
    "warnings",
)
# The least share of the package's lines that have to be run, in percent.
LEAST = 85
SETTINGS = """[run]
source = {package}
data_file = {scratch}/data
parallel = true
"""
# What Python loads first, in each process that is started while lines are counted: commands end by os._exit, at which
# coverage.py by itself keeps nothing.
SITE = '''"""Counts the lines that a process runs, whatever ends it."""
import os

import coverage

coverage.process_startup()
ends = os._exit


def keep_and_end(status):
    if (counted := coverage.Coverage.current()) is not None:
        counted.stop()
        counted.save()
    ends(status)


os._exit = keep_and_end
'''


def counted_units(counts: Counts, start: list[str], scratch: pathlib.Path) -> None:
    """Runs the units, and counts each; one that pytest can't begin with fails, too."""
    kept = {"PYTHONDONTWRITEBYTECODE": "1", "HYPOTHESIS_STORAGE_DIRECTORY": str(scratch / "hypothesis")}
    ended = started([*start, *UNITS], cwd=PYTHON, env={**os.environ, **kept}, stderr=subprocess.STDOUT)
    found = {what: int(number) for number, what in re.findall(r"(\d+) (passed|failed|error)", ended.output)}
    bad = found.get("failed", 0) + found.get("error", 0) or int(ended.status != 0)
    if bad:
        counts.say(f"python, pytest:\n{ended.output.rstrip()}")
    counts.passed, counts.failed = counts.passed + found.get("passed", 0), counts.failed + bad


# ---- coverage


class Coverage:
    """Counts of lines that are run, kept in a scratch folder, by a Python that has coverage.py."""

    def __init__(self, python: str, scratch: pathlib.Path) -> None:
        self.python, self.scratch, self.settings = python, scratch, scratch / "settings"
        self.settings.write_text(SETTINGS.format(package=PACKAGE, scratch=scratch), encoding="utf-8")
        (scratch / "site").mkdir()
        (scratch / "site/sitecustomize.py").write_text(SITE, encoding="utf-8")
        (scratch / "bin").mkdir()
        (scratch / "bin/python3").symlink_to(python)

    def start(self) -> list[str]:
        """What the words of pytest are put after."""
        return [self.python, "-m", "coverage", "run", "--rcfile", str(self.settings), "-m", "pytest"]

    def environment(self) -> dict[str, str]:
        """In which what is started counts its lines."""
        own = environment_of(ENGINE)
        more = {"COVERAGE_PROCESS_START": str(self.settings), "PYTHONPATH": str(self.scratch / "site")}
        return {**own, **more, "PATH": f"{self.scratch / 'bin'}:{own['PATH']}"}

    def run_stored(self) -> None:
        """Runs some of the stored runs; recipes/check says whether they end as they have to."""
        words, environment = ["bash", "-o", "pipefail", "command"], self.environment()
        folders = [folder for folder in (TESTS / name for name in STORED) if can_run(folder)]
        side_by_side(lambda folder: started(words, cwd=folder, env=environment), folders)

    def ended(self, *words: str) -> str:
        command = [self.python, "-m", "coverage", words[0], "--rcfile", str(self.settings), *words[1:]]
        return started(command, cwd=self.scratch).output

    def percent(self) -> float:
        """The share of lines that were run so far."""
        self.ended("combine", "--append", "--quiet")
        self.ended("json", "--quiet", "-o", str(self.scratch / "found.json"))
        found = json.loads((self.scratch / "found.json").read_text(encoding="utf-8"))
        return float(found["totals"]["percent_covered"])


def count_coverage(counts: Counts, coverage: Coverage) -> None:
    """Counts whether enough lines were run, by the units alone or with the stored runs."""
    percent, by = coverage.percent(), "its units"
    if percent < LEAST and not ENGINE.is_file():
        counts.say(f"python: {percent:.0f} % of the package's lines are run by {by}; the stored runs need the program")
        return
    if percent < LEAST:
        coverage.run_stored()
        percent, by = coverage.percent(), "its units and some stored runs of recipes"
    counts.say(f"python: {percent:.0f} % of the package's lines are run by {by}")
    counts.expect(percent >= LEAST, f"python: expected at least {LEAST} %:\n{coverage.ended('report')}")


def count_units(counts: Counts) -> None:
    """Counts the units, and whether enough lines are run where coverage.py is installed."""
    python = python_with("pytest", "coverage")
    with tempfile.TemporaryDirectory() as folder:
        scratch = pathlib.Path(folder)
        if python is not None:
            coverage = Coverage(python, scratch)
            counted_units(counts, coverage.start(), scratch)
            count_coverage(counts, coverage)
        elif shutil.which("pytest"):
            counts.say("python: left out: coverage isn't installed next to pytest, so no lines are counted")
            counted_units(counts, ["pytest"], scratch)
        else:
            counts.say("python: left out: pytest isn't installed, so no unit is run")
