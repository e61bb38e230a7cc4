"""The command line, how a command ends, and what is read of the engine."""
import json
import os
import pathlib
import subprocess
import sys

import pytest

from argo_judge.cli import COMMANDS, PLUGIN, all_commands, alone
from argo_judge.engine.program import ENGINE, judged, shell_status
from argo_judge.engine.refusals import refusal_in, warnings_in
from argo_judge.engine.reports import checked
from argo_judge.errors import NO_MEMORY, NOT_WRITTEN, REFUSED, UNEXPECTED, Refused, Status
from argo_judge.objects import Object
from argo_judge.running import explained

PYTHON = pathlib.Path(__file__).resolve().parents[1]
RECIPES = PYTHON.parent / "recipes"


def started(*words: str, code: str = "") -> "subprocess.CompletedProcess[str]":
    """A start of the package's command, or of code that runs a command of its own."""
    start = [sys.executable, *(["-c", code] if code else ["-m", "argo_judge"]), *words]
    return subprocess.run(start, capture_output=True, text=True, env={**os.environ, "PYTHONPATH": str(PYTHON)})


def test_each_command_has_help_and_each_recipe_a_command() -> None:
    help_of_all = all_commands().format_help()
    assert all(one.words.split()[0] in help_of_all for one in COMMANDS)
    assert all(alone(one).format_help().startswith("usage: ") for one in (*COMMANDS, PLUGIN))
    if RECIPES.is_dir():
        names = {path.name for path in RECIPES.iterdir() if path.is_file()} - {"check"}
        assert names == {one.recipe for one in (*COMMANDS, PLUGIN)}


def test_the_folder_starts_each_recipe_by_its_name() -> None:
    start = [sys.executable, str(PYTHON)]
    for recipe, usage in (("lint", "usage: lint "), ("kubectl-argo_judge", "usage: kubectl argo-judge ")):
        ended = subprocess.run([*start, recipe, "--help"], capture_output=True, text=True)
        assert ended.stdout.startswith(usage)
    for words in (start, [*start, "nothing"]):
        ended = subprocess.run(words, capture_output=True, text=True)
        assert (ended.returncode, ended.stdout, len(ended.stderr.splitlines())) == (REFUSED, "", 1)


def test_version_and_refusals() -> None:
    assert started("--version").stdout.startswith("argo-judge-tools ")
    starts: list[list[str]] = [[], ["nothing"], ["convert"], ["lint"], ["split", "--runs", "x", "a", "b"]]
    for words in starts:
        ended = started(*words)
        assert (ended.returncode, ended.stdout, len(ended.stderr.splitlines())) == (REFUSED, "", 1)
        assert ended.stderr.startswith("argo-judge-tools: command line: ")


@pytest.mark.parametrize(
    ("fault", "status"),
    [
        (Refused("x"), REFUSED),
        (RecursionError(), REFUSED),
        (UnicodeDecodeError("utf-8", b"\xff", 0, 1, "x"), REFUSED),
        (UnicodeEncodeError("utf-8", "\ud800", 0, 1, "x"), REFUSED),
        (MemoryError(), NO_MEMORY),
        (OSError(28, "full"), NOT_WRITTEN),
        (KeyError("a\nb"), UNEXPECTED),
    ],
)
def test_explained(fault: Exception, status: int) -> None:
    try:
        raise fault
    except type(fault) as raised:
        assert explained(raised)[0] == status


@pytest.mark.parametrize(
    ("raised", "status", "lines"),
    [
        ("Status(5)", 5, 0),
        ("Refused('a\\nb')", 2, 1),
        ("SystemExit(3)", 3, 0),
        ("SystemExit()", 0, 0),
        ("ValueError('a\\nb')", 70, 1),
    ],
)
def test_a_command_ends_with_one_line(raised: str, status: int, lines: int) -> None:
    imports = "from argo_judge.errors import Refused, Status\nfrom argo_judge.running import run\n"
    ended = started(code=f"{imports}def main():\n    raise {raised}\nrun(main)")
    assert (ended.returncode, len(ended.stderr.splitlines())) == (status, lines)


def test_status_keeps_its_number() -> None:
    assert Status(7).status == 7
    assert [shell_status(code) for code in (0, 1, -9)] == [0, 1, 137]


# ---- the engine


def test_a_program_that_is_not_there_is_refused() -> None:
    with pytest.raises(Refused, match="can't be started: No such file or directory"):
        judged("/no/such/program", [], {})
    if os.path.isabs(ENGINE) and not os.path.isfile(ENGINE):
        with pytest.raises(Refused, match="isn't there; expected the program"):
            judged(ENGINE, [], {})


@pytest.mark.parametrize(
    "errors", ["", "x", "{}", "[]", '{"version": 1}', '{"version": 2, "refusal": {}}', '{"version":1,"refusal":{}}']
)
def test_what_is_no_refusal_is_refused(errors: str) -> None:
    with pytest.raises(Refused, match="expected a refusal of version 1"):
        refusal_in(errors)


def test_warnings() -> None:
    warning = {"text": "t\nu", "found": "f", "expected": None, "place": {"entry": 3}}
    (found,) = warnings_in(json.dumps({"version": 1, "warnings": [warning]}))
    assert (found.entry, found.line) == (3, "argo_judge: warning: t\\nu")
    assert warnings_in(" \n") == []
    with pytest.raises(Refused, match="expected warnings of version 1"):
        warnings_in(json.dumps({"version": 1, "warnings": [warning, {}]}))


DOCUMENT: Object = {
    "manifest": {"spec": {"metrics": [{"name": "m"}]}},
    "runs": [{"name": "r"}],
    "measurements": [{"run": "r", "metric": "m", "value": 1}, {"run": "r", "stop": True}],
}
METRIC: Object = {
    "name": "m",
    "phase": "Successful",
    "dryRun": False,
    "counts": {"successful": 1, "failed": 0, "inconclusive": 0, "error": 0, "consecutiveError": 0},
    "limits": {"failureLimit": 0, "inconclusiveLimit": 0, "consecutiveErrorLimit": 4},
}
NONE: Object = {"cause": None, "fault": None, "phase": None}
EVENTS: list[Object] = [
    {**NONE, "number": 0, "metric": "m", "stop": False, "verdict": "Successful", "effect": "applied"},
    {**NONE, "number": 1, "metric": None, "stop": True, "verdict": None, "effect": "closed", "phase": "Successful"},
]


def report(**members: object) -> str:
    """The report of the document, with other members of its run."""
    run: Object = {"name": "r", "phase": "Successful", "metrics": [METRIC], "events": EVENTS, **members}
    return json.dumps({"version": 1, "runs": [run]})


def test_a_report_is_held_to_its_document() -> None:
    assert checked(DOCUMENT, report(), "document", "report")[0]["phase"] == "Successful"


@pytest.mark.parametrize(
    "members",
    [
        {"name": "s"},
        {"phase": "Good"},
        {"metrics": []},
        {"metrics": [{**METRIC, "counts": {**METRIC["counts"], "failed": True}}]},
        {"metrics": [{**METRIC, "limits": {}}]},
        {"events": EVENTS[:1]},
        {"events": EVENTS[::-1]},
        {"events": [{**EVENTS[0], "effect": "closed"}, EVENTS[1]]},
        {"events": [{**EVENTS[0], "verdict": "Error", "cause": "shape", "fault": "Overflow"}, EVENTS[1]]},
        {"events": [{**EVENTS[0], "fault": "Overflow"}, EVENTS[1]]},
        {"events": [{**EVENTS[0], "number": False}, EVENTS[1]]},
    ],
)
def test_another_report_is_refused(members: Object) -> None:
    with pytest.raises(Refused, match="^report, runs"):
        checked(DOCUMENT, report(**members), "document", "report")
