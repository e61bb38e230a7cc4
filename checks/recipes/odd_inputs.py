"""Gives each recipe what nobody wants it to read, in each place where it reads something, and says where one doesn't
end with a status and at most one line on standard error. Each input is given to a recipe in a fork."""
import json
import os
import random
import re
import sys
import tempfile
from collections.abc import Iterator
from concurrent.futures import ProcessPoolExecutor
from typing import Any

from argo_judge.running import run_command

ENGINE, PATH = os.environ["ENGINE"], os.environ["PATH"]
STATUSES = {0, 1, 2, 3, 4}
# How many changes of a good file are tried in each place where it is read; more of them by the environment.
CHANGES, SHOWN = int(os.environ.get("CHANGES", "10")), 3
# What a recipe reports besides what it refuses.
NOTE = re.compile(
    "from-prometheus: answer [0-9]+: |shapes: .*: no answer says of what kind|shapes: .* is too large for |"
    "argo_judge: warning: |"
    + r"[\w-]+: ("
    + "|".join(
        (
            "metric .* measurements.*, by the controller's counts$",
            "spec.dryRun: .* is a regular expression",
            "metric .* in the run, and is ",
            "argument .* in the run$",
            "metric .* is not known to answer ",
            "measurement [0-9]+ of metric .* is cut to ",
            "[0-9]+ more measurements compare ",
            "metric .*: a Job's own end decides",
        )
    )
    + ")"
)

TEMPLATE = {
    "apiVersion": "argoproj.io/v1alpha1",
    "kind": "AnalysisTemplate",
    "metadata": {"name": "t"},
    "spec": {
        "dryRun": [{"metricName": "m"}],
        "args": [{"name": "a"}],
        "metrics": [{"name": "m", "successCondition": "result > 0"}],
    },
}
RUN = {
    "apiVersion": "argoproj.io/v1alpha1",
    "kind": "AnalysisRun",
    "metadata": {"name": "r"},
    "spec": {
        "metrics": [{"name": "m", "successCondition": "result > 0", "provider": {"datadog": {}}}],
        "args": [{"name": "a", "value": "1"}],
        "dryRun": [{"metricName": "."}],
    },
    "status": {
        "phase": "Successful",
        "metricResults": [
            {
                "name": "m",
                "phase": "Successful",
                "count": 1,
                "successful": 1,
                "error": 1,
                "measurements": [
                    {"phase": "Successful", "value": "4.2e-07", "finishedAt": "2026-01-01T00:00:00Z"},
                    {"phase": "Error", "message": "timeout", "finishedAt": "2026-01-01T00:01:00Z"},
                ],
            }
        ],
    },
}
DOCUMENT: dict[str, Any] = {
    "manifest": TEMPLATE,
    "shapes": {"m": "decimal"},
    "runs": [{"name": "r", "args": {"a": "1"}}],
    "measurements": [{"run": "r", "metric": "m", "value": 1, "time": "60"}, {"run": "r", "stop": True}],
}
ANSWER = {
    "status": "success",
    "warnings": ["w"],
    "data": {"resultType": "matrix", "result": [{"metric": {}, "values": [[60, "1"], [120.5, "2"]]}]},
}
SHAPES = {"m": "decimal"}
PART = {
    **DOCUMENT,
    "part": {"number": 0, "of": 1},
    "measurements": [{**entry, "number": number} for number, entry in enumerate(DOCUMENT["measurements"])],
}
REPORT = """run r Successful
metric m Successful successful=1 failed=0 inconclusive=0 error=0 consecutiveError=0
event 0 m Successful applied
event 1 stop closed Successful
"""
ODD: list[Any] = [None, True, 7, -1, 0.5, "", "x\ny", "\ud800", [], [[]], [None], {}, {"name": None}, {"x": {"x": []}}]

# Each recipe's words, in which a file's name says what it has; each file is good, and one after another is not.
RECIPES = {
    "from-jsonl": [["--template", "TEMPLATE", "--shapes", "SHAPES", "SHAPES"], ["--add-to", "DOCUMENT", "SHAPES"]],
    "from-prometheus": [
        ["--template", "TEMPLATE", "--shapes", "SHAPES", "ANSWER"],
        ["--flat", "--add-to", "DOCUMENT", "ANSWER"],
    ],
    "go-on": [["--engine", ENGINE, "DOCUMENT"], ["--document", "DOCUMENT"]],
    "split": [["--runs", "1", "DOCUMENT", "PARTS"]],
    "join": [["PART"]],
    "shapes": [["RUN"], ["DOCUMENT"], ["--metric", "m", "SHAPES"]],
    "from-analysisrun": [
        ["--shapes", "SHAPES", "RUN"],
        ["--template", "TEMPLATE", "--arg", "a=2", "--partial", "--shapes", "SHAPES", "RUN"],
    ],
    "compare-analysisrun": [["--engine", ENGINE, "--shapes", "SHAPES", "RUN"]],
    "kubectl-argo_judge": [
        ["run", "RUN", "--shapes", "SHAPES", "--engine", ENGINE],
        ["check", "TEMPLATE", "--arg", "a=1", "--shapes", "SHAPES", "--engine", ENGINE],
    ],
}
GOOD = {"TEMPLATE": TEMPLATE, "SHAPES": SHAPES, "DOCUMENT": DOCUMENT, "ANSWER": ANSWER, "RUN": RUN, "PART": PART}


def places(value: Any, path: tuple[Any, ...] = ()) -> Iterator[tuple[Any, ...]]:
    """The paths of all members and items of a value."""
    yield path
    for key, inner in value.items() if isinstance(value, dict) else enumerate(value) if isinstance(value, list) else ():
        yield from places(inner, (*path, key))


def changed(value: Any, path: tuple[Any, ...], odd: Any) -> Any:
    """A value with another one at a path."""
    if not path:
        return odd
    if isinstance(value, dict):
        return {**value, path[0]: changed(value[path[0]], path[1:], odd)}
    return [*value[: path[0]], changed(value[path[0]], path[1:], odd), *value[path[0] + 1 :]]


def texts_of(name: str) -> Iterator[bytes]:
    """What a file may have that isn't good: bytes that are no JSON, and good ones with an odd value at each place."""
    yield from (
        b"",
        b"\xff",
        b"\xef\xbb\xbf{}",
        b"{} {}",
        b"[" * 100_000,
        b"[" * 900 + b"]" * 900,
        b'{"a":' * 100_000,
        b"7" * 5_000,
        b'{"runs":' + b"1" * 5_000 + b"}",
    )
    changes = [(path, odd) for path in places(GOOD[name]) for odd in ODD]
    for path, odd in random.Random(7).sample(changes, min(len(changes), CHANGES)):
        yield json.dumps(changed(GOOD[name], path, odd)).encode()


def put(name: str, text: bytes) -> None:
    """Writes a file of that name; a part is in a folder of its own, with its report."""
    if name == "PART":
        os.makedirs("PART", exist_ok=True)
        with open("PART/0.report", "w", encoding="utf-8") as file:
            file.write(REPORT)
    with open("PART/0.json" if name == "PART" else name, "wb") as file:
        file.write(text)


def ended(words: list[str]) -> tuple[int, str]:
    """The status of a recipe in a fork, and what it wrote to standard error."""
    child = os.fork()
    if child == 0:
        for descriptor, name in enumerate(("/dev/null", "written", "errors")):
            os.dup2(
                os.open(name, os.O_RDONLY if descriptor == 0 else os.O_WRONLY | os.O_CREAT | os.O_TRUNC), descriptor
            )
        sys.argv = words
        try:
            run_command(words[0])
        finally:
            os._exit(99)
    status = os.waitstatus_to_exitcode(os.waitpid(child, 0)[1])
    with open("errors", encoding="utf-8", errors="replace") as file:
        return status, file.read()


def fault_of(status: int, errors: str) -> str | None:
    """What is wrong with how a recipe ended, if something is. Of a good answer there may be several notes."""
    lines = errors.splitlines()
    ours = [line for line in lines if not NOTE.match(line)]
    is_cut = errors != "" and not errors.endswith("\n")
    if status not in STATUSES or "Traceback" in errors or len(ours) != (status > 1) or is_cut:
        return f"status {status}: {errors[-600:]}"
    return None


def tried(recipe: str, words: list[str], name: str) -> list[str]:
    """The faults of a recipe whose file of that name isn't good."""
    with tempfile.TemporaryDirectory() as folder:
        os.chdir(folder)
        put("kubectl", b'#!/bin/sh\ncat "$3"\n')
        os.chmod("kubectl", 0o755)
        os.environ["PATH"] = f"{folder}:{PATH}"
        faults = []
        for number, text in enumerate(texts_of(name)):
            for good in GOOD:
                put(good, json.dumps(GOOD[good]).encode())
            put(name, text)
            line = [recipe, *(word.replace("PARTS", f"parts{number}") for word in words)]
            fault = fault_of(*ended(line))
            if fault is not None:
                faults.append(f"{recipe} {' '.join(words)}, where {name} is {text[:1000]!r}: {fault}")
        os.chdir("/")
    return faults


def main() -> None:
    cases = [
        (recipe, words, name)
        for recipe, all_words in RECIPES.items()
        for words in all_words
        for name in dict.fromkeys(words)
        if name in GOOD
    ]
    with ProcessPoolExecutor() as side_by_side:
        found = list(side_by_side.map(tried, *zip(*cases)))
    for faults in found:
        for fault in faults[:SHOWN]:
            print(fault)
    print(f"{len(cases)} files, {sum(map(len, found))} faults")


if __name__ == "__main__":
    main()
