"""Made-up AnalysisRuns, and whether a backtest of them agrees with single starts of the program."""
import json
import os
import pathlib
import random
import subprocess
import sys
import tempfile
from collections.abc import Iterator
from typing import Any

from argo_judge.analysisruns import document_of
from argo_judge.backtest.runs import Flags
from argo_judge.engine.program import judged
from argo_judge.notes import kept_notes
from checks import ROOT

ENGINE, RECIPES = os.environ["ENGINE"], ROOT / "recipes"
RUNS, BY_COMMANDS = 200, 5
SHAPES = {"success-rate": {"list": "decimal", "max": 10}, "latency": {"optional": "decimal"}}
PROVIDER = {"prometheus": {"query": "up"}}


def metric(name: str, condition: dict[str, str], limits: dict[str, int]) -> dict[str, Any]:
    return {"name": name, "interval": "1m", "provider": PROVIDER, **condition, **limits}


def template_of(draw: random.Random) -> dict[str, Any]:
    limits = [
        {
            name: draw.randrange(most)
            for name, most in (("failureLimit", 3), ("inconclusiveLimit", 3))
            if draw.random() < 0.7
        }
        for _ in range(2)
    ]
    rate = {
        "successCondition": "result[0] >= {{args.threshold}}",
        "failureCondition": f"result[0] < 0.{draw.randrange(85, 95)}",
    }
    latency = {"failureCondition": f"default(result, 0) > {draw.randrange(100, 900)}"}
    metrics = [
        metric("success-rate", rate, {"count": draw.randrange(4, 9), **limits[0]}),
        metric("latency", latency, limits[1]),
    ]
    return {"metrics": metrics, "args": [{"name": "threshold", "value": f"0.{draw.randrange(90, 99)}"}]}


def answer_of(draw: random.Random, name: str) -> dict[str, str]:
    if draw.random() < 0.1:
        return {"phase": "Error", "message": "the provider timed out"}
    if name == "latency":
        return {"value": draw.choice(["null", "NaN", str(draw.randrange(50, 950))])}
    return {"value": draw.choice(["[]", f"[0.{draw.randrange(850000, 999999)}]", f"[0.{draw.randrange(85, 99)}, 1]"])}


def run_of(draw: random.Random, place: int) -> dict[str, Any]:
    spec, results = template_of(draw), []
    for name in SHAPES:
        measured: list[dict[str, Any]] = [
            {"phase": "Successful", **answer_of(draw, name)} for _ in range(draw.randrange(2, 9))
        ]
        for at, one in enumerate(measured):
            one["startedAt"] = one["finishedAt"] = f"2026-03-04T10:{at:02}:{draw.randrange(60):02}Z"
        errors = sum(one["phase"] == "Error" for one in measured)
        counts = {"error": errors, "successful": len(measured) - errors, "count": len(measured) - errors}
        results.append({"name": name, "phase": "Successful", "measurements": measured, **counts})
    if draw.random() < 0.1:
        spec["terminate"] = True
    status = {"phase": draw.choice(["Successful", "Failed"]), "metricResults": results}
    return {"kind": "AnalysisRun", "metadata": {"name": f"run-{place}"}, "spec": spec, "status": status}


def report_in(text: str | bytes) -> dict[str, Any]:
    run = json.loads(text)["runs"][0]
    return {"phase": run["phase"], "metrics": run["metrics"]}


def single(run: Any, template: Any, flags: Flags) -> dict[str, Any]:
    """What one start of the program reports of one run."""
    with kept_notes():
        made, _ = document_of(run, flags, template)
    ended = judged(ENGINE, ["run", "--plain", "--output", "json"], made)
    sys.stderr.write(ended.stderr)
    return report_in(ended.stdout)


def by_commands(run: dict[str, Any], shapes: pathlib.Path, template: pathlib.Path | None) -> dict[str, Any]:
    """The same by the recipe from-analysisrun and the program."""
    command = [f"{RECIPES}/from-analysisrun", "--shapes", f"{shapes}"]
    command += ["--template", f"{template}"] if template else []
    made = subprocess.run(
        command, input=json.dumps(run).encode(), stdout=subprocess.PIPE, stderr=subprocess.DEVNULL, check=True
    ).stdout
    return report_in(
        subprocess.run([ENGINE, "run", "--plain", "--output", "json"], input=made, stdout=subprocess.PIPE).stdout
    )


def backtested(folder: pathlib.Path, runs: list[dict[str, Any]], template: dict[str, Any]) -> dict[str, Any]:
    """What a backtest says of runs by another template, by their names; its files are in the folder."""
    files = {"runs.json": {"kind": "List", "items": runs}, "other.json": template, "shapes.json": SHAPES}
    for name, value in files.items():
        (folder / name).write_text(json.dumps(value), encoding="utf-8")
    words = ["--template", f"{folder}/other.json", "--shapes", f"{folder}/shapes.json", "--output", "json"]
    command = [f"{RECIPES}/backtest", f"{folder}/runs.json", *words, "--engine", ENGINE]
    ended = subprocess.run(command, stdout=subprocess.PIPE, stderr=subprocess.DEVNULL, check=False)
    return {one["name"]: one for one in json.loads(ended.stdout)["runs"]}


def agreements(
    folder: pathlib.Path, runs: list[dict[str, Any]], template: dict[str, Any], found: dict[str, Any]
) -> Iterator[bool]:
    """Whether what was found of each run is what single starts say, and for some of them what commands say."""
    shapes, flags = folder / "shapes.json", Flags(str(folder / "shapes.json"))
    for run in runs:
        for name, other in (("own", None), ("template", template)):
            yield found[run["metadata"]["name"]][name] == single(run, other, flags)
    for run in runs[:BY_COMMANDS]:
        for name, file in (("own", None), ("template", folder / "other.json")):
            yield found[run["metadata"]["name"]][name] == by_commands(run, shapes, file)


def main(folder: pathlib.Path) -> None:
    draw = random.Random(2026)
    runs = [run_of(draw, place) for place in range(RUNS)]
    head: dict[str, Any] = {
        "apiVersion": "argoproj.io/v1alpha1",
        "kind": "AnalysisTemplate",
        "metadata": {"name": "other"},
    }
    template = {**head, "spec": template_of(draw)}
    found = backtested(folder, runs, template)
    agree = list(agreements(folder, runs, template, found))
    print(f"{sum(agree)} of {len(agree)} agree")
    phases = {one[name]["phase"] for one in found.values() for name in ("own", "template")}
    flips = "some flip" if any(one["flips"] for one in found.values()) else "none flips"
    print("phases:", *sorted(phases), "and", flips)


if __name__ == "__main__":
    with tempfile.TemporaryDirectory() as made:
        main(pathlib.Path(made))
