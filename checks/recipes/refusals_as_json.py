"""Starts recipes with an engine that does nothing but end with a status and a text on standard error, and prints what
they say and their status."""
import json
import os
import subprocess
import tempfile
from concurrent.futures import ThreadPoolExecutor
from typing import Any

from checks import ROOT

BUNDLE, RUN = "../../../examples/bundles/success-rate.json", "../../../examples/analysisrun.json"
SHAPES, SUITE = "../analysisrun/shapes.json", "../kubectl-lint/suite.json"
TEMPLATE = "../../../examples/backtest/stricter.json"
RECIPES = {
    "go-on": [BUNDLE],
    "compare-analysisrun": ["--shapes", SHAPES, RUN],
    "kubectl-argo_judge": ["explain", "guestbook-7-success-rate", "--shapes", "../kubectl-explain/shapes.json"],
    "test": [SUITE],
    "lint": ["../objects/kind/default/analysistemplate/success-rate.json"],
    "backtest": ["--template", TEMPLATE, "--arg", "threshold=0.99", "--shapes", SHAPES, RUN],
}
PLACE = {
    "argument": None,
    "entry": None,
    "excerpt": None,
    "field": None,
    "metric": None,
    "offset": None,
    "part": "runs",
    "run": {"name": "a", "number": 1},
}
DOUBLE = {
    "expected": None,
    "found": 'an earlier run has the name "a", too',
    "hint": None,
    "name": "DoubleRun",
    "place": PLACE,
    "pointer": "/runs/1",
    "position": None,
    "text": 'runs[1]: DoubleRun: an earlier run has the name "a", too',
}


def refusal(version: int = 1, **others: Any) -> str:
    return json.dumps({"refusal": {**DOUBLE, **others}, "version": version}, separators=(",", ":")) + "\n"


def warning(version: int = 1, **others: Any) -> str:
    return json.dumps({"version": version, "warnings": [{**DOUBLE, **others}]}, separators=(",", ":")) + "\n"


# It says how much it takes, and else ends as it should.
LIMITS = json.dumps(
    {
        "limits": {
            "conditionBytes": 4096,
            "documentBytes": 16_777_216,
            "listItems": 10_000,
            "measurements": 100_000,
            "metrics": 64,
            "runs": 64,
        },
        "version": 2,
    }
)
ENGINE = """#!/bin/sh
case $(cat) in *'"name": "limits"'*) echo '{limits}' && exit 0 ;; esac
cat {folder}/errors >&2
exit {status}
"""
# Recipes that have the engine write JSON. The plugin prints what the engine writes as text.
OF_JSON = [name for name in RECIPES if name != "kubectl-argo_judge"]
# A status and a text, and the recipes that are started by it.
ENDINGS = {
    "a refusal": (2, refusal(), OF_JSON),
    "a text with a line feed, and with what a terminal would obey": (
        2,
        refusal(text="a\nargo_judge: b\x1b[2J\u2028c"),
        OF_JSON,
    ),
    "a refusal of a condition": (
        2,
        refusal(
            name="UnknownName",
            found="no word of the language",
            text='run 0 "lint", metric 0 "0", successCondition, '
            'byte 4: UnknownName: no word of the language; in "len(«x»)"',
            place={**PLACE, "part": "manifest", "field": "successCondition", "metric": {"name": "0", "number": 0}},
        ),
        ["lint"],
    ),
    "a refusal of a shape": (
        2,
        refusal(
            name="MaxMissing",
            text='shapes: metric 0 "0": MaxMissing: expected a list',
            place={**PLACE, "part": "shapes", "metric": {"name": "0", "number": 0}, "run": None},
        ),
        ["lint"],
    ),
    "a line": (2, f"argo_judge: {DOUBLE['text']}\n", RECIPES),
    "nothing": (2, "", ["go-on"]),
    "another version": (2, refusal(2), ["go-on"]),
    "no name": (2, refusal(name=None), ["go-on"]),
    "a text that is none": (2, refusal(text=["a"]), ["go-on"]),
    "a metric that is none": (2, refusal(place={**PLACE, "metric": {"number": "0"}}), ["go-on"]),
    "no place": (2, refusal(place=None), ["go-on"]),
    "a list": (2, "[]\n", ["go-on"]),
    "a refusal and more": (2, refusal() + "more\n", ["go-on"]),
    "another status": (3, "argo_judge: out of memory\n", RECIPES),
    "warnings that aren't shown": (0, "argo_judge: warning: out of memory: warnings are not shown\n", ["go-on"]),
    "warnings of another version": (0, warning(2), ["go-on"]),
    "a warning whose text is none": (0, warning(text=None), ["go-on"]),
    "no warning": (0, '{"version":1,"warnings":[]}\n', ["go-on"]),
    "a warning with a line feed": (0, warning(text="a\nargo_judge: b"), ["go-on"]),
}


def started(ending: str, recipe: str) -> str:
    """What a recipe says and its status, with an engine that ends so."""
    status, text, _ = ENDINGS[ending]
    with tempfile.TemporaryDirectory() as folder:
        with open(f"{folder}/errors", "w", encoding="utf-8") as file:
            file.write(text)
        with open(f"{folder}/engine", "w", encoding="utf-8") as file:
            file.write(ENGINE.format(limits=LIMITS, folder=folder, status=status))
        os.chmod(f"{folder}/engine", 0o755)
        ended = subprocess.run(
            [ROOT / "recipes" / recipe, *RECIPES[recipe], "--engine", f"{folder}/engine"],
            stdout=subprocess.PIPE,
            stderr=subprocess.STDOUT,
            text=True,
        )
        return f"{ended.stdout}status {ended.returncode}"


def main() -> None:
    cases = [(ending, recipe) for ending, (_, _, recipes) in ENDINGS.items() for recipe in recipes]
    with ThreadPoolExecutor(os.cpu_count()) as side_by_side:
        found = list(side_by_side.map(started, *zip(*cases)))
    for (ending, recipe), said in zip(cases, found):
        print(f"-- {recipe}: {ending}\n{said}")


if __name__ == "__main__":
    main()
