"""Looks at templates that are made to be hard: deep, wide and long ones, fields of other types, and texts that tempt a
reader to go back and forth. Each ends within seconds, with a finding or a refusal and no other line."""
import json
import os
import subprocess
from collections.abc import Iterator
from typing import Any

SECONDS = 120
CONDITIONS = (
    "",
    " ",
    "{{",
    "{{args.x",
    "{{args." * 500,
    "{{args.x}}" * 400,
    '"' * 4000,
    "'\\" * 2000,
    "/*" * 2000,
    "((((" * 1000,
    "default(" * 500,
    "isNaN(" * 600,
    "isNaN(isNaN(result))",
    "asFloat",
    "isNil",
    "a.asFloat(",
    "result[" * 300,
    "result == '" + "x" * 5000,
    "1" * 5000,
    "result > 99999999999999999999",
    "result > .5.5",
    "any(result, " * 60,
    "\u00e9\u0000\u202e",
    "result in [" + ", ".join(map(str, range(16))) + "]",
    " || ".join(f"result[0] > {number}.5" for number in range(150)),
    "isNaN" + " " * 4000 + "(",
)
OTHERS: tuple[Any, ...] = (None, True, 7, -1, "", "x", [], {}, [None], [[]], {"": {}}, "9" * 400, -(10**18))
FIELDS = (
    "name",
    "interval",
    "initialDelay",
    "successCondition",
    "failureCondition",
    "count",
    "failureLimit",
    "inconclusiveLimit",
    "consecutiveErrorLimit",
    "provider",
)


def nested(shape: Any, levels: int, kind: str) -> Any:
    for _ in range(levels):
        shape = {"list": shape, "max": 10000} if kind == "list" else {"record": {"a": shape, "b": shape}}
    return shape


SHAPES: tuple[Any, ...] = (
    "bool",
    "text",
    "whole",
    nested("decimal", 15, "list"),
    nested("decimal", 9, "record"),
    nested("whole", 40, "list"),
    {"record": {f"f{number}": {"optional": "decimal"} for number in range(500)}},
    {"list": "decimal", "max": "x"},
    {"optional": {"optional": "text"}},
    {"list": None},
    {"record": []},
    {},
    [],
    7,
)


def template(metrics: list[Any], shapes: Any = None, **spec: Any) -> dict[str, Any]:
    noted = {"annotations": {"argo-judge/shapes": shapes if isinstance(shapes, str) else json.dumps(shapes)}}
    return {
        "apiVersion": "argoproj.io/v1alpha1",
        "kind": "AnalysisTemplate",
        "metadata": {"name": "t", **(noted if shapes is not None else {})},
        "spec": {"metrics": metrics, **spec},
    }


def metric(**fields: Any) -> dict[str, Any]:
    own = {"name": "m", "interval": "1m", "provider": {"prometheus": {}}, "successCondition": "result[0] > 1"}
    return {**own, **fields}


def templates() -> Iterator[tuple[str, list[Any]]]:
    args = [{"name": "x", "value": "{{"}]
    yield "conditions", [
        template([metric(successCondition=text, failureCondition=text)], args=args) for text in CONDITIONS
    ]
    yield "shapes", [
        template([metric(successCondition="len(result) > 3 && result[0].a.f7 > 1")], {"m": shape}) for shape in SHAPES
    ] + [template([metric()], text) for text in ("", "{", "[]", "[" * 500, "NaN")]
    yield "fields", [template([metric(**{name: value})]) for name in FIELDS for value in OTHERS]
    yield "parts", [
        {**template([metric()]), "spec": {"metrics": [metric()], name: value}}
        for name in ("args", "dryRun", "measurementRetention", "metrics", "templates")
        for value in OTHERS
    ]
    yield "objects", [{"kind": "AnalysisTemplate", name: value} for name in ("spec", "metadata") for value in OTHERS]
    yield "patterns", [
        template([metric(name="a" * 60)], dryRun=[{"metricName": text}] * 3)
        for text in ("(a+)+$b", "(a|a)*$b", "a" * 5000, "(" * 400, "[", "a{1,1000}{1,1000}", "(?P<x>a)")
    ]
    yield "metrics", [
        template(
            [
                metric(name=str(number), successCondition=f"result[0] > {number}.5", failureCondition="result[0] <")
                for number in range(100)
            ]
        )
    ]
    yield "names", [template([metric(**{"x" * 100_000: 1}), metric()], **{f"y{number}": 1 for number in range(300)})]


def outcome(made: list[Any]) -> str:
    """What is wrong with how lint ends on templates, if something is."""
    try:
        ended = subprocess.run(
            ["lint", "--output", "json", "--engine", os.environ["ENGINE"], "-"],
            capture_output=True,
            input=json.dumps({"kind": "List", "items": made}),
            text=True,
            timeout=SECONDS,
        )
    except subprocess.TimeoutExpired:
        return f"no end within {SECONDS} seconds"
    is_good = ended.returncode in (0, 1) and json.loads(ended.stdout)["templates"] == len(made) and not ended.stderr
    return "as expected" if is_good else f"status {ended.returncode}: {ended.stderr}"


def main() -> None:
    for name, made in templates():
        print(f"{name}: {outcome(made)}", flush=True)


if __name__ == "__main__":
    main()
