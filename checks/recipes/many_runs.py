"""Prints a document of 64 runs and 3,000 measurements and stops, the same each time."""
import json
import random
from typing import Any

ARGS = ["0.9", "0.95", "0.99"]
METRICS = [
    {
        "name": "rate",
        "interval": "1m",
        "count": 5,
        "failureLimit": 1,
        "successCondition": "result[0] >= {{args.least}}",
    },
    {
        "name": "errors",
        "interval": "1m",
        "inconclusiveLimit": 2,
        "successCondition": "result < 5",
        "failureCondition": "result > 20",
    },
]


def entry(draw: random.Random, runs: list[dict[str, Any]]) -> dict[str, Any]:
    run = draw.choice(runs)["name"]
    if draw.random() < 0.02:
        return {"run": run, "stop": True}
    if draw.random() < 0.1:
        return {"run": run, "metric": draw.choice(["rate", "errors"]), "error": "timeout"}
    if draw.random() < 0.5:
        return {"run": run, "metric": "rate", "value": draw.choice([[], ["0.97"], ["0.93"], ["NaN"]])}
    return {"run": run, "metric": "errors", "value": draw.randrange(30)}


def document() -> str:
    draw = random.Random(7)
    runs = [{"name": f"canary-{number}", "args": {"least": draw.choice(ARGS)}} for number in range(64)]
    head = {"apiVersion": "argoproj.io/v1alpha1", "kind": "AnalysisTemplate", "metadata": {"name": "canaries"}}
    return json.dumps(
        {
            "manifest": {**head, "spec": {"args": [{"name": "least"}], "metrics": METRICS}},
            "shapes": {"rate": {"list": "decimal", "max": 3}, "errors": "whole"},
            "runs": runs,
            "measurements": [entry(draw, runs) for _ in range(3000)],
        }
    )


if __name__ == "__main__":
    print(document())
