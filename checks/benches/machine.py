"""Times the stack machine, and prints nanoseconds an operation.

    benches/machine

Each condition is answered by `argo_judge eval` on a list that is as long as its shape says, and such that
no loop ends early, so that a run costs as much as the budget that `argo_judge check` prints. From the
least time of several runs that of the same document with the condition `true` is taken off. Where a condition
makes lists, a run has room for them: so each is timed once more, together with a filter of one item.
The program must have been built (bin/argo_judge --version).
"""
import json
import subprocess
import sys
import time

from checks.harness import ENGINE

REPEATS = 15
WITH_FILTER = "{} and len(filter([1], # == 1)) == 1"

DECIMALS = ("decimal", "0.9512")
WHOLES = ("whole", 7)
TEXTS = ("text", "canary")

# what is measured, the kind of the items with an item, how many items, the condition
ROWS = [
    ("a comparison", DECIMALS, 1000, "all(result, all(result, # >= 0.95))"),
    ("arithmetic of decimals", DECIMALS, 1000, "all(result, all(result, # * 2.0 + 1.0 - # / 2.0 > 0.5))"),
    ("arithmetic of wholes", WHOLES, 1000, "all(result, all(result, # * 2 + 1 - # % 2 > 0))"),
    ("three nested loops", DECIMALS, 100, "all(result, all(result, all(result, # >= 0.95)))"),
    ("count", DECIMALS, 1000, "all(result, count(result, # >= 0.95) == 1000)"),
    ("equal texts", TEXTS, 1000, 'all(result, all(result, # == "canary"))'),
    ("texts in a list literal", TEXTS, 1000, 'all(result, all(result, # in ["stable", "baseline", "canary"]))'),
    ("filter", DECIMALS, 1000, "all(result, len(filter(result, # >= 0.95)) == 1000)"),
]


def timed(command, document):
    """Seconds of the fastest of several starts of the program on a document, and what it writes."""
    data = json.dumps(document).encode()
    best = float("inf")
    for _ in range(REPEATS):
        begun = time.perf_counter()
        done = subprocess.run([ENGINE, command], input=data, capture_output=True, check=False)
        took = time.perf_counter() - begun
        if done.returncode:
            sys.exit(f"{command}: status {done.returncode}: {done.stderr.decode()}")
        best = min(best, took)
    return best, done.stdout.decode()


def budget(shape, condition):
    metric = {"name": "m", "interval": "1m", "count": 1, "successCondition": condition}
    manifest = {
        "apiVersion": "argoproj.io/v1alpha1",
        "kind": "AnalysisTemplate",
        "metadata": {"name": "t"},
        "spec": {"metrics": [metric]},
    }
    document = {"manifest": manifest, "shapes": {"m": shape}, "runs": [{"name": "r"}], "measurements": []}
    return int(timed("check", document)[1].split("budget=")[1])


def nanoseconds(shape, value, condition):
    """Of an operation of the condition, which holds of the value."""
    seconds = {}
    for text in ("true", condition):
        seconds[text], answer = timed("eval", {"condition": text, "shape": shape, "value": value})
        if answer.strip() != "true":
            sys.exit(f"{text}: {answer}")
    return (seconds[condition] - seconds["true"]) / budget(shape, condition) * 1e9


def main():
    print("| | Condition | operations | ns each | with a filter, ns each |")
    print("|---|---|---|---|---|")
    for name, (kind, item), items, condition in ROWS:
        shape, value = {"list": kind, "max": items}, [item] * items
        each = [f"{nanoseconds(shape, value, text):.1f}" for text in (condition, WITH_FILTER.format(condition))]
        print(f"| {name} | `{condition}` | {budget(shape, condition):,} | {each[0]} | {each[1]} |", flush=True)


if __name__ == "__main__":
    main()
