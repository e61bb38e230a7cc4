"""Looks at each example of docs/use/lint.md, put into a template without findings: a rule has to find something in what
its section says that it finds, and nothing in the other. Each rule that there is has both."""
import json
import os
import re
import subprocess
from collections.abc import Iterator
from typing import Any

from argo_judge.lint.findings import RULES
from checks import ROOT

EXAMPLE = re.compile(r"- (finds|not): `(.*)`")
OF_SPEC = ("args", "dryRun", "measurementRetention")
METRIC = {
    "name": "rate",
    "interval": "1m",
    "successCondition": "len(result) > 0 && result[0] >= 0.95",
    "provider": {"prometheus": {}},
}
SHAPE = {"list": "decimal", "max": 10}


def examples_of(page: str) -> Iterator[tuple[str | None, bool, dict[str, Any]]]:
    """Each example: its rule, whether the rule finds something, and its members."""
    rule = None
    for line in page.splitlines():
        if line.startswith("## "):
            rule = line[3:]
        elif example := EXAMPLE.fullmatch(line):
            yield rule, example[1] == "finds", json.loads(example[2])


def template_of(name: str, members: dict[str, Any]) -> dict[str, Any]:
    spec = {key: value for key, value in members.items() if key in OF_SPEC}
    own = {key: value for key, value in members.items() if key not in (*OF_SPEC, "shape")}
    shapes = json.dumps({"rate": members.get("shape", SHAPE)})
    return {
        "apiVersion": "argoproj.io/v1alpha1",
        "kind": "AnalysisTemplate",
        "metadata": {"name": name, "annotations": {"argo-judge/shapes": shapes}},
        "spec": {**spec, "metrics": [{**METRIC, **own}]},
    }


def main() -> None:
    examples = list(examples_of((ROOT / "docs/use/lint.md").read_text(encoding="utf-8")))
    templates = [template_of(str(number), members) for number, (_, _, members) in enumerate(examples)]
    made = {"kind": "List", "items": [*templates, template_of("none", {})]}
    ended = subprocess.run(
        ["lint", "--output", "json", "--engine", os.environ["ENGINE"], "-"],
        input=json.dumps(made),
        stdout=subprocess.PIPE,
        text=True,
    )
    found: dict[str, set[str]] = {str(number): set() for number in [*range(len(examples)), "none"]}
    for finding in json.loads(ended.stdout)["findings"]:
        found[finding["name"]].add(finding["rule"])
    for number, (rule, finds, members) in enumerate(examples):
        if (rule in found[str(number)]) != finds:
            print(f"{rule}: {'nothing' if finds else 'something'} is found in {json.dumps(members)}")
        if not finds and found[str(number)] - {"argument-without-value"}:
            print(f"{rule}: also {found[str(number)]} in {json.dumps(members)}")
    if found["none"]:
        print(f"found in the template without findings: {found['none']}")
    sections = [(rule, finds) for rule, finds, _ in examples]
    if sections != [(rule, finds) for rule in RULES for finds in (True, False)]:
        print("expected a section with two examples of each rule, in the order of the rules")
    print(f"{len(examples)} examples, status {ended.returncode}")


if __name__ == "__main__":
    main()
