"""Whether each table of docs/use/shapes.md says what the document that it names has."""

import json
import re
from collections.abc import Iterator
from typing import Any

from checks import ROOT

ROW = re.compile(r"\| `?(\w+)`? \| (?:`(.*)`|\[`([\w-]+)\.json`\]\(.*\)) \|")
FOLDER = ROOT / "examples/providers"


def tables_of(text: str) -> Iterator[dict[str, str]]:
    """Each provider's table: what each row has, by its name; the row `judged` is the last."""
    rows = {}
    for name, code, document in (found.groups() for found in map(ROW.fullmatch, text.splitlines()) if found):
        rows[name] = code or document
        if name == "judged":
            yield rows
            rows = {}


def differing(rows: dict[str, str]) -> Iterator[str]:
    """The rows of a table that its document doesn't have."""
    document = json.loads((FOLDER / f"{rows['judged']}.json").read_text(encoding="utf-8"))
    metric = document["manifest"]["spec"]["metrics"][0]
    said = {"result": document["measurements"][0]["value"], "shape": document["shapes"][metric["name"]]}
    for name in ("result", "shape", "successCondition", "failureCondition"):
        shown: Any = rows.get(name)
        if name in said:
            shown = json.loads(rows[name])
        if shown != said.get(name, metric.get(name)):
            yield name


def wrong_rows() -> Iterator[str]:
    tables = list(tables_of((ROOT / "docs/use/shapes.md").read_text(encoding="utf-8")))
    for rows in tables:
        for name in differing(rows):
            yield f"{rows['judged']}: {name} isn't that of its document"
    shown = {rows["judged"] for rows in tables} | {"empty-answers"}
    for file in sorted(FOLDER.glob("*.json")):
        if file.stem not in shown:
            yield f"{file.stem}: it has no table"
