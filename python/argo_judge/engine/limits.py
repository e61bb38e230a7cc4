"""How much the engine takes at most, as it says itself."""
import functools
from typing import NamedTuple

from argo_judge.engine.program import judged
from argo_judge.errors import GOOD, Refused
from argo_judge.jsontext import parsed
from argo_judge.objects import Object, member
from argo_judge.templates import API_VERSION

# The version of the form of `check --output json`.
VERSION = 2
# A document that each engine takes.
ASKED: Object = {
    "manifest": {
        "apiVersion": API_VERSION,
        "kind": "AnalysisTemplate",
        "metadata": {"name": "limits"},
        "spec": {"metrics": [{"name": "any", "successCondition": "result"}]},
    },
    "shapes": {"any": "bool"},
    "runs": [{"name": "run"}],
}


class Limits(NamedTuple):
    """Of a condition its bytes, of a list's shape its `max`, and of a document its bytes and parts."""

    condition_bytes: int
    document_bytes: int
    list_items: int
    measurements: int
    metrics: int
    runs: int


def limits_in(text: str, engine: str) -> Limits:
    """The limits that an engine's answer has."""
    written = parsed(text, f"{engine}: check")
    names = ("conditionBytes", "documentBytes", "listItems", "measurements", "metrics", "runs")
    found = [member(written, "limits", name) for name in names]
    if member(written, "version") != VERSION or not all(isinstance(limit, int) and limit > 0 for limit in found):
        raise Refused(
            f"{engine} doesn't say what it takes at most; expected argo_judge of the version of these recipes"
        )
    return Limits(*found)


@functools.cache
def limits_of(engine: str) -> Limits:
    """The limits of an engine."""
    ended = judged(engine, ["check", "--output", "json"], ASKED)
    if ended.returncode != GOOD:
        raise Refused(f"{engine} ended with status {ended.returncode} when it was asked for its limits")
    return limits_in(ended.stdout, engine)
