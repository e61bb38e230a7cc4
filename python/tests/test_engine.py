"""What the engine writes: explanations in parts, and how much it takes."""
import json

import pytest

from argo_judge.engine.explanations import event_of, lines_of, parts_of
from argo_judge.engine.limits import Limits, limits_in
from argo_judge.errors import Refused
from argo_judge.objects import Object

EXPLAINED = """run test Failed
event 3 rate Failed closed Failed
  value: ["0.91"]
  success: result[0] >= 0.95
    result[0] = 0.91
event 4 stop late
metric rate Failed successful=0 failed=1 inconclusive=0 error=0 consecutiveError=0
  waits for nothing
"""
SAID: Object = {
    "conditionBytes": 4096,
    "documentBytes": 1 << 24,
    "listItems": 10_000,
    "measurements": 100_000,
    "metrics": 64,
    "runs": 63,
}


def test_an_explanation_has_parts() -> None:
    parts = parts_of(EXPLAINED)
    assert [part[0].split()[0] for part in parts] == ["run", "event", "event", "metric"]
    assert [line for part in parts for line in part] == EXPLAINED.splitlines()
    assert lines_of(parts, "metric") == EXPLAINED.splitlines()[-2:]
    assert [event_of(part[0]) for part in parts] == [None, 3, 4, None]
    assert parts_of("") == []


def test_limits() -> None:
    found = limits_in(json.dumps({"conditions": [], "limits": SAID, "version": 2}), "engine")
    assert found == Limits(4096, 1 << 24, 10_000, 100_000, 64, 63)


@pytest.mark.parametrize(
    "written",
    [
        {"conditions": [], "version": 1},
        {"conditions": [], "limits": SAID, "version": 3},
        {"conditions": [], "limits": {**SAID, "runs": 0}, "version": 2},
        {"conditions": [], "limits": {**SAID, "runs": "64"}, "version": 2},
        {"conditions": [], "limits": [], "version": 2},
        [],
    ],
)
def test_no_limits(written: object) -> None:
    with pytest.raises(Refused, match="^engine doesn't say what it takes at most"):
        limits_in(json.dumps(written), "engine")
