"""Names of `spec.dryRun`, which are regular expressions of the controller."""
import time

import pytest

from argo_judge.dryruns import Budget, by_patterns, matched_names, patterns_of, with_dry_names
from argo_judge.errors import Refused
from argo_judge.notes import kept_notes

NAMES = ["success-rate", "error-rate", "latency"]


def test_a_pattern_matches_anywhere() -> None:
    assert matched_names("rate", NAMES, "here") == ["success-rate", "error-rate"]
    assert matched_names("^latency$", NAMES, "here") == ["latency"]


@pytest.mark.parametrize("pattern", ["(", "(?=a)", "(?P<n>a)\\1", "a++", "\\Z", "(?<!a)b", "*"])
def test_what_the_controller_does_not_have_is_refused(pattern: str) -> None:
    with pytest.raises(Refused, match="^here: expected a regular expression that the controller has, too"):
        matched_names(pattern, NAMES, "here")


def test_a_slow_pattern_is_refused_in_time() -> None:
    begun = time.monotonic()
    with pytest.raises(Refused, match="takes too long to match"):
        matched_names("(a*)*b", ["a" * 64], "here")
    assert time.monotonic() - begun < 10


def test_all_patterns_have_one_budget(monkeypatch: pytest.MonkeyPatch) -> None:
    monkeypatch.setattr("argo_judge.dryruns.BUDGET", Budget(0.2, 0.1))
    begun = time.monotonic()
    for _ in range(1000):
        with pytest.raises(Refused, match="takes too long to match"):
            matched_names("(a*)*b", ["a" * 64], "here")
    assert time.monotonic() - begun < 10


def test_a_long_pattern_is_refused() -> None:
    with pytest.raises(Refused, match="of 1001 characters; expected at most 1000"):
        matched_names("a" * 1001, NAMES, "here")


def test_one_that_matches_nothing_is_refused() -> None:
    with pytest.raises(Refused, match=r"^spec.dryRun\[1\].metricName: \"x\" matches no metric's name"):
        by_patterns(["rate", "x"], NAMES, is_noted=False)


def test_whole_names_are_written_and_noted() -> None:
    template = {"spec": {"metrics": [{"name": name} for name in NAMES], "dryRun": [{"metricName": "rate"}]}}
    with kept_notes() as noted:
        made = with_dry_names(template)
    assert made["spec"]["dryRun"] == [{"metricName": "success-rate"}, {"metricName": "error-rate"}]
    assert len(noted) == 1


@pytest.mark.parametrize("rules", ["x", [{"metricName": ""}], [{}], [7], [{"metricName": 1}]])
def test_what_the_engine_refuses_stays(rules: object) -> None:
    template = {"spec": {"metrics": [{"name": "m"}], "dryRun": rules}}
    assert patterns_of(template) is None
    assert with_dry_names(template) is template
