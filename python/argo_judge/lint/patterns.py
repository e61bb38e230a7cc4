"""Regular expressions for metrics' names, in `dryRun` and `measurementRetention`."""
import re
from collections.abc import Iterator, Sequence

from argo_judge.dryruns import ALL, SLOW, matched_names
from argo_judge.errors import Refused
from argo_judge.jsontext import is_text
from argo_judge.lint.findings import Finding, error, info, warning
from argo_judge.lint.references import bound
from argo_judge.lint.subjects import Subject, metric_names, placed
from argo_judge.objects import listed, shown
from argo_judge.pointers import pointer_to

SPECIAL = re.compile(r"[\\^$.|?*+()\[\]{}]")
EFFECT = {"dryRun": "dry", "measurementRetention": "kept longer or shorter"}


def of_pattern(pattern: str, names: Sequence[str], pointer: str, field: str) -> Finding | None:
    """The finding of one expression, if there is one."""
    try:
        found = matched_names(pattern, names, f"`{field}`")
    except Refused as fault:
        return error("metric-pattern", pointer, str(fault), "write `^NAME$` of a metric, or `.*` for all")
    if not found:
        says = f"{shown(pattern)} matches no metric's name, which the controller refuses"
        return error(
            "metric-pattern",
            pointer,
            f"{says}; metrics are {listed(names)}",
            "write `^NAME$` of a metric, or `.*` for all",
        )
    if found == [pattern] or pattern == ALL:
        return None
    says = f"{shown(pattern)} is a regular expression, by which these are {EFFECT[field]}: {listed(found)}"
    if SPECIAL.search(pattern):
        return info("metric-pattern", pointer, says, "argo_judge itself takes whole names; recipes write them")
    return warning("metric-pattern", pointer, says, f"write `^{pattern}$` for that name alone")


def metric_patterns(subject: Subject) -> Iterator[Finding]:
    """The findings of all expressions for names."""
    names = metric_names(subject)
    for field in EFFECT if names and not subject.refers_to_others else ():
        for place, rule in placed(subject.object, field):
            pattern = rule.get("metricName")
            pattern = bound(pattern, subject.values) if is_text(pattern) else None
            if pattern is not None:
                finding = of_pattern(pattern, names, pointer_to("spec", field, place, "metricName"), field)
                if finding is not None and SLOW in finding.message:
                    yield finding._replace(message=f"{finding.message}; what follows in the list isn't looked at")
                    break  # it may take as long
                yield from [] if finding is None else [finding]
