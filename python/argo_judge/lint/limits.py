"""What the controller's validation refuses of a metric, and limits that no count reaches."""
import re
from collections.abc import Iterator, Mapping

from argo_judge.jsontext import is_text, is_whole
from argo_judge.lint.findings import Finding, error, warning
from argo_judge.lint.references import bound
from argo_judge.lint.subjects import Subject, metric_pointer, metric_title
from argo_judge.objects import Object, member, shown
from argo_judge.pointers import pointer_to
from argo_judge.providers import NAMES

# The limits of a metric that the controller's validation looks at, and all that there are.
CHECKED = ("count", "failureLimit", "inconclusiveLimit", "consecutiveErrorLimit")
LIMITS = (*CHECKED, "consecutiveSuccessLimit")
WHOLE = re.compile(r"[+-]?\d{1,10}", re.ASCII)
DURATION = re.compile(r"[+-]?(0|((\d+(\.\d*)?|\.\d+)(ns|us|µs|μs|ms|s|m|h))+)", re.ASCII)
LONGEST_DURATION = 64
ENDS = {"failureLimit": "Failed", "inconclusiveLimit": "Inconclusive"}


def limit_of(metric: Object, name: str, values: Mapping[str, str]) -> int | None:
    """A limit with its arguments' values; None where it is missing or isn't known."""
    limit = metric.get(name)
    text = bound(limit, values) if is_text(limit) else None
    if is_whole(limit):
        return limit
    return int(text) if text is not None and WHOLE.fullmatch(text) else None


def has_text(metric: Object, name: str) -> bool:
    """Whether a field is a text that isn't empty."""
    return is_text(metric.get(name)) and metric[name] != ""


def refused_limits(subject: Subject, place: int, metric: Object) -> Iterator[Finding]:
    """What the controller refuses of a metric's limits."""

    def refused(name: str, message: str, mend: str) -> Finding:
        """A finding of a limit."""
        sentence = f"{metric_title(place, metric)}: {message}"
        return error("refused-by-controller", metric_pointer(place, name), sentence, mend)

    limits = {name: limit_of(metric, name, subject.values) for name in CHECKED}
    count = limits["count"]
    for name, limit in limits.items():
        if limit is not None and limit < 0 and name != "count":
            newer = "; controllers from 1.8 on take -1 as no limit" if (name, limit) == ("failureLimit", -1) else ""
            yield refused(name, f"`{name}` is {limit}, which the controller refuses", f"write 0 or more{newer}")
        elif name in ENDS and limit is not None and count is not None and 0 < count < limit:
            yield refused(
                name,
                f"`{name}` {limit} is above `count` {count}, which the controller refuses",
                f"lower it below {count}",
            )
    if count is not None and count > 1 and not metric.get("interval"):
        yield refused(
            "count",
            f"`count` is {count} and there is no `interval`, which the controller refuses",
            'add an `interval`, "1m" say',
        )


def is_duration(text: str) -> bool:
    """Whether Go reads a text as a duration."""
    return len(text) <= LONGEST_DURATION and DURATION.fullmatch(text) is not None


def refused_durations(subject: Subject, place: int, metric: Object) -> Iterator[Finding]:
    """What the controller refuses of a metric's durations."""
    for name in ("interval", "initialDelay"):
        text = bound(metric[name], subject.values) if has_text(metric, name) else None
        if text is not None and not is_duration(text):
            title = metric_title(place, metric)
            yield error(
                "refused-by-controller",
                metric_pointer(place, name),
                f"{title}: `{name}` {shown(text)} is no duration, which the controller refuses",
                'write a number and ns, us, ms, s, m or h, such as "90s" or "1h30m"',
            )


def refused_providers(place: int, metric: Object) -> Iterator[Finding]:
    """A metric without a provider, or with several."""
    provider = metric.get("provider")
    known = [name for name in NAMES if member(provider, name) is not None]
    names = [name for name in provider if provider[name] is not None] if isinstance(provider, dict) else []
    if len(known) > 1:
        yield error(
            "refused-by-controller",
            metric_pointer(place, "provider"),
            f"{metric_title(place, metric)}: it has the providers {', '.join(known)}; the controller takes one",
            "make a metric of each",
        )
    elif not names:
        yield error(
            "refused-by-controller",
            metric_pointer(place),
            f"{metric_title(place, metric)}: it has no provider, which the controller refuses",
            f"add a `provider` that is one of {', '.join(NAMES)}",
        )


def refused_names(subject: Subject) -> Iterator[Finding]:
    """A template without metrics, and metrics whose name an earlier one has."""
    seen: dict[str, int] = {}
    if not subject.metrics and not subject.refers_to_others:
        yield error(
            "refused-by-controller",
            pointer_to("spec"),
            "it has no metrics, which the controller refuses",
            "add a list `metrics` to `spec`",
        )
    for place, metric in subject.metrics:
        name = metric.get("name")
        if isinstance(name, str) and seen.setdefault(name, place) != place:
            title = metric_title(place, metric)
            yield error(
                "refused-by-controller",
                metric_pointer(place, "name"),
                f"{title}: metric {seen[name]} has its name, which the controller refuses",
                "give each metric a name of its own",
            )


def refused_by_controller(subject: Subject) -> Iterator[Finding]:
    """All that the controller refuses."""
    yield from refused_names(subject)
    for place, metric in subject.metrics:
        yield from refused_limits(subject, place, metric)
        yield from refused_durations(subject, place, metric)
        yield from refused_providers(place, metric)


# ---- limits out of reach


def count_of(metric: Object, values: Mapping[str, str]) -> int | None:
    """How many measurements complete a metric; None where nothing says so."""
    count = limit_of(metric, "count", values)
    if metric.get("count") is not None and count is None:
        return None
    return count or (None if metric.get("interval") else 1)


def unreachable_limits(subject: Subject) -> Iterator[Finding]:
    """Limits that a metric's count never reaches."""
    for place, metric in subject.metrics:
        count = count_of(metric, subject.values)
        for name, phase in ENDS.items():
            limit = limit_of(metric, name, subject.values)
            if limit is None or count is None or count < 1 or limit < count:
                continue
            if limit > count and metric.get("count") is not None:
                continue  # the controller refuses it
            ends = (
                f"ends after {count} measurement{'s' if count > 1 else ''}"
                if metric.get("count") is not None
                else "is measured once, since it has neither `count` nor `interval`"
            )
            message = f"{metric_title(place, metric)} {ends}, so with `{name}` {limit} it is never {phase} by a limit"
            mend = f"lower it below {count}" + (", or add an `interval`" if count == 1 else "")
            yield warning("unreachable-limit", metric_pointer(place, name), message, mend)
