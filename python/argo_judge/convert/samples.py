"""Answers of Prometheus' HTTP API as measurements."""
from collections.abc import Iterable
from typing import TypeAlias

from argo_judge.convert.answers import seconds
from argo_judge.errors import Refused
from argo_judge.objects import Json, Object, member, shown


class UnexpectedData(Exception):
    """Data that isn't as the API has it: what was found, and what was expected."""


# The time and the value of a sample, both as texts.
Sample: TypeAlias = tuple[str, str]


def listed(value: Json, expected: str) -> list[Json]:
    """A list; anything else is refused."""
    if not isinstance(value, list):
        raise UnexpectedData(f"expected {expected}, found {shown(value)}")
    return value


def sample(value: Json) -> Sample:
    """The time and the value of a sample, both as texts."""
    pair = listed(value, 'a sample [time, "value"]')
    if len(pair) != 2 or not isinstance(pair[1], str) or seconds(pair[0]) is None:
        raise UnexpectedData(f'expected a sample [time, "value"], found {shown(value)}')
    return str(pair[0]), pair[1]


def measurement(values: Json, samples: Iterable[Sample]) -> Object:
    """An entry's members: what was measured, and the latest time of it, if there is one."""
    times = sorted((time for time, _ in samples), key=float)
    return {"value": values, "time": times[-1]} if times else {"value": values}


def by_time(series: Iterable[Iterable[Sample]]) -> list[Object]:
    """A measurement for each time of a range, the earliest first."""
    times: dict[float, list[Sample]] = {}
    for samples in series:
        for one in samples:
            times.setdefault(float(one[0]), []).append(one)
    return [measurement([value for _, value in times[time]], times[time]) for time in sorted(times)]


def measurements_of(data: Json, is_flat: bool) -> list[Object]:
    """The measurements that an answer's data is."""
    kind, result = member(data, "resultType"), member(data, "result")
    if kind in ("scalar", "string"):
        time, value = sample(result)
        return [measurement(value, [(time, value)])]
    if kind == "vector":
        samples = [sample(member(one, "value")) for one in listed(result, "a list as `result`")]
        return [measurement([value for _, value in samples], samples)]
    if kind == "matrix":
        series = [
            [sample(one) for one in listed(member(each, "values"), "a list as `values` of a series")]
            for each in listed(result, "a list as `result`")
        ]
        samples = [one for each in series for one in each]
        return [measurement([value for _, value in samples], samples)] if is_flat else by_time(series)
    raise UnexpectedData(f"expected the resultType vector, scalar, string or matrix, found {shown(kind)}")


def answers_of(answer: Json, number: int, is_flat: bool, notes: list[str]) -> list[Object]:
    """What an answer measured, as members of entries. Notes are of its error, of its warnings, and of a range without
    series, which measured nothing."""
    warnings = member(answer, "warnings", default=[])
    for warning in warnings if isinstance(warnings, list) else [warnings]:
        notes.append(f"answer {number}: warning: {warning if isinstance(warning, str) else shown(warning)}")
    if member(answer, "status") == "error":
        message = member(answer, "error", default="")
        text = message if isinstance(message, str) else shown(message)
        notes.append(f"answer {number}: {member(answer, 'errorType', default='error')}: {text or 'no message'}")
        return [{"error": message}]
    if member(answer, "status") != "success":
        raise Refused(f"input, answer {number}: expected an answer of Prometheus' HTTP API, an object with a `status`")
    try:
        found = measurements_of(member(answer, "data"), is_flat)
    except UnexpectedData as fault:
        raise Refused(f"input, answer {number}: {fault}")
    if not found:
        notes.append(f"answer {number}: a range without series, so nothing was measured")
    return found
