"""The providers of metrics that Argo Rollouts has: what each one answers, and how the controller's text of it is read.

Most answers are JSON, or a text of its own. Other forms are read where they are known, and reported where they aren't.
"""
import re
from collections.abc import Callable
from dataclasses import dataclass
from typing import TypeAlias

from argo_judge.jsontext import measured
from argo_judge.notes import note
from argo_judge.objects import Json, member, shown

# The least of the greatest lengths of lists, where nothing says more of them.
LEAST_MAX = 10
NUMBERS: Json = {"list": "decimal", "max": LEAST_MAX}
NUMBER = re.compile(r"[+-]?\d+(\.\d+)?([eE][+-]?\d+)?|NaN|[+-]Inf", re.ASCII)
# Items of a list as Go prints them, by the value that they are.
WORDS = {"<nil>": None, "true": True, "false": False}

# A value in a list of its own; none of a form that isn't known.
Known: TypeAlias = list[Json]


# ---- forms of answers


def first(value: Json) -> Json:
    """The first item of a list, if there is one."""
    return value[0] if isinstance(value, list) and value else None


def is_empty_of_datadog(value: Json) -> bool:
    """Whether Datadog answered no value: no series or none with points, or (v2) no column or none with values."""
    if isinstance(value, dict):
        return "columns" in value and first(member(first(value["columns"]), "values")) is None
    return value == [] or isinstance(value[0], dict) and first(member(value[0], "pointlist")) is None


def printed_by_go(text: str) -> list[Json] | None:
    """The items of a list that Go printed, with spaces between them; None where one isn't known."""
    items = text[1:-1].split(" ") if text[:1] == "[" and text[-1:] == "]" else [""]
    if not all(item in WORDS or NUMBER.fullmatch(item) for item in items):
        return None
    return [WORDS[item] if item in WORDS else measured(item) for item in items]


def as_it_is(text: str) -> Known:
    """An answer that may be anything: JSON, or a text."""
    return [measured(text)]


def json_or_number(text: str) -> Known:
    """An answer that is JSON, or a number as Go writes it; a text isn't meant."""
    value = measured(text)
    return [value] if value != text or NUMBER.fullmatch(text) else []


def of_datadog(text: str) -> Known:
    """An answer of Datadog: a number, or what it stores without one."""
    value = measured(text)
    if isinstance(value, (list, dict)):
        return [None] if is_empty_of_datadog(value) else []
    return json_or_number(text)


def of_influxdb(text: str) -> Known:
    """An answer of InfluxDB: a list as JSON, or as Go prints it."""
    found = json_or_number(text)
    items = None if found else printed_by_go(text)
    return found if items is None else [items]


# ---- the table


@dataclass(frozen=True)
class Provider:
    """A provider: its name in a metric, and what docs/use/shapes.md says of its `result`; how the text of an answer is
    read, as one that may be any text or one that may not; the shape of what it usually answers, None where that depends
    on the query; and what the outermost part of a shape may be, anything where none is named."""

    name: str
    result: str
    read: Callable[[str], Known] = json_or_number
    usual: Json = None
    likely: tuple[str, ...] = ()

    def may_answer(self, part: str) -> bool:
        """Whether an answer may have a shape whose outermost part is this one."""
        return not self.likely or part in self.likely


PROVIDERS = (
    Provider(
        "prometheus",
        "A vector, or a range (`rangeQuery`): the list of its values, empty without series.",
        usual=NUMBERS,
        likely=("list", "decimal", "whole", "text"),
    ),
    Provider("kayenta", "A score, 0 to 100.", usual="decimal", likely=("decimal", "whole")),
    Provider("web", "What is at `jsonPath`.", read=as_it_is),
    Provider(
        "datadog",
        "The first series' last value (`v1`) or the first column's (`v2`); nil without data",
        read=of_datadog,
        usual={"optional": "decimal"},
        likely=("decimal", "whole"),
    ),
    Provider(
        "wavefront",
        "One series: its last value, stored with two digits after the point.",
        usual="decimal",
        likely=("decimal", "whole", "list"),
    ),
    Provider("newRelic", "One result: a record by the query's names", likely=("record", "list")),
    Provider("job", "Recipes make a Job's end `true` or `false`", read=as_it_is, usual="bool", likely=("bool",)),
    Provider(
        "cloudWatch",
        "The results of `GetMetricData` without those of `returnData: false`.",
        usual={"list": {"record": {"Values": {"list": "decimal", "max": 100}}}, "max": LEAST_MAX},
        likely=("list",),
    ),
    Provider(
        "graphite",
        "The first target's values, without nulls; perhaps an empty list.",
        usual=NUMBERS,
        likely=("list",),
    ),
    Provider(
        "influxdb",
        "All tables' `_value`, null for an empty window.",
        read=of_influxdb,
        usual={"list": {"optional": "decimal"}, "max": LEAST_MAX},
        likely=("list",),
    ),
    Provider("skywalking", "The object that the GraphQL query returns.", likely=("record",)),
    Provider("plugin", "What the plugin's author chose.", read=as_it_is),
)
NAMES = tuple(provider.name for provider in PROVIDERS)


def provider_of(metric: Json) -> Provider | None:
    """The provider of a metric, if it is known; the first of the table where there are several."""
    return next((one for one in PROVIDERS if member(metric, "provider", one.name) is not None), None)


def answered(metric: Json, text: str) -> Json:
    """The value that a metric's conditions saw of the answer that is stored as this text."""
    provider = provider_of(metric)
    if provider is None:
        return measured(text)
    for value in provider.read(text):
        return value
    name = shown(member(metric, "name"))
    note(f"metric {name}: {provider.name} is not known to answer {shown(text)}, which is taken as it is")
    return measured(text)
