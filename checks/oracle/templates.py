"""Templates and their arguments, by docs/use/formats.md, read apart from the program.

A template is a dictionary of its name, its arguments (a name and a value or None, in order) and its metrics; a metric
is the JSON object, with `dry` next to it. A bound metric has its texts, its limits and its count.
"""

import re

from checks.oracle.jsontext import is_number, is_whole, member
from checks.oracle.refused import Refused

VERSION = "argoproj.io/v1alpha1"
KINDS = ("AnalysisTemplate", "ClusterAnalysisTemplate")
MOST_METRICS = 64
LARGEST_LIMIT = 1_000_000_000
TEXTS = ("successCondition", "failureCondition", "interval")
LIMITS = ("count", "failureLimit", "inconclusiveLimit", "consecutiveErrorLimit")
DEFAULTS = {"failureLimit": 0, "inconclusiveLimit": 0, "consecutiveErrorLimit": 4}


def read_arguments(json):
    """The template's arguments by name."""
    if json is None:
        return {}
    if not isinstance(json, list):
        raise Refused("BadArgs", 0)
    arguments = {}
    for number, item in enumerate(json):
        name, value = member(item, "name"), member(item, "value")
        if not isinstance(name, str) or name in arguments or not isinstance(value, (str, type(None))):
            raise Refused("BadArgs", number)
        arguments[name] = value
    return arguments


def check_fields(number, metric):
    for field in TEXTS:
        if not isinstance(metric.get(field), (str, type(None))):
            raise Refused("BadField", number)
    for field in LIMITS:
        limit = metric.get(field)
        if limit is not None and not isinstance(limit, str) and not is_number(limit):
            raise Refused("BadField", number)


def read_metrics(json):
    if not isinstance(json, list) or not json:
        raise Refused("NoMetrics")
    if len(json) > MOST_METRICS:
        raise Refused("TooManyMetrics")
    names = []
    for number, metric in enumerate(json):
        name = member(metric, "name")
        if not isinstance(name, str):
            raise Refused("MetricNameMissing", number)
        if name in names:
            raise Refused("DoubleMetric", number)
        names.append(name)
        check_fields(number, metric)
        if metric.get("consecutiveSuccessLimit") is not None:
            raise Refused("Unsupported", number)
    return names


def read_dry(json, names):
    """The names of the metrics that are dry."""
    if json is None:
        return set()
    if not isinstance(json, list):
        raise Refused("BadDryRun", 0)
    dry = set()
    for number, item in enumerate(json):
        name = member(item, "metricName")
        if not isinstance(name, str) or not name:
            raise Refused("BadDryRun", number)
        if name != ".*" and name not in names:
            raise Refused("UnknownDryRun", number)
        dry |= set(names) if name == ".*" else {name}
    return dry


def read_template(json):
    if member(json, "apiVersion") != VERSION:
        raise Refused("WrongVersion")
    if member(json, "kind") not in KINDS:
        raise Refused("WrongKind")
    name = member(member(json, "metadata"), "name")
    if not isinstance(name, str) or not name:
        raise Refused("NameMissing")
    spec = member(json, "spec")
    arguments = read_arguments(member(spec, "args"))
    names = read_metrics(member(spec, "metrics"))
    dry = read_dry(member(spec, "dryRun"), names)
    metrics = [metric | {"dry": metric["name"] in dry} for metric in spec["metrics"]]
    return {"name": name, "arguments": arguments, "metrics": metrics}


# Binding


def bound_text(number, text, arguments, own):
    """A text with arguments in the place of what is between braces."""
    bound = ""
    while "{{" in text:
        before, _, after = text.partition("{{")
        between, closed, text = after.partition("}}")
        if not closed:
            raise Refused("OpenBraces", number)
        between = between.strip(" ")
        name = between.removeprefix("args.")
        if name == between or name not in arguments:
            raise Refused("UnknownArg", number)
        value = own.get(name, arguments[name])
        if value is None:
            raise Refused("NoValue", number)
        bound += before + value
    return bound + text


def bound_limit(number, limit, arguments, own):
    if isinstance(limit, str):
        text = bound_text(number, limit, arguments, own)
        limit = int(text) if re.fullmatch("[0-9]{1,10}", text) else None
    if not is_whole(limit) or not 0 <= limit <= LARGEST_LIMIT:
        raise Refused("BadLimit", number)
    return limit


def bind_metric(number, metric, arguments, own):
    """A metric's name, its conditions or None, its three limits and its count or None, and whether it is dry."""
    conditions = [bound_text(number, metric.get(field) or "", arguments, own) or None for field in TEXTS[:2]]
    limits = {
        field: bound_limit(number, metric[field], arguments, own) for field in LIMITS if metric.get(field) is not None
    }
    count = limits.get("count") or None
    if not metric.get("interval"):
        if (count or 0) > 1:
            raise Refused("IntervalMissing", number)
        count = 1
    others = [limits.get(field, default) for field, default in DEFAULTS.items()]
    return {
        "name": metric["name"],
        "success": conditions[0],
        "failure": conditions[1],
        "limits": others,
        "count": count,
        "dry": metric["dry"],
    }


def bind(template, own):
    """The bound metrics of a template for a run with these arguments of its own."""
    return [
        bind_metric(number, metric, template["arguments"], own) for number, metric in enumerate(template["metrics"])
    ]
