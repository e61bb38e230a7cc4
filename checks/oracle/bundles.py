"""Bundles, by docs/use/formats.md, read apart from the program: the parts of a document, or its first refusal.

A bundle has metrics (a name and a shape), runs (a name, its bound metrics and their judges) and entries. An entry is
the number of its run, and 'stop' or a metric's number with 'provider', a misfit's name or the value.
"""

import functools

from checks.oracle.checking import check
from checks.oracle.compiling import bounds, compile_tree
from checks.oracle.jsontext import member, read_json
from checks.oracle.refused import Refused
from checks.oracle.shapes import read_shape, read_value
from checks.oracle.templates import bind, read_template

MOST_RUNS = 64
MOST_ENTRIES = 100_000
GRAMMAR = (
    "TooLong",
    "BadCharacter",
    "OpenText",
    "OpenComment",
    "BadEscape",
    "LiteralTooFine",
    "NumberTooLarge",
    "Unexpected",
    "TooDeep",
    "UnknownName",
    "WrongCount",
    "ItemOutside",
    "TooManyItems",
)


@functools.lru_cache(maxsize=20_000)
def built(condition, shape):
    """A condition's typed tree, its code and its bounds; or the refusal, as it is inside that of a metric."""
    try:
        tree = check(condition, shape)
    except Refused as refused:
        return Refused("Grammar" if refused.name in GRAMMAR else "Kinds", refused)
    try:
        ops = compile_tree(tree)
    except Refused as refused:
        return Refused("Compiler", refused)
    try:
        return tree, ops, bounds(ops, shape)
    except Refused as refused:
        return refused


def judge_of(condition, shape, side):
    if condition is None:
        return None
    found = built(condition, shape)
    if isinstance(found, Refused):
        raise Refused(side, found)
    return found


def judges_of(metric, shape):
    """The two conditions of a metric, each built, or None."""
    return judge_of(metric["success"], shape, "Success"), judge_of(metric["failure"], shape, "Failure")


def read_shapes(json, metrics):
    shapes = []
    for number, metric in enumerate(metrics):
        if not isinstance(json, dict) or metric["name"] not in json:
            raise Refused("ShapeMissing", number)
        try:
            shapes.append(read_shape(json[metric["name"]]))
        except Refused as refused:
            raise Refused("Shapes", number, refused) from None
    return shapes


def is_run(json):
    if not isinstance(member(json, "name"), str):
        return False
    arguments = json.get("args")
    return arguments is None or (
        isinstance(arguments, dict) and all(isinstance(value, str) for value in arguments.values())
    )


def read_runs(json):
    if not isinstance(json, list) or not 1 <= len(json) <= MOST_RUNS or not all(is_run(run) for run in json):
        raise Refused("Runs")
    names = set()
    for number, run in enumerate(json):
        if run["name"] in names:
            raise Refused("DoubleRun", number)
        names.add(run["name"])
    return [(run["name"], run.get("args") or {}) for run in json]


def build_run(number, name, own, template, shapes):
    """A run's name, its bound metrics and their judges."""
    try:
        metrics = bind(template, own)
    except Refused as refused:
        raise Refused("Bind", number, refused) from None
    judges = []
    for place, (metric, shape) in enumerate(zip(metrics, shapes)):
        try:
            judges.append(judges_of(metric, shape))
        except Refused as refused:
            raise Refused("Build", number, place, refused) from None
    return {"name": name, "metrics": metrics, "judges": judges}


def read_entry(number, json, runs, metrics):
    run, metric = member(json, "run"), member(json, "metric")
    if not isinstance(run, str):
        raise Refused("BadEntry", number)
    stop = json.get("stop") is True
    if not stop and (not isinstance(metric, str) or ("value" in json) == ("error" in json)):
        raise Refused("BadEntry", number)
    if run not in runs:
        raise Refused("UnknownRun", number)
    if stop:
        return runs[run], "stop", None
    if metric not in metrics:
        raise Refused("UnknownMetric", number)
    return runs[run], metrics[metric], sample_of(json, metrics[metric])


def sample_of(json, metric):
    """What was measured, before it is read under its metric's shape."""
    return metric, json.get("value"), "error" in json


def measured(sample, shapes):
    metric, value, failed = sample
    if failed:
        return ("provider",)
    try:
        return ("value", read_value(value, shapes[metric]))
    except Refused as refused:
        return ("misfit", refused.name)


def read_entries(json, runs, metrics, shapes):
    if json is None:
        return []
    if not isinstance(json, list):
        raise Refused("BadEntry", 0)
    if len(json) > MOST_ENTRIES:
        raise Refused("TooManyMeasurements")
    entries = [read_entry(number, item, runs, metrics) for number, item in enumerate(json)]
    return [(run, what, None if what == "stop" else measured(sample, shapes)) for run, what, sample in entries]


def numbered(names):
    return {name: number for number, name in enumerate(names)}


def read_bundle(code):
    """The bundle of a document in bytes, or its first refusal."""
    json = read_json(code)
    try:
        template = read_template(member(json, "manifest"))
    except Refused as refused:
        raise Refused("Manifest", refused) from None
    shapes = read_shapes(member(json, "shapes"), template["metrics"])
    names = [metric["name"] for metric in template["metrics"]]
    runs = read_runs(member(json, "runs"))
    built_runs = [build_run(number, name, own, template, shapes) for number, (name, own) in enumerate(runs)]
    entries = read_entries(member(json, "measurements"), numbered(name for name, _ in runs), numbered(names), shapes)
    return {"metrics": list(zip(names, shapes)), "runs": built_runs, "entries": entries}
