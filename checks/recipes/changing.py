"""Stored inputs of recipes, changed: values that are others, gone, repeated or very large, and other bytes."""

import contextlib
import copy
import json
import pathlib
from collections.abc import Callable, Iterator
from random import Random
from typing import Any, TypeAlias

from argo_judge.yamltext import yaml
from checks import ROOT
from checks.data import EXAMPLES

Json: TypeAlias = Any

# Lines that a text of an object would write if it weren't escaped.
FORGED = ("event 0 forged Successful applied", "::error::forged", "forged.yaml: error: forged")
# Texts that no name, condition or message should make anything else of.
TEXTS = (
    *(f"run other Successful\n{line}" for line in FORGED),
    *(f"{separator}{line}" for separator, line in zip(("\r", "\u2028", "\x0b"), FORGED)),
    "",
    " ",
    "\n",
    "\x1b[2J\x1b[31mred",
    "\x00",
    "\x85\u2028\u2029",
    "\u202eright to left",
    "\u200b",
    "\ud800",
    "\U0001f600",
    "]]>",
    "<script>alert(1)</script>",
    "&amp;\ufffe",
    "'; rm -rf /; '",
    "$(reboot)",
    "../../etc/passwd",
    "{{args.",
    "{{args.threshold}}",
    "{{inputs.parameters.x}}",
    "NaN",
    "+Inf",
    "1e400",
    "-0",
    "0x10",
    "0.0000001",
    "9223372036854775808",
    '["0.5", NaN]',
    "[0.1 0.2 <nil>]",
    "(a*)*b",
    "((((((((((",
    "result > 0.5",
    "result[0] >= 0.95 && all(result, # > 1)",
    "default(result, 0) > asFloat(1)",
    "2024-13-45T99:99:99Z",
    "Successful",
    "Pending",
    "argo-judge/shapes",
)
OTHERS: tuple[Json, ...] = (
    None,
    True,
    False,
    0,
    -1,
    1,
    2**31,
    2**63,
    -(2**63) - 1,
    10**300,
    [],
    {},
    [[]],
    [None],
    {"": ""},
)
PIECES = ("{{args.", '\\"', "/*", "((", "[", "a.", "{{ ", "'", "-", "1")


def large(source: Random) -> Json:
    """A value that is large, or has many values in one another."""
    choice, times = source.randrange(6), source.choice((200, 3000, 20_000))
    if choice == 0:
        return source.choice(PIECES) * times
    if choice == 1:
        return [0] * times
    if choice == 2:
        return {f"n{number}": number for number in range(times)}
    if choice == 3:
        return int("9" * min(times, 4000))
    value: Json = source.choice(OTHERS)
    for _ in range(min(times, source.choice((100, 150, 900)))):
        value = [value] if choice == 4 else {"spec": value}
    return value


def other(source: Random) -> Json:
    """A value that takes another's place."""
    choice = source.random()
    if choice < 0.5:
        return source.choice(TEXTS)
    return copy.deepcopy(source.choice(OTHERS)) if choice < 0.9 else large(source)


def places_in(value: Json) -> Iterator[tuple[Json, Any]]:
    """Each list or object in a value, with each of its indexes or names."""
    left = [value]
    while left:
        one = left.pop()
        for name in list(one) if isinstance(one, dict) else range(len(one)) if isinstance(one, list) else ():
            yield one, name
            left.append(one[name])


def change(source: Random, value: Json) -> None:
    """Changes a value at a place in it."""
    places = list(places_in(value))
    if not places:
        return
    inside, name = source.choice(places)
    choice = source.randrange(6)
    if choice == 0:
        del inside[name]
    elif choice == 1 and isinstance(inside, list):
        inside.extend(copy.deepcopy(inside[name]) for _ in range(source.choice((1, 3, 70))))
    elif choice == 1:
        inside[source.choice(TEXTS)] = inside.pop(name)
    elif choice == 2:
        taken, at = source.choice(places)
        inside[name] = copy.deepcopy(taken[at])
    elif choice == 3 and isinstance(inside[name], str):
        at = source.randrange(len(inside[name]) + 1)
        inside[name] = inside[name][:at] + source.choice(TEXTS) + inside[name][at:]
    else:
        inside[name] = other(source)


def text_of(source: Random, value: Json, is_yaml: bool) -> str:
    """A value as the text of a file; of one that is too deep for that, one that is as deep."""
    try:
        if is_yaml:
            return str(yaml.safe_dump(value, allow_unicode=True, sort_keys=False, width=source.choice((80, 10_000))))
        return json.dumps(value, ensure_ascii=source.random() < 0.5, indent=source.choice((None, 1)))
    except RecursionError:
        return "[" * 2000


def written(source: Random, value: Json, is_yaml: bool) -> bytes:
    """A value as the bytes of a file."""
    data = bytearray(text_of(source, value, is_yaml).encode("utf-8", "surrogatepass"))
    if source.random() < 0.1 and data:
        for _ in range(source.choice((1, 1, 5, 200))):
            data[source.randrange(len(data))] = source.randrange(256)
    if source.random() < 0.03:
        del data[source.randrange(len(data) + 1) :]
    return bytes(data)


def values_of(paths: list[pathlib.Path]) -> list[Json]:
    """The values of files of JSON and, where PyYAML is there, of YAML."""
    found = [json.loads(path.read_text(encoding="utf-8")) for path in paths if path.suffix == ".json"]
    texts = [path.read_text(encoding="utf-8") for path in paths if path.suffix == ".yaml"]
    return found + ([one for text in texts for one in yaml.safe_load_all(text) if one] if yaml else [])


def analysisruns() -> list[Json]:
    """AnalysisRuns, and Lists of some."""
    paths = [EXAMPLES / "analysisrun.json", EXAMPLES / "backtest/runs.json"]
    stored = sorted((ROOT / "recipes/tests").glob("*/*run*.json"))
    return [
        one
        for one in values_of([*paths, *stored])
        if isinstance(one, dict) and str(one.get("kind")).endswith(("Run", "List"))
    ]


def templates() -> list[Json]:
    """Templates of all providers."""
    return values_of(sorted((EXAMPLES / "templates").glob("*.yaml")) + [EXAMPLES / "backtest/stricter.json"])


def suites() -> list[Json]:
    """Suites, each with its template in itself where that is a file."""
    found = values_of(sorted((EXAMPLES / "tests").glob("*.yaml")))
    for one in found:
        if isinstance(one.get("template"), str):
            one["template"] = values_of([(EXAMPLES / "tests" / one["template"]).resolve()])[0]
    return found


def changed(source: Random, stored: list[Json]) -> bytes:
    """A stored value with a few changes; one that is too deep to be copied has no more."""
    value = [copy.deepcopy(source.choice(stored))]
    with contextlib.suppress(RecursionError):
        for _ in range(source.choice((1, 1, 2, 3, 8))):
            change(source, value)
    return written(source, value[0] if value else None, yaml is not None and source.random() < 0.4)


SOURCES: dict[str, Callable[[], list[Json]]] = {"run": analysisruns, "template": templates, "suite": suites}
