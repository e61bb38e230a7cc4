"""How much stack the C library's calls need: the deepest conditions, shapes, values and documents, each with each
command, in a thread with the stack that include/argo_judge.h asks for."""

import json
import pathlib
import re
from collections.abc import Iterator
from typing import Any

from checks import ROOT
from checks.data import EXAMPLES
from checks.made import document_of, template_of

HEADER = ROOT / "include/argo_judge.h"
# How deep trees, nested predicates, shapes and JSON may be (docs/use/language.md, formats.md).
LEVELS, PREDICATES, SHAPE_LEVELS, JSON_LEVELS = 64, 4, 16, 127


def asked() -> int:
    """The bytes of stack that the header asks for."""
    found = re.search(r"^#define ARGO_JUDGE_STACK (\d+)u$", HEADER.read_text(encoding="utf-8"), re.M)
    assert found is not None
    return int(found[1])


def nested(inner: Any, levels: int, before: str = "[") -> Any:
    """A list in a list, or a record in a record, `levels` times."""
    for _ in range(levels):
        inner = [inner] if before == "[" else {"a": inner}
    return inner


def filters(levels: int) -> str:
    """Filters in one another, as many as there may be."""
    inner = "# > 0"
    for _ in range(levels - 1):
        inner = f"len(filter(#, {inner})) > 0"
    return f"len(filter(result, {inner})) > 0"


def lists_of(levels: int, most: int) -> Any:
    """The shape of lists in lists."""
    shape: Any = "decimal"
    for _ in range(levels):
        shape = {"list": shape, "max": most}
    return shape


def conditions() -> Iterator[tuple[str, Any, Any]]:
    """Conditions that are as deep or as long as they may be, or more, each with a shape and a value."""
    for times in (LEVELS - 3, LEVELS - 2, LEVELS, 2046):
        yield "result > " + "1+" * times + "1", "whole", 1
        yield "result > " + "(" * times + "1" + ")" * times, "whole", 1
        yield "!" * times + "(result > 1)", "whole", 1
        yield "-" * times + "result > 1", "whole", 1
        yield "result > 1 ? true : " * times + "false", "whole", 1
        yield " && ".join(["result > 1"] * times), "whole", 2
        yield f"len([{', '.join(['result'] * 16)}]) > 0 && " * (times // 16) + "true", "whole", 1
        yield f"result in {'[' * times}1{']' * times}", "whole", 1
    for levels in range(1, PREDICATES + 2):
        yield filters(levels), lists_of(levels, 3), nested("1", levels)
        yield filters(levels).replace("filter", "count").replace("len(", "("), lists_of(levels, 3), nested("1", levels)
    for levels in (SHAPE_LEVELS - 1, SHAPE_LEVELS):
        yield "result" + ".a" * levels + " > 1", nested("whole", levels, "{") and record_of(levels), nested(
            1, levels, "{"
        )
        yield "result" + "[0]" * levels + " > 1", lists_of(levels, 2), nested("1", levels)
        yield "isNil(result)", {"optional": lists_of(levels - 1, 2)}, nested("1", levels)
    for levels in (JSON_LEVELS - 8, JSON_LEVELS, JSON_LEVELS + 1, 20_000):
        yield "result > 1", "whole", None if levels > 1000 else nested(1, levels)
    yield 'all(result, # != "") && any(result, # contains "a")', {"list": "text", "max": 10_000}, ["a" * 4000] * 100


def record_of(levels: int) -> Any:
    """The shape of records in records."""
    shape: Any = "whole"
    for _ in range(levels):
        shape = {"record": {"a": shape}}
    return shape


def documents() -> Iterator[tuple[int, bytes]]:
    """Each document with the number of a command that takes it."""
    for condition, shape, value in conditions():
        one = {"condition": condition, "shape": shape, "value": value}
        metric = {"name": "m", "successCondition": condition, "failureCondition": f"!({condition})"}
        template = template_of({"metrics": [metric]}, "deep")
        whole = document_of(template, {"m": shape}, ["r"], [{"run": "r", "metric": "m", "value": value}])
        for command in (0, 16):
            yield command, json.dumps(one).encode()
        for command in (1, 2, 3, 4, 17, 19, 20):
            yield command, json.dumps(whole).encode()
    for command in (0, 1, 3, 4, 16, 17):
        yield command, b"[" * 100_000
        yield command, b'{"manifest":' * 100_000
    for path in sorted(EXAMPLES.glob("bundles/*.json")):
        for command in (1, 2, 3, 4, 17, 19, 20):
            yield command, path.read_bytes()


def built_by(folder: pathlib.Path) -> list[str]:
    """The command that builds the program that measures, of the library in a folder."""
    source, program = ROOT / "tests/embed/stack.c", folder / "stack"
    words = ["cc", "-Wall", "-Wextra", "-Werror", "-O1", "-pthread", "-I", folder / "include", source]
    return [str(word) for word in (*words, folder / "lib/libargo_judge.a", "-o", program)]
