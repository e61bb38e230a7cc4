"""Stored cases: files with a line of JSON for each."""

import json
import pathlib
from collections.abc import Iterator
from typing import Any

from checks import ROOT

CONFORMANCE = ROOT / "conformance"
EXAMPLES = ROOT / "examples"


def numbered_lines(path: pathlib.Path) -> Iterator[tuple[int, str]]:
    """The lines of a file with their numbers. Empty lines and lines that begin with # are left out."""
    for number, line in enumerate(path.read_text(encoding="utf-8").split("\n"), 1):
        if line.strip() and not line.startswith("#"):
            yield number, line


def cases_of(path: pathlib.Path, decoder: json.JSONDecoder = json.JSONDecoder()) -> Iterator[Any]:
    """The cases of a file."""
    for _, line in numbered_lines(path):
        yield decoder.decode(line)


def files_of_suite() -> list[pathlib.Path]:
    return sorted(CONFORMANCE.glob("*.jsonl"))


def files_of_conditions() -> list[pathlib.Path]:
    return sorted((EXAMPLES / "conditions").glob("*.jsonl"))


def text_of(parts: str | list[Any]) -> str:
    """The text of a document or an input: a text, or texts and pairs of a text and how often it comes."""
    if isinstance(parts, str):
        return parts
    return "".join(part if isinstance(part, str) else part[0] * part[1] for part in parts)


def compact(value: Any) -> str:
    """A value as a line of JSON without blanks, its members in their own order."""
    return json.dumps(value, ensure_ascii=False, separators=(",", ":"))


def canonical(value: Any) -> str:
    """A value as the program writes it: a line without blanks, members in the order of their names."""
    return json.dumps(value, ensure_ascii=False, separators=(",", ":"), sort_keys=True) + "\n"
