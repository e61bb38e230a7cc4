"""The page of shapes by provider, docs/use/shapes.md, next to the table of providers."""
import json
import pathlib
import re

import pytest

from argo_judge.objects import Json
from argo_judge.providers import NAMES, PROVIDERS, Provider
from argo_judge.shapes import usual_of

PAGE = pathlib.Path(__file__).resolve().parents[2] / "docs/use/shapes.md"
SHAPE = re.compile(r"^\| shape \| `(.*)` \|$", re.M)


def sections() -> dict[str, str]:
    """The text of each section, by its heading as a provider's name is written but for capitals."""
    parts = PAGE.read_text(encoding="utf-8").split("\n## ")[1:]
    return {part.partition("\n")[0].replace(" ", "").lower(): part for part in parts}


def without_lengths(shape: Json) -> Json:
    """A shape without the greatest lengths of its lists, which are a template's own."""
    if not isinstance(shape, dict):
        return shape
    return {name: without_lengths(part) for name, part in shape.items() if name != "max"}


@pytest.mark.parametrize("provider", PROVIDERS, ids=NAMES)
def test_the_page_has_what_the_table_says(provider: Provider) -> None:
    section = sections()[provider.name.lower()]
    assert provider.result in section
    shapes = [without_lengths(json.loads(shape)) for shape in SHAPE.findall(section)]
    assert provider.usual is None or without_lengths(provider.usual) == shapes[0]


@pytest.mark.parametrize("provider", PROVIDERS, ids=NAMES)
def test_shapes_of_the_page_are_likely(provider: Provider) -> None:
    for shape in map(json.loads, SHAPE.findall(sections()[provider.name.lower()])):
        inner = shape.get("optional", shape) if isinstance(shape, dict) else shape
        assert provider.may_answer(inner if isinstance(inner, str) else next(iter(inner)))


def test_the_usual_shape_of_a_metric() -> None:
    assert usual_of({"provider": {"kayenta": {}}}) == "decimal"
    assert usual_of({"provider": {"prometheus": {}, "web": {}}}) == usual_of({"provider": {"graphite": {}}})
    assert usual_of({"provider": {"prometheus": None}}) is None
    assert usual_of({"provider": 7}) is None and usual_of({}) is None
