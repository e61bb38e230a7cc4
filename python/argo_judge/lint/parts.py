"""The parts of a template whose fields are known: how a finding names them, and which of them has a field."""
from collections.abc import Collection, Iterator
from functools import cache
from typing import NamedTuple, TypeAlias

from argo_judge.crd.schema import Schema, schema_of_kind

# The fields that lead to a part, whatever items they lie in.
Fields: TypeAlias = tuple[str, ...]

SPEC: Fields = ("spec",)
METRIC: Fields = (*SPEC, "metrics")
PROVIDER: Fields = (*METRIC, "provider")
ARGUMENT: Fields = (*SPEC, "args")
TITLES: dict[Fields, str] = {
    (): "the object",
    SPEC: "spec",
    METRIC: "a metric",
    PROVIDER: "provider",
    ARGUMENT: "an argument",
}
# What a part's title leaves out of its fields.
FRONTS: tuple[Fields, ...] = (PROVIDER, METRIC, ARGUMENT, SPEC, ())


def title_of(fields: Fields) -> str:
    """How a finding names a part."""
    front = next(front for front in FRONTS if fields[: len(front)] == front)
    return TITLES[fields] if fields in TITLES else ".".join(fields[len(front) :])


def provider_in(fields: Fields) -> str | None:
    """The provider that fields lead into, if they do."""
    return fields[len(PROVIDER)] if fields[: len(PROVIDER)] == PROVIDER != fields else None


class Part(NamedTuple):
    """A part: the fields that lead to it, and its schema."""

    fields: Fields
    schema: Schema


def parts_below(fields: Fields, schema: Schema | None) -> Iterator[Part]:
    """The parts that a schema has, itself included."""
    if schema is not None:
        if schema.fields:
            yield Part(fields, schema)
        for name, field in schema.fields.items():
            yield from parts_below((*fields, name), field)
        yield from parts_below(fields, schema.items)


@cache
def parts_of_kind(kind: str) -> list[Part]:
    """The parts of objects of a kind, those of providers first, and of both the outer ones."""
    parts = parts_below((), schema_of_kind(kind))
    return sorted(parts, key=lambda part: (provider_in(part.fields) is None, len(part.fields)))


def homes(kind: str, at: Fields, providers: Collection[str]) -> Iterator[Part]:
    """The parts in which a field may have been meant that the part at some fields doesn't have: those of its own
    provider, or of the providers of its metric, and those that are in no provider, but for what is deep in one."""
    provider = provider_in(at)
    own = providers if provider is None else (provider,)
    is_deep = provider is not None and len(at) > len(PROVIDER) + 1
    for part in parts_of_kind(kind):
        home = provider_in(part.fields)
        if home in own or home is None and not is_deep:
            yield part
