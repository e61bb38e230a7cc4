"""Where a value isn't as a schema says. It is looked at no deeper than the schema is, whatever it has below."""
from collections.abc import Callable, Iterator
from enum import Enum
from typing import NamedTuple

from argo_judge.crd.schema import Schema, Type
from argo_judge.jsontext import is_text, is_whole
from argo_judge.objects import Json, Object, shown
from argo_judge.pointers import pointer_to

FITS: dict[Type, Callable[[Json], bool]] = {
    Type.OBJECT: lambda value: isinstance(value, dict),
    Type.ARRAY: lambda value: isinstance(value, list),
    Type.STRING: is_text,
    Type.INTEGER: is_whole,
    Type.BOOLEAN: lambda value: isinstance(value, bool),
    Type.INT_OR_STRING: lambda value: is_text(value) or is_whole(value),
}


class Keyword(str, Enum):
    """What of a schema a value isn't as."""

    TYPE = "type"
    ENUM = "enum"
    REQUIRED = "required"
    PROPERTIES = "properties"


class Place(NamedTuple):
    """Where a value is: its JSON pointer, the fields that lead to it, whatever items they lie in, and its own name."""

    pointer: str
    fields: tuple[str, ...]
    name: str

    def field(self, name: str) -> "Place":
        """Where a field of an object is."""
        return Place(self.pointer + pointer_to(name), (*self.fields, name), name)

    def entry(self, key: str) -> "Place":
        """Where the value of a key is that a schema doesn't name."""
        return Place(self.pointer + pointer_to(key), (*self.fields, key), f"{self.name}[{shown(key)}]")

    def item(self, index: int) -> "Place":
        """Where an item of a list is."""
        return Place(self.pointer + pointer_to(index), self.fields, f"{self.name}[{index}]")


ROOT = Place("", (), "")


class Fault(NamedTuple):
    """A value that isn't as its schema says: where it is, the keyword, what was found, and what is expected.

    Of a field that is missing, or that nobody knows, `found` is its name, and the place and the schema are those of its
    object.
    """

    place: Place
    keyword: Keyword
    found: Json
    expected: Schema


def faults_of_field(value: Json, schema: Schema, place: Place) -> Iterator[Fault]:
    """The faults of a field; one that is null is absent."""
    if value is not None:
        yield from faults_of(value, schema, place)


def faults_of_object(value: Object, schema: Schema, place: Place) -> Iterator[Fault]:
    """The faults of an object's fields, those included that it lacks and those that nobody knows."""
    for name in schema.required:
        if value.get(name) is None:
            yield Fault(place, Keyword.REQUIRED, name, schema)
    for name, field in value.items():
        if name in schema.fields:
            yield from faults_of_field(field, schema.fields[name], place.field(name))
        elif schema.others is not None:
            yield from faults_of_field(field, schema.others, place.entry(name))
        elif not schema.is_open:
            yield Fault(place, Keyword.PROPERTIES, name, schema)


def faults_of(value: Json, schema: Schema, place: Place = ROOT) -> Iterator[Fault]:
    """The faults of a value, and of what is in it."""
    if schema.type is not None and not FITS[schema.type](value):
        yield Fault(place, Keyword.TYPE, value, schema)
    elif schema.choices and value not in schema.choices:
        yield Fault(place, Keyword.ENUM, value, schema)
    elif schema.type is Type.OBJECT:
        yield from faults_of_object(value, schema, place)
    elif schema.type is Type.ARRAY and schema.items is not None:
        for index, item in enumerate(value):
            yield from faults_of(item, schema.items, place.item(index))
