"""YAML with the lines of its values, by rules for plain scalars that are those of kubectl: a fraction stays the text
that it is written as. It is read by PyYAML where that is installed, else by kubectl, and then nothing says on which
lines its values are.
"""
import re
import subprocess
from collections.abc import Iterator
from dataclasses import dataclass
from decimal import Decimal
from typing import Any, NamedTuple, TypeAlias

from argo_judge.errors import Refused
from argo_judge.jsontext import LongNumber, NumberText, parsed_all, whole
from argo_judge.objects import Json, shown
from argo_judge.pointers import names_of

try:
    import yaml as pyyaml
except ImportError:
    pyyaml = None  # type: ignore[assignment]

# PyYAML or its values, or None where it isn't installed.
Yaml: TypeAlias = Any
yaml: Yaml = pyyaml

# An empty patch of what a file has: no cluster is asked.
BY_KUBECTL = ["kubectl", "patch", "--local", "--type=merge", "-p", "{}", "-o", "json", "-f"]
CONVERT = "expected PyYAML, or JSON as `kubectl patch --local --type=merge -p '{}' -o json -f FILE` prints it"
# How many values a document may have, those of its aliases among them, and how many may be in one another: those of
# JSON that the engine reads.
MOST_VALUES, MOST_LEVELS = 1_000_000, 127

NULLS = {"", "~", "null", "Null", "NULL"}
TRUE = {"true", "True", "TRUE", "yes", "Yes", "YES", "on", "On", "ON", "y", "Y"}
FALSE = {"false", "False", "FALSE", "no", "No", "NO", "off", "Off", "OFF", "n", "N"}
DECIMAL_WHOLE = re.compile(r"[+-]?(0|[1-9][0-9_]*)", re.ASCII)
OTHER_WHOLE = re.compile(r"([+-]?)0([xX][0-9a-fA-F_]+|[bB][01_]+|[oO]?[0-7_]+)", re.ASCII)
FRACTION = re.compile(r"[+-]?(\.[0-9]+|[0-9]+(\.[0-9]*)?)([eE][+-]?[0-9]+)?", re.ASCII)
JSON_FRACTION = re.compile(r"-?(0|[1-9][0-9]*)(\.[0-9]+)?([eE][+-]?[0-9]+)?", re.ASCII)
NOT_FINITE = re.compile(r"[+-]?\.(inf|Inf|INF)|\.(nan|NaN|NAN)")


def is_read() -> bool:
    """Whether PyYAML is installed."""
    return yaml is not None


# ---- scalars


def fraction(text: str) -> NumberText:
    """A fraction as JSON writes it, by its own digits where JSON has that form."""
    return NumberText(text if JSON_FRACTION.fullmatch(text) else str(Decimal(text)))


def plain_scalar(text: str, where: str) -> Json:
    """The value of a scalar without quotes."""
    if text in NULLS:
        return None
    if text in TRUE or text in FALSE:
        return text in TRUE
    if DECIMAL_WHOLE.fullmatch(text):
        return whole(text.replace("_", ""))
    if other := OTHER_WHOLE.fullmatch(text):
        digits = other[2].lower().replace("_", "")
        return int(f"{other[1]}0{digits}" if digits[:1] in "xbo" else f"{other[1]}0o{digits}", 0)
    if NOT_FINITE.fullmatch(text):
        raise Refused(f"{where}: found {text}; expected a finite number, or a text in quotes")
    return fraction(text) if FRACTION.fullmatch(text) else text


# ---- documents


class Lines(NamedTuple):
    """The line of a value, and those of what is in it, by its names and indexes."""

    line: int | None
    under: "dict[str, Lines]"

    def at(self, pointer: str) -> int | None:
        """The line of the value that a pointer is of, or of the nearest value around it; None where nothing says so."""
        found, line = self, self.line
        for name in names_of(pointer):
            if name not in found.under:
                break
            found = found.under[name]
            line = found.line if found.line is not None else line
        return line


UNKNOWN = Lines(None, {})


@dataclass(frozen=True)
class Document:
    """A value that a file has, and the lines of what is in it."""

    value: Json
    lines: Lines


class Read(NamedTuple):
    """A value that was read, the line on which it begins, the lines in it, and of how many values it is made."""

    value: Json
    line: int
    under: dict[str, Lines]
    size: int

    def lines(self, line: int | None = None) -> Lines:
        """Its lines, where it begins on its own line or on that of its name."""
        return Lines(self.line if line is None else line, self.under)


STANDARD_TAGS, TEXT_TAG = "tag:yaml.org,2002:", "tag:yaml.org,2002:str"
# What PyYAML takes a scalar for that has no tag of its own.
RESOLVER: Yaml = yaml and yaml.SafeLoader("")


def merged_in(read: Read, at: str) -> list[Read]:
    """The objects that are merged into another one: one, or those of a list."""
    if isinstance(read.value, dict):
        return [read]
    items = read.value if isinstance(read.value, list) else [None]
    if not all(isinstance(item, dict) for item in items):
        raise Refused(f"{at}: expected an object that is merged (`<<`), or a list of them")
    return [
        Read(item, read.line, read.under.get(str(place), UNKNOWN).under, read.size) for place, item in enumerate(items)
    ]


class Reader:
    """The values of YAML documents, of PyYAML's events: a value in a value is a call in a call, which are few."""

    def __init__(self, events: Iterator[Yaml], where: str) -> None:
        self.events, self.where = events, where
        self.anchors: dict[str, Read] = {}
        self.size = 0

    def documents(self) -> Iterator[Document]:
        """Each document that isn't empty."""
        for event in self.events:
            if isinstance(event, yaml.DocumentStartEvent):
                self.anchors, self.size = {}, 0
                read = self.value(next(self.events), 1)
                if read.value is not None:
                    yield Document(read.value, read.lines())

    def at(self, event: Yaml) -> str:
        """Where an event is."""
        return f"{self.where}, line {event.start_mark.line + 1}"

    def value(self, event: Yaml, level: int) -> Read:
        """The value that begins with an event."""
        if level > MOST_LEVELS:
            raise Refused(f"{self.at(event)}: values in values are too deep; expected at most {MOST_LEVELS} levels")
        if isinstance(event, yaml.AliasEvent):
            if event.anchor not in self.anchors:
                raise Refused(f"{self.at(event)}: the alias {shown(event.anchor)} is of no value before it")
            read = self.anchors[event.anchor]
            self.add(read.size)
            return read
        line, before = event.start_mark.line + 1, self.size
        self.add(1)
        under: dict[str, Lines] = {}
        value: Json
        if isinstance(event, yaml.MappingStartEvent):
            value = self.mapping(under, level)
        elif isinstance(event, yaml.SequenceStartEvent):
            value = self.sequence(under, level)
        else:
            value = self.scalar(event)
        read = Read(value, line, under, self.size - before)
        if event.anchor is not None:
            self.anchors[event.anchor] = read
        return read

    def add(self, size: int) -> None:
        """Counts values; too many are refused."""
        self.size += size
        if self.size > MOST_VALUES:
            raise Refused(
                f"{self.where}: a document of more than {MOST_VALUES} values, those of its aliases among them"
            )

    def tag_of(self, event: Yaml) -> str:
        """The tag of a scalar, its own or the one that PyYAML takes it for."""
        has_none = event.tag in (None, "!")
        tag: str = RESOLVER.resolve(yaml.ScalarNode, event.value, event.implicit) if has_none else event.tag
        return tag

    def scalar(self, event: Yaml) -> Json:
        """The value of a scalar, which may have quotes or a tag."""
        is_plain, at, tag = not event.style, self.at(event), self.tag_of(event)
        usual = RESOLVER.resolve(yaml.ScalarNode, event.value, (is_plain, not is_plain))
        if tag != usual and not tag.startswith(STANDARD_TAGS):
            raise Refused(f"{at}: found the tag {shown(tag)}; expected none")
        if tag == usual:
            return plain_scalar(event.value, at) if is_plain else event.value
        return event.value if tag == TEXT_TAG else plain_scalar(event.value, at)

    def sequence(self, under: dict[str, Lines], level: int) -> list[Json]:
        """A list, whose lines are kept."""
        values: list[Json] = []
        while not isinstance(event := next(self.events), yaml.SequenceEndEvent):
            read = self.value(event, level + 1)
            under[str(len(values))] = read.lines()
            values.append(read.value)
        return values

    def mapping(self, under: dict[str, Lines], level: int) -> dict[str, Json]:
        """An object, whose names are texts of which none is there twice, and whose lines are kept. What is merged into
        it (`<<`) has the names that it lacks."""
        values: dict[str, Json] = {}
        merged: list[Read] = []
        while not isinstance(key := next(self.events), yaml.MappingEndEvent):
            at = self.at(key)
            if not isinstance(key, yaml.ScalarEvent):
                raise Refused(f"{at}: expected a name, and no value as a name")
            read = self.value(next(self.events), level + 1)
            if self.tag_of(key).endswith(":merge"):
                merged += merged_in(read, at)
                continue
            if key.value in values:
                raise Refused(f"{at}: {shown(key.value)} is there twice")
            under[key.value] = read.lines(key.start_mark.line + 1)
            values[key.value] = read.value
        for read in merged:
            for name in read.value:
                if name not in values:
                    under[name], values[name] = read.under.get(name, UNKNOWN), read.value[name]
        return values


def by_pyyaml(text: str, where: str) -> Iterator[Document]:
    """Each document of a YAML text that isn't empty."""
    loader = getattr(yaml, "CSafeLoader", yaml.SafeLoader)
    try:
        yield from Reader(yaml.parse(text, Loader=loader), where).documents()
    except yaml.YAMLError as fault:
        mark = getattr(fault, "problem_mark", None)
        at = f"; the fault is on line {mark.line + 1}" if mark else ""
        raise Refused(f"{where}: expected YAML{at}")
    except LongNumber as fault:
        raise Refused(f"{where}: found {fault}")


def by_kubectl(text: str, where: str) -> list[Document]:
    """The objects of a YAML text, as kubectl reads it."""
    try:
        ended = subprocess.run([*BY_KUBECTL, "-"], input=text, capture_output=True, encoding="utf-8")
    except OSError:
        raise Refused(f"{where}: found YAML; {CONVERT}")
    if ended.returncode != 0:
        said = ended.stderr.strip().splitlines() or [f"it ended with status {ended.returncode}"]
        raise Refused(f"{where}: found YAML; {CONVERT}; kubectl: {said[-1]}")
    return [Document(value, UNKNOWN) for value in parsed_all(ended.stdout, where)]


def yaml_documents(text: str, where: str) -> list[Document]:
    """Each document of a YAML text; its lines are empty where they aren't known."""
    return list(by_pyyaml(text, where)) if is_read() else by_kubectl(text, where)
