"""Objects of Kubernetes in files of JSON or YAML: alone, one after another, or as the items of a List."""
import os
import re
from collections import Counter
from collections.abc import Iterable, Iterator, Sequence
from dataclasses import dataclass

from argo_judge.files import read_lines, read_text
from argo_judge.jsontext import parsed, parsed_all
from argo_judge.notes import note
from argo_judge.objects import Json, member, shown
from argo_judge.pointers import pointer_to
from argo_judge.yamltext import JSON_FRACTION, UNKNOWN, Document, Lines, yaml_documents

SUFFIXES = (".json", ".yaml", ".yml")
# A file that has an object a line.
LINES = ".jsonl"
JSON_WORD = re.compile(rf"null|true|false|{JSON_FRACTION.pattern}", re.ASCII)


@dataclass(frozen=True)
class Found:
    """An object, the file that has it, its JSON pointer there, and the lines of its values."""

    value: Json
    file: str
    pointer: str
    lines: Lines

    def line_of(self, pointer: str) -> int | None:
        """The line of the value that a pointer is of, or of the nearest value around it; None where nothing says so."""
        return self.lines.at(pointer)


def is_json(path: str, text: str) -> bool:
    """Whether a text is JSON: by its file's name, else by how it begins, or since it is a number or a word of JSON."""
    if path.endswith(SUFFIXES):
        return path.endswith(".json")
    return text.lstrip()[:1] in ("{", "[") or JSON_WORD.fullmatch(text.strip()) is not None


def documents_of(path: str, where: str) -> list[Document]:
    """Each document of a file, or of standard input where the path is `-`."""
    text = read_text(path, where)
    if is_json(path, text):
        return [Document(value, UNKNOWN) for value in parsed_all(text, where)]
    return yaml_documents(text, where)


def items_of(document: Document, file: str) -> list[Found]:
    """The object itself or, of a List, each item, with its pointer and the lines of its values."""
    items = member(document.value, "items")
    if not str(member(document.value, "kind", default="")).endswith("List") or not isinstance(items, list):
        return [Found(document.value, file, "", document.lines)]
    own = document.lines.under.get("items", UNKNOWN).under
    return [
        Found(item, file, pointer_to("items", place), own.get(str(place), UNKNOWN)) for place, item in enumerate(items)
    ]


def objects_of(path: str, where: str) -> list[Found]:
    """The objects of a file."""
    return [found for document in documents_of(path, where) for found in items_of(document, path)]


def objects_in(text: str, where: str) -> list[Found]:
    """The objects of a text of JSON."""
    return [found for value in parsed_all(text, where) for found in items_of(Document(value, UNKNOWN), where)]


def files_in(paths: Iterable[str], suffixes: tuple[str, ...] = SUFFIXES) -> Iterator[str]:
    """The files that are named, and those of the named folders that have JSON or YAML, in the order of their names."""
    for path in paths:
        if not os.path.isdir(path):
            yield path
            continue
        for folder, folders, files in os.walk(path):
            folders[:] = sorted(name for name in folders if not name.startswith("."))
            yield from (
                os.path.join(folder, name)
                for name in sorted(files)
                if name.endswith(suffixes) and not name.startswith(".")
            )


def each_found_in(paths: Iterable[str]) -> Iterator[Found]:
    """The objects of files and folders, also of files with an object a line. One file, or one such line, is in memory
    at a time."""
    for path in files_in(paths, (*SUFFIXES, LINES)):
        if path.endswith(LINES):
            for line, where in read_lines(path, path):
                yield from items_of(Document(parsed(line, where), UNKNOWN), path)
        else:
            yield from objects_of(path, path)


def is_of(found: Found, kinds: Sequence[str]) -> bool:
    """Whether an object is of one of some kinds."""
    return member(found.value, "kind") in kinds


def each_of_kinds(found: Iterable[Found], kinds: Sequence[str], what: str) -> Iterator[Found]:
    """The objects of some kinds. Others are counted in a line after the last one, by their kinds."""
    others: Counter[str] = Counter()
    for one in found:
        if is_of(one, kinds):
            yield one
        else:
            others[shown(member(one.value, "kind", default="none"))] += 1
    if others:
        times = ", ".join(f"{kind} ({number})" for kind, number in others.items())
        note(f"objects that are no {what} are passed over: {times}")


def of_kinds(found: Iterable[Found], kinds: Sequence[str], what: str) -> list[Found]:
    """The same, in a list."""
    return list(each_of_kinds(found, kinds, what))
