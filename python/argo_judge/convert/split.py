"""Splits a document of argo_judge by its runs, so that parts of it can be judged side by side.

    recipes/split --runs 16 document.json parts

Writes parts/0.json, parts/1.json and so on, each with as many runs as --runs says and their measurements, under the
same template and shapes. Runs are judged independently of each other, so the reports of the parts, joined by
recipes/join, are the report of the whole. Each part says its number and how many there are as `part`, and each entry
its number in the whole document as `number`; the engine ignores both. Where a part can't be written, none is left.
"""
import json
import os
import re
from argparse import ArgumentParser, Namespace
from collections.abc import Iterable, Iterator

from argo_judge.errors import Refused
from argo_judge.files import read_json
from argo_judge.objects import Json, Object, member


def entries_of(document: Json) -> dict[str, list[Object]]:
    """Each run's entries, by the run's name, with their numbers. What the parts would hide is refused: a run that is
    there twice, and an entry that is of no run."""
    runs, entries = member(document, "runs", default=[]), member(document, "measurements", default=[])
    if not isinstance(runs, list) or not isinstance(entries, list):
        raise Refused("document: expected lists of `runs` and `measurements`")
    if not runs:
        raise Refused("document: expected a run or more in `runs`, found none")
    found: dict[str, list[Object]] = {}
    for number, run in enumerate(runs):
        name = member(run, "name")
        if not isinstance(name, str) or name in found:
            raise Refused(f"runs[{number}]: expected a text `name` of its own")
        found[name] = []
    for number, entry in enumerate(entries):
        name = member(entry, "run")
        if not isinstance(name, str) or name not in found:
            raise Refused(f"measurements[{number}].run: expected the name of a run")
        found[name].append({**entry, "number": number})
    return found


def number_of(entry: Object) -> int:
    """The number of an entry in the whole document."""
    return int(entry["number"])


def parts_of(document: Object, runs_of_part: int) -> Iterator[Object]:
    """The parts of a document, each with at most `runs_of_part` runs."""
    entries, runs = entries_of(document), member(document, "runs")
    chosen = [runs[first : first + runs_of_part] for first in range(0, len(runs), runs_of_part)]
    for number, some in enumerate(chosen):
        own = sorted((entry for run in some for entry in entries[run["name"]]), key=number_of)
        yield {**document, "runs": some, "measurements": own, "part": {"number": number, "of": len(chosen)}}


def check_folder(folder: str) -> None:
    """Makes the folder of the parts. Parts and reports of an earlier split would be taken for those of this one."""
    try:
        os.makedirs(folder, exist_ok=True)
        old = sorted(name for name in os.listdir(folder) if re.fullmatch(r"\d+\.(json|report)", name))
    except OSError as fault:
        raise Refused(f"{folder}: {fault.strerror}")
    if old:
        raise Refused(f"{folder}: found {old[0]}; expected a folder without parts and reports of an earlier split")


def write_parts(folder: str, parts: Iterable[Object]) -> None:
    """Writes each part to its file; all of them or none."""
    written = []
    try:
        for number, part in enumerate(parts):
            written.append(os.path.join(folder, f"{number}.json"))
            with open(written[-1], "w", encoding="utf-8") as file:
                file.write(json.dumps(part, ensure_ascii=False))
    except BaseException as fault:
        for path in written:
            if os.path.exists(path):
                os.remove(path)
        if isinstance(fault, OSError):
            raise OSError(fault.errno, fault.strerror, written[-1])
        raise


def add_arguments(parser: ArgumentParser) -> None:
    """What the command takes."""
    parser.add_argument("--runs", type=int, required=True, metavar="N", help="how many runs a part has at most")
    parser.add_argument("document", metavar="FILE", help="the document; - is standard input")
    parser.add_argument("parts", metavar="FOLDER", help="where the parts go; it is made where it isn't there")


def main(words: Namespace) -> None:
    """Writes the parts of a document."""
    if words.runs < 1:
        raise Refused("--runs: expected 1 or more")
    parts = list(parts_of(read_json(words.document, "document"), words.runs))
    check_folder(words.parts)
    write_parts(words.parts, parts)
