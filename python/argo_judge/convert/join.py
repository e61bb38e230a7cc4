"""Joins the reports of parts that recipes/split made: the report of the whole document.

    recipes/join parts

Reads parts/0.json with its report parts/0.report, parts/1.json and so on, and prints the reports one after another,
each event under its number in the whole document. Each part was judged by `run --ordered --output json` or by
`run --plain --output json`; what is printed is what `run --plain` prints of the whole, byte for byte, and with
`--output json` its JSON. Status 1 where a run is Failed, Error or Inconclusive.
Every part has to be there, and every report has to have the runs, metrics and events of its part, each once, in the
part's order: a report that is missing, cut or of another part is refused with status 2, and nothing is printed.
"""
import json
import os
from argparse import ArgumentParser, Namespace
from collections.abc import Iterator, Sequence
from typing import NamedTuple

from argo_judge.engine.reports import BAD, VERSION, RunReport, checked, text_of
from argo_judge.errors import GOOD, VERDICT, Refused
from argo_judge.files import read_json, read_text, write_text
from argo_judge.objects import Json, Object, member, shown


class Part(NamedTuple):
    """A part of a split, with the names of its file and of its report's."""

    name: str
    report_name: str
    document: Object


def parts_of(folder: str) -> Iterator[Part]:
    """The parts of a split, of which each says its own number and how many there are."""
    first = read_json(os.path.join(folder, "0.json"), "0.json")
    count = member(first, "part", "of")
    if not isinstance(count, int) or count < 1:
        raise Refused("0.json: expected a part that recipes/split made, with its number and how many there are")
    if os.path.exists(os.path.join(folder, f"{count}.json")):
        raise Refused(f"{count}.json: expected 0.json to {count - 1}.json alone, as many parts as 0.json says")
    for index in range(count):
        part = read_json(os.path.join(folder, f"{index}.json"), f"{index}.json") if index else first
        if member(part, "part") != {"number": index, "of": count}:
            raise Refused(f"{index}.json: expected part {index} of {count}, found {shown(member(part, 'part'))}")
        if any(member(part, name) != member(first, name) for name in ("manifest", "shapes")):
            raise Refused(f"{index}.json: its template or its shapes are others than those of 0.json")
        yield Part(f"{index}.json", f"{index}.report", part)


def joined(run: RunReport, numbers: Sequence[int]) -> RunReport:
    """A run of a part's report, under the numbers of the whole document."""
    whole = run.copy()
    whole["events"] = [event.copy() for event in run["events"]]
    for event in whole["events"]:
        event["number"] = numbers[event["number"]]
    return whole


def json_line(runs: Sequence[RunReport]) -> str:
    """A report as the engine writes it: without blanks, members in the order of their names."""
    report = {"runs": runs, "version": VERSION}
    return json.dumps(report, ensure_ascii=False, separators=(",", ":"), sort_keys=True) + "\n"


def check_whole(names: Sequence[str], numbers: Sequence[Json]) -> None:
    """Whether all parts together are a document: each run once, and each number from 0 once."""
    if len(set(names)) != len(names):
        raise Refused("parts: a run is in two of them")
    if any(isinstance(number, bool) or not isinstance(number, int) for number in numbers):
        raise Refused("parts: expected a `number` with each measurement, as recipes/split gives it")
    if sorted(numbers) != list(range(len(numbers))):
        raise Refused(f"parts: expected the numbers 0 to {len(numbers) - 1} once each; one is missing or there twice")


def add_arguments(parser: ArgumentParser) -> None:
    """What the command takes."""
    parser.add_argument("parts", metavar="FOLDER", help="the parts and their reports")
    parser.add_argument(
        "-o", "--output", choices=("text", "json"), default="text", help="how the report is printed; text without it"
    )


def main(words: Namespace) -> int:
    """Prints the report of the whole document."""
    if not os.path.exists(os.path.join(words.parts, "0.json")):
        raise Refused(f"{words.parts}: expected 0.json, a part that recipes/split made")
    whole: list[RunReport] = []
    numbers: list[Json] = []
    for part in parts_of(words.parts):
        report = read_text(os.path.join(words.parts, part.report_name), part.report_name)
        runs = checked(part.document, report, part.name, part.report_name)
        own = [member(entry, "number") for entry in member(part.document, "measurements", default=[])]
        whole.extend(joined(run, own) for run in runs)
        numbers.extend(own)
    check_whole([run["name"] for run in whole], numbers)
    write_text(json_line(whole) if words.output == "json" else text_of(whole))
    return VERDICT if any(run["phase"] in BAD for run in whole) else GOOD
