"""Compares what a controller made of an AnalysisRun with what argo_judge makes of it.

    kubectl get analysisrun NAME -o json | recipes/compare-analysisrun --shapes shapes.json

Prints a line for each measurement, each metric and the run whose phases differ, with the engine's verdict, and at the
end how many were compared. Status 1 where one differs. Why they may differ: the engine's decimals are exact, NaN and
infinities are errors, a value that doesn't fit its shape is an error, and integers are not divided as integers
(docs/use/language.md, "Where this differs"); and results that come late change nothing. Where the phases of the run
agree, a metric that ended badly together with the one that closed the run is no difference: here it is Successful, and
a line says so. The engine's warnings are lines on standard error.
"""
from argparse import ArgumentParser, Namespace
from collections.abc import Iterator, Sequence
from typing import NamedTuple

from argo_judge.analysisruns import Measured, add_flags, document_of, flags_of
from argo_judge.engine.program import judged
from argo_judge.engine.refusals import hand_on, said_in
from argo_judge.engine.reports import RunReport, checked, effect_text, verdict_text
from argo_judge.errors import GOOD, JUDGED, VERDICT, Refused
from argo_judge.files import read_json, write_text
from argo_judge.notes import one_line
from argo_judge.objects import Object, member, objects, shown
from argo_judge.options import add_engine_flag


def report_of(engine: str, made: Object) -> RunReport:
    """What the engine reports of a document's one run."""
    ended = judged(engine, ["run", "--plain", "--output", "json"], made)
    if ended.returncode not in JUDGED:
        raise Refused(f"the engine ended with status {ended.returncode}: {said_in(ended.returncode, ended.stderr)}")
    hand_on(ended.returncode, ended.stderr)
    return checked(made, ended.stdout, "document", "report")[0]


class Compared(NamedTuple):
    """What has a phase by the controller and one by the engine, and what the engine says of it; whether it is the run;
    and whether it is a metric whose last measurement came after another one had closed the run."""

    what: str
    controller: str
    engine: str | None
    said: str
    is_run: bool = False
    is_late: bool = False

    @property
    def differs(self) -> bool:
        """Whether the phases differ."""
        return self.controller != self.engine


def compared_in(run: Object, found: Sequence[Measured], report: RunReport) -> Iterator[Compared]:
    """Each measurement, each metric and the run, where the controller gave it a phase."""
    events = {event["number"]: event for event in report["events"]}
    for number, one in enumerate(found):
        if one.is_placeholder:
            continue
        event = events[number]
        said = f"{verdict_text(event)} {effect_text(event)}"
        yield Compared(f"measurement {number} {one.metric}", one.measurement["phase"], event["verdict"], said)
    results = objects(member(run, "status", "metricResults"))
    theirs = {shown(member(result, "name")): member(result, "phase") for result in results}
    last = {event["metric"]: event["effect"] for event in report["events"]}
    for own in report["metrics"]:
        if (their := theirs.get(shown(own["name"]))) is not None:
            is_late = last.get(own["name"]) == "late" and own["phase"] == "Successful"
            yield Compared(f"metric {own['name']}", their, own["phase"], own["phase"], is_late=is_late)
    if (phase := member(run, "status", "phase")) is not None:
        yield Compared(f"run {run['metadata']['name']}", phase, report["phase"], report["phase"], is_run=True)


def late_in(compared: Sequence[Compared]) -> list[Compared]:
    """The metrics that differ by the order alone: they closed late, and the phases of the run agree."""
    agrees = not any(one.differs for one in compared if one.is_run)
    return [one for one in compared if one.differs and one.is_late and agrees]


def lines_of(compared: Sequence[Compared]) -> tuple[list[str], bool]:
    """A line for each difference, and the sums; and whether there is a difference but by order."""
    late = late_in(compared)
    differing = [one for one in compared if one.differs and one not in late]
    lines = [f"{one.what}: the controller {one.controller}, argo_judge {one.said}" for one in differing]
    lines += [
        f"{one.what}: the controller {one.controller}, argo_judge {one.said}: the run was closed before" for one in late
    ]
    order = f", {len(late)} by the order of what was measured together" if late else ""
    return [*lines, f"{len(compared)} phases compared, {len(differing)} differ{order}"], bool(differing)


def add_arguments(parser: ArgumentParser) -> None:
    """What the command takes."""
    add_flags(parser)
    add_engine_flag(parser)
    parser.add_argument(
        "run", nargs="?", default="-", metavar="FILE", help="the AnalysisRun; standard input without it"
    )


def main(words: Namespace) -> int:
    """Prints each phase that differs, and how many were compared."""
    run = read_json(words.run, "input")
    made, found = document_of(run, flags_of(words))
    compared = list(compared_in(run, found, report_of(words.engine, made)))
    lines, differs = lines_of(compared)
    write_text("".join(f"{one_line(line)}\n" for line in lines))
    return VERDICT if differs else GOOD
