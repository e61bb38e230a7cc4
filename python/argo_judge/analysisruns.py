"""AnalysisRuns of Argo Rollouts as documents of argo_judge."""
from argparse import ArgumentParser, Namespace
from collections.abc import Mapping, Sequence
from dataclasses import dataclass
from typing import NamedTuple

from argo_judge.differences import note_differences
from argo_judge.documents import document
from argo_judge.dryruns import with_marked, with_other_dry_names
from argo_judge.engine.program import ENGINE
from argo_judge.errors import Refused
from argo_judge.notes import note
from argo_judge.objects import Json, Object, member, objects, shown
from argo_judge.options import add_shapes_flag
from argo_judge.ordering import ordered
from argo_judge.placeholders import Gone, all_gone, entries_of, placeholders
from argo_judge.proposals import proposed
from argo_judge.providers import answered
from argo_judge.retention import check_history
from argo_judge.shapes import declared, own_shape, usual_of, with_own_of
from argo_judge.templates import API_VERSION, arguments_of, is_job, metrics_of, values_of


@dataclass(frozen=True)
class Flags:
    """What making a document takes of a command line: the path of shapes, whether a run may lack measurements, and the
    program that is asked for values."""

    shapes: str | None
    partial: bool = False
    engine: str = ENGINE


class Measured(NamedTuple):
    """A measurement that ended: its metric's name, its own object, and what its provider answered; or the placeholder
    of one that the controller dropped."""

    metric: str
    measurement: Object
    answer: Object
    is_placeholder: bool = False


def template_of(run: Object) -> Object:
    """The template that an AnalysisRun was made of: its own metrics and arguments."""
    spec = {"metrics": objects(member(run, "spec", "metrics"))}
    args = [
        {name: arg[name] for name in ("name", "value") if member(arg, name) is not None}
        for arg in objects(member(run, "spec", "args"))
    ]
    if args:
        spec["args"] = args
    for name in ("dryRun", "measurementRetention"):
        if member(run, "spec", name):
            spec[name] = run["spec"][name]
    metadata = {"name": member(run, "metadata", "name")}
    if annotations := member(run, "metadata", "annotations"):
        metadata["annotations"] = annotations
    return {"apiVersion": API_VERSION, "kind": "AnalysisTemplate", "metadata": metadata, "spec": spec}


def answer_of(measurement: Object, metric: Object | None) -> Object:
    """What a measurement's provider answered: an error, or a value."""
    if measurement.get("phase") == "Error":
        return {"error": member(measurement, "message", default="")}
    if isinstance(measurement.get("value"), str):
        return {"value": answered(metric, measurement["value"])}
    if is_job(metric):
        return {"value": measurement.get("phase") == "Successful"}
    return {"value": None}


def measurements_of(run: Json) -> list[Measured]:
    """The measurements that ended, each with its metric's name and its own object, in the order of a document."""
    metrics = {shown(member(metric, "name")): metric for metric in objects(member(run, "spec", "metrics"))}
    return [Measured(name, one, answer_of(one, metrics.get(shown(name)))) for name, one in ordered(run)]


def checked_run(run: Json) -> Object:
    """An AnalysisRun with a name; anything else is refused."""
    if member(run, "kind") != "AnalysisRun":
        raise Refused("input: expected an AnalysisRun, as `kubectl get analysisrun NAME -o json` prints it")
    if not isinstance(member(run, "metadata", "name"), str):
        raise Refused("input: expected an AnalysisRun with a name")
    found: Object = run
    return found


def add_flags(parser: ArgumentParser) -> None:
    """What each recipe takes that reads an AnalysisRun."""
    add_shapes_flag(parser)
    parser.add_argument(
        "--partial",
        action="store_true",
        help="take a run that lacks measurements by the controller's " "counts, which is refused otherwise",
    )


def flags_of(words: Namespace) -> Flags:
    """What a command line has of them."""
    return Flags(words.shapes, words.partial, words.engine)


def arguments_of_run(run: Object, template: Object, given: Mapping[str, str]) -> dict[str, str]:
    """A run's arguments: its own values, over which those of a template in the place of its own win, and over these the
    given ones. Where a value of such a template differs from the run's, a line says so."""
    own, other = values_of(member(run, "spec", "args")), values_of(member(template, "spec", "args"))
    for name, value in other.items():
        if name not in given and own.get(name, value) != value:
            note(f"argument {shown(name)} is {shown(value)} by --template, and was {shown(own[name])} in the run")
    return {**own, **other, **given}


def history_of(run: Object, flags: Flags) -> list[Measured]:
    """The measurements of an AnalysisRun that has all of them, in the order of a document's entries."""
    check_history(run, flags.partial)
    return measurements_of(run)


def proposed_shapes(found: Sequence[Measured], template: Object, engine: str) -> Object | None:
    """The shapes that are proposed of what was measured, or that providers usually answer; None where of a metric that
    needs one nothing is known."""
    answers: dict[str, list[Json]] = {}
    for one in found:
        if "value" in one.answer and isinstance(one.metric, str):
            answers.setdefault(one.metric, []).append(one.answer["value"])
    needing = [metric for metric in metrics_of(template) if own_shape(metric) is None]
    shapes = {}
    for metric in needing:
        if isinstance(member(metric, "name"), str):
            shapes[metric["name"]] = proposed(metric["name"], answers.get(metric["name"], []), usual_of(metric), engine)
    if None in shapes.values() or not needing:
        return None
    note("no shapes are declared, so those that recipes/shapes proposes are taken: look at them, and declare them")
    return shapes


def shapes_for(run: Object, found: Sequence[Measured], template: Object, flags: Flags) -> Object:
    """The shapes that are declared, or else proposed."""
    given = declared(template, flags.shapes, run)
    return with_own_of(template, proposed_shapes(found, template, flags.engine) if given is None else given)


def document_by(
    run: Object, found: Sequence[Measured], flags: Flags, template: Object | None = None, given: Sequence[str] = ()
) -> Object:
    """The document of an AnalysisRun and its measurements, by its own template or another, with its own arguments and
    given ones."""
    name = run["metadata"]["name"]
    template = with_marked(template_of(run), run) if template is None else with_other_dry_names(template, run)
    args = arguments_of_run(run, template, arguments_of(template, given))
    entries = [{"run": name, "metric": one.metric, **one.answer} for one in found]
    if member(run, "spec", "terminate") is True:
        entries.append({"run": name, "stop": True})
    made = document(template, shapes_for(run, found, template, flags), name, args, entries)
    note_differences(made)
    return made


def with_placeholders(
    made: Object, gone: Sequence[Gone], found: Sequence[Measured], engine: str
) -> tuple[Object, list[Measured]]:
    """A document, and its measurements, with placeholders for what the controller dropped."""
    kept: dict[str, dict[str, Object]] = {}
    for one in found:
        if "value" in one.answer and isinstance(one.metric, str):
            kept.setdefault(one.metric, {})[one.measurement["phase"]] = one.answer
    put = placeholders(engine, made, gone, kept)
    entries = [*entries_of(put, made["runs"][0]["name"]), *made["measurements"]]
    measured = [Measured(one.metric, {"phase": one.verdict}, one.answer, True) for one in put]
    return {**made, "measurements": entries}, [*measured, *found]


def document_of(
    run: Json, flags: Flags, template: Object | None = None, given: Sequence[str] = ()
) -> tuple[Object, list[Measured]]:
    """The same of any value, with the measurements in the order of the document's entries."""
    checked = checked_run(run)
    gone = [] if flags.partial or given or template is not None else all_gone(checked)
    found = measurements_of(checked) if gone else history_of(checked, flags)
    made = document_by(checked, found, flags, template, given)
    return with_placeholders(made, gone, found, flags.engine) if gone else (made, found)
