"""AnalysisRuns that ended, each with the documents that judge it by its own template and by another."""
from collections.abc import Iterable, Iterator, Sequence
from typing import NamedTuple

from argo_judge.analysisruns import Flags, checked_run, document_by, history_of
from argo_judge.backtest.sweeps import Sweep
from argo_judge.cuts import note_cuts
from argo_judge.errors import Refused
from argo_judge.manifests import Found, each_of_kinds
from argo_judge.notes import note
from argo_judge.objects import Json, Object, listed, member, shown
from argo_judge.ordering import DONE
from argo_judge.shapes import ANNOTATION
from argo_judge.templates import metrics_of


class Trial(NamedTuple):
    """What is tried on runs: a template with its given arguments, the values of an argument that is swept, and how
    documents are made."""

    template: Object
    args: Sequence[str]
    sweep: Sweep | None
    flags: Flags


class Judgement(NamedTuple):
    """What is asked of the engine: a run's document by its own template, by the other one, and by each value of the
    argument that is swept."""

    name: str
    controller: str
    own: Object
    other: Object
    swept: list[Object]

    @property
    def documents(self) -> list[Object]:
        """All of them."""
        return [self.own, self.other, *self.swept]


def name_of(run: Json) -> str:
    """The name of a run, after its namespace."""
    names = [member(run, "metadata", name) for name in ("namespace", "name")]
    return "/".join(name for name in names if isinstance(name, str))


def by_name(owner: Json) -> dict[str, Json]:
    """How each metric of a template or a run is measured."""
    metrics = metrics_of(owner)
    return {metric["name"]: metric.get("provider") for metric in metrics if isinstance(member(metric, "name"), str)}


def runs_in(found: Iterable[Found]) -> Iterator[Object]:
    """The AnalysisRuns among objects."""
    return (one.value for one in each_of_kinds(found, ("AnalysisRun",), "AnalysisRun"))


def with_measured_alone(made: Object) -> Object:
    """A document without the measurements of metrics that its template hasn't."""
    metrics = {shown(member(metric, "name")) for metric in metrics_of(made["manifest"])}
    kept, without = [], set()
    for one in made["measurements"]:
        metric = shown(member(one, "metric"))
        if member(one, "stop") is True or metric in metrics:
            kept.append(one)
        else:
            without.add(metric)
    for metric in sorted(without):
        note(f"the template has no metric {metric}, so its measurements are left out")
    return {**made, "measurements": kept}


def with_argument(made: Object, name: str, value: str) -> Object:
    """A document whose run has another value of an argument."""
    run = made["runs"][0]
    varied = {**made, "runs": [{**run, "args": {**run.get("args", {}), name: value}}]}
    note_cuts(varied)
    return varied


def with_shapes(run: Object, template: Object) -> Object:
    """A run with the template's shapes where it has none of its own: by either template the answers are the same."""
    noted = member(template, "metadata", "annotations", ANNOTATION)
    own = member(run, "metadata", "annotations")
    if noted is None or member(own, ANNOTATION) is not None:
        return run
    noted_too = {**(own if isinstance(own, dict) else {}), ANNOTATION: noted}
    return {**run, "metadata": {**run["metadata"], "annotations": noted_too}}


class OtherTemplate(Refused):
    """A run that was made of another template."""


def check_metrics(run: Object, template: Object) -> None:
    """Refuses a run none of whose metrics the template has. A metric that has another name there, and is measured
    alike, is noted."""
    own, other = by_name(run), by_name(template)
    for name in own:
        if name not in other:
            alike = [one for one in other if one not in own and other[one] == own[name] is not None]
            for one in alike[:1]:
                note(f"metric {shown(name)} is measured as {shown(one)} of the template, which may be its new name")
    if own and not own.keys() & other.keys():
        raise OtherTemplate(f"the template has none of its metrics: {listed(list(own))}")


def judgement_of(run: Object, trial: Trial) -> Judgement:
    """What is asked of a run. One that can't be judged is refused."""
    phase = member(run, "status", "phase")
    if phase not in DONE:
        raise Refused(f"it hasn't ended: its phase is {shown(phase)}")
    check_metrics(run, trial.template)
    found = history_of(checked_run(run), trial.flags)
    own = document_by(with_shapes(run, trial.template), found, trial.flags)
    other = with_measured_alone(document_by(run, found, trial.flags, trial.template, trial.args))
    sweep = trial.sweep
    swept = [with_argument(other, sweep.argument, value) for value in sweep.values] if sweep else []
    return Judgement(name_of(run), phase, own, other, swept)
