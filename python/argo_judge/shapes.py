"""Shapes of metrics: those that are given or noted, those that a provider has by itself, and what providers usually
answer (docs/use/shapes.md)."""
import functools

from argo_judge.errors import Refused
from argo_judge.files import read_json
from argo_judge.jsontext import parsed
from argo_judge.objects import Json, Object, member
from argo_judge.providers import provider_of
from argo_judge.templates import is_job, metrics_of, thresholds_of

ANNOTATION = "argo-judge/shapes"


def usual_of(metric: Object) -> Json:
    """The shape of what a metric's provider usually answers; None where that depends on the query."""
    provider = provider_of(metric)
    return provider and provider.usual


def own_shape(metric: Object) -> str | None:
    """The shape of a metric that needs no entry in the shapes."""
    return "bool" if is_job(metric) else "decimal" if thresholds_of(metric) else None


def shapes_in(value: Json, where: str) -> Object:
    """The shapes that a value has."""
    if not isinstance(value, dict):
        raise Refused(f"{where}: expected an object that has a shape for each metric, by its name")
    return value


def noted_shapes(owner: Json) -> Object | None:
    """The shapes in the annotation of a template or a run, if it has one."""
    noted = member(owner, "metadata", "annotations", ANNOTATION)
    if noted is None:
        return None
    where = f"annotation {ANNOTATION}"
    return shapes_in(parsed(noted, where) if isinstance(noted, str) else None, where)


def with_own(template: Json, given: Object | None, expected: str) -> Object:
    """The given shapes, and those that metrics have by themselves; where each has one none has to be given."""
    named = [metric for metric in metrics_of(template) if isinstance(member(metric, "name"), str)]
    own = {metric["name"]: own_shape(metric) for metric in named}
    if given is None and not all(own.values()):
        raise Refused(f"{expected}, or the annotation {ANNOTATION} of the template")
    return {**{name: shape for name, shape in own.items() if shape}, **(given or {})}


@functools.cache
def shapes_in_file(path: str) -> Object:
    """The shapes of a file, which is read once for all runs."""
    return shapes_in(read_json(path, "shapes"), "shapes")


def declared(template: Json, path: str | None, run: Json = None) -> Object | None:
    """The shapes that are declared: those of a file, else those of a template's annotation, else those of a run's."""
    given = shapes_in_file(path) if path else noted_shapes(template)
    return noted_shapes(run) if given is None else given


def with_own_of(template: Json, given: Object | None) -> Object:
    """The given shapes of a template's metrics, with those that metrics have by themselves."""
    return with_own(template, given, "shapes: expected --shapes FILE")


def shapes_of(template: Json, path: str | None, run: Json = None) -> Object:
    """The shapes of a template's metrics."""
    return with_own_of(template, declared(template, path, run))
