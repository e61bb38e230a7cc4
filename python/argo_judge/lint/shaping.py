"""The shape of each metric: that of the command line, of the template's annotation, or its provider's usual one."""
import json
from collections.abc import Iterator, Mapping
from typing import NamedTuple

from argo_judge.errors import Refused
from argo_judge.lint.fields import close_to
from argo_judge.lint.findings import Finding, error, info, warning
from argo_judge.lint.subjects import Subject, metric_names, metric_pointer, metric_title
from argo_judge.objects import Json, Object, listed, member, shown
from argo_judge.pointers import pointer_to
from argo_judge.providers import provider_of
from argo_judge.shapes import ANNOTATION, noted_shapes, own_shape, usual_of
from argo_judge.templates import CONDITIONS

PAGE = "docs/use/shapes.md has shapes by provider"
AT_ANNOTATION = pointer_to("metadata", "annotations", ANNOTATION)


class Shaped(NamedTuple):
    """The shape of a metric, and the pointer of what declares it; none where the provider's usual one is taken."""

    shape: Json
    declared: str


def annotated(subject: Subject) -> tuple[Object, Finding | None]:
    """The shapes of the annotation, and what is wrong with it, if something is."""
    try:
        return noted_shapes(subject.object) or {}, None
    except Refused as fault:
        return {}, error("shape", AT_ANNOTATION, str(fault), f"write a JSON object: {PAGE}")


def shapes_of_metrics(subject: Subject) -> dict[int, Shaped]:
    """The shape of each metric that has one, by its place."""
    noted, _ = annotated(subject)
    found = {}
    for place, metric in subject.metrics:
        name = metric.get("name") if isinstance(metric.get("name"), str) else None
        if name in subject.given_shapes:
            found[place] = Shaped(subject.given_shapes[name], metric_pointer(place))
        elif name in noted:
            found[place] = Shaped(noted[name], AT_ANNOTATION)
        elif (shape := own_shape(metric) or usual_of(metric)) is not None:
            found[place] = Shaped(shape, "")
    return found


def has_conditions(metric: Object) -> bool:
    """Whether a metric has a condition."""
    return any(isinstance(metric.get(name), str) and metric[name] for name in CONDITIONS)


def outermost(shape: Json) -> str | None:
    """The outermost part of a shape, whether it may be nil or not."""
    shape = member(shape, "optional", default=shape)
    if isinstance(shape, str):
        return shape
    return next((name for name in ("list", "record") if member(shape, name) is not None), None)


def shape_of_metric(place: int, metric: Object, shaped: Shaped | None) -> Finding | None:
    """The finding of a metric's shape, if there is one; refused shapes are the engine's to find."""
    title, provider = metric_title(place, metric), provider_of(metric)
    if not has_conditions(metric):
        return None
    if shaped is None:
        return warning(
            "shape",
            metric_pointer(place),
            f"{title} has no shape, so only the form of its conditions is looked at",
            f"declare one by the annotation {ANNOTATION} or --shapes: {PAGE}",
        )
    part = outermost(shaped.shape)
    if shaped.declared and provider is not None and part is not None and not provider.may_answer(part):
        return warning(
            "shape",
            shaped.declared,
            f"{title}: the shape is {shown(shaped.shape)}, which {provider.name} doesn't answer",
            f"compare it with a real result; {PAGE}",
        )
    return None


def usual_taken(subject: Subject, shapes: Mapping[int, Shaped], noted: Object) -> Iterator[Finding]:
    """The finding of the metrics whose shape is what their provider usually answers, and of what would declare it."""
    taken = {
        metric["name"]: shapes[place].shape
        for place, metric in subject.metrics
        if place in shapes
        and not shapes[place].declared
        and own_shape(metric) is None
        and has_conditions(metric)
        and isinstance(metric.get("name"), str)
    }
    if taken:
        text = json.dumps({**noted, **taken}, ensure_ascii=False)
        yield info(
            "shape",
            pointer_to("metadata"),
            f"no shape is declared of {listed(list(taken))}, so what the provider usually answers is taken",
            f"annotate the template: {ANNOTATION}: '{text}'",
        )


def findings_of_shapes(subject: Subject) -> Iterator[Finding]:
    """All findings of shapes."""
    noted, fault = annotated(subject)
    yield from [] if fault is None else [fault]
    names = metric_names(subject)
    for name in noted:
        if name not in names and not subject.refers_to_others:
            close = close_to(name, names)
            yield warning(
                "shape",
                AT_ANNOTATION,
                f"a shape is declared of {shown(name)}, which is no metric; metrics are {listed(names)}",
                f"did you mean {shown(close)}?" if close else "remove it",
            )
    shapes = shapes_of_metrics(subject)
    yield from usual_taken(subject, shapes, noted)
    for place, metric in subject.metrics:
        finding = shape_of_metric(place, metric, shapes.get(place))
        yield from [] if finding is None else [finding]
