"""A template that is looked at: its metrics, arguments and shapes, wherever they are from."""
from typing import NamedTuple

from argo_judge.manifests import Found
from argo_judge.objects import Json, Object, member, objects, shown
from argo_judge.pointers import pointer_to
from argo_judge.templates import values_of

KINDS = ("AnalysisTemplate", "ClusterAnalysisTemplate", "AnalysisRun")


class Subject(NamedTuple):
    """A template, or a run, with the values of arguments and the shapes that the command line gives."""

    found: Found
    given_args: dict[str, str]
    given_shapes: Object

    @property
    def object(self) -> Object:
        """The object itself."""
        template: Object = self.found.value
        return template

    @property
    def kind(self) -> str:
        """Its kind, one of KINDS."""
        return str(self.object["kind"])

    @property
    def name(self) -> str:
        """Its name, or the front of the name that it will get."""
        name = member(self.object, "metadata", "name", default=member(self.object, "metadata", "generateName"))
        return name if isinstance(name, str) else ""

    @property
    def metrics(self) -> list[tuple[int, Object]]:
        """The metrics that are objects, each with its place."""
        return placed(self.object, "metrics")

    @property
    def args(self) -> list[tuple[int, str]]:
        """The names of its arguments, each with its place."""
        return [(place, arg["name"]) for place, arg in placed(self.object, "args") if isinstance(arg.get("name"), str)]

    @property
    def refers_to_others(self) -> bool:
        """Whether other templates are part of it, which aren't known here."""
        return bool(objects(member(self.object, "spec", "templates")))

    @property
    def values(self) -> dict[str, str]:
        """The values of arguments that have one: that of the command line, else its own."""
        own = values_of(member(self.object, "spec", "args"))
        names = {name for _, name in self.args}
        return {**own, **{name: value for name, value in self.given_args.items() if name in names}}


def placed(value: Json, name: str) -> list[tuple[int, Object]]:
    """The objects of a list in `spec`, each with its place there."""
    items = member(value, "spec", name)
    items = items if isinstance(items, list) else []
    return [(place, item) for place, item in enumerate(items) if isinstance(item, dict)]


def metric_pointer(place: int, *names: str | int) -> str:
    """The pointer of a metric, or of what is in it."""
    return pointer_to("spec", "metrics", place, *names)


def metric_title(place: int, metric: Object) -> str:
    """How a message names a metric."""
    name = metric.get("name")
    return f"metric {shown(name)}" if isinstance(name, str) else f"metric {place}"


def metric_names(subject: Subject) -> list[str]:
    """The names of metrics that have one."""
    return [metric["name"] for _, metric in subject.metrics if isinstance(metric.get("name"), str)]
