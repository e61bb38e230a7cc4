"""Templates: their metrics and arguments, and what some providers need no conditions for."""
from collections.abc import Sequence

from argo_judge.errors import Refused
from argo_judge.manifests import objects_of
from argo_judge.objects import Json, Object, listed, member, objects, shown

API_VERSION = "argoproj.io/v1alpha1"
CONDITIONS = ("successCondition", "failureCondition")
# The condition of a Job's end.
JOB = {"successCondition": "result"}


def read_template(path: str) -> Object:
    """The template of a file of JSON or YAML."""
    found = objects_of(path, "--template")
    if len(found) != 1 or not isinstance(found[0].value, dict):
        raise Refused("--template: expected one AnalysisTemplate, as kubectl prints it")
    return found[0].value


# ---- metrics


def metrics_of(template: Json) -> list[Object]:
    """The metrics of a template that are objects."""
    return objects(member(template, "spec", "metrics"))


def metric_names(template: Json) -> list[str]:
    """The names of its metrics."""
    return [metric["name"] for metric in metrics_of(template) if isinstance(member(metric, "name"), str)]


def chosen_metric(template: Json, name: str | None) -> str:
    """The metric of a name; without a name the only one that there is."""
    names = metric_names(template)
    if name is None and len(names) == 1:
        return names[0]
    if name not in names:
        raise Refused(f"--metric: expected one of the template's metrics: {listed(names)}")
    return name


def is_job(metric: Json) -> bool:
    """Whether a metric is measured by a Job, whose measurements have a phase and no value."""
    return member(metric, "provider", "job") is not None


def thresholds_of(metric: Json) -> list[Json] | None:
    """The thresholds of Kayenta, if it measures the metric."""
    thresholds = [member(metric, "provider", "kayenta", "threshold", name) for name in ("pass", "marginal")]
    return None if None in thresholds else thresholds


# ---- arguments


def arguments_of(template: Json, words: Sequence[str]) -> dict[str, str]:
    """Arguments given as texts NAME=VALUE, each of which the template has."""
    names = [arg["name"] for arg in objects(member(template, "spec", "args")) if isinstance(member(arg, "name"), str)]
    for word in words:
        name, equals, _ = word.partition("=")
        if not equals:
            raise Refused(f"--arg {shown(word)}: expected NAME=VALUE")
        if name not in names:
            raise Refused(f"--arg {shown(name)}: expected an argument of the template: {listed(names)}")
    return dict(word.split("=", 1) for word in words)


def values_of(args: Json) -> dict[str, str]:
    """The values of arguments, as templates and runs list them; one from a secret has none."""
    return {
        arg["name"]: arg["value"]
        for arg in objects(args)
        if isinstance(member(arg, "name"), str) and isinstance(member(arg, "value"), str)
    }
