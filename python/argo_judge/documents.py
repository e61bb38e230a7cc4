"""Documents of argo_judge: a template whose metrics are judged by conditions, shapes, runs and measurements."""
from argo_judge.notes import note
from argo_judge.objects import Json, Object, member, shown
from argo_judge.templates import CONDITIONS, JOB, is_job, thresholds_of


def by_condition(metric: Object) -> Object:
    """A metric as the engine judges it. A Job is judged by its own end, whatever conditions it has: its measurement is
    true where it succeeded, and false where it failed. Kayenta's score is judged by its thresholds."""
    given = {name: member(metric, name) for name in CONDITIONS if member(metric, name)}
    if is_job(metric):
        if given not in ({}, JOB):
            note(f"metric {shown(member(metric, 'name'))}: a Job's own end decides, so its conditions are left out")
        return {**{name: value for name, value in metric.items() if name not in CONDITIONS}, **JOB}
    if given:
        return metric
    if thresholds := thresholds_of(metric):
        success, failure = f"result >= {thresholds[0]}", f"result < {thresholds[1]}"
        return {**metric, "successCondition": success, "failureCondition": failure}
    return metric


def with_conditions(template: Json) -> Json:
    """A template whose metrics are judged by conditions."""
    if not isinstance(member(template, "spec", "metrics"), list):
        return template
    metrics = [by_condition(metric) if isinstance(metric, dict) else metric for metric in template["spec"]["metrics"]]
    return {**template, "spec": {**template["spec"], "metrics": metrics}}


def document(template: Json, shapes: Object, run: str, args: dict[str, str], measurements: list[Object]) -> Object:
    """A document of one run."""
    entry = {"name": run, "args": args} if args else {"name": run}
    return {"manifest": with_conditions(template), "shapes": shapes, "runs": [entry], "measurements": measurements}
