"""Random documents, and what docs/use/phases.md says of their measurements."""

from checks import made
from checks.oracle.phases import is_dry

# Metrics by their conditions, all of whole numbers: what is measured, and what docs/use/phases.md says of it. The first
# is measured more often than the others.
PROVIDER = ({"error": "no answer"}, "Error")
MISFIT = ({"value": "high"}, "Error")
KINDS: tuple = (
    ({"successCondition": "result > 0"}, [({"value": 1}, "Successful"), ({"value": 0}, "Failed"), PROVIDER, MISFIT]),
    ({"failureCondition": "result > 0"}, [({"value": 0}, "Successful"), ({"value": 1}, "Failed"), PROVIDER, MISFIT]),
    (
        {"successCondition": "result > 1", "failureCondition": "10 / result > 4"},
        [
            ({"value": 3}, "Successful"),
            ({"value": 2}, "Failed"),
            ({"value": -1}, "Inconclusive"),
            ({"value": 0}, "Error"),
            PROVIDER,
            MISFIT,
        ],
    ),
    ({}, [({"value": 0}, "Successful"), ({"value": 7}, "Successful"), PROVIDER, MISFIT]),
)


def random_limits(source):
    """The fields of a metric's limits, and the limits as checks/oracle/phases.py takes them. Of six metrics one is
    dry."""
    failure, inconclusive, errors = source.randrange(3), source.randrange(3), source.randrange(3)
    fields = {"failureLimit": failure, "inconclusiveLimit": inconclusive, "consecutiveErrorLimit": errors}
    count = source.choice((None, 1, 2, 3))
    if count is None:
        fields |= {"interval": "1m"}
    elif count > 1:
        fields |= {"interval": "1m", "count": count}
    return fields, [failure, inconclusive, errors, count] + ["dry"] * (source.randrange(6) == 0)


def random_entry(source, runs, kinds, stops=0.06):
    """An entry of a document, with its run and its event; `stops` is the chance that it is a stop."""
    run = source.randrange(runs)
    if source.random() < stops:
        return {"run": f"r{run}", "stop": True}, (run, "stop")
    metric = source.randrange(len(kinds))
    measured = kinds[metric][1]
    given, mark = source.choices(measured, [4] + [1] * (len(measured) - 1))[0]
    return {"run": f"r{run}", "metric": f"m{metric}", **given}, (run, (metric, mark))


def document_of(runs, kinds, limits, entries):
    """A document with a number of runs of metrics of these kinds, each with its limits."""
    metrics = [
        {"name": f"m{number}", **conditions, **fields}
        for number, ((conditions, _), (fields, _)) in enumerate(zip(kinds, limits))
    ]
    spec = {"metrics": metrics}
    if dry := [{"metricName": metric["name"]} for metric, (_, own) in zip(metrics, limits) if is_dry(own)]:
        spec["dryRun"] = dry if len(dry) < len(metrics) else [{"metricName": ".*"}]
    shapes = {metric["name"]: "whole" for metric in metrics}
    return made.document_of(
        made.template_of(spec), shapes, [f"r{run}" for run in range(runs)], [entry for entry, _ in entries]
    )
