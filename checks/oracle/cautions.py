"""The rules of docs/use/formats.md on warnings, read apart from the program."""

import re

ESCAPED = {'"': '\\"', "\\": "\\\\", "\n": "\\n", "\r": "\\r", "\t": "\\t"}
SPECIAL = re.compile(
    '["\\\\\x00-\x1f\x7f-\x9f\xad\u061c\u115f\u1160\u180e\u200b-\u200f\u2028-\u202e\u2060-\u2069\u3164\ufeff\uffa0'
    "\U000e0000-\U000e007f]"
)
SHOWN = 64

CLOSE_TO_SPEC = {
    "dryrun": "dryRun",
    "dryRuns": "dryRun",
    "dry_run": "dryRun",
    "DryRun": "dryRun",
    "metric": "metrics",
    "arg": "args",
    "arguments": "args",
}
CLOSE_TO_METRIC = {
    "sucessCondition": "successCondition",
    "succesCondition": "successCondition",
    "successcondition": "successCondition",
    "successConditions": "successCondition",
    "SuccessCondition": "successCondition",
    "success_condition": "successCondition",
    "condition": "successCondition",
    "failurecondition": "failureCondition",
    "failureConditions": "failureCondition",
    "FailureCondition": "failureCondition",
    "failure_condition": "failureCondition",
    "failCondition": "failureCondition",
    "failurelimit": "failureLimit",
    "failureLimits": "failureLimit",
    "failLimit": "failureLimit",
    "inconclusivelimit": "inconclusiveLimit",
    "consecutiveErrorLimits": "consecutiveErrorLimit",
    "consecutiveerrorlimit": "consecutiveErrorLimit",
    "errorLimit": "consecutiveErrorLimit",
    "counts": "count",
    "intervals": "interval",
}
# The misfits that are warned of, with what is expected in their place.
OF_KIND = {
    "FloatNumber": 'a whole JSON number, or a decimal as a text, as "0.95"',
    "WrongKind": "a value of the declared shape",
}


def code_escape(character):
    """A character by its units of UTF-16."""
    units = character.encode("utf-16-be")
    return "".join(f"\\u{units[at : at + 2].hex()}" for at in range(0, len(units), 2))


def quoted_name(name):
    """A name as refusals and warnings show it: a JSON string, of at most SHOWN characters."""
    shown = SPECIAL.sub(lambda found: ESCAPED.get(found[0]) or code_escape(found[0]), name[:SHOWN])
    return f'"{shown}"' + (".." if len(name) > SHOWN else "")


def close_names(at, fields, close):
    """A name whose value is null counts as missing."""
    for name, meant in close.items():
        if fields.get(name) is not None:
            yield f'{at}: "{name}" is not read; did you mean "{meant}"?'


def of_metric(number, metric):
    at = f"metric {number}"
    if isinstance(metric.get("name"), str):
        at += f' {quoted_name(metric["name"])}'
    yield from close_names(at, metric, CLOSE_TO_METRIC)
    if not metric.get("successCondition") and not metric.get("failureCondition"):
        yield f"{at}: no condition, so each measured value is Successful"


def of_template(spec):
    yield from close_names("spec", spec, CLOSE_TO_SPEC)
    for number, metric in enumerate(spec["metrics"]):
        yield from of_metric(number, metric)


def misfit_of(entry, metric):
    """The misfit of an entry, where it measures the metric with this number."""
    _, what, sample = entry
    return sample[1] if what == metric and sample[0] == "misfit" else None


def of_measurements(bundle):
    """Of each metric the first measurement that is an error for the kind of its value, whatever its run and its
    effect."""
    for metric, (name, _) in enumerate(bundle["metrics"]):
        for number, entry in enumerate(bundle["entries"]):
            if (misfit := misfit_of(entry, metric)) in OF_KIND:
                yield (
                    f"measurements[{number}].value: {misfit}, the first such error of metric {quoted_name(name)}; "
                    f"expected {OF_KIND[misfit]}; `explain --event {number}` shows where"
                )
                break


def cautions(document, bundle):
    """What `check`, `run` and `explain` write to standard error about a document that they answer, a line each."""
    found = [*of_template(document["manifest"]["spec"]), *of_measurements(bundle)]
    return [f"argo_judge: warning: {text}" for text in found]
