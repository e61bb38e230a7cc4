"""All findings of a template, in the order of its lines or fields."""
from collections.abc import Collection, Iterator

from argo_judge.lint.answers import divisions, scales, texts_for_numbers
from argo_judge.lint.arguments import arguments_without_value, unknown_arguments, unused_arguments
from argo_judge.lint.conditions import conditions_missing, findings_of_texts
from argo_judge.lint.fields import refused_values, unknown_fields
from argo_judge.lint.findings import Finding, error
from argo_judge.lint.limits import refused_by_controller, unreachable_limits
from argo_judge.lint.patterns import metric_patterns
from argo_judge.lint.questions import refusal_of_template
from argo_judge.lint.references import STAND_IN
from argo_judge.lint.shaping import findings_of_shapes
from argo_judge.lint.subjects import Subject, metric_names, metric_pointer
from argo_judge.lint.verdicts import findings_of_answers
from argo_judge.objects import Object, member
from argo_judge.pointers import pointer_to

OF_TEXT = (
    unknown_fields,
    refused_values,
    refused_by_controller,
    conditions_missing,
    findings_of_shapes,
    findings_of_texts,
    texts_for_numbers,
    scales,
    divisions,
    unreachable_limits,
    unknown_arguments,
    unused_arguments,
    arguments_without_value,
    metric_patterns,
)
# What the engine would refuse, too, and name in the place of anything else.
REFUSED_ALREADY = ("refused-by-controller", "unknown-argument")


def manifest_of(subject: Subject) -> Object:
    """The template as the engine is asked for it: a run's metrics are those of a template."""
    spec = member(subject.object, "spec", default={})
    spec = {name: value for name, value in spec.items() if name != "dryRun"} if isinstance(spec, dict) else spec
    if subject.kind != "AnalysisRun":
        return {**subject.object, "spec": spec}
    return {
        "apiVersion": member(subject.object, "apiVersion"),
        "kind": "AnalysisTemplate",
        "metadata": {"name": subject.name or "run"},
        "spec": spec,
    }


def refused_by_engine(engine: str, subject: Subject) -> Iterator[Finding]:
    """What the engine refuses of a template besides its conditions."""
    names = metric_names(subject)
    args = {name: subject.values.get(name, STAND_IN) for _, name in subject.args}
    refusal = refusal_of_template(engine, manifest_of(subject), names, args)
    if refusal is not None:
        pointer = pointer_to("spec") if refusal.metric is None else metric_pointer(refusal.metric)
        yield error(
            "refused-by-engine",
            pointer,
            f"argo_judge refuses the template: {refusal.text}",
            "docs/use/formats.md#refusals-of-templates has each refusal",
        )


def is_index(name: str) -> bool:
    """Whether a part of a pointer may be an index. Longer digits are the name of a field."""
    return name.isascii() and name.isdecimal() and len(name) < 10


def numbered(pointer: str) -> list[tuple[int, int, str]]:
    """A pointer's names and numbers, in an order in which metric 10 comes after metric 9."""
    return [(0, int(name), "") if is_index(name) else (1, 0, name) for name in pointer.split("/")]


def findings_of(engine: str, subject: Subject, chosen: Collection[str]) -> list[Finding]:
    """The findings of the chosen rules, the first line's first."""
    findings = [finding for rule in OF_TEXT for finding in rule(subject)]
    findings += findings_of_answers(engine, subject)
    if subject.metrics and not any(one.rule in REFUSED_ALREADY for one in findings):
        findings += refused_by_engine(engine, subject)
    findings = [finding for finding in dict.fromkeys(findings) if finding.rule in chosen]
    return sorted(findings, key=lambda one: (subject.found.line_of(one.pointer) or 0, numbered(one.pointer)))
