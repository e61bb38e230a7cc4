"""Arguments that nobody declares, that nobody uses, or that have no value."""
from collections.abc import Iterator

from argo_judge.lint.fields import close_to
from argo_judge.lint.findings import Finding, error, info, warning
from argo_judge.lint.limits import LIMITS
from argo_judge.lint.references import STAND_IN, others_in, referred_in, referring_texts
from argo_judge.lint.subjects import Subject, placed
from argo_judge.objects import listed, shown
from argo_judge.pointers import pointer_to
from argo_judge.templates import CONDITIONS


def unknown_arguments(subject: Subject) -> Iterator[Finding]:
    """References to arguments that aren't declared."""
    names = [name for _, name in subject.args]
    for text, leading in referring_texts(subject):
        for name in dict.fromkeys(referred_in(text)):
            if name not in names:
                close, reference = close_to(name, names), f"`{{{{args.{name}}}}}`"
                yield error(
                    "unknown-argument",
                    pointer_to(*leading),
                    f"{reference} refers to an argument that isn't declared; arguments are {listed(names)}",
                    f"did you mean {shown(close)}?" if close else f"add {shown(name)} to `spec.args`",
                )
        # Of conditions there is another finding.
        for other in dict.fromkeys(others_in(text)) if leading[-1] not in CONDITIONS else ():
            yield error(
                "unknown-argument",
                pointer_to(*leading),
                f"the controller can't resolve `{{{{{other}}}}}`, which is no argument",
                "write `{{args.NAME}}` of an argument",
            )


def unused_arguments(subject: Subject) -> Iterator[Finding]:
    """Arguments that nothing refers to."""
    used = {name for text, _ in referring_texts(subject) for name in referred_in(text)}
    for place, name in subject.args if not subject.refers_to_others else ():
        if name not in used:
            yield warning(
                "unused-argument",
                pointer_to("spec", "args", place),
                f"nothing refers to the argument {shown(name)}",
                f"refer to it as `{{{{args.{name}}}}}`, or remove it",
            )


def used_by_engine(subject: Subject) -> set[str]:
    """The arguments that conditions and limits refer to."""
    texts = [metric.get(name) for _, metric in subject.metrics for name in (*CONDITIONS, *LIMITS)]
    return {name for text in texts if isinstance(text, str) for name in referred_in(text)}


def arguments_without_value(subject: Subject) -> Iterator[Finding]:
    """Those that each run has to give. One from a secret is given by the cluster, and matters where it is compared."""
    judged = used_by_engine(subject)
    for place, arg in placed(subject.object, "args"):
        name = arg.get("name")
        is_from_cluster = arg.get("valueFrom") is not None
        if not isinstance(name, str) or name in subject.values or is_from_cluster and name not in judged:
            continue
        in_part = f"its conditions are looked at in part, with {STAND_IN} for it; --arg {name}=VALUE gives it a value"
        mend = in_part if name in judged else "nothing, where each rollout gives it"
        yield info(
            "argument-without-value",
            pointer_to("spec", "args", place),
            f"the argument {shown(name)} has no value, so each run has to give one",
            mend,
        )
