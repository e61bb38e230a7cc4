"""What a test expects: of the run, of its metrics, of single events, or that the document is refused."""
from typing import NamedTuple, TypeAlias

from argo_judge.engine.reports import CAUSES, COUNTS, EFFECTS, FAULTS, MISFITS, PHASES, VERDICTS
from argo_judge.errors import Refused
from argo_judge.objects import shown
from argo_judge.suite.known import Known
from argo_judge.suite.nodes import Node, check_fields, guess, known_name, text_of, whole_of, word_of

FIELDS = ("run", "metrics", "refused")


# Expected of a metric: its phase, and its counts by their names.
OfMetric: TypeAlias = dict[str, str | int]


class OfEvent(NamedTuple):
    """Expected of an event: the first words of its verdict and of its effect, and the name of its fault."""

    verdict: tuple[str, ...]
    effect: tuple[str, ...]
    fault: str | None


class OfCase(NamedTuple):
    """Expected of a case: the phase of its run, and of metrics their phases and counts by the names of both."""

    run: str | None
    metrics: dict[str, OfMetric]
    refused: str | None


NOTHING = OfEvent((), (), None)


# ---- events


def check_verdict(node: Node, words: tuple[str, ...]) -> None:
    """Refuses words that are no verdict."""
    causes = CAUSES.get(words[1], ()) if len(words) > 1 else ()
    faults = tuple(fault for fault in causes if fault is not None)
    choices = (VERDICTS, tuple(CAUSES) if words[:1] == ("Error",) else (), faults)
    if not words or len(words) > len(choices) or not choices[len(words) - 1]:
        raise node.refused(f"{', '.join(VERDICTS)}, or Error with its cause, or with its cause and fault")
    for word, known in zip(words, choices):
        if word not in known:
            raise Refused(f"{node.where}: {shown(node.value)} is no verdict; {guess(word, known)}")


def verdict_of(node: Node) -> tuple[str, ...]:
    """A verdict's words; `Error` may be followed by its cause, and that by the fault."""
    if node.value is None:
        return ()
    words = tuple(text_of(node, "a verdict").split())
    check_verdict(node, words)
    return words


def effect_of(node: Node) -> tuple[str, ...]:
    """An effect's words; `closed` may be followed by the run's phase."""
    if node.value is None:
        return ()
    words = tuple(text_of(node, "an effect").split())
    known = (EFFECTS, PHASES if words[:1] == ("closed",) else ())
    if not 1 <= len(words) <= 2 or not known[len(words) - 1]:
        raise node.refused("`applied`, `late`, `closed`, or `closed` and a phase")
    for word, names in zip(words, known):
        if word not in names:
            raise Refused(f"{node.where}: {shown(node.value)} is no effect; {guess(word, names)}")
    return words


def of_event(node: Node, is_stop: bool) -> OfEvent:
    """What an answer of a suite expects of the event that it makes."""
    verdict, fault = verdict_of(node.member("verdict")), node.member("fault")
    name = None if fault.value is None else word_of(fault, FAULTS + MISFITS, "a fault or misfit")
    if is_stop and (verdict or name):
        raise Refused(f"{node.where}: a stop has neither verdict nor fault; expected `effect` alone")
    return OfEvent(verdict, effect_of(node.member("effect")), name)


# ---- the run and its metrics


def of_metric(node: Node, most: int) -> OfMetric:
    """A metric's phase, alone or as `phase` next to counts; `most`: the greatest count."""
    if isinstance(node.value, str):
        return {"phase": word_of(node, PHASES, "a phase")}
    check_fields(node, ("phase", *COUNTS), "what is expected of a metric")
    given = {name: member for name, member in node.members("an object").items() if member.value is not None}
    if not given:
        raise node.refused(f"a phase, or an object with `phase` or counts ({', '.join(COUNTS)})")
    return {
        name: word_of(member, PHASES, "a phase") if name == "phase" else whole_of(member, 0, most)
        for name, member in given.items()
    }


def of_case(node: Node, known: Known) -> OfCase:
    """What a test expects of its run."""
    if node.value is None:
        return OfCase(None, {}, None)
    check_fields(node, FIELDS, "what a test expects")
    run, by_name, refused = (node.member(name) for name in FIELDS)
    found = {} if by_name.value is None else by_name.members("an object of what is expected by the names of metrics")
    for name, member in found.items():
        known_name(member, name, known.metrics, "metric")
    expected = OfCase(
        None if run.value is None else word_of(run, PHASES, "a phase"),
        {name: of_metric(member, known.limits.measurements) for name, member in found.items()},
        None if refused.value is None else text_of(refused, "the name of a refusal, as NoValue"),
    )
    if expected.refused is not None and (expected.run or expected.metrics):
        raise Refused(f"{node.where}: a document that is refused has no run; expected `refused` alone")
    return expected
