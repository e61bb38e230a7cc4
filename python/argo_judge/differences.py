"""What argo_judge may judge otherwise than the controller, in a line each: decimals that are cut, guards of a part of
the result, which the controller applies to all of it, and texts that are taken as numbers."""
import functools
from collections.abc import Iterable

from argo_judge.cuts import decimals_of, note_cuts
from argo_judge.jsontext import NumberText
from argo_judge.lint.tokens import guards_of_parts
from argo_judge.notes import note
from argo_judge.objects import Json, Object, member, shown
from argo_judge.templates import CONDITIONS, metrics_of


@functools.lru_cache(256)
def guards_in(condition: str) -> tuple[tuple[str, str], ...]:
    """The guards of parts in a condition."""
    return tuple(guards_of_parts(condition))


def note_guards(document: Object) -> None:
    """Notes guards of parts in a document's conditions."""
    for metric in metrics_of(document["manifest"]):
        conditions = [metric[name] for name in CONDITIONS if isinstance(member(metric, name), str)]
        for guard, part in dict.fromkeys(found for condition in conditions for found in guards_in(condition)):
            looks = f"{guard} of {shown(part)[1:-1]} looks at the whole result in the controller"
            note(f"metric {shown(member(metric, 'name'))}: {looks}, which may judge otherwise")


def note_texts(metric: str, answers: Iterable[Json], shape: Json) -> None:
    """Notes the first text among a provider's answers that its shape takes as a decimal."""
    for place, answer in enumerate(answers):
        for text in decimals_of(answer, shape):
            if not isinstance(text, NumberText):
                has = f"answer {place} has the text {shown(text)}, which is taken as a decimal"
                note(f"metric {shown(metric)}: {has}; the controller compares a text with a number by asFloat alone")
                return


def note_differences(document: Object) -> None:
    """Notes what is judged otherwise of a document."""
    note_cuts(document)
    note_guards(document)
