"""Fields that Argo Rollouts doesn't have, and values that the API server refuses."""
import difflib
from collections import Counter
from collections.abc import Collection, Iterable, Iterator, Sequence

from argo_judge.crd.reader import Fault, Keyword, Place, faults_of
from argo_judge.crd.schema import Schema, Type, schema_of_kind
from argo_judge.jsontext import NumberText
from argo_judge.lint.findings import Finding, error, warning
from argo_judge.lint.parts import METRIC, PROVIDER, SPEC, homes, title_of
from argo_judge.lint.subjects import Subject
from argo_judge.objects import member, shown
from argo_judge.pointers import pointer_to

# Longer names are compared with nothing: that takes the square of their length.
LONGEST_NAME = 64
# How many findings of one kind a part has; others are only counted.
MOST_OF_PART = 50
# What is missing by other findings, which say more of it.
SAID_ELSEWHERE = (SPEC, METRIC, PROVIDER)
EXPECTED = {
    None: "a value",
    Type.OBJECT: "an object",
    Type.ARRAY: "a list",
    Type.STRING: "a text in quotes",
    Type.INTEGER: "a whole number",
    Type.BOOLEAN: "true or false",
    Type.INT_OR_STRING: "a whole number, or a text",
}


def close_to(name: str, names: Iterable[str]) -> str | None:
    """The name that another one is probably meant to be."""
    lower = {known.lower(): known for known in names}
    close = difflib.get_close_matches(name.lower(), lower, n=1, cutoff=0.7) if len(name) <= LONGEST_NAME else []
    return lower[close[0]] if close else None


def faults_in(subject: Subject) -> Iterator[Fault]:
    """Where a template isn't as the schema of its kind says."""
    return faults_of(subject.object, schema_of_kind(subject.kind))


# ---- fields that nobody knows


def providers_at(subject: Subject, place: Place) -> Collection[str]:
    """The names in `provider` of the metric in which a place is; none where it is in no metric."""
    if place.fields[: len(METRIC)] != METRIC:
        return ()
    index = int(place.pointer.split("/")[len(METRIC) + 1])
    provider = member(subject.object["spec"]["metrics"][index], "provider")
    return provider if isinstance(provider, dict) else ()


def unknown_field(subject: Subject, fault: Fault) -> Finding:
    """The finding of a field that its part doesn't have."""
    name, place, known = fault.found, fault.place, fault.expected.fields
    at, has = place.pointer + pointer_to(name), f"{title_of(place.fields)} has no field {shown(name)}"
    parts = homes(subject.kind, place.fields, providers_at(subject, place))
    home = next((part for part in parts if name in part.schema.fields), None)
    if home is not None:
        mend = f"it is a field of {title_of(home.fields)}: move it there"
        return error("unknown-field", at, f"{has}, so it is not read", mend)
    if close := close_to(name, known):
        return error("unknown-field", at, f"{has}, so it is not read", f"did you mean {shown(close)}?")
    return warning("unknown-field", at, f"{has} in Argo Rollouts 1.8", f"remove it; fields are {', '.join(known)}")


def unknown_by_part(faults: Iterable[Fault]) -> dict[str, list[Fault]]:
    """The fields that nobody knows, by the pointers of their parts."""
    found: dict[str, list[Fault]] = {}
    for fault in faults:
        if fault.keyword is Keyword.PROPERTIES:
            found.setdefault(fault.place.pointer, []).append(fault)
    return found


def unknown_fields(subject: Subject) -> Iterator[Finding]:
    """Fields that no part has, of which the first few of a part are looked at."""
    for pointer, faults in unknown_by_part(faults_in(subject)).items():
        yield from (unknown_field(subject, fault) for fault in faults[:MOST_OF_PART])
        if len(faults) > MOST_OF_PART:
            more = f"{len(faults) - MOST_OF_PART} more fields that Argo Rollouts 1.8 doesn't know"
            has = f"{title_of(faults[0].place.fields)} has {more}"
            yield warning("unknown-field", pointer, has, "remove them")


# ---- values that the API server refuses


def expected_of(schema: Schema) -> str:
    """What a value should be, in words."""
    if schema.choices:
        *others, last = map(shown, schema.choices)
        return f"{', '.join(others)} or {last}"
    return EXPECTED[schema.type]


def refused_value(fault: Fault) -> Finding:
    """The finding of a value of another type, or of a text that is none of some."""
    found = fault.found if isinstance(fault.found, NumberText) else shown(fault.found)
    return error(
        "refused-by-controller",
        fault.place.pointer,
        f"`{fault.place.name}` is {found}, which the API server refuses",
        f"write {expected_of(fault.expected)}",
    )


def missing_field(fault: Fault) -> Finding:
    """The finding of a part that lacks a field."""
    name = fault.found
    return error(
        "refused-by-controller",
        fault.place.pointer,
        f"{title_of(fault.place.fields)} has no `{name}`, which the API server refuses",
        f"add `{name}`: {expected_of(fault.expected.fields[name])}",
    )


def misspelt(faults: Sequence[Fault]) -> Iterator[tuple[str, str]]:
    """The pointer of each part that lacks fields, with the fields that it seems to have under another name."""
    lacking = {fault.place.pointer for fault in faults if fault.keyword is Keyword.REQUIRED}
    for pointer, unknown in unknown_by_part(faults).items():
        for fault in unknown[:MOST_OF_PART] if pointer in lacking else ():
            if close := close_to(fault.found, fault.expected.required):
                yield pointer, close


def refusals_of(faults: Sequence[Fault]) -> Iterator[tuple[Fault, Finding]]:
    """The finding of each value that is refused, and of each field that is missing unless another finding says so."""
    said = set(misspelt(faults))
    for fault in faults:
        if fault.keyword is Keyword.REQUIRED:
            is_said = (*fault.place.fields, fault.found) in SAID_ELSEWHERE or (fault.place.pointer, fault.found) in said
            yield from [] if is_said else [(fault, missing_field(fault))]
        elif fault.keyword is not Keyword.PROPERTIES:
            yield fault, refused_value(fault)


def refused_values(subject: Subject) -> Iterator[Finding]:
    """Values that the API server refuses, and fields that it misses; of many items the first are looked at."""
    times: Counter[tuple[str, ...]] = Counter()
    for fault, finding in refusals_of(list(faults_in(subject))):
        times[fault.place.fields] += 1
        if times[fault.place.fields] <= MOST_OF_PART:
            yield finding
    for fields, number in times.items():
        if number > MOST_OF_PART:
            more = f"{number - MOST_OF_PART} more values of {title_of(fields)} that the API server refuses"
            yield error("refused-by-controller", pointer_to(*fields[:1]), f"there are {more}", "mend the first ones")
