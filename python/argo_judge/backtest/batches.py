"""Documents of many runs, so that the engine is started once for all that are judged by the same template."""
import json
import os
from collections import deque
from collections.abc import Iterable, Iterator, Sequence
from subprocess import CompletedProcess
from typing import NamedTuple

from argo_judge.engine.limits import Limits, limits_of
from argo_judge.engine.program import Started
from argo_judge.engine.refusals import Refusal, refusal_in, warnings_in
from argo_judge.engine.reports import RunReport, checked
from argo_judge.errors import JUDGED, REFUSED, Refused
from argo_judge.objects import Object

WORDS = ["run", "--plain", "--output", "json"]
PROCESSORS = len(os.sched_getaffinity(0))


class Size(NamedTuple):
    """How much documents are together: their runs, their measurements, and about how many bytes these have."""

    runs: int
    measurements: int
    bytes: int

    def plus(self, other: "Size") -> "Size":
        """The size of both."""
        return Size(self.runs + other.runs, self.measurements + other.measurements, self.bytes + other.bytes)

    def is_within(self, limits: Limits) -> bool:
        """Whether they are few enough for one document. Half of its bytes are left for the template."""
        few = self.runs <= limits.runs and self.measurements <= limits.measurements
        return few and self.bytes <= limits.document_bytes // 2


class Warned(NamedTuple):
    """A line that the engine warns of, and the places of the documents that it is of."""

    line: str
    places: Sequence[int]


class Judged(NamedTuple):
    """The reported run of each document, by its place, or why it is refused; and what the engine warns of."""

    reports: dict[int, RunReport | Refusal]
    warned: list[Warned]


def size_of(made: Object) -> Size:
    """How much a document adds to a batch."""
    return Size(1, len(made["measurements"]), len(json.dumps(made["measurements"])) + len(json.dumps(made["runs"])))


def key_of(made: Object) -> str:
    """What the runs of one document have in common: the template but for its name, and the shapes."""
    return json.dumps([{name: value for name, value in made["manifest"].items() if name != "metadata"}, made["shapes"]])


def batches_of(documents: Sequence[Object], limits: Limits) -> list[list[int]]:
    """The places of documents that have one template and its shapes, of which each batch is small enough."""
    batches: list[list[int]] = []
    # Of each key the batch that others join, and its size.
    open_ones: dict[str, tuple[list[int], Size]] = {}
    for place, made in enumerate(documents):
        key, own = key_of(made), size_of(made)
        batch, size = open_ones.get(key, ([], Size(0, 0, 0)))
        if not batch or not size.plus(own).is_within(limits):
            batch, size = [], Size(0, 0, 0)
            batches.append(batch)
        batch.append(place)
        open_ones[key] = batch, size.plus(own)
    return batches


def joined(documents: Sequence[Object], batch: Sequence[int]) -> Object:
    """One document of a batch, in which a run's name is its place."""
    first = documents[batch[0]]
    runs = [{**documents[place]["runs"][0], "name": str(place)} for place in batch]
    entries = [{**one, "run": str(place)} for place in batch for one in documents[place]["measurements"]]
    return {**first, "runs": runs, "measurements": entries}


def warned_in(made: Object, batch: Sequence[int], errors: str) -> Iterator[Warned]:
    """What the engine warns of, each with the places of the documents that it is of. A measurement's number is left
    out: it is that in the document of the batch."""
    for warning in warnings_in(errors):
        if warning.entry is None:
            yield Warned(warning.text, batch)
        else:
            place = int(made["measurements"][warning.entry]["run"])
            yield Warned(f"{warning.found}; expected {warning.expected}", [place])


class Batch:
    """Documents that the engine is asked of in one, which isn't waited for until the end."""

    def __init__(self, engine: str, documents: Sequence[Object], places: Sequence[int]) -> None:
        self.engine, self.documents, self.places = engine, documents, places
        self.made = joined(documents, places)
        self.started = Started(engine, WORDS, self.made)
        self.judged: Judged | None = None

    def end(self) -> Judged:
        """The reported run of each document, and the warnings; where one is refused each is judged alone."""
        if self.judged is None:
            self.judged = self.judged_of(self.started.ended())
        return self.judged

    def judged_of(self, ended: CompletedProcess[str]) -> Judged:
        """What the engine said."""
        if ended.returncode in JUDGED:
            reports = checked(self.made, ended.stdout, "document", "report")
            return Judged(dict(zip(self.places, reports)), list(warned_in(self.made, self.places, ended.stderr)))
        if ended.returncode != REFUSED:
            raise Refused(f"the engine ended with status {ended.returncode}: {ended.stderr.strip()}")
        if len(self.places) == 1:
            return Judged({self.places[0]: refusal_in(ended.stderr)}, [])
        return together(Batch(self.engine, self.documents, [one]).end() for one in self.places)


class Engine:
    """The engine, which is asked of as many batches at a time as there are processors."""

    def __init__(self, program: str) -> None:
        self.program, self.running = program, deque[Batch]()

    def begun(self, documents: Sequence[Object]) -> list[Batch]:
        """Batches of all documents, which are begun; of those before as many are ended as it needs."""
        found = []
        for places in batches_of(documents, limits_of(self.program)) if documents else ():
            while len(self.running) >= PROCESSORS:
                self.running.popleft().end()
            found.append(Batch(self.program, documents, places))
            self.running.append(found[-1])
        return found


def together(found: Iterable[Judged]) -> Judged:
    """Reports and warnings of several batches."""
    whole = Judged({}, [])
    for own in found:
        whole.reports.update(own.reports)
        whole.warned.extend(own.warned)
    return whole
