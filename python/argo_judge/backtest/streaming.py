"""Runs one after another: documents are made of some while the engine judges those before, and only these are in
memory."""
import sys
import time
from collections import deque
from collections.abc import Iterable, Iterator, Sequence
from typing import NamedTuple

from argo_judge.backtest.batches import Batch, Engine, Judged, together
from argo_judge.backtest.outcomes import LeftOut, Outcome, Result, outcome_of
from argo_judge.backtest.runs import Judgement, OtherTemplate, Trial, judgement_of, name_of
from argo_judge.engine.refusals import Refusal
from argo_judge.errors import Refused
from argo_judge.notes import kept_notes, note, program
from argo_judge.objects import Object

# About how many documents are made before the engine is asked.
DOCUMENTS = 1024
# How many such parts are judged at a time, and the seconds between two looks at how far it is.
PARTS, SECONDS = 2, 0.2


class Noted:
    """Lines that are noted of runs: each is written once, with how many runs it is of."""

    def __init__(self) -> None:
        self.runs: dict[str, tuple[str, int]] = {}

    def add(self, lines: Iterable[str], name: str) -> None:
        """Minds the lines of a run."""
        for line in dict.fromkeys(lines):
            first, times = self.runs.get(line, (name, 0))
            self.runs[line] = first, times + 1

    def write(self) -> None:
        """Writes each line."""
        for line, (first, times) in self.runs.items():
            note(f"{line} ({first if times == 1 else f'{first} and {times - 1} more'})")


class Progress:
    """How many runs are judged, in a line that a terminal shows meanwhile; elsewhere nothing is written."""

    def __init__(self) -> None:
        self.is_seen = sys.stderr is not None and sys.stderr.isatty()
        self.next = time.monotonic() + SECONDS

    def show(self, result: Result) -> None:
        """Writes how far it is, now and then."""
        if self.is_seen and time.monotonic() >= self.next:
            sys.stderr.write(f"\r{program()}: {result.judged} runs judged, {len(result.left_out)} left out")
            sys.stderr.flush()
            self.next = time.monotonic() + SECONDS

    def end(self) -> None:
        """Takes the line away."""
        if self.is_seen:
            sys.stderr.write("\r\x1b[K")
            sys.stderr.flush()


class Part(NamedTuple):
    """Some runs, one after another: what is asked of each, or why it is left out; and what the engine is asked."""

    runs: list[Judgement | LeftOut]
    batches: list[Batch]


def outcomes_of(runs: Iterable[Judgement | LeftOut], judged: Judged, has_each: bool) -> Iterator[Outcome | LeftOut]:
    """What came of each run of a part."""
    place = 0
    for one in runs:
        if isinstance(one, LeftOut):
            yield one
            continue
        answers = [judged.reports[place + after] for after in range(len(one.documents))]
        place += len(answers)
        refusals = [answer.text for answer in answers if isinstance(answer, Refusal)]
        reports = [answer for answer in answers if not isinstance(answer, Refusal)]
        yield LeftOut(one.name, refusals[0]) if refusals else outcome_of(one.name, one.controller, reports, has_each)


class Backtest:
    """A trial that is on: what came of the runs so far, and what was noted of them, of which the engine warned."""

    def __init__(self, trial: Trial, engine: str, has_each: bool) -> None:
        self.trial, self.engine = trial, Engine(engine)
        self.result, self.noted, self.warned = Result(trial.sweep, has_each), Noted(), Noted()
        self.seen: set[str] = set()

    def asked(self, run: Object) -> Judgement | LeftOut:
        """What is asked of a run, or why it is left out."""
        name = name_of(run)
        with kept_notes() as lines:
            try:
                if name in self.seen:
                    raise Refused("a run of this name is there before")
                found: Judgement | LeftOut = judgement_of(run, self.trial)
            except Refused as refusal:
                why = str(refusal).removeprefix("input: ").partition("; --partial")[0]
                found = LeftOut(name, why, isinstance(refusal, OtherTemplate))
        self.seen.add(name)
        self.noted.add(lines, name)
        return found

    def parts(self, runs: Iterable[Object]) -> Iterator[list[Judgement | LeftOut]]:
        """What is asked of runs, in parts of about as many documents."""
        part: list[Judgement | LeftOut] = []
        documents = 0
        for run in runs:
            part.append(one := self.asked(run))
            documents += 1 if isinstance(one, LeftOut) else len(one.documents)
            if documents >= DOCUMENTS:
                yield part
                part, documents = [], 0
        yield part

    def end(self, part: Part) -> None:
        """Minds what came of a part."""
        judged = together(batch.end() for batch in part.batches)
        names = [one.name for one in part.runs if isinstance(one, Judgement) for _ in one.documents]
        for line, runs in by_line(judged, names).items():
            for name in runs:
                self.warned.add([line], name)
        for one in outcomes_of(part.runs, judged, self.result.has_each):
            self.result.add(one)

    def judge(self, runs: Iterable[Object]) -> None:
        """Judges runs as they are read, of which a few parts are judged at a time."""
        progress, begun = Progress(), deque[Part]()
        try:
            for part in self.parts(runs):
                begun.append(Part(part, self.engine.begun(documents_of(part))))
                while len(begun) >= PARTS:
                    self.end(begun.popleft())
                progress.show(self.result)
            for one in begun:
                self.end(one)
        finally:
            progress.end()

    def read(self, runs: Iterable[Object]) -> Result:
        """Judges runs, and writes what was noted of them, also where it ends with a refusal."""
        lines: list[str] = []
        try:
            with kept_notes() as lines:
                self.judge(runs)
        finally:
            for line in lines:
                note(line)
            self.noted.write()
            self.warned.write()
        return self.result


def documents_of(runs: Iterable[Judgement | LeftOut]) -> list[Object]:
    """All documents of runs, one run after another."""
    return [made for one in runs if isinstance(one, Judgement) for made in one.documents]


def by_line(judged: Judged, names: Sequence[str]) -> dict[str, list[str]]:
    """The names of the runs that the engine warns of, each once, by the line of the warning."""
    found: dict[str, dict[str, None]] = {}
    for warned in judged.warned:
        found.setdefault(warned.line, {}).update(dict.fromkeys(names[place] for place in warned.places))
    return {line: list(runs) for line, runs in found.items()}
