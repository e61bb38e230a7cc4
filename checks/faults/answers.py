"""What the program answers to a document, and whether that is what a run of it ended with."""

from typing import Any, NamedTuple


class Answer(NamedTuple):
    """What a command answers: its status, its output, and how many lines it writes to standard error."""

    status: int
    output: str
    lines: int = 0

    @property
    def warns(self) -> bool:
        """Whether the lines are warnings; else they are a refusal."""
        return self.status in (0, 1) and self.lines > 0


class Document(NamedTuple):
    """A document for `run`, `check` and `list`, with the answer of each."""

    text: str
    run: Answer
    check: Answer
    list: Answer

    def answer(self, words: str) -> Answer:
        """The answer to a command line."""
        found: Answer = getattr(self, words.split()[0])
        return found


def with_events_sorted(report: str) -> str:
    """A report with the event lines of each run in one order, whatever order the workers came in."""
    keyed: list[tuple[tuple[int, str], str]] = []
    run = 0
    for line in report.splitlines(keepends=True):
        run += line.startswith("run ")
        keyed.append(((run, line if line.startswith("event ") else ""), line))
    return "".join(line for _, line in sorted(keyed, key=lambda it: it[0]))


def is_answer(ended: Any, answer: Answer, words: str = "") -> bool:
    """Whether a run ended with the answer. Of `run` alone the events of a run come in any order."""
    output, expected = ended.output, answer.output
    if words.startswith("run") and "--plain" not in words and "--ordered" not in words:
        output, expected = with_events_sorted(output), with_events_sorted(expected)
    return (ended.status, output, ended.errors.count("\n")) == (answer.status, expected, answer.lines)
