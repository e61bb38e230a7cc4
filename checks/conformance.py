"""Holds a program to the cases of conformance/.

    conformance/check [PROGRAM]

The program, or else that of crates/conformance as last built, is run once for each file NAME.jsonl, on the file's
cases, a line each; docs/design/conformance.md says what it has to answer. The documents of examples/conditions that
have an answer are cases of the call `verify`, whose code has to end so on both machines, whatever it costs;
examples/check gives all of these documents to argo_judge. Each case that is answered otherwise is printed with both
answers. The last line has the counts, and the status is 0 where none failed.
"""

import json
import pathlib
import re
import sys
from collections.abc import Iterator
from typing import NamedTuple

from checks.data import files_of_conditions, files_of_suite, numbered_lines
from checks.harness import SUITE, Counts, built, named
from checks.suite import printed

SHOWN = 400
ENDED = re.compile(r"accepted operations=\d+ depth=\d+ budget=\d+ / (.*) cost=\d+")


class Case(NamedTuple):
    """A line that is answered, and the answer; of a condition it is what its code says in the end."""

    number: int
    line: str
    answer: str
    name: str = ""
    is_condition: bool = False

    def is_right(self, got: str) -> bool:
        if not self.is_condition:
            return got == self.answer
        ended = ENDED.fullmatch(got)
        return ended is not None and ended[1] == self.answer


def suite_cases_of(path: pathlib.Path) -> Iterator[Case]:
    for number, line in numbered_lines(path):
        case = json.loads(line)
        yield Case(number, line, case["answer"], case.get("name", ""))


def condition_cases_of(path: pathlib.Path) -> Iterator[Case]:
    """The documents that have an answer; numbers stay as they are written."""
    for number, line in numbered_lines(path):
        document = json.loads(line)
        if "answer" in document:
            shape = line.index(',"shape":') + len(',"shape":')
            _, length = json.JSONDecoder().raw_decode(line[shape:])
            value = line[shape + length :].removeprefix(',"value":').removesuffix("}")
            about = json.dumps({"call": "verify", "condition": document["condition"], "shape": document["shape"]})
            yield Case(number, f'{about[:-1]},"values":[{value}]}}', document["answer"], is_condition=True)


def shown(text: str) -> str:
    return text if len(text) <= SHOWN else f"{text[:SHOWN]}.. ({len(text)} characters)"


def otherwise(name: str, case: Case, got: str) -> str:
    """A case that is answered otherwise, as some lines."""
    title = f" ({case.name})" if case.name else ""
    return f"{name}:{case.number}{title}\n  expected {shown(case.answer)}\n  got      {shown(got)}"


def look_at(counts: Counts, program: pathlib.Path, path: pathlib.Path, cases: list[Case]) -> None:
    """Holds the program to the cases of a file; those that it leaves out have failed."""
    got, fault = printed(program, [case.line for case in cases])
    for case, answer in zip(cases, got):
        counts.expect(case.is_right(answer), lambda: otherwise(named(path), case, answer))
    counts.failed += max(0, len(cases) - len(got))
    if fault:
        counts.expect(False, f"{named(path)}: {fault}")


def main(words: list[str]) -> int:
    program, counts = built(words, SUITE), Counts("conformance")
    for path in files_of_suite():
        look_at(counts, program, path, list(suite_cases_of(path)))
    for path in files_of_conditions():
        look_at(counts, program, path, list(condition_cases_of(path)))
    return counts.end()


if __name__ == "__main__":
    sys.exit(main(sys.argv[1:]))
