"""README.md, CONTRIBUTING.md, CHANGELOG.md and the pages of docs/: their fenced blocks, their links, and how they run
the program."""

import pathlib
import re
from collections.abc import Iterator
from dataclasses import dataclass, field

from checks import ROOT

PAGES = [*sorted(ROOT.glob("*.md")), *sorted((ROOT / "docs").glob("**/*.md"))]
NOTE = re.compile(r"<!-- (file|not run|needs): (.*) -->")
# What starts `run` in the order in which workers come, and the files that are looked at for it, besides the pages.
UNORDERED = re.compile(r"(?:argo_judge|\$ENGINE)\"? run(?! --(?:plain|ordered|help)\b)")
SCRIPTS = ("recipes/*", "python/argo_judge/**/*.py", "recipes/tests/*/command", "examples/scaling/*")
LINK = re.compile(r"\]\(([^)\s]+)\)")


@dataclass
class Block:
    """A fenced block: where it begins, its language, its lines, and the notes in the comments right before it."""

    page: str
    number: int
    language: str
    lines: list = field(default_factory=list)
    notes: dict = field(default_factory=dict)

    @property
    def where(self) -> str:
        return f"{self.page}:{self.number}"


def blocks_of(path: pathlib.Path) -> list[Block]:
    blocks: list[Block] = []
    open_block: Block | None = None
    notes: dict[str, str] = {}
    for number, line in enumerate(path.read_text(encoding="utf-8").splitlines(), 1):
        if open_block is not None:
            if line == "```":
                open_block = None
            else:
                open_block.lines.append(line)
        elif line.startswith("```"):
            open_block = Block(str(path.relative_to(ROOT)), number, line[3:].strip(), notes=notes)
            blocks.append(open_block)
            notes = {}
        elif note := NOTE.fullmatch(line):
            notes[note[1]] = note[2]
        elif line.strip():
            notes = {}
    return blocks


def without_code(text: str) -> str:
    return re.sub(r"`[^`\n]*`", "", re.sub(r"^```.*?^```$", "", text, flags=re.MULTILINE | re.DOTALL))


def anchors_of(path: pathlib.Path) -> set[str]:
    """The names that a page's headings have as targets of links."""
    found = set()
    for line in re.sub(
        r"^```.*?^```$", "", path.read_text(encoding="utf-8"), flags=re.MULTILINE | re.DOTALL
    ).splitlines():
        if heading := re.fullmatch(r"#+ (.*)", line):
            found.add(re.sub(r"[^\w\- ]", "", heading[1].lower()).replace(" ", "-"))
    return found


def broken_links(path: pathlib.Path) -> Iterator[str]:
    """The links of a page to files or headings that aren't there."""
    for target in LINK.findall(without_code(path.read_text(encoding="utf-8"))):
        if "://" in target:
            continue
        name, _, anchor = target.partition("#")
        file = (path.parent / name).resolve() if name else path
        if not file.exists() or anchor and anchor not in anchors_of(file):
            yield target


def unordered_runs() -> Iterator[str]:
    """The lines of pages, recipes and examples that start `run` without --plain or --ordered."""
    scripts = [path for pattern in SCRIPTS for path in sorted(ROOT.glob(pattern)) if path.is_file()]
    for path in [*PAGES, *scripts]:
        for number, line in enumerate(path.read_text(encoding="utf-8").splitlines(), 1):
            if UNORDERED.search(line):
                yield f"{path.relative_to(ROOT)}:{number}: expected `run --plain` or `run --ordered`"
