"""Mutants: edits of a crate's sources, each of which the prover has to refuse; and how they are tried."""

import pathlib
import re
import shutil
import subprocess
import tempfile
from collections.abc import Iterable, Iterator

from building.crates import SOURCES
from checks import ROOT
from checks.harness import loaded
from checks.mutants.record import edits_of, functions

GOAL = re.compile(r"^(?:note: )?(?:\./)?(src/\S+\.rt):(\d+):\d+: .*(?:is not proved|found no proof|no proof of)", re.M)
ANSWER = re.compile(r"^(?:\./)?proofs/(\S+)/(?:Answers|Invariants)\.antt:\d+:\d+: error", re.M)
# A function that is left without a proof, as a law is where its lemma isn't admitted.
LEFT = re.compile(r"^fn \S+: no proof: expected answers", re.M)
NO_PROGRAM = re.compile(r"error\[[\w-]+\]")
KIT = pathlib.Path(subprocess.run(["rt", "doc"], capture_output=True, text=True, check=True).stdout.strip()).parent


def pairs_of(edit: pathlib.Path) -> list[tuple[str, str, str]]:
    """The texts that an edit replaces: file, old and new."""
    file, old, found = "", "", []
    for line in edit.read_text(encoding="utf-8").splitlines():
        if line.startswith("file: "):
            file = line[6:]
        elif line.startswith("old: "):
            old = line[5:]
        elif line.startswith("new:"):
            found.append((file, old, line[5:]))
    return found


def applies(crate: str, edit: pathlib.Path) -> bool:
    """Whether an edit replaces something, and each old text is in its file once, after the pairs before it."""
    texts: dict[str, str] = {}
    pairs = pairs_of(edit)
    for file, old, new in pairs:
        path = ROOT / "crates" / crate / file
        if not path.is_file():
            return False
        text = texts.get(file) or path.read_text(encoding="utf-8")
        if text.count(old) != 1:
            return False
        texts[file] = text.replace(old, new)
    return bool(pairs)


class Crate:
    """A crate in a copy of the repository in which the libraries below it are built."""

    def __init__(self, name: str, copy: pathlib.Path) -> None:
        kit = loaded(KIT / "bin" / "rtlib.py")
        kit.Crate.cuts_libraries = True
        self.name, self.folder = name, copy / "crates" / name
        self.words = kit.Crate(str(self.folder), str(copy), {}).words(["--jobs", "1"], keeps=False)
        self.edits = edits_of(name)

    def touched(self, edit: pathlib.Path) -> set[tuple[str, str]]:
        """The functions that an edit touches, each as its file and name; none where it touches another item, too."""
        found = set()
        for file, old, _ in pairs_of(edit):
            text = (self.folder / file).read_text(encoding="utf-8")
            line = text[: text.index(old)].count("\n") + 1
            inside = [name for name, first, end in functions(text) if first <= line <= end]
            if not inside:
                return set()
            found.add((file, inside[-1]))
        return found

    def check(self, edits: Iterable[pathlib.Path], files: Iterable[str] = ()) -> tuple[str, dict[str, str]]:
        """What the check of a copy with these edits says, and the copy's edited sources."""
        with tempfile.TemporaryDirectory() as room:
            for part in SOURCES:
                if (self.folder / part).is_dir():
                    shutil.copytree(self.folder / part, f"{room}/{part}")
            texts = {}
            for file, old, new in (pair for edit in edits for pair in pairs_of(edit)):
                path = pathlib.Path(room, file)
                texts[file] = path.read_text(encoding="utf-8").replace(old, new)
                path.write_text(texts[file], encoding="utf-8")
            modules = [word for file in sorted(files) for word in ("--only", file[4:-3].replace("/", "::"))]
            ran = subprocess.run(
                [KIT / "bin" / "rattle", "check", *self.words, *modules],
                cwd=room,
                capture_output=True,
                text=True,
                errors="replace",
                check=False,
            )
            return ran.stdout + ran.stderr, texts

    def refused_together(self, edits: list[pathlib.Path]) -> set[pathlib.Path]:
        """Which of these edits, of different functions each, are refused for an open goal or answer of their own."""
        touched = {edit: self.touched(edit) for edit in edits}
        said, texts = self.check(edits, {file for own in touched.values() for file, _ in own})
        if NO_PROGRAM.search(said):
            return set()
        goals, answers = GOAL.findall(said), ANSWER.findall(said)
        open_in = {
            (file, name)
            for file, text in texts.items()
            for name, first, end in functions(text)
            if any(at == file and first <= int(line) <= end for at, line in goals)
        }
        open_in |= {
            (file, part)
            for file in texts
            for path in answers
            for part in re.split(r"[/+]", path)
            if path.startswith(file[4:-3] + "/")
        }
        return {edit for edit in edits if touched[edit] & open_in}

    def is_refused_alone(self, edit: pathlib.Path) -> bool:
        said, _ = self.check([edit])
        is_open = any(pattern.search(said) for pattern in (GOAL, ANSWER, LEFT))
        return is_open and not NO_PROGRAM.search(said)

    def is_of_modules(self, edit: pathlib.Path) -> bool:
        """Whether an edit touches functions of modules alone; a crate's root file is no module of its own."""
        touched = self.touched(edit)
        return bool(touched) and all(file not in ("src/lib.rt", "src/main.rt") for file, _ in touched)

    def batches(self) -> Iterator[list[pathlib.Path]]:
        """The edits in rounds, in each of which no function is touched twice."""
        left = [edit for edit in self.edits if self.is_of_modules(edit)]
        while left:
            seen: set[tuple[str, str]] = set()
            now = []
            for edit in left:
                if not self.touched(edit) & seen:
                    seen |= self.touched(edit)
                    now.append(edit)
            left = [edit for edit in left if edit not in now]
            yield now

    def missed(self) -> list[str]:
        """The names of the edits that aren't refused."""
        refused: set[pathlib.Path] = set()
        for batch in self.batches():
            refused |= self.refused_together(batch)
        for edit in self.edits:
            if edit not in refused and self.is_of_modules(edit):
                refused |= self.refused_together([edit])
            if edit not in refused and self.is_refused_alone(edit):
                refused.add(edit)
        return [edit.stem for edit in self.edits if edit not in refused]
