"""The definitions that the program's promises rest on, and names that mean two things.

    check            holds docs/trust/definitions.md to the sources, and each public name to one meaning
    check --write    writes docs/trust/definitions.md

docs/trust/definitions.md lists, by file and line, each definition that the contracts of `serve_keeping`,
`serve_plain_keeping`, `argo_judge_run`, `laws::headline`, `laws::built_headline` and `laws::judge_headline` reach, so
that one who doubts them can go through it from top to bottom. A public name means one thing in all files that one
contract's imports lead to.
"""

import collections
import re
import sys
from typing import Any

from checks import ROOT
from checks.harness import Counts, named
from checks.trust.definitions import CRATES, Definition, RustType, Sources

PAGE = ROOT / "docs" / "trust" / "definitions.md"
HEADLINE = ("ar_judge/src/laws.rt", "headline")
PROGRAM = (
    ("ar_judge/src/laws.rt", "built_headline"),
    ("ar_judge/src/laws.rt", "judge_headline"),
    ("ar_command/src/serving.rt", "serve_keeping"),
    ("ar_command/src/serving.rt", "serve_plain_keeping"),
    ("argo_judge_c/src/lib.rt", "argo_judge_run"),
)
HEAD = """# The definitions that the promises rest on

`tests/trust/check --write` makes this page from the sources, and the gate compares. It lists each definition that a
contract reaches: those that it names, those that these name, and so on, as the files' imports resolve them. Names are
found by reading the text, so a name that a definition binds itself is none of another. Next to these a reader trusts
the prover, the libraries, and what the page lists of both at its end. A number is the line at which a definition
begins, with its comment. Each part runs from the lowest crate to the highest; within a file the order is the file's.

Lines are those of definitions without comments and imports. "By file" counts all definitions of all files that the
imports lead to: what a reader meets who follows these. The worked rows at a file's end, which the prover has computed,
are no definitions: they show them at work.
"""


class Trust:
    def __init__(self):
        self.sources = Sources()
        crates = [
            line.split()[0].rstrip(":")
            for line in (ROOT / "crates.txt").read_text(encoding="utf-8").splitlines()
            if ":" in line
        ]
        self.order = {name: number for number, name in enumerate(crates)}

    def place(self, module):
        """Where a file comes: by its crate, then as its crate's list of modules has it."""
        inner = module.name.split(".")[3:]
        text = (CRATES / module.crate / "specs" / "Lib.antt").read_text(encoding="utf-8")
        listed = re.findall(r"^pub mod (\w+)", text, re.M)
        return self.order[module.crate], listed.index(inner[0]) if inner[0] in listed else len(listed), module.name

    def reached(self, contracts):
        first = [it for contract in contracts for it in self.sources.of_contract(*contract)]
        return self.sources.closure(first)

    def by_file(self, reached):
        """All definitions of the files that lead to these; worked rows aside, which nobody need believe."""
        modules = self.sources.modules_from({it.module.name for it in reached if isinstance(it, Definition)})
        return [it for module in modules.values() for it in module.definitions if it.is_public or it in reached]

    def files_of(self, reached):
        return self.files([it for it in reached if isinstance(it, Definition)])

    def files(self, definitions):
        by_module = collections.defaultdict(list)
        for it in definitions:
            by_module[it.module].append(it)
        for module in sorted(by_module, key=self.place):
            own = sorted(by_module[module], key=lambda it: it.first)
            names = ", ".join(f"`{it.name}` {it.first}" for it in own)
            yield f"- [`{module.path.relative_to(ROOT)}`](../../{module.path.relative_to(ROOT)}): {names}"

    def types(self, reached):
        by_file = collections.defaultdict(list)
        for it in reached:
            if isinstance(it, RustType):
                by_file[it.source].append(it)
        for source in sorted(by_file, key=lambda it: (self.order[it.crate], it.path)):
            names = ", ".join(f"`{it.name}` {it.first}" for it in sorted(by_file[source], key=lambda it: it.first))
            yield f"- [`{source.path.relative_to(ROOT)}`](../../{source.path.relative_to(ROOT)}): {names}"

    @staticmethod
    def libraries(reached):
        by_module = collections.defaultdict(set)
        for it in reached:
            if isinstance(it, str):
                module, _, name = it.removeprefix("Rattle.").rpartition(".")
                by_module[module].add(name)
        for module in sorted(by_module):
            yield f"- `{module}`: " + ", ".join(f"`{it}`" for it in sorted(by_module[module]))

    def page(self):
        headline, program = self.reached([HEADLINE]), self.reached([HEADLINE, *PROGRAM])
        of_headline = {id(it) for it in headline}
        parts = [HEAD]
        titles = (
            "`laws::headline` of `ar_judge`",
            "This, with `laws::built_headline`, `laws::judge_headline`, `serve_keeping` and `serve_plain_keeping` of "
            "`ar_command`, and `argo_judge_run` of `argo_judge_c`",
        )
        for title, reached in zip(titles, (headline, program)):
            own = [it for it in reached if isinstance(it, Definition)]
            every = self.by_file(reached)
            files = f"by file {len(every)} in {lines_of(every):,}"
            parts.append(f"- {title}: {len(own)} definitions in {lines_of(own):,} lines; {files}.")
        more = [it for it in program if id(it) not in of_headline]
        sections = (
            ("The headline", self.files_of(headline)),
            ("The program", self.files_of(more)),
            ("Types of the program", self.types(program)),
            ("Names of libraries", self.libraries(program)),
        )
        for title, lines in sections:
            parts += ["", f"## {title}", "", *lines]
        return "\n".join(parts) + "\n"

    def doubled(self):
        """Public names that two files define which one contract's imports lead to, each with these files."""
        found: collections.defaultdict[Any, set[Any]] = collections.defaultdict(set)
        for source in self.sources.files.values():
            by_name = collections.defaultdict(set)
            for module in self.sources.modules_from(source.imports).values():
                for it in filter(lambda it: it.is_public, module.definitions):
                    by_name[it.name].add(module.name.removeprefix("Rattle.").replace(".specs.", "."))
            for name, modules in by_name.items():
                if len(modules) > 1:
                    found[name] |= modules
        return [f"{name}: {' '.join(sorted(found[name]))}" for name in sorted(found)]


def lines_of(definitions):
    return sum(it.count for it in definitions)


def main(words: list[str]) -> int:
    trust, counts = Trust(), Counts("trust")
    page, names = trust.page(), trust.doubled()
    if words == ["--write"]:
        PAGE.write_text(page, encoding="utf-8")
        return 0
    is_current = PAGE.is_file() and PAGE.read_text(encoding="utf-8") == page
    counts.expect(is_current, f"{named(PAGE)} isn't what the sources say: run tests/trust/check --write")
    for line in names:
        counts.expect(False, f"a name for two things: {line}")
    if not names:
        counts.expect(True, "no name is for two things")
    return counts.end()


if __name__ == "__main__":
    sys.exit(main(sys.argv[1:]))
