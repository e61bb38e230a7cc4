"""How long the proofs of crates take: the table of docs/design/proof-cost.md, and what follows from it.

A plan is of a number of processors. A crate is begun when one is free and all crates below it are proved; of those that
can be begun, the one for which the longest chain of crates waits, as `rt ci` does.
"""
from __future__ import annotations

import re
from typing import NamedTuple

from building import ROOT

PAGE = ROOT / "docs" / "design" / "proof-cost.md"
FUNCTION = re.compile(r"^ *(?:pub(?:\([\w:]+\))? )?(?:const |unsafe |extern \S+ )*fn \w", re.M)
HEAD = "| Crate | Seconds | Functions | Lines |\n|---|---|---|---|\n"
ROW = re.compile(r"^\| `(\w+)` \| (\d+) \| (\d+) \| (\d+) \|$", re.M)

Uses = dict[str, list[str]]


class Cost(NamedTuple):
    """Of a crate: the processor seconds of its proof, and its functions and lines of specs and proofs at that time."""

    seconds: int
    functions: int
    lines: int


class Proof(NamedTuple):
    """A crate's proof in a plan, on a processor, from a second to a second."""

    crate: str
    processor: int
    begin: int
    end: int


def functions_of(crate: str) -> int:
    sources = (ROOT / "crates" / crate / "src").rglob("*.rt")
    return sum(len(FUNCTION.findall(path.read_text(encoding="utf-8"))) for path in sources)


def lines_of(crate: str) -> int:
    """Lines of specs and proofs that aren't blank."""
    files = [path for part in ("specs", "proofs") for path in (ROOT / "crates" / crate / part).rglob("*.antt")]
    return sum(bool(line.strip()) for path in files for line in path.read_text(encoding="utf-8").splitlines())


def table() -> dict[str, Cost]:
    """What the page says of each crate; nothing where it isn't there."""
    if not PAGE.is_file():
        return {}
    text = PAGE.read_text(encoding="utf-8")
    return {
        name: Cost(int(seconds), int(functions), int(lines)) for name, seconds, functions, lines in ROW.findall(text)
    }


def write(costs: dict[str, Cost]) -> None:
    """Puts the rows of crates in the place of the page's."""
    rows = "".join(f"| `{name}` | {cost.seconds} | {cost.functions} | {cost.lines} |\n" for name, cost in costs.items())
    before, _, after = PAGE.read_text(encoding="utf-8").partition(HEAD)
    PAGE.write_text(f"{before}{HEAD}{rows}\n{ROW.sub('', after).lstrip()}", encoding="utf-8")


def seconds_of(crate: str, costs: dict[str, Cost]) -> int:
    """Of a crate that is new, the mean of all."""
    if crate in costs:
        return costs[crate].seconds
    return sum(cost.seconds for cost in costs.values()) // max(1, len(costs))


def chains(uses: Uses, costs: dict[str, Cost]) -> dict[str, list[str]]:
    """For each crate the longest chain that begins with it, in which each crate uses the one before."""
    longest: dict[str, list[str]] = {}
    for crate in reversed(uses):
        above = [longest[it] for it in uses if it in longest and crate in uses[it]]
        longest[crate] = [crate, *max(above, key=lambda chain: length(chain, costs), default=[])]
    return longest


def length(chain: list[str], costs: dict[str, Cost]) -> int:
    return sum(seconds_of(crate, costs) for crate in chain)


def plan(uses: Uses, costs: dict[str, Cost], processors: int) -> list[Proof]:
    """When each of these crates is proved; libraries that aren't among them are proved already."""
    waits = {crate: length(chain, costs) for crate, chain in chains(uses, costs).items()}
    ends: dict[str, int] = {}
    free, proofs = [0] * processors, []
    left = list(uses)
    while left:
        ready = [crate for crate in left if all(it in ends or it not in uses for it in uses[crate])]
        processor = free.index(min(free))
        starts = {crate: max([free[processor], *(ends[it] for it in uses[crate] if it in uses)]) for crate in ready}
        crate = min(ready, key=lambda it: (starts[it], -waits[it]))
        ends[crate] = free[processor] = starts[crate] + seconds_of(crate, costs)
        proofs.append(Proof(crate, processor, starts[crate], ends[crate]))
        left.remove(crate)
    return proofs


def seconds_in_all(uses: Uses, costs: dict[str, Cost], processors: int) -> int:
    """How long a plan takes."""
    return max((proof.end for proof in plan(uses, costs, processors)), default=0)


def text(uses: Uses, costs: dict[str, Cost], processors: int) -> str:
    """The longest chain, and who proves what when, in seconds of the table."""
    chain = max(chains(uses, costs).values(), key=lambda it: length(it, costs))
    proofs = plan(uses, costs, processors)
    lines = [
        f"{length(list(uses), costs)} processor seconds; on {processors} processors "
        f"{max(proof.end for proof in proofs)} by the clock",
        f"longest chain, {length(chain, costs)} seconds: "
        + ", ".join(f"{crate} {seconds_of(crate, costs)}" for crate in chain),
    ]
    for processor in range(processors):
        own = [f"{it.crate} {it.begin}-{it.end}" for it in proofs if it.processor == processor]
        lines.append(f"processor {processor + 1}: " + ", ".join(own))
    return "\n".join(lines)
