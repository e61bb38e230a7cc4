"""How much there is to prove, next to the table of docs/design/proof-cost.md.

    tests/docs/costs

A line says how many functions and how many lines of specs and proofs there are, and how many of them were added since
the table was made. It fails where that is more than a twentieth: then make as much cheaper elsewhere, or have
`benches/proofs` write the table anew.
"""

import sys

from building import plan
from checks import ROOT
from checks.harness import Counts

MOST = 0.05


def crates() -> list[str]:
    lines = (ROOT / "crates.txt").read_text(encoding="utf-8").splitlines()
    return [line.split(":")[0].split()[0] for line in lines if ":" in line.split("#")[0]]


def main(words: list[str]) -> int:
    measured, names, counts = plan.table(), crates(), Counts("costs")
    functions = sum(plan.functions_of(name) for name in names)
    lines = sum(plan.lines_of(name) for name in names)
    old_functions = sum(cost.functions for cost in measured.values())
    old_lines = sum(cost.lines for cost in measured.values())
    print(
        f"to prove: {functions} functions ({functions - old_functions:+}), {lines} lines of specs and proofs "
        f"({lines - old_lines:+}); in brackets, since the table of docs/design/proof-cost.md was made"
    )
    counts.expect(
        functions <= old_functions * (1 + MOST) and lines <= old_lines * (1 + MOST),
        "that is more than a twentieth: make as much cheaper elsewhere, or measure anew by benches/proofs",
    )
    return counts.end()


if __name__ == "__main__":
    sys.exit(main(sys.argv[1:]))
