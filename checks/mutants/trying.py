"""Tries mutants: the edits tests/mutants/NAME/*.edit of a crate NAME, each of which the prover has to refuse.

    try [NAME ..]    those of the crates named, or of each crate whose record is out of date
    try --proved FOLDER [NAME ..]
                     the same, in a copy of these sources in which `rt ci` has just proved all, as the gate has one
    try --all        those of every crate
    try --due        names the crates whose record is out of date and the edits that don't apply, and fails where
                     there is one

The crates and those below them are proved first, in a copy, unless one is given. Then the edits of a crate go into as
few copies of it as they can, and a check is of the files that they touch alone. An edit counts as refused where a goal
of its own function is open, or an answer of that function is none any more. Where another edit hides that, the edit is
tried alone, first on the files that it touches. What isn't seen so, as of a constant or a definition, is tried alone on
the whole crate, and any open goal counts.

The record is kept as soon as a crate's edits are all refused. The edits in crates/NAME/must-fail are tried by `rt ci`;
here it is only looked at whether they apply.
"""

import pathlib
import sys
import tempfile
from concurrent.futures import ThreadPoolExecutor
from typing import Optional

from building import crates, prove
from checks import ROOT
from checks.harness import Counts
from checks.mutants import edits, record


def stale() -> list[str]:
    """The edits that don't apply to the sources."""
    asked = {crate: sorted((ROOT / "crates" / crate / "must-fail").glob("*.edit")) for crate in record.uses()}
    return [
        f"{crate}/{edit.name}"
        for crate, own in asked.items()
        for edit in [*own, *record.edits_of(crate)]
        if not edits.applies(crate, edit)
    ]


def attempt(name: str, copy: pathlib.Path, tried_on: str) -> bool:
    """Tries the mutants of a crate, and keeps the record where all are refused; the hash is of before the copy was
    made, so that an edit meanwhile makes the line out of date."""
    missed = edits.Crate(name, copy).missed()
    refused = len(record.edits_of(name)) - len(missed)
    print(f"{name}: {refused} refused" + "".join(f"; NOT REFUSED: {it}" for it in missed), flush=True)
    if not missed:
        record.keep(name, tried_on)
    return not missed


def try_in(copy: pathlib.Path, names: list[str], tried_on: dict[str, str]) -> int:
    """Tries the mutants of crates in a copy in which all is proved."""
    with ThreadPoolExecutor(prove.at_a_time()) as pool:
        refused = list(pool.map(lambda name: attempt(name, copy, tried_on[name]), names))
    counts = Counts("mutants of crates")
    counts.passed, counts.failed = sum(refused), len(names) - sum(refused)
    return counts.end(may_be_empty=True)


def differing(copy: pathlib.Path, names: set[str]) -> list[str]:
    """The crates whose sources in a copy aren't those of the repository."""
    return sorted(name for name in names if crates.checksums({name}, copy) != crates.checksums({name}, ROOT))


def try_all(names: list[str], proved: Optional[pathlib.Path]) -> int:
    tried_on = {name: record.hash_of(name) for name in names}
    every = {it for name in names for it in crates.below(name, record.uses())}
    if proved:
        if others := differing(proved, every):
            print(f"try: {proved}: other sources than here: {' '.join(others)}", file=sys.stderr)
            return 1
        return try_in(proved, names, tried_on)
    with tempfile.TemporaryDirectory() as folder:
        copy = pathlib.Path(folder)
        crates.copy_crates(every, copy)
        return try_in(copy, names, tried_on) if prove.prove("mutants", every, copy) else 1


def main(words: list[str]) -> int:
    if words == ["--help"]:
        print((__doc__ or "").strip())
        return 0
    if words == ["--due"]:
        late = record.due() + stale()
        print("".join(f"{name}\n" for name in late), end="")
        return 1 if late else 0
    proved = pathlib.Path(words[1]) if words[:1] == ["--proved"] and words[1:] else None
    words = words[2:] if proved else words
    known = record.crates()
    unknown = [word for word in words if word not in known]
    if words != ["--all"] and unknown:
        print(
            f"try: {' '.join(unknown)}: no crate with mutants, and no option; --help lists what it takes",
            file=sys.stderr,
        )
        return 2
    return try_all(known if words == ["--all"] else words or record.due(), proved)


if __name__ == "__main__":
    sys.exit(main(sys.argv[1:]))
