"""Tests of what the record of mutants hashes, and of plans of proofs (building/plan.py).

    tests/mutants/check

The last line counts the tests, and the status is 0 where none failed.
"""

import pathlib
import sys
import tempfile

from building import plan
from checks.harness import Counts
from checks.mutants import edits, record

SOURCE = """\
/// A number.
pub fn number(&self) -> u8
    ensures { result ≡ 1 }
{
    if self.is_one {
        return 1;
    }
    1
}

pub(crate) fn same(&self) -> u8 {
    self.number()
}

pub fn long(
    first: u8,
    second: u8,
) -> u8 {
    first
}

pub trait Reads {
    fn read(&mut self) -> u8
        ensures { result ≡ 2 };

    fn size(&self) -> usize;
}

impl Reads for Own {
    fn read(&mut self) -> u8 {
        2
    }

    fn size(&self) -> usize {
        7
    }
}

pub const MOST: u8 = 3;
"""
SEEN = """\
/// A number.
pub fn number(&self) -> u8
    ensures { result ≡ 1 }
{

pub(crate) fn same(&self) -> u8 {

pub fn long(
    first: u8,
    second: u8,
) -> u8 {

pub trait Reads {
    fn read(&mut self) -> u8
        ensures { result ≡ 2 };

    fn size(&self) -> usize;
}

impl Reads for Own {
    fn read(&mut self) -> u8 {

    fn size(&self) -> usize {
}

pub const MOST: u8 = 3;
"""
USES: plan.Uses = {"low": [], "left": ["low"], "right": ["low"], "top": ["left", "right"], "alone": []}
COSTS = {
    name: plan.Cost(seconds, 1, 1)
    for name, seconds in {"low": 10, "left": 20, "right": 5, "top": 1, "alone": 12}.items()
}


def bodies_are_not_seen_from_above() -> bool:
    return record.without_bodies(SOURCE).splitlines() == SEEN.splitlines()


def meaning_of(text: str, is_own: bool) -> str:
    with tempfile.TemporaryDirectory() as folder:
        path = pathlib.Path(folder, "source.rt")
        path.write_text(text, encoding="utf-8")
        return record.meaning(path, is_own)


def a_body_counts_in_its_own_crate_alone() -> bool:
    other = SOURCE.replace("    first\n}", "    second\n}")
    return meaning_of(SOURCE, False) == meaning_of(other, False) and meaning_of(SOURCE, True) != meaning_of(other, True)


def a_contract_counts_everywhere() -> bool:
    other = SOURCE.replace("result ≡ 1", "result ≡ 4")
    return all(meaning_of(SOURCE, is_own) != meaning_of(other, is_own) for is_own in (False, True))


def a_comment_counts_nowhere() -> bool:
    other = SOURCE.replace("/// A number.", "/// One, always.")
    return all(meaning_of(SOURCE, is_own) == meaning_of(other, is_own) for is_own in (False, True))


def every_edit_replaces_something() -> bool:
    return all(edits.pairs_of(edit) for crate in record.crates() for edit in record.edits_of(crate))


def the_longest_chain_is_found() -> bool:
    return max(plan.chains(USES, COSTS).values(), key=lambda it: plan.length(it, COSTS)) == ["low", "left", "top"]


def a_plan_waits_for_what_is_below() -> bool:
    ends = {proof.crate: proof.end for proof in plan.plan(USES, COSTS, 2)}
    return ends == {"low": 10, "alone": 12, "left": 30, "right": 17, "top": 31}


def one_processor_takes_all_seconds() -> bool:
    return plan.seconds_in_all(USES, COSTS, 1) == 48


TESTS = [
    bodies_are_not_seen_from_above,
    a_body_counts_in_its_own_crate_alone,
    a_contract_counts_everywhere,
    a_comment_counts_nowhere,
    every_edit_replaces_something,
    the_longest_chain_is_found,
    a_plan_waits_for_what_is_below,
    one_processor_takes_all_seconds,
]


def main(words: list[str]) -> int:
    counts = Counts("record and plan")
    for test in TESTS:
        counts.expect(test(), f"failed: {test.__name__.replace('_', ' ')}")
    return counts.end()


if __name__ == "__main__":
    sys.exit(main(sys.argv[1:]))
