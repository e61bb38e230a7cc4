"""Many random documents, read by the program of the suite and by the second reading, side by side in processes."""

import functools
import random
from concurrent.futures import ProcessPoolExecutor

from checks.fuzz.cases import document_bytes, in_document
from checks.fuzz.corpus import Corpus
from checks.oracle.answers import answer_of
from checks.suite import answers_to

BATCH = 500
CALLS = ("findings", "read_bundle")


@functools.cache
def corpus():
    return Corpus()


def batch(program, seed):
    """How many documents of a seed are read alike, and the cases that aren't, each with both answers."""
    source = random.Random(seed)
    cases = [in_document({"call": source.choice(CALLS)}, document_bytes(source, corpus())) for _ in range(BATCH)]
    each = zip(cases, map(answer_of, cases), answers_to(program, cases))
    findings = [{**case, "answer": expected, "got": got} for case, expected, got in each if expected != got]
    return BATCH - len(findings), findings


def batches(program, first, documents):
    """What `batch` says of as many seeds as these documents need, the first of them given."""
    seeds = range(first, first + -(-documents // BATCH))
    with ProcessPoolExecutor() as processes:
        yield from processes.map(functools.partial(batch, program), seeds)
