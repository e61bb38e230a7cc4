"""What changes begin with: the stored cases, the examples, and the files of tests/fuzz/corpus."""

import json

from checks import ROOT
from checks.data import cases_of, files_of_conditions, files_of_suite, text_of
from checks.oracle.jsontext import DECODER
from checks.oracle.refused import Refused
from checks.oracle.shapes import read_shape

LONGEST_CONDITION = 400
LONGEST_DOCUMENT = 4_000
LONGEST_IMAGE = 300


def stored_cases():
    """The cases of conformance/ and of examples/conditions, each with its file."""
    for path in files_of_suite():
        for case in cases_of(path, DECODER):
            yield path, case
    for path in files_of_conditions():
        for case in cases_of(path, DECODER):
            yield path, {"call": "eval", **case}


def own_cases():
    for path in sorted((ROOT / "tests/fuzz/corpus").glob("*.jsonl")):
        yield from cases_of(path, DECODER)


def is_shape(json_value):
    try:
        read_shape(json_value)
    except Refused:
        return False
    return True


class Corpus:
    """Conditions with shapes and values, texts of documents, and images in bytes."""

    def __init__(self):
        self.conditions = []
        self.documents = []
        self.images = []
        self.templates = []
        for case in [case for _, case in stored_cases()] + list(own_cases()):
            self.add(case)
        for path in sorted((ROOT / "examples").glob("*/*.json")):
            self.add_document(path.read_text(encoding="utf-8"))

    def add(self, case):
        if "condition" in case:
            self.add_condition(case)
        if "document" in case:
            self.add_document(text_of(case["document"]))
        if "image" in case and len(case["image"]) <= 2 * LONGEST_IMAGE:
            self.images.append((bytes.fromhex(case["image"]), case.get("shape", "whole")))
        if "template" in case and len(json.dumps(case["template"])) <= LONGEST_DOCUMENT:
            self.templates.append(case["template"])

    def add_condition(self, case):
        shape = case.get("shape", {"list": "decimal", "max": 10})
        if len(case["condition"]) <= LONGEST_CONDITION and is_shape(shape):
            self.conditions.append((case["condition"], shape, case.get("value")))

    def add_document(self, text):
        """Documents that are JSON, as values."""
        if len(text) <= LONGEST_DOCUMENT:
            try:
                self.documents.append(DECODER.decode(text))
            except ValueError:
                pass
