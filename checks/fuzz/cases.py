"""The cases of a seed: random conditions, images, documents, templates, shapes and values, and changes of stored ones.

Each is a case of docs/design/conformance.md with the answer by the second readings, or None where any answer but a
refusal will do.
"""

import json

from checks.codes.changes import changed
from checks.codes.generator import random_code
from checks.data import compact
from checks.fuzz.changes import SPELT, changed_bytes, changed_condition, changed_text
from checks.fuzz.documents import any_shape, any_value, random_bundle, random_metric
from checks.fuzz.expressions import random_condition
from checks.fuzz.values import DECIMALS, changed_json, doubled, is_plain, nested_shape, written
from checks.oracle.answers import answer_of, read_json_answer
from checks.oracle.bundles import built
from checks.oracle.images import Image, decode, encode, image_of, resolved
from checks.oracle.jsontext import DECODER, LEVELS, levels_of
from checks.oracle.refused import Refused
from checks.oracle.shapes import read_shape, shape_json

# How many cases of each sort a seed has; a condition and an image make several each.
CONDITIONS, TOKENS, IMAGES, DOCUMENTS, TEMPLATES, VALUES, TEXTS = 40, 20, 25, 60, 15, 20, 20
FUEL = 200
WHOLES = [
    sign * (near + step) for near in (0, 9_223_372_036_854, 2**63, 2**64) for step in (-1, 0, 1) for sign in (1, -1)
]
CALLS = ("findings",) * 9 + ("read_bundle",) * 4 + ("limits",) * 2
JSON_CALLS = {"bind", "read_shape", "read_value"}


def answered(case):
    """A case with its answer; the answer is to the case as its line is read, in which numbers may be floats."""
    read = JSON_CALLS & {case["call"]}
    return case, answer_of(DECODER.decode(compact(case)) if read else case)


# Conditions


def condition_of(source, corpus):
    """A condition, its shape and a value as JSON."""
    if source.random() < 0.5:
        shape = any_shape(source)
        text, value, declared = random_condition(source, shape), any_value(source, shape), shape_json(shape)
    else:
        text, declared, value = source.choice(corpus.conditions)
    if source.random() < 0.6:
        text = changed_condition(source, text, source.choice(corpus.conditions)[0])
    if source.random() < 0.2:
        value = changed_json(source, value, 1)
    return text, declared, value


def condition_cases(source, corpus):
    text, declared, _ = condition_of(source, corpus)
    shape = read_shape(declared)
    about = {"condition": text, "shape": declared}
    yield answered({"call": "parse", "condition": text})
    yield answered({"call": "check", **about})
    if source.random() < 0.2:
        yield answered({"call": "tokens", "condition": text})
    if not isinstance(built(text, shape), Refused):
        values = [any_value(source, shape) for _ in range(2)]
        yield answered({"call": "compile", **about})
        yield answered({"call": "verify", **about, "values": values, "fuel": FUEL})
        for other in values:
            yield answered({"call": "condition", **about, "value": other})


def token_cases(source, corpus):
    words = [source.choice(SPELT) for _ in range(source.randrange(1, 12))]
    text = source.choice(("", "", " ")).join(words)
    yield answered({"call": "tokens", "condition": text})
    yield answered({"call": "parse", "condition": text})


# Images


def image_bytes(source, corpus):
    """An image in bytes, and a shape under which its code may be accepted."""
    choice = source.randrange(4)
    if choice < 2:
        code, declared = source.choice(corpus.images)
        return code, read_shape(declared)
    shape = any_shape(source)
    version = source.choice((1, 2, 2))
    ops = random_code(source, shape, source.choice((1, 2, 3)), version)
    if choice == 3:
        ops = changed(source, ops, version)
    return encode(image_of(ops)), shape


def changed_tables(source, image):
    """An image with entries of its tables, or the end of its operations, changed."""
    texts, names, operations = (list(part) for part in image)
    way = source.randrange(4)
    if way == 0:
        texts += ["unused", texts[0] if texts else ""]
    elif way == 1:
        names.insert(source.randrange(len(names) + 1), "é")
    elif way == 2:
        del operations[source.randrange(len(operations) + 1) :]
    elif operations:
        operations.insert(source.randrange(len(operations)), source.choice(operations))
    return Image(texts, names, operations)


def image_cases(source, corpus):
    code, shape = image_bytes(source, corpus)
    if source.random() < 0.1:
        code = code[:4] + bytes([source.choice((0, 1, 1, 2, 2, 3))]) + code[5:]
    elif source.random() < 0.6:
        code = changed_bytes(source, code)
    yield answered({"call": "decode", "image": code.hex()})
    try:
        image = decode(code)
    except Refused:
        return
    if source.random() < 0.3:
        image = changed_tables(source, image)
        yield answered({"call": "decode", "image": encode(image).hex()})
    if len(resolved(image)) <= 300:
        values = [any_value(source, shape) for _ in range(2)]
        about = {"image": encode(image).hex(), "shape": shape_json(shape)}
        yield answered({"call": "verify", **about, "values": values, "fuel": FUEL})
        yield answered({"call": "run_tested", **about, "value": values[0], "fuel": source.randrange(FUEL)})


# Documents


def document_bytes(source, corpus):
    document = random_bundle(source) if source.random() < 0.6 else source.choice(corpus.documents)
    choice = source.random()
    if choice < 0.4:
        document = changed_json(source, document, source.choice((1, 1, 2, 3)))
    elif choice < 0.6:
        document = doubled(source, document, source.choice((0.05, 0.15, 0.4)))
    code = written(source, document).encode("utf-8", "surrogatepass")
    return changed_bytes(source, code) if choice > 0.8 else code


def in_document(case, code):
    """A case with a document as a text where it is one, else as bytes."""
    try:
        return {**case, "document": code.decode()}
    except UnicodeDecodeError:
        return {**case, "bytes": code.hex()}


def document_cases(source, corpus):
    yield answered(in_document({"call": source.choice(CALLS)}, document_bytes(source, corpus)))


def text_cases(source, corpus):
    case = in_document({"call": "read_json"}, changed_bytes(source, document_bytes(source, corpus)))
    yield case, read_json_answer(case)


# Templates, shapes and values


def fits_a_line(value):
    """Whether JSON may be in a case: not too deep, and as it is written."""
    return is_plain(value) and levels_of(json.dumps(value)) < LEVELS - 2


def template_cases(source, corpus):
    if source.random() < 0.5:
        template = source.choice(corpus.templates)
    else:
        template = random_bundle(source)["manifest"]
        template["spec"]["metrics"].append(random_metric(source, "last", any_shape(source)))
    if source.random() < 0.8:
        template = changed_json(source, template, source.choice((1, 1, 2)))
    arguments = [["n", source.choice(("2", "1", "x", "", "1000000001"))]] if source.random() < 0.5 else []
    if fits_a_line(template):
        yield answered({"call": "bind", "template": template, "arguments": arguments})


def value_cases(source, corpus):
    shape = any_shape(source)
    declared, value = shape_json(shape), any_value(source, shape)
    if source.random() < 0.5:
        value = changed_json(source, value, 1)
    elif isinstance(value, list) and source.random() < 0.5:
        value = value + [source.choice((*value, None, "x"))] * source.choice((1, 2, 3, 10))
    if fits_a_line(value):
        yield answered({"call": "read_value", "shape": declared, "value": value})
    text = source.choice(DECIMALS)
    yield answered(
        {
            "call": "read_value",
            "shape": "decimal",
            "value": changed_text(source, text) if source.random() < 0.7 else text,
        }
    )
    yield answered({"call": "read_value", "shape": source.choice(("whole", "decimal")), "value": source.choice(WHOLES)})
    other = nested_shape(source, declared) if source.random() < 0.5 else declared
    other = changed_json(source, other, source.choice((0, 0, 1, 1, 2)))
    if fits_a_line(other):
        yield answered({"call": "read_shape", "shape": other})


def cases_of(source, corpus):
    """All cases of a seed, with their answers."""
    for count, make in (
        (CONDITIONS, condition_cases),
        (TOKENS, token_cases),
        (IMAGES, image_cases),
        (DOCUMENTS, document_cases),
        (TEMPLATES, template_cases),
        (VALUES, value_cases),
        (TEXTS, text_cases),
    ):
        for _ in range(count):
            yield from make(source, corpus)
