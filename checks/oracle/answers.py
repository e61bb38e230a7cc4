"""What a case of docs/design/conformance.md has to be answered, by the second readings."""

from collections.abc import Callable

from checks.data import text_of
from checks.oracle.bundles import built, judges_of, read_bundle
from checks.oracle.checking import check
from checks.oracle.compiling import compile_tree
from checks.oracle.grammar import parse
from checks.oracle.images import decode, encode, image_of, listing, resolved
from checks.oracle.jsontext import read_json
from checks.oracle.machine import run
from checks.oracle.meaning import meaning
from checks.oracle.printing import (
    ended,
    joined,
    said,
    shown_kind,
    shown_text,
    shown_tokens,
    shown_tree,
    shown_typed,
    shown_value,
    verdict_line,
)
from checks.oracle.refused import Refused
from checks.oracle.reports import findings, limits_of, verdict
from checks.oracle.shapes import read_shape, read_value
from checks.oracle.templates import bind, read_template
from checks.oracle.tokens import tokens_of
from checks.oracle.verifier import verify

# Documents


def document_of(case):
    return text_of(case["document"]).encode() if "document" in case else bytes.fromhex(case["bytes"])


def shown_bundle(bundle):
    metrics = ",".join(f"{shown_text(name)}:{shown_kind(shape)}" for name, shape in bundle["metrics"])
    runs = ",".join(shown_text(run["name"]) for run in bundle["runs"])
    return f'metrics={{{metrics}}} runs=[{runs}] entries={len(bundle["entries"])}'


def shown_finding(found):
    if found[1] == "stop":
        return f"run {found[0]}: stop, stop"
    (metric, words) = found[1]
    return f'run {found[0]}: {words}, metric {metric} {words.split(" ")[0]}'


def shown_limits(run_of_bundle):
    metrics = (
        ",".join("none" if limit is None else str(limit) for limit in limits) for limits in limits_of(run_of_bundle)
    )
    return f'run {run_of_bundle["name"]}: {" ".join(metrics)}'


DOCUMENTS = {
    "read_bundle": shown_bundle,
    "findings": lambda bundle: joined(shown_finding(found) for found in findings(bundle)),
    "limits": lambda bundle: joined(shown_limits(one) for one in bundle["runs"]),
}


def of_bundle(write):
    """What answers a case by its bundle."""
    return lambda case: write(read_bundle(document_of(case)))


# Templates and judges


def shown_metric(metric):
    conditions = " ".join(
        f'{side}={shown_text(metric[side]) if metric[side] is not None else "none"}' for side in ("success", "failure")
    )
    limits = ",".join(str(limit) for limit in metric["limits"])
    count = "none" if metric["count"] is None else metric["count"]
    return f'{shown_text(metric["name"])} {conditions} limits={limits} count={count}{" dry" * metric["dry"]}'


def bind_answer(case):
    try:
        template = read_template(case["template"])
    except Refused as refused:
        return f"read: {refused}"
    try:
        metrics = bind(template, dict(case.get("arguments") or ()))
    except Refused as refused:
        return f"bind: {refused}"
    return joined([shown_text(template["name"]), *(shown_metric(metric) for metric in metrics)])


def judges_of_case(case, shape):
    return judges_of({"success": case.get("success"), "failure": case.get("failure")}, shape)


def judge_answer(case):
    shape = read_shape(case["shape"])
    judges = judges_of_case(case, shape)
    if "value" not in case:
        return verdict(judges, ("provider",))
    try:
        return verdict(judges, ("value", read_value(case["value"], shape)))
    except Refused as refused:
        return f"Error shape {refused}"


def judge_code_answer(case):
    judges = judges_of_case(case, read_shape(case["shape"]))
    return joined(
        f"{side} " + (f"depth={judge[2][0]} budget={judge[2][1]}" if judge else "none")
        for judge, side in zip(judges, ("success", "failure"))
    )


# Conditions


def place_and_name(refused):
    """A refused condition in the words of `eval`, up to the colon after its name."""
    if refused.name == "Verifier":
        return f"condition: {refused.details[1]}"
    refused = refused.details[0]
    at = f", byte {(refused.details or (4_096,))[0]}" if refused.name != "TooManyOps" else ""
    return f"condition{at}: {refused.name}"


def eval_answer(condition, shape_json, value_json):
    """What `eval` says of a document with these members: its line, or how its refusal begins, and whether it is one."""
    try:
        shape = read_shape(shape_json)
    except Refused as refused:
        return f"shape: {refused}", True
    found = built(condition, shape)
    if isinstance(found, Refused):
        return place_and_name(found), True
    try:
        value = read_value(value_json, shape)
    except Refused as refused:
        return f"value: {refused}", True
    return said(meaning(found[0], value)), False


def condition_answer(case):
    shape = read_shape(case["shape"])
    tree = check(case["condition"], shape)
    return f'{shown_text(case["condition"])} {said(meaning(tree, read_value(case["value"], shape)))}'


CONDITIONS = {
    "tokens": lambda case: shown_tokens(tokens_of(case["condition"])),
    "parse": lambda case: shown_tree(parse(case["condition"])),
    "check": lambda case: shown_typed(check(case["condition"], read_shape(case["shape"]))),
    "compile": lambda case: joined(listing(image_of(code_of(case, read_shape(case["shape"]))))),
    "condition": condition_answer,
    # No call of the suite, but the command.
    "eval": lambda case: eval_answer(case["condition"], case["shape"], case["value"])[0],
}


# Code


def decode_answer(case):
    code = bytes.fromhex(case["image"])
    image = decode(code)
    texts, names = (f'[{",".join(shown_text(entry) for entry in entries)}]' for entries in image[:2])
    return joined(
        [encode(image).hex(), f"texts={texts} names={names} operations={len(image.operations)}", joined(listing(image))]
    )


def code_of(case, shape):
    if "image" in case:
        return resolved(decode(bytes.fromhex(case["image"])))
    return compile_tree(check(case["condition"], shape))


def verify_answer(case):
    shape = read_shape(case["shape"])
    ops = code_of(case, shape)
    verdict_of_code = verify(ops, shape)
    values = [read_value(value, shape) for value in case.get("values", ())]
    fuel = None if verdict_of_code[0] == "accepted" or not values else case["fuel"]
    return joined([verdict_line(ops, verdict_of_code), *(ended(run(ops, value, fuel)) for value in values)])


def run_answer(case):
    shape = read_shape(case["shape"])
    return ended(run(code_of(case, shape), read_value(case["value"], shape), case["fuel"]))


OTHERS = {
    "bind": bind_answer,
    "judge": judge_answer,
    "judge_code": judge_code_answer,
    "decode": decode_answer,
    "verify": verify_answer,
    "run_tested": run_answer,
    "read_shape": lambda case: shown_kind(read_shape(case["shape"])),
    "read_value": lambda case: shown_value(read_value(case["value"], read_shape(case["shape"]))),
}
CALLS: dict[str, Callable[[dict], str]] = {
    **{call: of_bundle(write) for call, write in DOCUMENTS.items()},
    **CONDITIONS,
    **OTHERS,
}


def has_answer(case):
    """Whether the second readings answer a case: refusals in words they don't."""
    return case["call"] in CALLS and not case.get("words")


def answer_of(case):
    try:
        return CALLS[case["call"]](case)
    except Refused as refused:
        return str(refused)


def read_json_answer(case):
    """The refusal of a JSON text, or None."""
    try:
        read_json(document_of(case))
    except Refused as refused:
        return str(refused)
    return None
