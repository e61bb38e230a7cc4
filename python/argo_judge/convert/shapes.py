"""Proposes shapes of metrics by what their providers answered, to be looked at by a person.

    kubectl get analysisrun NAME -o json | recipes/shapes   of what an AnalysisRun measured
    recipes/shapes document.json                            of the measurements of a document of argo_judge
    recipes/shapes --metric NAME answers.jsonl              of a metric's answers, one JSON value a line
    recipes/shapes --annotate NAME analysisrun.json         the line of kubectl that annotates the template NAME

Numbers, and texts that read as decimals, are "decimal"; whole numbers of which one is too large for a decimal are
"whole", and other texts "text". A list's greatest length is twice the longest that was seen, and 10 at least. What is
null or missing somewhere is optional. Of a metric of which an AnalysisRun has errors or empty answers alone, the shape
is what its provider usually answers. That is reported on standard error, and so is each field or metric that is
left out since nothing says of what kind it is, or since no shape takes all of its numbers. Where answers contradict one
another the line says so, with status 2. Look at the greatest lengths (they bound what a condition may cost) and at each
"decimal" that should be "text".
"""
import json
import shlex
from argparse import ArgumentParser, Namespace

from argo_judge.analysisruns import measurements_of
from argo_judge.differences import note_texts
from argo_judge.errors import Refused
from argo_judge.files import read_json, read_text, write_json
from argo_judge.jsontext import parsed
from argo_judge.objects import Json, Object, member, objects
from argo_judge.options import add_engine_flag
from argo_judge.proposals import proposed
from argo_judge.shapes import ANNOTATION, usual_of


def answers_of(words: Namespace) -> tuple[dict[str, list[Json]], Object]:
    """Each metric's answers, and the usual shape of each of an AnalysisRun's metrics."""
    if words.metric is not None:
        lines = read_text(words.answers, "answers").splitlines()
        return {
            words.metric: [
                parsed(line, f"answers, line {number}") for number, line in enumerate(lines, 1) if line.strip()
            ]
        }, {}
    found = read_json(words.answers, "input")
    answers: dict[str, list[Json]] = {}
    usual: Object = {}
    if member(found, "kind") == "AnalysisRun":
        metrics = objects(member(found, "spec", "metrics"))
        usual = {metric["name"]: usual_of(metric) for metric in metrics if isinstance(member(metric, "name"), str)}
        answers = {metric: [] for metric in usual}
        entries = [{"metric": metric, **answer} for metric, _, answer, _ in measurements_of(found)]
    else:
        entries = objects(member(found, "measurements"))
    for entry in entries:
        if isinstance(entry.get("metric"), str) and "value" in entry:
            answers.setdefault(entry["metric"], []).append(entry["value"])
    if not answers:
        raise Refused("input: expected an AnalysisRun, or a document with measurements")
    return answers, usual


def add_arguments(parser: ArgumentParser) -> None:
    """What the command takes."""
    parser.add_argument("--metric", metavar="NAME", help="the input has this metric's answers, one a line")
    parser.add_argument("--annotate", metavar="TEMPLATE", help="print the kubectl line that annotates this template")
    add_engine_flag(parser)
    parser.add_argument("answers", nargs="?", default="-", metavar="FILE", help="the input; standard input without it")


def main(words: Namespace) -> None:
    """Prints the proposed shapes, or the line that annotates a template with them."""
    answers, usual = answers_of(words)
    shapes = {metric: proposed(metric, answers[metric], usual.get(metric), words.engine) for metric in answers}
    shapes = {metric: shape for metric, shape in shapes.items() if shape is not None}
    if words.metric in shapes:  # in AnalysisRuns and documents numbers and texts look alike
        note_texts(words.metric, answers[words.metric], shapes[words.metric])
    if not shapes:
        raise Refused(
            "input: expected answers that say of what kind they are; docs/use/shapes.md has shapes by provider"
        )
    if words.annotate is None:
        write_json(shapes)
    else:
        noted = shlex.quote(f"{ANNOTATION}={json.dumps(shapes)}")
        print(f"kubectl annotate --overwrite analysistemplate {shlex.quote(words.annotate)} {noted}")
