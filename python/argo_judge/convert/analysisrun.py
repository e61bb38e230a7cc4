"""Makes a document of argo_judge of an AnalysisRun.

    kubectl get analysisrun NAME -o json | recipes/from-analysisrun --shapes shapes.json | bin/argo_judge run --plain

The template is the run's own metrics and arguments, or that of --template, whose arguments' values win over the run's
own; over both win those of --arg. So another threshold is tried on what was measured. The shapes of the metrics'
answers are those of --shapes, or of the annotation argo-judge/shapes of the template or the run (JSON text). A
measurement whose phase is Error is an error; one that hasn't ended is left out; of others the value is what the
provider answered, fractions as decimal texts. A Job has no value: it is true where it succeeded and false where it
failed, of the shape "bool", and a Job's metric gets the success condition `result`. A run that was terminated ends in
a stop.

The controller keeps the last measurements of a metric alone (10, or as measurementRetention says), and counts all.
For those that it dropped placeholders come first (`placeholder`), of the verdicts that it counted, each with the
value of a measurement that is there or one that the engine finds; a line says so. Where a verdict has no value, and by
--template or --arg, such a run is refused, unless --partial takes its end for the whole.
"""
from argparse import ArgumentParser, Namespace

from argo_judge.analysisruns import add_flags, document_of, flags_of
from argo_judge.files import read_json, write_json
from argo_judge.options import add_arg_flag, add_engine_flag
from argo_judge.templates import read_template


def add_arguments(parser: ArgumentParser) -> None:
    """What the command takes."""
    add_flags(parser)
    add_engine_flag(parser)
    parser.add_argument("--template", metavar="FILE", help="an AnalysisTemplate in the place of the run's own")
    add_arg_flag(parser)
    parser.add_argument(
        "run", nargs="?", default="-", metavar="FILE", help="the AnalysisRun; standard input without it"
    )


def main(words: Namespace) -> None:
    """Writes the document of an AnalysisRun."""
    template = None if words.template is None else read_template(words.template)
    made, _ = document_of(read_json(words.run, "input"), flags_of(words), template, words.arg)
    write_json(made)
