"""Says what another template would have made of AnalysisRuns that ended: which of the last releases it stops.

    kubectl get analysisrun -o json | recipes/backtest --template new.json -
    recipes/backtest runs/ --template new.yaml --arg threshold=0.97
    recipes/backtest runs.json --template new.json --sweep threshold=0.90:0.99:0.01

RUNS are Lists of AnalysisRuns or single ones, in files of JSON or YAML or in folders; a file NAME.jsonl has an object a
line. Each run is judged by the engine twice, by its own template and by that of --template, on what was measured then.
A line is printed of each run whose phase differs between the two, with what the controller made of it, and at the end
the sums. A run is left out, with the reason in a line, where it hasn't ended, lacks measurements by the controller's
counts (--partial judges by those that it has), or is refused by the engine.
--sweep judges by each value of an argument, and prints how many runs each would have stopped (Failed or Error).

A run that ended early has no later measurements: where the other template would have gone on, its phase is Running, and
it counts as undecided. Status 0 where no run flips, 1 where one does, 2 where no run could be judged.
"""
from argparse import ArgumentParser, Namespace
from collections.abc import Iterable

from argo_judge.analysisruns import Flags
from argo_judge.backtest.outputs import write_result
from argo_judge.backtest.runs import Trial, runs_in
from argo_judge.backtest.streaming import Backtest
from argo_judge.backtest.sweeps import Sweep, sweep_of
from argo_judge.errors import GOOD, VERDICT, Refused
from argo_judge.manifests import each_found_in
from argo_judge.objects import Object, listed, member, objects, shown
from argo_judge.options import add_arg_flag, add_engine_flag, add_shapes_flag
from argo_judge.templates import arguments_of, read_template


def add_flags(parser: ArgumentParser) -> None:
    """What the plugin takes, too."""
    add_arg_flag(parser)
    add_shapes_flag(parser)
    parser.add_argument(
        "--partial", action="store_true", help="judge by what is kept runs that lack measurements, else left out"
    )
    parser.add_argument("--sweep", metavar="NAME=FROM:TO:STEP", help="judge by these values of an argument, too")
    parser.add_argument(
        "-o",
        "--output",
        choices=("text", "json", "svg"),
        default="text",
        help="a table (the default), one JSON object, or a plot of --sweep",
    )
    add_engine_flag(parser)


def checked_sweep(words: Namespace, template: Object) -> Sweep | None:
    """The sweep of a command line, if it has one, of an argument that the template has."""
    if words.sweep is None:
        if words.output == "svg":
            raise Refused("--output svg: expected --sweep, of which it is the plot")
        return None
    sweep = sweep_of(words.sweep)
    names = [arg.get("name") for arg in objects(member(template, "spec", "args"))]
    if sweep.argument not in names:
        raise Refused(f"--sweep {shown(sweep.argument)}: expected an argument of the template: {listed(names)}")
    return sweep


def backtest(words: Namespace, template: Object, runs: Iterable[Object]) -> int:
    """Judges runs by a template, and writes what it found; they are read once the words are checked."""
    sweep = checked_sweep(words, template)
    arguments_of(template, words.arg)
    trial = Trial(template, words.arg, sweep, Flags(words.shapes, words.partial))
    result = Backtest(trial, words.engine, words.output == "json").read(runs)
    if not result.judged:
        if not result.left_out:
            raise Refused("input: expected AnalysisRuns, as `kubectl get analysisrun -o json` prints them, found none")
        first = result.left_out[0]
        raise Refused(f"none of {len(result.left_out)} runs can be judged; the first is {first.name}: {first.why}")
    write_result(result, words.output)
    return VERDICT if result.flips else GOOD


def add_arguments(parser: ArgumentParser) -> None:
    """What the command takes."""
    parser.add_argument("--template", metavar="FILE", required=True, help="the AnalysisTemplate that is tried")
    add_flags(parser)
    parser.add_argument("runs", nargs="+", metavar="RUNS", help="a file or a folder; standard input is -")


def main(words: Namespace) -> int:
    """Judges the runs of files and folders by a template."""
    return backtest(words, read_template(words.template), runs_in(each_found_in(words.runs)))
