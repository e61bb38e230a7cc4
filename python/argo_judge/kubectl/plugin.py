"""A plugin for kubectl: judges AnalysisRuns of a cluster, and looks at its templates.

    kubectl argo-judge run ANALYSISRUN      the report of the run's measurements, as `argo_judge run --plain` prints it
    kubectl argo-judge explain ANALYSISRUN  what led to each verdict and effect, with what the controller says of it
    kubectl argo-judge check TEMPLATE       what each condition of an AnalysisTemplate may cost at most
    kubectl argo-judge lint [TEMPLATE ..]   mistakes in AnalysisTemplates, in all of the namespace where none is named
    kubectl argo-judge test FILE ..         tests of templates, as recipes/test
    kubectl argo-judge backtest             what a template would have made of the namespace's AnalysisRuns

--template and --arg of `run` and `explain` judge what was measured by another template or by other arguments, a
stricter threshold say; --arg of `check` gives an argument that the template has no value for. \
With --cluster a template is a
ClusterAnalysisTemplate.

kubectl finds it where a link of the name kubectl-argo_judge to this file is on the PATH. Nothing in the cluster is
changed: objects are read by `kubectl get`. The shapes of the metrics' answers are those of --shapes, or of the
annotation argo-judge/shapes of the template or the run. The exit status is argo_judge's own; 2 also where kubectl has
no such object.
"""
import sys
from argparse import ArgumentParser, Namespace
from collections.abc import Callable, Iterator, Sequence

from argo_judge.analysisruns import Measured, add_flags, document_of, flags_of
from argo_judge.backtest.command import add_flags as add_backtest_flags
from argo_judge.backtest.command import backtest as tried
from argo_judge.backtest.runs import runs_in
from argo_judge.clear import with_clear_names
from argo_judge.documents import document
from argo_judge.dryruns import with_dry_names
from argo_judge.engine.explanations import event_of, parts_of
from argo_judge.engine.program import handed_through, judged, shell_status
from argo_judge.files import write_text
from argo_judge.kubectl.clusters import (
    add_all_flag,
    add_cluster_flags,
    cluster_flags,
    fetched,
    fetched_all,
    kind_of_template,
    template_of,
)
from argo_judge.lint.command import add_flags as add_lint_flags
from argo_judge.lint.command import lint as found_mistakes
from argo_judge.manifests import Found
from argo_judge.notes import note, one_line, say
from argo_judge.objects import Object, member
from argo_judge.options import CommandLine, Commands, add_arg_flag, add_engine_flag, add_shapes_flag
from argo_judge.shapes import shapes_of
from argo_judge.suite.command import add_arguments as add_test_flags
from argo_judge.suite.command import main as test
from argo_judge.templates import arguments_of, read_template


def made_of_run(words: Namespace) -> tuple[Object, list[Measured]]:
    """The document of an AnalysisRun, and its measurements in their order."""
    found = fetched("analysisrun", words.name, words)
    template = None if words.template is None else template_of(words.template, words)
    return document_of(found, flags_of(words), template, words.arg)


def printed(engine: str, command: Sequence[str], made: Object) -> int:
    """Prints what the engine writes of a document, which has names as they are; a terminal gets them escaped."""
    clear = with_clear_names(made) if sys.stdout.isatty() else made
    if clear != made:
        note("names that a terminal would obey are escaped here; elsewhere they are printed as they are")
    return handed_through(engine, command, clear)


def run(words: Namespace) -> int:
    """Judges the measurements of an AnalysisRun."""
    made, _ = made_of_run(words)
    return printed(words.engine, ["run", "--plain"], made)


def of_controller(measurements: Sequence[Measured], number: int | None) -> list[str]:
    """What the controller says of the measurement that an event is; a stop is none."""
    if number is None or number >= len(measurements):
        return []
    found = measurements[number]
    if found.is_placeholder:
        return ["  controller: this is a placeholder for a measurement that it dropped"]
    one = found.measurement
    message = member(one, "message")
    said = f"  controller: {member(one, 'phase')}"
    return [said if message is None else f"{said}: {one_line(message)}"]


def explain(words: Namespace) -> int:
    """Says what led to the verdict and the effect of each measurement of an AnalysisRun, and what the controller \
says."""
    made, measurements = made_of_run(words)
    selected = [] if words.event is None else ["--event", words.event]
    selected += [] if words.metric is None else ["--metric", words.metric]
    ended = judged(words.engine, ["explain", *selected], made)
    for line in ended.stderr.splitlines():
        say(line)
    for head, *below in parts_of(ended.stdout):
        lines = [head, *of_controller(measurements, event_of(head)), *below]
        write_text("".join(f"{line}\n" for line in lines))
    return shell_status(ended.returncode)


def check(words: Namespace) -> int:
    """Says what the conditions of an AnalysisTemplate may cost at most."""
    template = with_dry_names(template_of(words.name, words))
    made = document(template, shapes_of(template, words.shapes), words.name, arguments_of(template, words.arg), [])
    return printed(words.engine, ["check"], made)


def lint(words: Namespace) -> int:
    """Finds mistakes in AnalysisTemplates: in those that are named, or in all of the namespace."""
    kind = kind_of_template(words)
    return found_mistakes(words, lambda: fetched_all(kind, words, words.names, words.selector), f"kubectl get {kind}")


def measured_by(words: Namespace) -> Iterator[Found]:
    """The namespace's AnalysisRuns, which are fetched once the first is wanted."""
    yield from fetched_all("analysisrun", words, selector=words.selector)


def backtest(words: Namespace) -> int:
    """Says what a template, of the cluster or of a file, would have made of the namespace's AnalysisRuns that ended."""
    template = template_of(words.template, words) if words.file is None else read_template(words.file)
    return tried(words, template, runs_in(measured_by(words)))


# ---- the command line


def add_command(commands: Commands, does: Callable[[Namespace], int], help: str) -> CommandLine:
    """A command, with the flags that say which cluster it reads."""
    one = commands.add_parser(does.__name__, help=help, description=does.__doc__, parents=[cluster_flags()])
    one.set_defaults(does=does)
    return one


def add_run_flags(one: ArgumentParser) -> None:
    """What the commands take that judge an AnalysisRun."""
    add_engine_flag(one)
    add_flags(one)
    add_arg_flag(one)
    one.add_argument("--template", metavar="NAME", help="judge by this AnalysisTemplate, not by the run's own metrics")
    one.add_argument("name", metavar="ANALYSISRUN", help="its name")


def add_selector_flag(one: ArgumentParser, help: str) -> None:
    """The flag that chooses objects by labels."""
    one.add_argument("-l", "--selector", metavar="LABELS", help=help)


def add_commands(commands: Commands) -> None:
    """The plugin's commands, each with its flags."""
    add_run_flags(add_command(commands, run, "judge an AnalysisRun"))

    one = add_command(commands, explain, "say why an AnalysisRun ended so")
    add_run_flags(one)
    one.add_argument("--event", metavar="N", help="the measurement of this number alone, from 0")
    one.add_argument("--metric", metavar="NAME", help="the measurements of this metric alone")

    one = add_command(commands, check, "check an AnalysisTemplate")
    add_engine_flag(one)
    add_shapes_flag(one)
    add_arg_flag(one)
    one.add_argument("name", metavar="TEMPLATE", help="its name")

    one = add_command(commands, lint, "find mistakes in AnalysisTemplates")
    add_lint_flags(one)
    add_selector_flag(one, "the templates with these labels alone")
    add_all_flag(one)
    one.add_argument("names", nargs="*", metavar="TEMPLATE", help="their names")

    one = commands.add_parser("test", help="run tests of templates", description=test.__doc__)
    one.set_defaults(does=test)
    add_test_flags(one)

    one = add_command(commands, backtest, "try a template on AnalysisRuns that ended")
    add_backtest_flags(one)
    which = one.add_mutually_exclusive_group(required=True)
    which.add_argument("--template", metavar="NAME", help="this AnalysisTemplate of the cluster")
    which.add_argument("--file", metavar="FILE", help="the template of this file")
    add_selector_flag(one, "the AnalysisRuns with these labels alone")
    add_all_flag(one)


def add_arguments(parser: CommandLine) -> None:
    """The plugin's own commands, and flags that may come before them."""
    add_cluster_flags(parser)
    add_commands(parser.add_subparsers(required=True, metavar="COMMAND"))


def main(words: Namespace) -> int:
    """Does what the command does."""
    does: Callable[[Namespace], int] = words.does
    return does(words)
