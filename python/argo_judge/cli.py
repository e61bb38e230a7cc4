"""Lints, tests and backtests AnalysisTemplates of Argo Rollouts, and makes documents of argo_judge, shapes and reports.

Each command has --help. Its status is 0, or

    1     by a verdict: a run that isn't Successful, a mistake, a test that fails, a difference
    2     the input, or the command line, is refused
    3     out of memory
    4     the output can't be written
    70    a fault of the command itself
    130   interrupted

or what the engine ended with. From 2 on one line on standard error says why.
"""
import importlib
import re
from argparse import Namespace, RawDescriptionHelpFormatter
from collections.abc import Callable
from dataclasses import dataclass
from typing import Protocol, cast

from argo_judge import PROGRAM, VERSION
from argo_judge.errors import Refused
from argo_judge.options import CommandLine, Commands, command_line


class Module(Protocol):
    """What the module of a command has, besides its help as its own text."""

    def add_arguments(self, parser: CommandLine) -> None:
        """Adds what the command takes."""

    def main(self, words: Namespace) -> int | None:
        """Does what the command does; the status is 0 without one."""


@dataclass(frozen=True)
class Command:
    """A command: its words, the recipe that starts it alone, its module, and what it does in a line."""

    words: str
    recipe: str
    module: str
    summary: str
    program: str | None = None

    def load(self) -> Module:
        """Its module, which is loaded only where the command is asked for."""
        return cast(Module, importlib.import_module(f"argo_judge.{self.module}"))


COMMANDS = (
    Command("lint", "lint", "lint.command", "find mistakes in templates"),
    Command("test", "test", "suite.command", "run tests of templates"),
    Command("backtest", "backtest", "backtest.command", "try a template on AnalysisRuns that ended"),
    Command("shapes", "shapes", "convert.shapes", "propose shapes by what providers answered"),
    Command("convert prometheus", "from-prometheus", "convert.prometheus", "of answers of Prometheus' HTTP API"),
    Command("convert jsonl", "from-jsonl", "convert.jsonl", "of answers, one JSON value a line"),
    Command("convert analysisrun", "from-analysisrun", "convert.analysisrun", "of an AnalysisRun"),
    Command("split", "split", "convert.split", "split a document by its runs"),
    Command("join", "join", "convert.join", "join the reports of a document's parts"),
    Command("go-on", "go-on", "go_on", "judge a document: status 0 if each run is Successful"),
    Command("compare", "compare-analysisrun", "compare", "compare an AnalysisRun with the engine's report of it"),
)
PLUGIN = Command("kubectl", "kubectl-argo_judge", "kubectl.plugin", "judge what a cluster has", "kubectl argo-judge")
GROUPS = {"convert": "make a document"}
RECIPES = {one.recipe: f"{PROGRAM} {one.words}" for one in COMMANDS}
RECIPE = re.compile(r"\brecipes/([\w-]+)")


def help_of(module: Module) -> str:
    """The help of a command, in which other commands have the names that they have here."""
    text = module.__doc__ or ""
    return RECIPE.sub(lambda found: RECIPES.get(found[1], found[0]), text)


def alone(command: Command) -> CommandLine:
    """The command line of a recipe, which has one command alone."""
    module = command.load()
    parser = command_line(module.__doc__, prog=command.program)
    module.add_arguments(parser)
    parser.set_defaults(main=module.main)
    return parser


def all_commands() -> CommandLine:
    """The command line that has all commands."""
    parser = command_line(__doc__, prog=PROGRAM)
    parser.add_argument("--version", action="version", version=f"{PROGRAM} {VERSION}")
    commands: dict[str, Commands] = {"": parser.add_subparsers(required=True, metavar="COMMAND")}
    for group, summary in GROUPS.items():
        one = commands[""].add_parser(group, help=summary, description=f"What can {summary}.")
        commands[group] = one.add_subparsers(required=True, metavar="FROM")
    for command in COMMANDS:
        group, _, name = command.words.rpartition(" ")
        module = command.load()
        one = commands[group].add_parser(
            name, help=command.summary, description=help_of(module), formatter_class=RawDescriptionHelpFormatter
        )
        module.add_arguments(one)
        one.set_defaults(main=module.main)
    return parser


def main(recipe: str | None = None) -> int | None:
    """Does what the command line says: of one command, by the recipe that starts it, or of all of them."""
    named = {one.recipe: one for one in (*COMMANDS, PLUGIN)}
    if recipe is not None and recipe not in named:
        raise Refused(f"command line: expected one of {', '.join(named)}")
    given = (all_commands() if recipe is None else alone(named[recipe])).parse_args()
    does: Callable[[Namespace], int | None] = given.main
    return does(given)
