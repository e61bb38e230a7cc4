"""Command lines, and the flags that several commands take."""
import argparse
from typing import Any, NoReturn, TypeAlias

from argo_judge.engine.program import ENGINE
from argo_judge.errors import Refused
from argo_judge.places import engine_help

# What adds commands to a command line.
Commands: TypeAlias = "argparse._SubParsersAction[CommandLine]"


class CommandLine(argparse.ArgumentParser):
    """Words of a command line; those that don't fit are refused in one line, too."""

    def error(self, message: str) -> NoReturn:
        """Refuses words that don't fit."""
        raise Refused(f"command line: {message}")


def command_line(text: str | None, **more: Any) -> CommandLine:
    """The command line of a command, whose help begins with this text."""
    return CommandLine(description=text, formatter_class=argparse.RawDescriptionHelpFormatter, **more)


def add_engine_flag(parser: argparse.ArgumentParser) -> None:
    """The flag that names another program."""
    parser.add_argument("--engine", metavar="PROGRAM", default=ENGINE, help=engine_help())


def add_shapes_flag(parser: argparse.ArgumentParser) -> None:
    """The flag that names the shapes of metrics."""
    parser.add_argument("--shapes", metavar="FILE", help="a JSON object: for each metric, by its name, a shape")


def add_arg_flag(parser: argparse.ArgumentParser) -> None:
    """The flag that gives an argument of the run."""
    parser.add_argument(
        "--arg",
        action="append",
        default=[],
        metavar="NAME=VALUE",
        help="an argument of the run, which wins over each other value that it has; may be given several times",
    )
