"""The program's commands and flags, read off its own help, so that no second table of them can differ from it."""
import pathlib
import re
import subprocess
from typing import Any, NamedTuple, Optional

COMMAND = re.compile(r"  (\w+)  +(\S.*)")
FLAG = re.compile(r"  (?:-(\w), |    )--([\w-]+)(?: <(\w+)>)?  +(\S.*)")
WORD = re.compile(r"`([a-z]+)`")


class Flag(NamedTuple):
    name: str
    short: Optional[str]
    value: Optional[str]
    help: str

    @property
    def choices(self) -> list[str]:
        """The words that its value may be, where the help lists them."""
        return WORD.findall(self.help) if self.value == "FORMAT" else []


class Help(NamedTuple):
    """Of the program, or of one of its commands: what it does, what it takes, and the rest of its help."""

    name: str
    about: str
    usage: str
    flags: list
    commands: list
    text: str


def parts_of(text: str) -> tuple[str, str, dict[str, list[str]], str]:
    """The lines of a help by their headings: the first part, `Usage`, `Commands`, `Options`, and what follows them."""
    about, _, rest = text.partition("\n\nUsage: ")
    usage, _, rest = rest.partition("\n\n")
    lists: dict[str, list[str]] = {"Commands": [], "Options": []}
    while rest.partition(":\n")[0] in lists:
        heading, _, rest = rest.partition(":\n")
        lines, _, rest = rest.partition("\n\n")
        lists[heading] = lines.rstrip("\n").split("\n")
    return about, usage, lists, rest.rstrip("\n")


def groups_of(pattern: re.Pattern[str], line: str) -> tuple[Any, ...]:
    """The parts of a line of the help, which has to have that form."""
    found = pattern.fullmatch(line)
    if found is None:
        raise ValueError(f"{line!r}: expected a line of a help")
    return found.groups()


def flag_of(line: str) -> Flag:
    short, name, value, help = groups_of(FLAG, line)
    return Flag(name, short, value, help)


def help_of(program: pathlib.Path, command: str | None = None) -> Help:
    """The help of a program, or of one of its commands."""
    words = [str(program), *([command] if command else []), "--help"]
    text = subprocess.run(words, stdout=subprocess.PIPE, encoding="utf-8", check=True).stdout
    about, usage, lists, rest = parts_of(text)
    commands = [groups_of(COMMAND, line) for line in lists["Commands"]]
    return Help(command or "argo_judge", about, usage, [flag_of(line) for line in lists["Options"]], commands, rest)


def helps_of(program: pathlib.Path) -> tuple[Help, list[Help]]:
    """The help of a program, and that of each of its commands."""
    own = help_of(program)
    return own, [help_of(program, name) for name, _ in own.commands]
