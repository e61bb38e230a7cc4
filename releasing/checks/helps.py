"""Tries what is made of the program's help: completions by bash, and their form by zsh and fish where they are
installed; the manual page by groff where it is."""
import pathlib

from releasing import completions
from releasing.checks.starts import Tried, ended, is_there
from releasing.helps import Help, helps_of
from releasing.manual import manual

# The words of a command line, the last of which is being typed, and what bash proposes.
TYPED = [
    (["ch"], "check"),
    (["run", "--o"], "--output --ordered"),
    (["run", "--output", ""], "text json"),
    (["explain", "--run", ""], ""),
    (["list", "--"], "--help"),
]


def proposed(folder: pathlib.Path, words: list[str]) -> str:
    """What bash proposes for words."""
    script = 'source "$1"; shift; COMP_WORDS=(argo_judge "$@"); COMP_CWORD=$#; _argo_judge; echo "${COMPREPLY[*]}"'
    return ended(["bash", "-c", script, "bash", folder / "argo_judge.bash", *words]).stdout.strip()


def of_completions(own: Help, commands: list[Help], folder: pathlib.Path) -> Tried:
    makers = {"bash": completions.bash, "zsh": completions.zsh, "fish": completions.fish}
    for shell, make in makers.items():
        file = folder / f"argo_judge.{shell}"
        file.write_text(make(own, commands), encoding="utf-8")
        if is_there(shell):
            yield f"the form of {shell}'s completions", ended([shell, "-n", file]).returncode == 0
    for words, wanted in TYPED:
        yield f"bash completes {words}", proposed(folder, words) == wanted
    known = completions.fish(own, commands)
    for one in commands:
        for flag in one.flags:
            line = f"_from {one.name}'{f' -s {flag.short}' if flag.short else ''} -l {flag.name} "
            yield f"fish knows --{flag.name} of {one.name}", line in known


def of_manual(own: Help, commands: list[Help], folder: pathlib.Path) -> Tried:
    file = folder / "argo_judge.1"
    file.write_text(manual(own, commands, "0"), encoding="utf-8")
    if not is_there("groff"):
        return
    page = ended(["groff", "-man", "-ww", "-Tascii", "-P-c", "-P-b", "-P-u", file])
    yield "the manual page has no fault", page.returncode == 0 and "warning" not in page.stdout
    for one in commands:
        for flag in one.flags:
            yield f"the manual page has --{flag.name} of {one.name}", f"--{flag.name}" in page.stdout


def of_helps(program: pathlib.Path, folder: pathlib.Path) -> Tried:
    own, commands = helps_of(program)
    yield from of_completions(own, commands, folder)
    yield from of_manual(own, commands, folder)
