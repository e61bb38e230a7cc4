"""Completions of shells for the program's commands and flags."""

from releasing.helps import Flag, Help

FISH = "complete -c argo_judge"


def words_of(one: Help) -> list[str]:
    """The flags that come after a command, as they are typed."""
    return [word for flag in one.flags for word in ([f"-{flag.short}"] if flag.short else []) + [f"--{flag.name}"]]


def values_of(commands: list[Help]) -> list[tuple[str, list[str]]]:
    """The flags that have a value, each with the words that it may be."""
    found = {f"--{flag.name}": flag.choices for one in commands for flag in one.flags if flag.value}
    return sorted(found.items())


# ---- bash


def bash(own: Help, commands: list[Help]) -> str:
    first = [name for name, _ in own.commands] + words_of(own)
    lines = [
        "# Completions of bash for argo_judge, made of its help.",
        "_argo_judge() {",
        "    local words=",
        '    case "$COMP_CWORD ${COMP_WORDS[COMP_CWORD - 1]}" in',
        f'    "1 "*) words="{" ".join(first)}" ;;',
    ]
    lines += [f'    *" {flag}") words="{" ".join(choices)}" ;;' for flag, choices in values_of(commands)]
    lines += ["    *)", '        case "${COMP_WORDS[1]}" in']
    lines += [f'        {one.name}) words="{" ".join(words_of(one))}" ;;' for one in commands]
    lines += [
        "        esac",
        "        ;;",
        "    esac",
        '    mapfile -t COMPREPLY < <(compgen -W "$words" -- "${COMP_WORDS[COMP_CWORD]}")',
        "}",
        "complete -F _argo_judge argo_judge",
    ]
    return "\n".join(lines) + "\n"


# ---- zsh


def in_quotes(text: str) -> str:
    return "'" + text.replace("'", "'\\''") + "'"


def zsh_text(text: str) -> str:
    """A description, in which zsh takes brackets and colons for its own."""
    return text.replace("[", "\\[").replace("]", "\\]").replace(":", "\\:")


def zsh_flag(flag: Flag) -> str:
    value = "" if flag.value is None else f":{flag.value}:({' '.join(flag.choices)})"
    names = f"--{flag.name}" if flag.short is None else f"{{-{flag.short},--{flag.name}}}"
    quoted = in_quotes(f"[{zsh_text(flag.help)}]{value}")
    return names + quoted


def zsh(own: Help, commands: list[Help]) -> str:
    lines = [
        "#compdef argo_judge",
        "# Completions of zsh for argo_judge, made of its help.",
        "local -a commands",
        "commands=(",
    ]
    lines += [f"    {in_quotes(f'{name}:{zsh_text(about)}')}" for name, about in own.commands]
    lines += [
        ")",
        "if (( CURRENT == 2 )); then",
        "    _describe command commands",
        "    _arguments " + " ".join(map(zsh_flag, own.flags)),
        "    return",
        "fi",
        "case ${words[2]} in",
    ]
    for one in commands:
        flags = " \\\n        ".join(map(zsh_flag, one.flags))
        lines += [f"{one.name})", "    shift words; (( CURRENT-- ))", f"    _arguments {flags}", "    ;;"]
    return "\n".join([*lines, "esac"]) + "\n"


# ---- fish


def fish_flag(flag: Flag, condition: str) -> str:
    short = "" if flag.short is None else f" -s {flag.short}"
    value = "" if flag.value is None else f" -x -a {in_quotes(' '.join(flag.choices))}"
    return f"{FISH} -n {in_quotes(condition)}{short} -l {flag.name}{value} -d {in_quotes(flag.help)}"


def fish(own: Help, commands: list[Help]) -> str:
    lines = ["# Completions of fish for argo_judge, made of its help.", f"{FISH} -f"]
    lines += [f"{FISH} -n __fish_use_subcommand -a {name} -d {in_quotes(about)}" for name, about in own.commands]
    lines += [fish_flag(flag, "__fish_use_subcommand") for flag in own.flags]
    lines += [fish_flag(flag, f"__fish_seen_subcommand_from {one.name}") for one in commands for flag in one.flags]
    return "\n".join(lines) + "\n"
