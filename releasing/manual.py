"""The manual page of the program, made of its help."""

from releasing.helps import Flag, Help


def escaped(text: str) -> str:
    """A text as roff prints it: no character of it is a command."""
    lines = text.replace("\\", "\\e").replace("-", "\\-").split("\n")
    return "\n".join("\\&" + line if line.startswith((".", "'")) else line for line in lines)


def as_it_is(text: str) -> str:
    """Lines that aren't filled."""
    return f".nf\n{escaped(text)}\n.fi"


def flag_lines(flag: Flag) -> str:
    names = (f"\\-{flag.short}, " if flag.short else "") + f"\\-\\-{escaped(flag.name)}"
    value = "" if flag.value is None else f" \\fI{flag.value}\\fR"
    return f".TP\n\\fB{names}\\fR{value}\n{escaped(flag.help)}"


def manual(own: Help, commands: list[Help], version: str) -> str:
    """The page in roff: what the program does, each command with its flags, and the rest of its help."""
    parts = [
        f'.TH ARGO_JUDGE 1 "" "argo_judge {version}"',
        ".SH NAME",
        f"argo_judge \\- {escaped(own.about[0].lower() + own.about[1:])}",
        ".SH SYNOPSIS",
        *(f".B {escaped(one.usage)}\n.br" for one in commands),
        ".SH OPTIONS",
        *map(flag_lines, own.flags),
        ".SH DESCRIPTION",
        as_it_is(own.text),
    ]
    for one in commands:
        parts += [
            f".SH {escaped(one.name.upper())}",
            escaped(one.about) + ".",
            *map(flag_lines, one.flags),
            ".PP",
            as_it_is(one.text),
        ]
    return "\n".join(parts) + "\n"
