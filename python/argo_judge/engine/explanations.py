"""What argo_judge explains, in its own lines: each run, event and metric has one, and below it, indented, what is said
of it. Names are escaped there, so that none looks like another line."""


def parts_of(text: str) -> list[list[str]]:
    """The parts of an explanation: the line of a run, an event or a metric, and the lines below it."""
    parts: list[list[str]] = []
    for line in text.split("\n")[:-1]:
        if line.startswith(" ") and parts:
            parts[-1].append(line)
        else:
            parts.append([line])
    return parts


def lines_of(parts: list[list[str]], what: str) -> list[str]:
    """The lines of the parts that are of events, or of metrics."""
    return [line for part in parts if part[0].startswith(f"{what} ") for line in part]


def event_of(head: str) -> int | None:
    """The number of the event that a line is of, if it is of one."""
    word, _, rest = head.partition(" ")
    return int(rest.partition(" ")[0]) if word == "event" else None
