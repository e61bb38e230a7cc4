"""The facts that argo_judge explains (`explain --output json`) as the lines that `explain` has, but for how a condition
is written."""

import re
from collections.abc import Iterable, Mapping

from argo_judge.engine.reports import EventReport, MetricReport, event_line, metric_line
from argo_judge.objects import Object

# What is counted, and its limit.
LIMITED = (
    ("failed", "failureLimit"),
    ("inconclusive", "inconclusiveLimit"),
    ("consecutiveError", "consecutiveErrorLimit"),
)
COUNTED = {limit: name for name, limit in LIMITED}

# How many parts come before those that are left out.
FIRST = 500

# How many characters of a text or a name are shown.
SHOWN = 64
ESCAPES = {'"': '\\"', "\\": "\\\\", "\n": "\\n", "\r": "\\r", "\t": "\\t"}
# Controls, marks of direction and characters that nobody sees.
HIDDEN = (
    "\x00-\x1f\x7f-\x9f\xad\u061c\u115f\u1160\u180e\u200b-\u200f\u2028-\u202e\u2060-\u2069\u3164\ufeff\uffa0"
    "\U000e0000-\U000e007f"
)
ESCAPED = re.compile(f'["\\\\{HIDDEN}]')
UNCLEAR = re.compile(f'^"|[{HIDDEN}]|^$')
WORD = re.compile(r"[A-Za-z_][A-Za-z0-9_]*", re.ASCII)


# ---- texts and names


def escaped(character: str) -> str:
    """A character in a JSON string."""
    units = character.encode("utf-16-be")
    return ESCAPES.get(character) or "".join(f"\\u{units[at:at + 2].hex()}" for at in range(0, len(units), 2))


def quoted(text: str) -> str:
    """The first characters of a text as a JSON string."""
    return f'"{ESCAPED.sub(lambda found: escaped(found[0]), text[:SHOWN])}"' + (".." if len(text) > SHOWN else "")


def shown_text(text: str) -> str:
    """The same, with how many characters are left out."""
    more = len(text) - SHOWN
    return quoted(text) + (f" and {more} more character{'' if more == 1 else 's'}" if more > 0 else "")


def clear(name: str) -> str:
    """A name in a line: itself, or a JSON string where it wouldn't stay in its line."""
    return quoted(name) if UNCLEAR.search(name) else name


# ---- what was measured, and what was counted


def step_text(step: int | str) -> str:
    """A step of a path to a value."""
    if isinstance(step, int):
        return f"[{step}]"
    return f".{step}" if WORD.fullmatch(step) else f"[{quoted(step)}]"


def misfit_text(misfit: Object) -> str:
    """Why a value doesn't fit its shape."""
    where = "".join(step_text(step) for step in misfit["path"]) or "the value"
    hint = "" if misfit["hint"] is None else f"; {misfit['hint']}"
    return f"{where}: {misfit['fault']}: expected {misfit['expected']}, found {misfit['found']}{hint}"


def given_lines(one: Object) -> list[str]:
    """What the provider gave."""
    if one["shown"] is not None:
        return [f"  value: {one['shown']}"]
    if one["error"] is not None:
        return [f"  error: {shown_text(one['error'])}"]
    return [] if one["misfit"] is None else [f"  misfit: {misfit_text(one['misfit'])}"]


def change(before: int, after: int) -> str:
    """A number, or both where it changed."""
    return f"{after}" if before == after else f"{before} -> {after}"


def measured(counts: Mapping[str, int]) -> int:
    """The measurements that count: all but errors."""
    return counts["successful"] + counts["failed"] + counts["inconclusive"]


def counts_text(counts: Object) -> str:
    """What was counted before and after an event, and the limits."""
    before, after, limits = counts["before"], counts["after"], counts["limits"]
    parts = []
    for name, limit in LIMITED:
        sign = ">" if after[name] > limits[limit] else "<="
        parts.append(f"{name} {change(before[name], after[name])} {sign} {limit} {limits[limit]}")
    end = ", no count" if limits["count"] is None else f" of count {limits['count']}"
    return ", ".join(parts) + f", measured {change(measured(before), measured(after))}{end}"


def progress_text(progress: Object) -> str:
    """How far a metric is."""
    if progress["count"] is None:
        return f"{progress['measured']} measured, no count"
    return f"{progress['measured']} of count {progress['count']}"


# ---- the parts of a condition


def failure_text(part: Object, failure: str) -> str:
    """A failure, with the operands where it arose in the part."""
    return f": {failure}" + ("" if part["on"] is None else f": {part['on']}")


def between(number: int, what: str) -> str:
    """How many things aren't shown."""
    return f"{number} {what}{'' if number == 1 else 's'} between"


def gap(items: int, hold: int) -> str:
    """How many items aren't shown, and of how many of them the part holds."""
    some = f"{hold} hold{'s' if hold == 1 else ''}"
    return f"{between(items, 'item')}, " + ("none holds" if hold == 0 else "each holds" if hold == items else some)


def differ_text(differ: Object | None) -> str:
    """Where two texts differ that are shown alike."""
    return "" if differ is None else f"; byte {differ['byte']} differs: {differ['left']} and {differ['right']}"


def part_text(part: Object) -> str:
    """What came of a part of a condition."""
    if part["between"] is not None:
        return gap(**part["between"])
    if not part["needed"]:
        return f"{part['part']}: not needed"
    if part["failure"] is not None:
        read = " as a decimal" if part["asDecimal"] else ""
        return f"{part['part']}{read}{failure_text(part, part['failure'])}"
    return f"{part['part']} = {part['shown']}{differ_text(part['differ'])}"


def part_line(part: Object) -> str:
    """The line of a part, with the items that it is of."""
    items = "".join(f"item {number}: " for number in part["items"])
    return f"    {items}{part_text(part)}"


def part_lines(condition: Object) -> list[str]:
    """The first parts, how many come between, and the last ones."""
    lines, left_out = [part_line(part) for part in condition["parts"]], condition["leftOut"]
    return [*lines[:FIRST], *([f"    {between(left_out, 'line')}"] if left_out else []), *lines[FIRST:]]


def answer_line(condition: Object) -> str:
    """The line of a condition's answer."""
    answer = condition["answer"]
    if isinstance(answer, bool):
        return f"    answer = {str(answer).lower()}" + differ_text(condition["differ"])
    return "    answer" + failure_text(condition, answer)


# ---- events, metrics and runs


def reason_text(reason: Object) -> str:
    """Why an event closed its run, didn't, or came late."""
    event, phase = reason["event"], reason["phase"]
    if reason["kind"] == "limit":
        name, limit = COUNTED[reason["limit"]], reason["limit"]
        return f"closed: the metric is {phase}: {name} {reason['count']} > {limit} {reason['value']}"
    texts = {
        "stop": "closed: the run was stopped",
        "complete": "closed: each metric is Successful, or dry and complete",
        "dry": f"not closed: the metric is {phase}, but dry",
        "runClosed": f"late: event {event} had closed the run",
        "metricComplete": f"late: the metric was {phase} since event {event}",
    }
    return texts[reason["kind"]]


def lines_of_event(one: Object) -> list[str | None]:
    """The lines below an event's own."""
    lines: list[str | None] = [*given_lines(one)]
    for condition in one["conditions"]:
        lines += [None, *part_lines(condition), answer_line(condition)]
    lines += ["  no condition: each value is Successful"] if one["noCondition"] else []
    lines += [f"  counts: {counts_text(one['counts'])}"] if one["counts"] is not None else []
    return lines + ([f"  {reason_text(one['reason'])}"] if one["reason"] is not None else [])


def lines_of_metric(one: Object) -> list[str]:
    """The line of a metric, and what it waits for or that the close of its run settled it."""
    metric: MetricReport = one["metric"]
    named = metric.copy()
    named["name"] = clear(metric["name"])
    lines = [metric_line(named).rstrip("\n")]
    if one["waitsFor"] is not None:
        end = ": until a limit is exceeded or the run is closed" if one["waitsFor"]["count"] is None else ""
        lines.append(f"  {metric['phase']}: {progress_text(one['waitsFor'])}{end}")
    if one["settled"] is not None:
        closer = one["settled"]["event"]
        lines.append(f"  Successful, since the run closed at event {closer}; {progress_text(one['settled'])}")
    return lines


def waits_text(waits: Iterable[Object]) -> str:
    """What a run waits for."""
    return "; ".join(f"{clear(one['metric'])} {progress_text(one)}" for one in waits)


def event_head(event: EventReport) -> str:
    """The line of an event."""
    named = event.copy()
    named["metric"] = None if event["metric"] is None else clear(event["metric"])
    return event_line(named).rstrip("\n")


def lines_of_run(run: Object) -> list[str | None]:
    """All lines of a run; None in the place of a condition's own."""
    lines: list[str | None] = [f"run {clear(run['name'])} {run['phase']}"]
    lines += [f"  waits for: {waits_text(run['waitsFor'])}"] if run["waitsFor"] else []
    for one in run["events"]:
        lines += [event_head(one["event"]), *lines_of_event(one)]
    for one in run["metrics"]:
        lines += lines_of_metric(one)
    return lines
