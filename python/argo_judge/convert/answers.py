"""A provider's answers as measurements of a run: of a new document of a template, or of a document that is there."""
import heapq
import re
from argparse import ArgumentParser, Namespace
from collections.abc import Callable, Sequence

from argo_judge.differences import note_differences
from argo_judge.documents import document
from argo_judge.dryruns import with_dry_names
from argo_judge.errors import Refused
from argo_judge.files import read_json
from argo_judge.objects import Json, Object, listed, member, shown
from argo_judge.options import add_arg_flag, add_shapes_flag
from argo_judge.shapes import shapes_in, shapes_of
from argo_judge.templates import arguments_of, chosen_metric, read_template

TIME = re.compile(r"-?\d{1,18}(\.\d{1,18})?([eE][+-]?\d{1,2})?", re.ASCII)


def add_flags(parser: ArgumentParser) -> None:
    """What each recipe takes that reads a provider's answers."""
    flag = parser.add_argument
    flag("--template", metavar="FILE", help="the AnalysisTemplate, as kubectl prints it as JSON")
    flag("--add-to", metavar="DOCUMENT", help="add to this document, by its own template; - is standard input")
    add_shapes_flag(parser)
    flag("--run", metavar="NAME", help="the name of the run; without it `run`, or the one that DOCUMENT has")
    flag("--metric", metavar="NAME", help="the metric that the answers are of")
    add_arg_flag(parser)
    flag("--allow-empty", action="store_true", help="take an input without answers, which is refused otherwise")
    flag("answers", nargs="?", default="-", metavar="FILE", help="the answers; standard input without it")


# ---- the document that the answers go to


def chosen_run(runs: Sequence[Json], name: str | None) -> Object:
    """The run of a name; without a name the only one that there is."""
    named = [run for run in runs if isinstance(member(run, "name"), str)]
    chosen = [run for run in named if name is None or run["name"] == name]
    if len(chosen) != 1:
        raise Refused(f"--run: expected one of the document's runs: {listed([run['name'] for run in named])}")
    found: Object = chosen[0]
    return found


def begun_on(words: Namespace) -> tuple[Object, str]:
    """A document that is there, and its run that the answers are of, with the given arguments and shapes."""
    found = read_json(words.add_to, "--add-to")
    runs, entries = member(found, "runs", default=[]), member(found, "measurements", default=[])
    if not isinstance(member(found, "manifest"), dict) or not isinstance(runs, list) or not isinstance(entries, list):
        raise Refused("--add-to: expected a document, with a template as `manifest`, `runs` and `measurements`")
    run = chosen_run(runs, words.run)
    own, shapes = member(run, "args", default={}), member(found, "shapes", default={})
    if not isinstance(own, dict) or not isinstance(shapes, dict):
        raise Refused(f"--add-to: expected objects as `shapes` and as `args` of run {shown(run['name'])}")
    if words.arg:
        run["args"] = {**own, **arguments_of(found["manifest"], words.arg)}
    if words.shapes:
        shapes = {**shapes, **shapes_in(read_json(words.shapes, "shapes"), "shapes")}
    return {**found, "shapes": shapes, "runs": runs, "measurements": entries}, run["name"]


def begun(words: Namespace) -> tuple[Object, str]:
    """The document that the answers go to, and the name of their run."""
    if (words.template is None) == (words.add_to is None):
        raise Refused("command line: expected --template FILE or --add-to DOCUMENT")
    if [words.template, words.add_to, words.shapes, words.answers].count("-") > 1:
        raise Refused("command line: standard input has just one file; expected the names of the others")
    if words.add_to is not None:
        return begun_on(words)
    template = with_dry_names(read_template(words.template))
    name = "run" if words.run is None else words.run
    return document(template, shapes_of(template, words.shapes), name, arguments_of(template, words.arg), []), name


# ---- the order


def seconds(time: Json) -> float | None:
    """The time that orders an entry, if it has one."""
    text = str(time) if isinstance(time, (int, str)) and not isinstance(time, bool) else ""
    return float(text) if TIME.fullmatch(text) else None


def timed(entries: Sequence[Json]) -> list[tuple[float | None, Json]]:
    """Each entry with its time. One that has none has that of the one before it, and the first ones the next one's."""
    times = [seconds(member(entry, "time")) for entry in entries]
    last = next((time for time in times if time is not None), None)
    for place, time in enumerate(times):
        last = last if time is None else time
        times[place] = last
    return list(zip(times, entries))


def merged(old: list[Json], new: list[Json]) -> list[Json]:
    """Old and new entries in the order of their times, each side in its own order; new ones come after the old ones
    where one side has no times."""
    sides = timed(old), timed(new)
    if any(not side or side[0][0] is None for side in sides):
        return old + new
    return [entry for _, entry in heapq.merge(*sides, key=lambda one: one[0] or 0.0)]


def with_answers(words: Namespace, answers_of: Callable[[], list[Object]]) -> Object:
    """The document with the answers, which `answers_of` reads: a `value` or an `error` each, and a `time` or none."""
    begun_document, run = begun(words)
    metric = chosen_metric(begun_document["manifest"], words.metric)
    entries = [{"run": run, "metric": metric, **answer} for answer in answers_of()]
    if not entries and not words.allow_empty:
        raise Refused(f"answers: found none of metric {shown(metric)}; expected one or more, or --allow-empty")
    made = {**begun_document, "measurements": merged(begun_document["measurements"], entries)}
    note_differences(made)
    return made
