"""Names that a terminal shows as they are: what it would obey, or hide, is escaped as in JSON."""
import json

from argo_judge.objects import Json, Object, member, objects


def stays(character: str) -> bool:
    """Whether a character of JSON stays: one that is seen, a line feed between values, and half of a surrogate pair,
    which no output takes."""
    return character.isprintable() or character == "\n" or "\ud800" <= character <= "\udfff"


def escaped(text: str) -> str:
    """A text of JSON in which characters that nobody sees are escapes."""
    if text.replace("\n", "").isprintable():
        return text
    return "".join(one if stays(one) else json.dumps(one)[1:-1] for one in text)


def clear(name: Json) -> Json:
    """A name itself, or a JSON string where it has what a terminal would obey or hide, or looks like one."""
    if not isinstance(name, str) or (name.isprintable() and name[:1] not in ("", '"')):
        return name
    return escaped(json.dumps(name, ensure_ascii=False))


def with_clear(value: Object, *names: str) -> Object:
    """An object whose members of these names are clear."""
    return {name: clear(one) if name in names else one for name, one in value.items()}


def with_clear_names(document: Object) -> Object:
    """A document whose runs and metrics have clear names, each another one."""
    spec = member(document, "manifest", "spec", default={})
    metrics = [with_clear(metric, "name") for metric in objects(member(spec, "metrics"))]
    dry = [with_clear(rule, "metricName") for rule in objects(member(spec, "dryRun"))]
    named = {**spec, "metrics": metrics, **({"dryRun": dry} if dry else {})}
    return {
        **document,
        "manifest": {**document["manifest"], "spec": named},
        "shapes": {clear(name): shape for name, shape in document["shapes"].items()},
        "runs": [with_clear(run, "name") for run in document["runs"]],
        "measurements": [with_clear(one, "run", "metric") for one in document["measurements"]],
    }
