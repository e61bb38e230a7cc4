"""Random bundles with values of their shapes, and random changes of JSON."""

from checks.codes.shapes import SHAPES, TEXT_SHAPES, random_shape, random_value
from checks.fuzz.expressions import random_condition
from checks.fuzz.values import AGAIN, FLOATS, RAW, changed_json, mixed
from checks.oracle.bundles import built
from checks.oracle.refused import Refused
from checks.oracle.shapes import shape_json

NAMES = ("m", "a", "rate", "error-rate", "", "é", "x y", "stop", "nn")
# Places of arguments, most of which are none: `n` and `x` are arguments, and `x` has no value.
BRACES = (
    "{{args.n}}",
    "{{ args.n }}",
    "{{  args.n}}",
    "{{\targs.n}}",
    "{{args.n\n}}",
    "{{args.n\u00a0}}",
    "{{args.n }",
    "{{args.}}",
    "{{{args.n}}",
    "{{args.n}}{{args.x",
    "{{args.n}}{{args.n}}",
    "{{}}",
    "{{ }}",
    "{{args. n}}",
    "}}{{args.n}}",
    "{{args.n}}}}",
    "{{Args.n}}",
    "{{args.x}}",
    "{{n}}",
    "{{args.n",
    "{ {args.n}}",
    "{{}}}}",
)


def decimal_text(source, millionths):
    before, after = divmod(abs(millionths), 1_000_000)
    sign = "-" if millionths < 0 else source.choice(("", "", "+"))
    digits = f"{before}.{after:06}"
    exponents = (f"{abs(millionths)}e-6", f"{abs(millionths)}.5E-06")
    return sign + source.choice((digits, digits + "9", digits + "00", *exponents))


def value_json(source, value):
    """JSON from which a value is read."""
    if value[0] == "nil":
        return None
    if value[0] == "decimal":
        whole, rest = divmod(value[1], 1_000_000)
        return whole if rest == 0 and source.random() < 0.5 else decimal_text(source, value[1])
    if value[0] == "list":
        return [value_json(source, item) for item in value[1]]
    if value[0] == "record":
        return {
            name: value_json(source, inner)
            for name, inner in value[1].items()
            if inner[0] != "nil" or source.random() < 0.5
        }
    return value[1]


def any_shape(source):
    if source.random() < 0.15:
        return source.choice(TEXT_SHAPES)
    return source.choice(SHAPES) if source.random() < 0.6 else random_shape(source)


def any_value(source, shape):
    fill = source.choice(("any", "any", "full", "empty"))
    return value_json(source, random_value(source, shape, fill, source.choice((1, 2))))


def good_condition(source, shape):
    """A condition, mostly one that isn't refused."""
    for _ in range(6):
        text = random_condition(source, shape)
        if not isinstance(built(text, shape), Refused):
            break
    return text


# Bundles


def random_limit(source):
    if source.random() < 0.08:
        return source.choice((source.choice(BRACES), RAW + source.choice(FLOATS)))
    limit = source.choice((0, 0, 1, 1, 2, 3))
    return source.choice((limit, limit, limit, str(limit), "{{args.n}}", f'{{{{ args.{source.choice("nnnx")} }}}}'))


def random_metric(source, name, shape):
    metric = {"name": name}
    for field, share in (("successCondition", 0.8), ("failureCondition", 0.4)):
        if source.random() < share:
            text = good_condition(source, shape)
            braces = source.choice(BRACES)
            metric[field] = text if source.random() < 0.9 else source.choice((f"{braces} > 0 or {text}", braces))
    for field in ("failureLimit", "inconclusiveLimit", "consecutiveErrorLimit"):
        if source.random() < 0.4:
            metric[field] = random_limit(source)
    if source.random() < 0.7:
        metric["interval"] = source.choice(("1m",) * 8 + ("",))
        metric["count"] = source.choice((None, 0, 1, 2, 3, 4, "3", "{{args.n}}"))
    return metric


def random_entry(source, runs, metrics, shapes):
    run = {"run": source.choice(runs)["name"]}
    if source.random() < 0.06:
        return run | {"stop": True}
    metric = source.choice(metrics)["name"]
    if source.random() < 0.1:
        return run | {"metric": metric, "error": source.choice((None, "no answer", {}))}
    value = any_value(source, shapes[metric])
    if source.random() < 0.12:
        value = source.choice((RAW + source.choice(FLOATS), changed_json(source, value, 1)))
    return run | {"metric": metric, "value": value}


def odd_entries(source, run, metric):
    """Entries of which most are refused, each for another reason."""
    runs, metrics = source.choice((run, "nobody")), source.choice((metric, "nothing"))
    odd = (
        {"run": runs, "metric": metrics, "value": 1},
        {"run": runs, "metric": metrics, "error": None},
        {"run": runs, "stop": True, "metric": 7},
        {"run": runs, "stop": 1, "metric": metrics, "value": None},
        {"run": runs, "metric": metrics},
        {"run": runs, "metric": metrics, "value": None, "error": None},
        {"metric": metrics, "value": 1},
        {"run": runs, "value": 1},
        {"run": runs, "stop": True, "value": 1},
        7,
        None,
    )
    return [source.choice(odd) for _ in range(source.choice((1, 1, 2)))]


def random_entries(source, runs, metrics, shapes):
    entries = [mixed(source, random_entry(source, runs, metrics, shapes), 0.3) for _ in range(source.randrange(9))]
    if source.random() < 0.15:
        place = source.randrange(len(entries) + 1)
        entries[place:place] = odd_entries(source, runs[0]["name"], metrics[0]["name"])
    return entries


def random_bundle(source):
    """A bundle of few metrics, runs and entries, as JSON."""
    names = source.sample(NAMES, source.choice((1, 1, 2, 3)))
    shapes = {name: any_shape(source) for name in names}
    metrics = [random_metric(source, name, shapes[name]) for name in names]
    runs = [{"name": name} for name in source.sample(("r0", "r1", "canary", ""), source.choice((1, 1, 2)))]
    for run in runs:
        run["args"] = source.choice((None, {}, {"n": "2"}, {"n": "1", "other": "x"}))
    spec = {"args": [{"name": "n", "value": "3"}, {"name": "x"}], "metrics": metrics}
    if source.random() < 0.3:
        spec["dryRun"] = [{"metricName": source.choice(names + [".*"])}]
    kind = source.choice(("AnalysisTemplate", "AnalysisTemplate", "ClusterAnalysisTemplate"))
    document = {
        "manifest": {"apiVersion": "argoproj.io/v1alpha1", "kind": kind, "metadata": {"name": "t"}, "spec": spec},
        "shapes": {name: shape_json(shape) for name, shape in shapes.items()},
        "runs": runs,
        "measurements": random_entries(source, runs, metrics, shapes),
    }
    if source.random() < 0.1:
        others = source.choice((None, 7, {}, [], random_entries(source, runs, metrics, shapes)))
        document[AGAIN + "measurements"] = others
    return mixed(source, document, 0.3)


def random_evaluation(source):
    """A document of `eval`, as JSON."""
    shape = any_shape(source)
    return {"condition": good_condition(source, shape), "shape": shape_json(shape), "value": any_value(source, shape)}


# Changes of JSON
