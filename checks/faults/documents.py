"""The documents that the program is run on, with what docs/use/formats.md, docs/use/phases.md, docs/design/machine.md
and docs/design/verifier.md say of them, worked out by hand."""

import json

from checks.data import canonical, compact
from checks.faults.answers import Answer, Document
from checks.made import document_of, event_object, measured, metric_object, template_of
from checks.oracle.reports import LIMITS

NONE = "successful=0 failed=0 inconclusive=0 error=0 consecutiveError=0"
ONE = "successful=1 failed=0 inconclusive=0 error=0 consecutiveError=0"


def text_of(metrics, shapes, runs, entries):
    """A document as it is given to the program."""
    return compact(document_of(template_of({"metrics": metrics}), shapes, runs, entries))


# Two runs of two metrics: one is stopped, and one fails.
POSITIVE = {"interval": "1m", "count": 3, "successCondition": "result > 0"}
STOPPED = Document(
    text=text_of(
        [{"name": name, **POSITIVE} for name in "ab"],
        {"a": "whole", "b": "whole"},
        ["r0", "r1"],
        [{"run": "r0", "stop": True}, measured("r1", "a", 0)],
    ),
    run=Answer(
        1,
        f"""\
run r0 Successful
metric a Successful {NONE}
metric b Successful {NONE}
event 0 stop closed Successful
run r1 Failed
metric a Failed successful=0 failed=1 inconclusive=0 error=0 consecutiveError=0
metric b Successful {NONE}
event 1 a Failed closed Failed
""",
    ),
    check=Answer(
        0,
        """\
run r0 metric a success operations=4 depth=2 budget=4
run r0 metric b success operations=4 depth=2 budget=4
run r1 metric a success operations=4 depth=2 budget=4
run r1 metric b success operations=4 depth=2 budget=4
""",
    ),
    list=Answer(
        0,
        "".join(
            f"""\
run {run} metric {metric} success
0 LoadResult
1 PushWhole 0
2 GtW
3 Return
"""
            for run in ("r0", "r1")
            for metric in "ab"
        ),
    ),
)

# Two runs of one metric, which takes the first of a list.
RATES = Document(
    text=text_of(
        [{"name": "m", "successCondition": "result[0] >= 0.95"}],
        {"m": {"list": "decimal", "max": 10}},
        ["r0", "r1"],
        [measured("r0", "m", ["0.99"]), measured("r1", "m", ["0.96"])],
    ),
    run=Answer(
        0,
        f"""\
run r0 Successful
metric m Successful {ONE}
event 0 m Successful closed Successful
run r1 Successful
metric m Successful {ONE}
event 1 m Successful closed Successful
""",
    ),
    check=Answer(
        0,
        """\
run r0 metric m success operations=6 depth=2 budget=6
run r1 metric m success operations=6 depth=2 budget=6
""",
    ),
    list=Answer(
        0,
        "".join(
            f"""\
run {run} metric m success
0 LoadResult
1 PushWhole 0
2 Index
3 PushDecimal 950000
4 GeD
5 Return
"""
            for run in ("r0", "r1")
        ),
    ),
)

# A metric whose condition takes memory as it is evaluated.
FILTERED = {"name": "m", "interval": "1m", "failureLimit": 5, "successCondition": "len(filter(result, # > 1)) == 2"}
WHOLES = {"m": {"list": "whole", "max": 5}}
FILTERS = Document(
    text=text_of([FILTERED], WHOLES, ["r0"], [measured("r0", "m", value) for value in ([1, 2, 3], [1], [2, 0, 5])]),
    run=Answer(
        0,
        """\
run r0 Running
metric m Running successful=2 failed=1 inconclusive=0 error=0 consecutiveError=0
event 0 m Successful applied
event 1 m Failed applied
event 2 m Successful applied
""",
    ),
    check=Answer(0, "run r0 metric m success operations=10 depth=2 budget=26\n"),
    list=Answer(
        0,
        """\
run r0 metric m success
0 LoadResult
1 FilterEnter 5
2 Item
3 PushWhole 1
4 GtW
5 FilterStep 1
6 Len
7 PushWhole 2
8 EqNumber
9 Return
""",
    ),
)

# Warnings: a metric without a condition, and of each metric a value of another kind than its shape.
WARNED = Document(
    text=text_of(
        [{"name": "a", "interval": "1m", "successCondition": "result > 0"}, {"name": "b", "interval": "1m"}],
        {"a": "whole", "b": "whole"},
        ["r0", "r1"],
        [measured("r0", "a", 1.5), measured("r1", "b", "high")],
    ),
    run=Answer(
        0,
        f"""\
run r0 Running
metric a Running successful=0 failed=0 inconclusive=0 error=1 consecutiveError=1
metric b Pending {NONE}
event 0 a Error shape FloatNumber applied
run r1 Running
metric a Pending {NONE}
metric b Running successful=0 failed=0 inconclusive=0 error=1 consecutiveError=1
event 1 b Error shape WrongKind applied
""",
        lines=3,
    ),
    check=Answer(
        0,
        """\
run r0 metric a success operations=4 depth=2 budget=4
run r1 metric a success operations=4 depth=2 budget=4
""",
        lines=3,
    ),
    list=Answer(
        0,
        "".join(
            f"""\
run {run} metric a success
0 LoadResult
1 PushWhole 0
2 GtW
3 Return
"""
            for run in ("r0", "r1")
        ),
    ),
)
BUNDLES = {"stopped": STOPPED, "rates": RATES, "filters": FILTERS, "warned": WARNED}

# A template without shapes: the command is refused.
SHAPELESS = json.dumps({"manifest": template_of({"metrics": [FILTERED]})})


def repeated(runs, entries):
    """A document whose every measurement is successful and takes memory, of n runs in turn, which stay open; and
    its report."""
    names = [f"r{run}" for run in range(runs)]
    text = text_of([FILTERED], WHOLES, names, [measured(names[it % runs], "m", [1, 2, 3]) for it in range(entries)])
    lines = []
    for run, name in enumerate(names):
        own = range(run, entries, runs)
        lines += [f"run {name} Running", f'metric m Running successful={len(own)} {ONE.split(" ", 1)[1]}']
        lines += [f"event {number} m Successful applied" for number in own]
    return text, Answer(0, "".join(f"{line}\n" for line in lines))


# Documents for `eval`


def condition(text, shape, value):
    return json.dumps({"condition": text, "shape": shape, "value": value}, separators=(",", ":"))


LISTED = {"list": "whole", "max": 5}
RECORDS = {"list": {"record": {"codes": LISTED, "limit": "whole"}}, "max": 3}
VALUES = [{"codes": [200, 204], "limit": 300}, {"codes": [500], "limit": 300}]
REFUSED = {"record": {"a": {"list": {"optional": "decimal"}, "max": 3}, "b": "text"}}
DECIMAL = condition("result >= 0.95", "decimal", "0.9523809523809523")
# By what they show: the document, its answer, and the least number of growths of memory that it takes.
CONDITIONS = {
    "a decimal": (DECIMAL, Answer(0, "true\n"), 20),
    "a kind that has no order": (condition("result > 1", REFUSED, {"a": [], "b": ""}), Answer(2, "", 1), 30),
    "a filter": (condition("len(filter(result, # > 1)) == 2", LISTED, [1, 2, 3]), Answer(0, "true\n"), 30),
    "a fault": (condition("result[0] in [1, 2.5] or 1 / 0 > 0", LISTED, [3]), Answer(0, "fault DivisionByZero\n"), 30),
    "records": (
        condition("any(result, all(.codes, # >= 500) and .limit < 400)", RECORDS, VALUES),
        Answer(0, "true\n"),
        30,
    ),
    "texts": (
        condition('one(["a b", "c"], # contains result) and none([result], # endsWith "c")', "text", "b"),
        Answer(0, "true\n"),
        30,
    ),
}


# Answers as JSON


def as_json(answer, lines=0, version=1):
    return Answer(0, canonical({**answer, "version": version}), lines)


def bounds_as_json(bounds, lines=0):
    """What `check` writes of the one condition of two runs."""
    conditions = [{"run": run, **bounds} for run in ("r0", "r1")]
    return as_json({"conditions": conditions, "limits": LIMITS}, lines, version=2)


def successful(run, number):
    """A run of RATES, which the event of this number closed."""
    metric = metric_object("m", "Successful", 1, successful=1)
    event = event_object(number, "m", "Successful", effect="closed", phase="Successful")
    return {"name": run, "phase": "Successful", "metrics": [metric], "events": [event]}


def warned(run, number, metric, fault):
    """A run of WARNED, of whose metrics one met an error."""
    other = "b" if metric == "a" else "a"
    metrics = [
        metric_object(metric, "Running", None, error=1, consecutiveError=1),
        metric_object(other, "Pending", None),
    ]
    event = event_object(number, metric, "Error", cause="shape", fault=fault)
    in_order = sorted(metrics, key=lambda one: one["name"])
    return {"name": run, "phase": "Running", "metrics": in_order, "events": [event]}


BOUNDS = {"metric": "m", "condition": "success", "operations": 6, "depth": 2, "budget": 6}
OF_WARNED = as_json({"runs": [warned("r0", 0, "a", "FloatNumber"), warned("r1", 1, "b", "WrongKind")]}, lines=1)
BOUNDS_OF_WARNED = {"metric": "a", "condition": "success", "operations": 4, "depth": 2, "budget": 4}
OF_RATES = as_json({"runs": [successful("r0", 0), successful("r1", 1)]})
# By their command lines: the document and its answer. Those of `--output=json` have warnings, which are one line.
AS_JSON = {
    "run --plain --output=json": (WARNED.text, OF_WARNED),
    "run --workers 2 --output=json": (WARNED.text, OF_WARNED),
    "check --output=json": (WARNED.text, bounds_as_json(BOUNDS_OF_WARNED, lines=1)),
    "run --plain --output json": (RATES.text, OF_RATES),
    "run --ordered --workers 2 --output json": (RATES.text, OF_RATES),
    "check --output json": (RATES.text, bounds_as_json(BOUNDS)),
    "eval --output json": (DECIMAL, as_json({"answer": True, "fault": None})),
}
