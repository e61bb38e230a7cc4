"""Parts of the documents that cost the program much for their size."""


def record(fields):
    return {"record": {f"f{number}": "bool" for number in range(fields)}}


def named(runs):
    return [{"name": f"r{number}"} for number in range(runs)]


def with_own(runs):
    """Runs that have an argument of their own each, so that none shares a condition with another."""
    return [{**run, "args": {"own": run["name"]}} for run in named(runs)]


def document(fields, shapes, runs, args=(), measurements=()):
    """A document with one metric for each shape, all with the fields."""
    names = [f"m{number}" for number in range(len(shapes))]
    metrics = [{"name": name, "interval": "1m", "count": 1, **fields} for name in names]
    return {
        "manifest": {
            "apiVersion": "argoproj.io/v1alpha1",
            "kind": "AnalysisTemplate",
            "metadata": {"name": "t"},
            "spec": {"args": list(args), "metrics": metrics},
        },
        "shapes": dict(zip(names, shapes)),
        "runs": runs,
        "measurements": list(measurements),
    }


def nested(inner, outer, depth):
    """`outer` round itself, so often, and round `inner`."""
    for _ in range(depth):
        inner = outer.format(inner)
    return inner


def balanced(leaves):
    """A tree of `&&` that is as shallow as it can be."""
    if leaves == 1:
        return "true"
    return f"({balanced(leaves // 2)} && {balanced(leaves - leaves // 2)})"


def lists(item, *lengths):
    return {"record": {f"list{number}": {"list": item, "max": most} for number, most in enumerate(lengths)}}


def either(first, second):
    return {"record": {"first": first, "second": second}}


def wide(fields, *lengths):
    """A record of booleans and of lists of them."""
    return {"record": {**record(fields)["record"], **lists("bool", *lengths)["record"]}}


def left_out(items, fields):
    """The shape of a record of optional fields, in a list, and a list of objects that leave all of them out."""
    record_of = {"record": {f"f{number}": {"optional": "whole"} for number in range(fields)}}
    return {"list": record_of, "max": items}, [{}] * items


def put_in(field, length):
    """A long argument that is put 100 times into a text of each of eight metrics."""
    args = [{"name": "long", "value": "1" * length}]
    return document({field: "{{args.long}}" * 100}, ["whole"] * 8, named(1), args)


def arguments_called(names):
    """An argument of each name, which a run has, too."""
    args = [{"name": name, "value": "1"} for name in names]
    runs = [{"name": "r0", "args": {name: "1" for name in names}}]
    return document({"successCondition": f"result > {{{{args.{names[0]}}}}}"}, ["whole"], runs, args)


def many_arguments(names):
    return arguments_called([f"argument-{number}" for number in range(names)])


def measured_json(value):
    """A measurement that isn't of its shape, whatever it is, so that its JSON alone is read."""
    entry = {"run": "r0", "metric": "m0", "value": value}
    return document({"successCondition": "true"}, ["whole"], named(1), measurements=[entry])


def deep(depth):
    return [] if depth == 1 else [deep(depth - 1)]
