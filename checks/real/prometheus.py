"""Answers of a real Prometheus, piped into the recipe from-prometheus as the pages say."""
import contextlib
import json
import os
import socket
import subprocess
import time
import urllib.error
import urllib.request
from typing import Any

# Two series of one sample a minute, the last of them now.
MINUTES = 5
RATES = {"a": ["0.95", "0.96", "0.97", "0.98", "0.99"], "b": ["0.9", "0.91", "0.92", "0.93", "0.94"]}
TEMPLATE: dict[str, Any] = {
    "apiVersion": "argoproj.io/v1alpha1",
    "kind": "AnalysisTemplate",
    "metadata": {"name": "real"},
    "spec": {
        "metrics": [
            {
                "name": "rate",
                "count": 1,
                "successCondition": "len(result) > 0 && result[0] >= 0.94",
                "provider": {"prometheus": {"address": "http://127.0.0.1", "query": "rate"}},
            }
        ]
    },
}
LIST, SCALAR, TEXT = {"list": "decimal", "max": 10}, "decimal", "text"
# Of each query its shape, what is measured (an error where it is None), and the first event's verdict by the condition
# of its shape.
QUERIES = [
    ("an instant vector", "sort(rate)", LIST, ["0.94", "0.99"], "Successful"),
    ("one series", 'rate{pod="b"} - 0.04', LIST, ["0.8999999999999999"], "Failed"),
    ("a scalar", 'scalar(rate{pod="a"})', SCALAR, "0.99", "Successful"),
    ("a string", '"ready"', TEXT, "ready", "Successful"),
    ("no data", "rate_of_nothing", LIST, [], "Failed"),
    ("NaN", "sort(rate) * (0 / 0)", LIST, ["NaN", "NaN"], "Error"),
    ("an infinity", "sort(rate) / 0", LIST, ["+Inf", "+Inf"], "Error"),
    ("a bad query", "sum(", LIST, None, "Error"),
]
CONDITIONS = {SCALAR: "result >= 0.94", TEXT: 'result == "ready"'}


def open_metrics(now):
    lines = ["# TYPE rate gauge"]
    for pod, values in RATES.items():
        lines += [
            f'rate{{pod="{pod}"}} {value} {now - 60 * (MINUTES - 1 - minute)}' for minute, value in enumerate(values)
        ]
    return "\n".join([*lines, "# EOF", ""])


def free_port():
    with socket.socket() as one:
        one.bind(("127.0.0.1", 0))
        return one.getsockname()[1]


def wait_for(address, server):
    for _ in range(600):
        with contextlib.suppress(urllib.error.URLError, ConnectionError):
            with urllib.request.urlopen(f"{address}/-/ready") as answer:
                if answer.status == 200:
                    return
        if server.poll() is not None:
            break
        time.sleep(0.1)
    raise RuntimeError("prometheus didn't become ready")


@contextlib.contextmanager
def server_of(folder, now):
    """The address of a Prometheus that has the rates."""
    (folder / "rates").write_text(open_metrics(now), encoding="utf-8")
    (folder / "config.yml").write_text("{}\n", encoding="utf-8")
    subprocess.run(
        ["promtool", "tsdb", "create-blocks-from", "openmetrics", folder / "rates", folder / "data"],
        check=True,
        stdout=subprocess.DEVNULL,
        stderr=subprocess.DEVNULL,
    )
    port = free_port()
    flags = [
        f"--config.file={folder}/config.yml",
        f"--storage.tsdb.path={folder}/data",
        f"--web.listen-address=127.0.0.1:{port}",
    ]
    with open(folder / "log", "wb") as log:
        server = subprocess.Popen(["prometheus", *flags], stdout=log, stderr=log)
    try:
        wait_for(f"http://127.0.0.1:{port}", server)
        yield f"http://127.0.0.1:{port}"
    finally:
        server.terminate()
        server.wait()


def piped(root, folder, address, path, parameters, flags=()):
    """What curl's answer becomes by the recipe: the document's measurements, or what the recipe says in refusing it."""
    words = " ".join(f'--data-urlencode "{name}=${name}"' for name in parameters)
    given = f"--template '{folder}/template.json' --shapes '{folder}/shapes.json' {' '.join(flags)}"
    recipe = f"'{root}/recipes/from-prometheus' {given}"
    command = f'curl -sG "$PROMETHEUS/api/v1/{path}" {words} | {recipe}'
    return subprocess.run(
        ["bash", "-o", "pipefail", "-c", command],
        env={**os.environ, "PROMETHEUS": address, **parameters},
        capture_output=True,
        text=True,
    )


def prepare(folder, shape):
    condition = CONDITIONS.get(shape) if isinstance(shape, str) else None
    spec = TEMPLATE["spec"]["metrics"][0]
    metric = {**spec, "successCondition": condition} if condition else spec
    (folder / "template.json").write_text(json.dumps({**TEMPLATE, "spec": {"metrics": [metric]}}), encoding="utf-8")
    (folder / "shapes.json").write_text(json.dumps({"rate": shape}), encoding="utf-8")


def fault_of(engine, ended, values, verdict):
    """What is wrong with a document and its first event, if something is."""
    if ended.returncode != 0:
        return f"the recipe ended with status {ended.returncode}: {ended.stderr.strip()}"
    entries = json.loads(ended.stdout)["measurements"]
    found = [entry.get("value") for entry in entries]
    if found != values:
        return f"expected {values}, found {entries}"
    report = subprocess.run(
        [engine, "run", "--plain", "--output", "json"], input=ended.stdout, capture_output=True, text=True
    )
    first = json.loads(report.stdout)["runs"][0]["events"][0]["verdict"]
    return None if first == verdict else f"expected the verdict {verdict}, found {first}"


def checks(root, engine, folder):
    """Each check by its name, with what is wrong, if something is."""
    now = int(time.time()) - 1
    with server_of(folder, now) as address:
        for what, query, shape, value, verdict in QUERIES:
            prepare(folder, shape)
            ended = piped(root, folder, address, "query", {"query": query})
            yield what, fault_of(engine, ended, [value], verdict)
        span = {"query": "sort(rate)", "start": str(now - 60 * (MINUTES - 1)), "end": str(now), "step": "60"}
        by_time = [list(pair) for pair in zip(RATES["a"], RATES["b"])]
        prepare(folder, LIST)
        ended = piped(root, folder, address, "query_range", span)
        yield "a range", fault_of(engine, ended, by_time, "Successful")
        ended = piped(root, folder, address, "query_range", span, ["--flat"])
        yield "a flat range", fault_of(engine, ended, [RATES["a"] + RATES["b"]], "Successful")
    prepare(folder, LIST)
    ended = piped(root, folder, f"http://127.0.0.1:{free_port()}", "query", {"query": "rate"})
    yield "no Prometheus", None if ended.returncode not in (0, 1) else "a Prometheus that is down isn't refused"
