"""A real kubectl, whose plugin gets from a small API server what the tests of the recipes get from their own
kubectl."""
import contextlib
import http.server
import json
import os
import subprocess
import threading

GROUP = "argoproj.io"
VERSION = f"{GROUP}/v1alpha1"
# The names of Argo Rollouts' custom resources: kind, plural, short name, and whether a namespace has them.
RESOURCES = [
    ("AnalysisRun", "analysisruns", "ar", True),
    ("AnalysisTemplate", "analysistemplates", "at", True),
    ("ClusterAnalysisTemplate", "clusteranalysistemplates", "cat", False),
]
SHAPES = "recipes/tests/kubectl-run/shapes.json"
COMMANDS = [
    ["run", "guestbook-7-success-rate", "--shapes", SHAPES],
    ["run", "guestbook-7-success-rate", "--template", "success-rate", "--arg", "threshold=0.97"],
    ["explain", "guestbook-7-success-rate", "--shapes", SHAPES, "--event", "2"],
    ["check", "success-rate", "--namespace", "default"],
    ["check", "apdex", "--cluster"],
    ["lint"],
    ["lint", "--cluster", "apdex"],
    ["backtest", "--template", "success-rate"],
    ["backtest", "--template", "success-rate", "-l", "step-index=1"],
    ["backtest", "--template", "success-rate", "-l", "step-index=2"],
]
REFUSED = [["run", "guestbook-8"], ["check", "guestbook-8"], ["backtest", "--template", "guestbook-8"]]


def resource_list():
    resources = [
        {
            "name": plural,
            "singularName": kind.lower(),
            "namespaced": is_namespaced,
            "kind": kind,
            "shortNames": [short],
            "verbs": ["get", "list"],
        }
        for kind, plural, short, is_namespaced in RESOURCES
    ]
    return {"kind": "APIResourceList", "apiVersion": "v1", "groupVersion": VERSION, "resources": resources}


def discovery():
    version = {"groupVersion": VERSION, "version": "v1alpha1"}
    group = {"name": GROUP, "versions": [version], "preferredVersion": version}
    return {
        "/api": {"kind": "APIVersions", "versions": ["v1"]},
        "/api/v1": {"kind": "APIResourceList", "groupVersion": "v1", "resources": []},
        "/apis": {"kind": "APIGroupList", "apiVersion": "v1", "groups": [group]},
        f"/apis/{VERSION}": resource_list(),
    }


def objects_of(folder):
    """The stored objects by their paths below the API's."""
    found = {}
    for kind, plural, _, is_namespaced in RESOURCES:
        place = f"namespaces/default/{plural}" if is_namespaced else plural
        for file in sorted((folder / kind.lower()).glob("*.json")):
            found[f"/apis/{VERSION}/{place}/{file.stem}"] = json.loads(file.read_text(encoding="utf-8"))
    return found


def has_label(value, selector):
    name, _, wanted = selector.partition("=")
    return not selector or value["metadata"].get("labels", {}).get(name) == wanted


class Api(http.server.BaseHTTPRequestHandler):
    """Answers as an API server: what kinds there are, single objects, and lists of them by label."""

    documents = discovery()
    objects: dict = {}

    def answer(self, status, value):
        body = json.dumps(value).encode()
        self.send_response(status)
        self.send_header("Content-Type", "application/json")
        self.send_header("Content-Length", str(len(body)))
        self.end_headers()
        self.wfile.write(body)

    def do_GET(self):
        path, _, query = self.path.partition("?")
        given = dict(part.partition("=")[::2] for part in query.split("&"))
        plural = path.rpartition("/")[2]
        kinds = [kind for kind, name, _, _ in RESOURCES if name == plural]
        if value := self.documents.get(path) or self.objects.get(path):
            self.answer(200, value)
        elif kinds:
            selector = given.get("labelSelector", "").replace("%3D", "=")
            items = [
                value for at, value in self.objects.items() if at.startswith(f"{path}/") and has_label(value, selector)
            ]
            self.answer(200, {"apiVersion": VERSION, "kind": f"{kinds[0]}List", "metadata": {}, "items": items})
        else:
            resource, name = path.split("/")[-2:]
            self.answer(
                404,
                {
                    "kind": "Status",
                    "apiVersion": "v1",
                    "status": "Failure",
                    "reason": "NotFound",
                    "code": 404,
                    "message": f'{resource}.{GROUP} "{name}" not found',
                },
            )

    def log_message(self, *_):
        """Says nothing of requests."""


@contextlib.contextmanager
def kubeconfig_of(folder, objects):
    """The path of a kubeconfig whose cluster is the API server."""
    Api.objects = objects
    server = http.server.ThreadingHTTPServer(("127.0.0.1", 0), Api)
    threading.Thread(target=server.serve_forever, daemon=True).start()
    named = {
        "clusters": [{"name": "real", "cluster": {"server": f"http://127.0.0.1:{server.server_port}"}}],
        "contexts": [{"name": "real", "context": {"cluster": "real", "user": "nobody"}}],
        "users": [{"name": "nobody", "user": {}}],
    }
    path = folder / "kubeconfig"
    path.write_text(
        json.dumps({"apiVersion": "v1", "kind": "Config", "current-context": "real", **named}), encoding="utf-8"
    )
    try:
        yield path
    finally:
        server.shutdown()
        server.server_close()


def ended(root, words, path, kubeconfig, home):
    environment = {
        **os.environ,
        "PATH": path,
        "KUBECONFIG": str(kubeconfig),
        "HOME": str(home),
        "PYTHONDONTWRITEBYTECODE": "1",
    }
    found = subprocess.run(["kubectl", "argo-judge", *words], cwd=root, env=environment, capture_output=True, text=True)
    return found.returncode, found.stdout, found.stderr


def fault_without_pyyaml(root, engine, folder):
    """What is wrong where kubectl reads YAML, since PyYAML isn't there: each example template has to be linted."""
    (folder / "yaml.py").write_text("raise ImportError\n", encoding="utf-8")
    environment = {**os.environ, "PYTHONPATH": str(folder), "KUBECONFIG": os.devnull, "PYTHONDONTWRITEBYTECODE": "1"}
    templates = root / "examples/templates"
    found = subprocess.run(
        [root / "recipes/lint", "--engine", engine, "--output", "json", templates],
        env=environment,
        capture_output=True,
        text=True,
    )
    if found.returncode != 0:
        return f"status {found.returncode}: {found.stderr.strip()}"
    wanted, linted = len(list(templates.glob("*.yaml"))), json.loads(found.stdout)["templates"]
    return None if linted == wanted else f"expected {wanted} templates, found {linted}"


def checks(root, engine, folder):
    """Each command by its words, with what is wrong, if something is: a real kubectl has to give what the tests' own
    does."""
    yield "YAML without PyYAML", fault_without_pyyaml(root, engine, folder)
    stored = root / "recipes/tests/objects/kind/default"
    real = f"{root}/recipes:{os.environ['PATH']}"
    own = f"{root}/recipes:{root}/recipes/tests/bin:{os.environ['PATH']}"
    with kubeconfig_of(folder, objects_of(stored)) as kubeconfig:
        for words in COMMANDS:
            words = [*words, "--engine", str(engine)]
            wanted = ended(root, words, own, os.devnull, folder)
            found = ended(root, words, real, kubeconfig, folder)
            yield " ".join(words[:-2]), None if found == wanted else f"expected {wanted}, found {found}"
        for words in REFUSED:
            status, out, line = ended(root, [*words, "--engine", str(engine)], real, kubeconfig, folder)
            is_refused = status == 2 and not out and line.count("\n") == 1 and "not found" in line
            yield " ".join(
                words
            ), None if is_refused else f"expected one line that says `not found`, found {status} {out} {line}"
