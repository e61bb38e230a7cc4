"""Objects of a cluster, read by `kubectl get`. Nothing in the cluster is changed."""
import subprocess
from argparse import SUPPRESS, ArgumentParser, Namespace
from collections.abc import Sequence
from dataclasses import replace
from typing import Any

from argo_judge.errors import Refused
from argo_judge.jsontext import parsed
from argo_judge.manifests import Found, objects_in
from argo_judge.objects import Object, member
from argo_judge.options import CommandLine, command_line

HANDED_ON = ("namespace", "context", "kubeconfig")


def add_cluster_flags(parser: ArgumentParser, **more: Any) -> None:
    """The flags that are handed on to kubectl."""
    parser.add_argument("-n", "--namespace", metavar="NAME", help="handed on to kubectl", **more)
    parser.add_argument("--context", metavar="NAME", help="handed on to kubectl", **more)
    parser.add_argument("--kubeconfig", metavar="FILE", help="handed on to kubectl", **more)


def cluster_flags() -> CommandLine:
    """What each command takes that reads a cluster. What is given before the command holds unless it is given again."""
    parser = command_line(None, add_help=False)
    add_cluster_flags(parser, default=SUPPRESS)
    parser.add_argument("--cluster", action="store_true", help="the template is a ClusterAnalysisTemplate")
    return parser


def add_all_flag(parser: ArgumentParser) -> None:
    """The flag of commands that read many objects."""
    parser.add_argument("-A", "--all-namespaces", action="store_true", help="read those of all namespaces")


def got(what: Sequence[str], words: Namespace) -> str:
    """What `kubectl get` prints as JSON of a kind and names, or of a kind and a selector."""
    given = [(flag, getattr(words, flag)) for flag in HANDED_ON if getattr(words, flag) is not None]
    command = ["kubectl", "get", *what, "-o", "json", *(word for flag, value in given for word in (f"--{flag}", value))]
    command += ["--all-namespaces"] if getattr(words, "all_namespaces", False) else []
    try:
        ended = subprocess.run(command, capture_output=True, text=True)
    except OSError as fault:
        raise Refused(f"kubectl can't be started: {fault.strerror}")
    if ended.returncode != 0:
        said = ended.stderr.strip().splitlines() or [f"it ended with status {ended.returncode}"]
        raise Refused(f"kubectl get {' '.join(what)}: {said[-1]}")
    return ended.stdout


def fetched(kind: str, name: str, words: Namespace) -> Object:
    """An object of the cluster."""
    found = parsed(got([kind, name], words), f"{kind} {name}")
    if not isinstance(found, dict):
        raise Refused(f"kubectl get {kind} {name}: expected an object")
    return found


def fetched_all(kind: str, words: Namespace, names: Sequence[str] = (), selector: str | None = None) -> list[Found]:
    """The objects of a kind, each by its name: those of the names, those of labels, or all."""
    text = got([kind, *names, *(["-l", selector] if selector else [])], words)
    return [
        replace(found, file=f"{kind}/{member(found.value, 'metadata', 'name')}", pointer="")
        for found in objects_in(text, f"kubectl get {kind}")
    ]


def kind_of_template(words: Namespace) -> str:
    """The kind of the template that is named."""
    return "clusteranalysistemplate" if words.cluster else "analysistemplate"


def template_of(name: str, words: Namespace) -> Object:
    """A template of the cluster."""
    return fetched(kind_of_template(words), name, words)
