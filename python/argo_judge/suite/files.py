"""The files of suites: each names a template, shapes, arguments and tests."""
import os
from collections.abc import Sequence
from dataclasses import dataclass

from argo_judge.documents import with_conditions
from argo_judge.dryruns import with_dry_names
from argo_judge.engine.limits import Limits
from argo_judge.errors import Refused
from argo_judge.jsontext import NumberText
from argo_judge.manifests import SUFFIXES, Found, documents_of, files_in, objects_of
from argo_judge.notes import note
from argo_judge.objects import Json, Object, listed, member, objects, shown
from argo_judge.shapes import noted_shapes, with_own
from argo_judge.suite.cases import Case, args_of, case_of
from argo_judge.suite.known import Known
from argo_judge.suite.nodes import Node, check_fields, text_of
from argo_judge.templates import metric_names
from argo_judge.yamltext import is_read

FIELDS = ("template", "templateName", "shapes", "args", "equivalentMoves", "tests")
KINDS = ("AnalysisTemplate", "ClusterAnalysisTemplate")


@dataclass
class Suite:
    """The tests of one template. `equivalent` are moves, by their lines, that no test can notice."""

    file: str
    template: Object
    shapes: Object
    equivalent: list[str]
    cases: list[Case]


# ---- the template


def path_next_to(node: Node, expected: str) -> str:
    """The path of a file that a suite names, which is relative to the suite's own folder."""
    folder = "." if node.found.file == "-" else os.path.dirname(node.found.file)
    return os.path.join(folder, text_of(node, expected))


def template_in_file(node: Node, name: Node) -> Object:
    """The template of a file, by its name where there are several."""
    path = path_next_to(node, "the path of a template's file, or a template")
    found = [one.value for one in objects_of(path, f"{node.where}: template") if member(one.value, "kind") in KINDS]
    names = [member(one, "metadata", "name") for one in found]
    chosen = [one for one in found if name.value is None or member(one, "metadata", "name") == name.value]
    if len(chosen) != 1:
        wanted = "or its `templateName`" if name.value is None else f"of the name {shown(name.value)}"
        raise Refused(f"{node.where}: {path}: expected one template there, {wanted}; templates are {listed(names)}")
    template: Object = chosen[0]
    return template


def check_arguments(node: Node, template: Object) -> None:
    """Refuses an argument that is a number, which the engine would be given as a text and kubectl refuses."""
    for place, arg in enumerate(objects(member(template, "spec", "args"))):
        if isinstance(member(arg, "value"), NumberText):
            where = f"{node.where}: spec.args[{place}].value of the template"
            raise Refused(f"{where}: expected a text, found the number {arg['value']}")


def template_of(suite: Node) -> Object:
    """The template of a suite: its own, or that of the file that it names."""
    node, name = suite.member("template"), suite.member("templateName")
    if isinstance(node.value, dict):
        if name.value is not None:
            raise Refused(f"{name.where}: expected no `templateName` with a template in the suite itself")
        template = node.value
    else:
        template = template_in_file(node, name)
    check_arguments(node, template)
    made: Object = with_conditions(with_dry_names(template, is_noted=False))
    return made


# ---- shapes


def given_shapes(node: Node) -> Object | None:
    """The shapes that a suite has: an object, or the path of a file that has one."""
    if node.value is None or isinstance(node.value, dict):
        return node.value
    path = path_next_to(node, "the path of a file of shapes, or an object of them")
    found = [document.value for document in documents_of(path, f"{node.where}: shapes")]
    if len(found) != 1 or not isinstance(found[0], dict):
        raise Refused(f"{node.where}: {path}: expected one object that has a shape for each metric, by its name")
    return found[0]


def shapes_of(suite: Node, template: Object) -> Object:
    """The shapes of a template's metrics: those of the suite, else those of the template's annotation."""
    given = given_shapes(suite.member("shapes"))
    given = noted_shapes(template) if given is None else given
    return with_own(template, given, f"{suite.where}: expected `shapes`")


# ---- suites


def suite_of(found: Found, limits: Limits) -> Suite:
    """The suite that a document is."""
    node = Node(found.value, found, "")
    check_fields(node, FIELDS, "a suite")
    template = template_of(node)
    named = [member(arg, "name") for arg in objects(member(template, "spec", "args"))]
    known = Known(metric_names(template), [name for name in named if isinstance(name, str)], limits)
    args = args_of(node.member("args"), known.arguments)
    cases: list[Case] = []
    places: dict[str, str] = {}
    for item in node.member("tests").items("a list of tests as `tests`"):
        case = case_of(item, args, known)
        if case.name in places:
            raise Refused(f"{item.where}: a test has the name {shown(case.name)} already: {places[case.name]}")
        places[case.name] = item.where
        cases.append(case)
    if not cases:
        raise node.member("tests").refused("one test or more")
    moves = node.member("equivalentMoves")
    lines = [] if moves.value is None else moves.items("a list of moves, as --mutate prints them")
    equivalent = [text_of(line, "a move, as --mutate prints it") for line in lines]
    return Suite(found.file, template, shapes_of(node, template), equivalent, cases)


def is_of_kubernetes(value: Json) -> bool:
    """Whether a value is an object of Kubernetes, and no suite."""
    names = ("apiVersion", "kind")
    return all(member(value, name) is not None for name in names) and member(value, "tests") is None


def check_readable(path: str) -> None:
    """Refuses YAML where PyYAML isn't installed: kubectl reads its own objects alone."""
    if not is_read() and path.endswith(SUFFIXES) and not path.endswith(".json"):
        raise Refused(f"{path}: found YAML; expected PyYAML, or the suite as JSON, as `yq -o json` writes it")


def suites_in(paths: Sequence[str], limits: Limits) -> list[Suite]:
    """The suites of files and folders, whose tests are within limits. Objects of Kubernetes that are there, too, are
    counted in a line."""
    suites, passed_over = [], 0
    for path in files_in(paths):
        check_readable(path)
        for found in objects_of(path, path):
            if is_of_kubernetes(found.value):
                passed_over += 1
            else:
                suites.append(suite_of(found, limits))
    if not suites:
        raise Refused(f"{', '.join(paths)}: expected a suite, an object with `template` and `tests`; found none")
    if passed_over:
        note(f"objects of Kubernetes, which are no suites, were passed over: {passed_over}")
    return suites
