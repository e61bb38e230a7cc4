"""Finds mistakes in AnalysisTemplates before a release is judged by them.

    recipes/lint template.yaml            one file
    recipes/lint --strict deploy/         each template of a folder; warnings fail, too
    kubectl get analysistemplate -A -o json | recipes/lint -

Files and folders have JSON or YAML: templates, cluster templates and analysis runs, alone, one after another or in
Lists. Other objects are passed over. What a condition does is asked of argo_judge, on values of the metric's shape:
that of --shapes, of the annotation argo-judge/shapes, or what the provider usually answers. docs/use/lint.md has each
rule.

The status is 0, 1 where there is an error (with --strict also a warning), or 2 where the input is refused: also where
one of several files has no JSON or YAML, unless --skip-unreadable is given. The annotation argo-judge/lint-ignore of a
template names rules, with commas between them, whose findings are left out, and so are those of --baseline.
"""
from argparse import ArgumentParser, Namespace
from collections.abc import Callable, Sequence

from argo_judge.errors import GOOD, REFUSED, VERDICT, Refused
from argo_judge.files import read_json, write_file, write_text
from argo_judge.lint.exceptions import baseline_in, baseline_text, without_exceptions
from argo_judge.lint.findings import Severity, chosen_rules
from argo_judge.lint.outputs import STANDARD_INPUT, Located, as_github, as_json, as_text
from argo_judge.lint.rules import findings_of
from argo_judge.lint.sarif import as_sarif
from argo_judge.lint.subjects import KINDS, Subject
from argo_judge.manifests import Found, files_in, objects_of, of_kinds
from argo_judge.notes import note
from argo_judge.objects import listed, shown
from argo_judge.options import add_arg_flag, add_engine_flag, add_shapes_flag
from argo_judge.shapes import shapes_in

OUTPUTS = {"text": as_text, "json": as_json, "sarif": as_sarif, "github": as_github}


def given_arguments(words: Sequence[str]) -> dict[str, str]:
    """The arguments of a command line."""
    for word in words:
        if "=" not in word:
            raise Refused(f"--arg {shown(word)}: expected NAME=VALUE")
    return dict(word.split("=", 1) for word in words)


def subjects_of(words: Namespace, objects: Sequence[Found], where: str) -> list[Subject]:
    """The templates among objects; others are passed over in words."""
    given = given_arguments(words.arg)
    shapes = shapes_in(read_json(words.shapes, "shapes"), "shapes") if words.shapes else {}
    subjects = [Subject(found, given, shapes) for found in of_kinds(objects, KINDS, "template")]
    if not subjects:
        raise Refused(f"{where}: found no template; expected one of kind {', '.join(KINDS)}")
    names = sorted({name for subject in subjects for _, name in subject.args})
    for name in given:
        if name not in names:
            raise Refused(f"--arg {shown(name)}: expected an argument of a template: {listed(names)}")
    return subjects


def add_flags(parser: ArgumentParser) -> None:
    """What the plugin takes, too."""
    flag = parser.add_argument
    flag("-o", "--output", choices=OUTPUTS, default="text", help="lines (text), or json, sarif or github")
    flag("--strict", action="store_true", help="end with status 1 for warnings, too")
    for name, does in (("--rule", "apply this rule alone"), ("--without", "leave this rule out")):
        flag(name, action="append", default=[], metavar="RULE", help=f"{does}; may be given several times")
    flag("--baseline", metavar="FILE", help="leave out the findings that this file has")
    flag("--write-baseline", metavar="FILE", help="write the findings to this file, for --baseline, and end with 0")
    add_shapes_flag(parser)
    add_arg_flag(parser)
    add_engine_flag(parser)


def lint(words: Namespace, read_objects: Callable[[], list[Found]], where: str) -> int:
    """Writes the findings of the templates among objects, which are read once the words are checked."""
    chosen = chosen_rules(words.rule, words.without)
    baseline = baseline_in(words.baseline) if words.baseline else ()
    subjects = subjects_of(words, read_objects(), where)
    found = [
        Located(subject, finding) for subject in subjects for finding in findings_of(words.engine, subject, chosen)
    ]
    located = without_exceptions(found, baseline)
    if words.write_baseline:
        write_file(words.write_baseline, baseline_text(located))
        return GOOD
    write_text(OUTPUTS[words.output](located, subjects))
    failing = (Severity.ERROR, Severity.WARNING) if words.strict else (Severity.ERROR,)
    return VERDICT if any(one.finding.severity in failing for one in located) else GOOD


def add_arguments(parser: ArgumentParser) -> None:
    """What the command takes."""
    add_flags(parser)
    parser.add_argument("--skip-unreadable", action="store_true", help="pass over files that have no JSON or YAML")
    parser.add_argument("paths", nargs="+", metavar="TEMPLATE", help="a file, a folder, or - for standard input")


def readable_in(paths: Sequence[str], faults: list[Refused]) -> list[Found]:
    """The objects of files and folders; what can't be read is added to the faults."""
    found: list[Found] = []
    for path in files_in(paths):
        try:
            found += objects_of(path, path)
        except Refused as fault:
            faults.append(fault)
    return found


def main(words: Namespace) -> int:
    """Writes the findings of the templates in files and folders. One that can't be read doesn't stop the others."""
    places = [STANDARD_INPUT if path == "-" else path for path in words.paths]
    faults: list[Refused] = []

    def read() -> list[Found]:
        """The objects; where there are none, why the first file can't be read."""
        found = readable_in(words.paths, faults)
        if faults and not found:
            raise faults[0]
        for fault in faults:
            note(f"{fault}; it is passed over")
        return found

    status = lint(words, read, ", ".join(places))
    return REFUSED if faults and not words.skip_unreadable else status
