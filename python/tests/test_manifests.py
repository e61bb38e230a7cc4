"""Objects of files: Lists, lines, folders, and YAML by kubectl's rules."""
import pathlib
import tracemalloc

import pytest

from argo_judge.errors import Refused
from argo_judge.jsontext import NumberText
from argo_judge.manifests import each_found_in, files_in, is_json, objects_of, of_kinds
from argo_judge.notes import kept_notes

LISTS = """\
apiVersion: v1
kind: List
items:
- kind: AnalysisTemplate
  metadata: {name: a}
  spec:
    metrics:
    - name: m
- kind: AnalysisTemplate
  metadata:
    name: b
---
---
kind: AnalysisTemplateList
items:
- kind: AnalysisTemplate
  metadata: {name: c}
---
kind: ConfigMap
"""


def put(folder: pathlib.Path, name: str, text: str) -> str:
    """Writes a file, and says its path."""
    (folder / name).parent.mkdir(parents=True, exist_ok=True)
    (folder / name).write_text(text, encoding="utf-8")
    return str(folder / name)


def value_in(folder: pathlib.Path, text: str) -> object:
    """The value of one YAML document."""
    return objects_of(put(folder, "one.yaml", text), "one.yaml")[0].value


def test_lists_are_merged_with_lines_of_their_own(tmp_path: pathlib.Path) -> None:
    pytest.importorskip("yaml")
    found = objects_of(put(tmp_path, "lists.yaml", LISTS), "lists.yaml")
    assert [one.value["kind"] for one in found] == ["AnalysisTemplate"] * 3 + ["ConfigMap"]
    assert [one.pointer for one in found] == ["/items/0", "/items/1", "/items/0", ""]
    assert [one.line_of("/metadata/name") for one in found[:3]] == [5, 11, 17]
    assert found[0].line_of("/spec/metrics/0/name") == 8
    assert found[0].line_of("/spec/metrics/0/provider/web") == 8
    assert found[3].line_of("/nothing/there") == 19


def test_lines_of_ten_items_and_more(tmp_path: pathlib.Path) -> None:
    pytest.importorskip("yaml")
    text = "kind: List\nitems:\n" + "".join(f"- name: n{number}\n" for number in range(12))
    found = objects_of(put(tmp_path, "many.yaml", text), "many.yaml")
    assert [one.line_of("/name") for one in found] == list(range(3, 15))


def test_json_has_no_lines(tmp_path: pathlib.Path) -> None:
    found = objects_of(put(tmp_path, "one.json", '{"kind": "List", "items": [{"a": 1}, 2]}{"b": 3}'), "one.json")
    assert [(one.value, one.pointer, one.line_of("/a")) for one in found] == [
        ({"a": 1}, "/items/0", None),
        (2, "/items/1", None),
        ({"b": 3}, "", None),
    ]


@pytest.mark.parametrize(
    ("scalar", "value"),
    [
        ("~", None),
        ("yes", True),
        ("N", False),
        ("0x1F", 31),
        ("0b11", 3),
        ("017", 15),
        ("0o17", 15),
        ("-0x10", -16),
        ("1_000", 1000),
        ("0.10", "0.10"),
        ("1.", "1"),
        (".5", "0.5"),
        ("1e3", "1e3"),
        ("+0.5", "0.5"),
        ("1:30", "1:30"),
        ("2001-01-01", "2001-01-01"),
        ("'0.5'", "0.5"),
        ('"yes"', "yes"),
        ("!!str 5", "5"),
        ("!!float 5", 5),
    ],
)
def test_scalars(tmp_path: pathlib.Path, scalar: str, value: object) -> None:
    pytest.importorskip("yaml")
    assert value_in(tmp_path, f"a: {scalar}\n") == {"a": value}


def test_fractions_are_no_texts(tmp_path: pathlib.Path) -> None:
    pytest.importorskip("yaml")
    value = value_in(tmp_path, "[0.95, '0.95']\n")
    assert isinstance(value, list) and [isinstance(item, NumberText) for item in value] == [True, False]


@pytest.mark.parametrize(
    ("text", "line"),
    [
        ("a: 1\nb: 2\na: 3\n", 'one.yaml, line 3: "a" is there twice'),
        ("a: 1\nb: .inf\n", "one.yaml, line 2: found .inf; expected a finite number, or a text in quotes"),
        ("? [1]\n: 2\n", "one.yaml, line 1: expected a name, and no value as a name"),
        ("c:\n  <<: 1\n", "one.yaml, line 2: expected an object that is merged (`<<`), or a list of them"),
        ("c:\n  <<: [{a: 1}, 2]\n", "one.yaml, line 2: expected an object that is merged (`<<`), or a list of them"),
        (
            "a: !python/object:os.system x\n",
            'one.yaml, line 1: found the tag "!python/object:os.system"; expected none',
        ),
        ("a: [1\nb: 2\n", "one.yaml: expected YAML; the fault is on line 2"),
        ("a: " + "1" * 400 + "\n", "one.yaml: found a whole number of 400 digits; expected at most 309"),
    ],
)
def test_yaml_is_refused(tmp_path: pathlib.Path, text: str, line: str) -> None:
    pytest.importorskip("yaml")
    with pytest.raises(Refused) as refused:
        value_in(tmp_path, text)
    assert str(refused.value) == line


def test_objects_are_merged_as_kubectl_merges_them(tmp_path: pathlib.Path) -> None:
    pytest.importorskip("yaml")
    text = "x: &x {a: 1, b: 2}\ny: &y {b: 3, c: 4}\none: {<<: *x, b: 5}\nboth:\n  <<: [*x, *y]\n  d: 6\n"
    found = objects_of(put(tmp_path, "one.yaml", text), "one.yaml")[0]
    assert found.value["one"] == {"a": 1, "b": 5}
    assert found.value["both"] == {"a": 1, "b": 2, "c": 4, "d": 6}
    assert [found.line_of(f"/both/{name}") for name in "acd"] == [1, 2, 6]


def test_aliases_of_aliases_are_bounded(tmp_path: pathlib.Path) -> None:
    pytest.importorskip("yaml")
    lines = ["a0: &a0 [1, 1, 1, 1, 1, 1, 1, 1, 1, 1]"]
    lines += [f"a{number}: &a{number} [{', '.join([f'*a{number - 1}'] * 10)}]" for number in range(1, 9)]
    with pytest.raises(Refused, match="a document of more than 1000000 values, those of its aliases among them"):
        value_in(tmp_path, "\n".join(lines))


@pytest.mark.parametrize("piece", ["[", "{a: ", "- ", "a: &a [*a] #"])
def test_values_too_deep_are_refused(tmp_path: pathlib.Path, piece: str) -> None:
    pytest.importorskip("yaml")
    with pytest.raises(Refused, match="^one.yaml, line 1: "):
        value_in(tmp_path, piece * 40_000)


def test_values_may_be_as_deep_as_the_engine_reads(tmp_path: pathlib.Path) -> None:
    pytest.importorskip("yaml")
    assert str(value_in(tmp_path, "[" * 126 + "a" + "]" * 126)).count("[") == 126


def test_long_names_are_kept_once(tmp_path: pathlib.Path) -> None:
    """The lines of values in values with long names take no more memory than the text, about."""
    pytest.importorskip("yaml")
    name = "k" * 1000
    text = (
        "".join("  " * level + f"{name}{level}:\n" for level in range(100)) + "  " * 100 + "[" + "a, " * 20_000 + "a]\n"
    )
    tracemalloc.start()
    value_in(tmp_path, text)
    _, most = tracemalloc.get_traced_memory()
    tracemalloc.stop()
    assert most < 30_000_000


def test_files_of_folders(tmp_path: pathlib.Path) -> None:
    for name in ("b.json", "a/z.yaml", "a/y.yml", ".hidden/x.json", ".x.json", "c.txt"):
        put(tmp_path, name, "{}")
    names = [path.removeprefix(f"{tmp_path}/") for path in files_in([str(tmp_path), "named.txt"])]
    assert names == ["b.json", "a/y.yml", "a/z.yaml", "named.txt"]


@pytest.mark.parametrize(
    ("path", "text", "answer"),
    [("a.json", "x: 1", True), ("a.yaml", "{}", False), ("-", " [1]", True), ("-", "-5", True), ("-", "a: 1", False)],
)
def test_is_json(path: str, text: str, answer: bool) -> None:
    assert is_json(path, text) is answer


def test_other_kinds_are_counted(tmp_path: pathlib.Path) -> None:
    path = put(tmp_path, "some.json", '{"kind": "A"}{"kind": "B\\n"}{"kind": "B\\n"}7')
    with kept_notes() as noted:
        found = of_kinds(each_found_in([path]), ("A",), "template")
    assert len(found) == 1
    assert noted == ['objects that are no template are passed over: "B\\n" (2), "none" (1)']


def test_objects_one_a_line(tmp_path: pathlib.Path) -> None:
    put(tmp_path, "b.jsonl", '{"kind": "A"}\n\n{"kind": "AList", "items": [{"kind": "B"}]}\n')
    put(tmp_path, "a.json", '{"kind": "C"}')
    found = list(each_found_in([str(tmp_path)]))
    assert [one.value["kind"] for one in found] == ["C", "A", "B"]
    assert list(files_in([str(tmp_path)])) == [str(tmp_path / "a.json")]


def test_a_line_that_is_no_object_is_refused(tmp_path: pathlib.Path) -> None:
    path = put(tmp_path, "b.jsonl", '{"kind": "A"}\n{')
    objects = each_found_in([path])
    assert next(objects).value == {"kind": "A"}
    with pytest.raises(Refused, match="b.jsonl, line 2: expected one JSON value"):
        next(objects)
