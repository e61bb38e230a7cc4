"""Names on a terminal."""
import pytest

from argo_judge.clear import clear, escaped, with_clear_names
from argo_judge.objects import Object


@pytest.mark.parametrize(
    ("name", "shown"),
    [
        ("success-rate", "success-rate"),
        ("größe 1", "größe 1"),
        ("a\nrun b Successful", '"a\\nrun b Successful"'),
        ("\x1b[2J", '"\\u001b[2J"'),
        ("\u202ea", '"\\u202ea"'),
        ("\x85", '"\\u0085"'),
        ("\U000e0041", '"\\udb40\\udc41"'),
        ('"a"', '"\\"a\\""'),
        ("", '""'),
    ],
)
def test_clear(name: str, shown: str) -> None:
    assert clear(name) == shown


def test_json_is_escaped_where_nobody_sees_it() -> None:
    assert escaped('{\n  "a": "é\u200b"\n}') == '{\n  "a": "é\\u200b"\n}'


def test_names_of_a_document() -> None:
    document: Object = {
        "manifest": {"kind": "k", "spec": {"metrics": [{"name": "a\n"}], "dryRun": [{"metricName": "a\n"}]}},
        "shapes": {"a\n": "bool"},
        "runs": [{"name": "\x1b"}],
        "measurements": [{"run": "\x1b", "metric": "a\n", "value": True}, {"run": "\x1b", "stop": True}],
    }
    assert with_clear_names(document) == {
        "manifest": {"kind": "k", "spec": {"metrics": [{"name": '"a\\n"'}], "dryRun": [{"metricName": '"a\\n"'}]}},
        "shapes": {'"a\\n"': "bool"},
        "runs": [{"name": '"\\u001b"'}],
        "measurements": [
            {"run": '"\\u001b"', "metric": '"a\\n"', "value": True},
            {"run": '"\\u001b"', "stop": True},
        ],
    }
