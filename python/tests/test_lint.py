"""Rules of lint that need no engine: limits, durations, references, conversions, and the values that are tried."""

import pytest

from argo_judge.jsontext import NumberText
from argo_judge.lint.answers import divisions, scales
from argo_judge.lint.arguments import unknown_arguments
from argo_judge.lint.fields import close_to, refused_values, unknown_fields
from argo_judge.lint.limits import is_duration, refused_by_controller, unreachable_limits
from argo_judge.lint.references import bound, pieces, referred_in
from argo_judge.lint.subjects import Subject
from argo_judge.lint.tokens import conversions_in, guards_of_parts, without_conversions
from argo_judge.lint.values import MOST_VALUES, decimal_text, size_of, value_text, values_of
from argo_judge.literals import number_of_literal
from argo_judge.manifests import Found
from argo_judge.objects import Json, Object
from argo_judge.yamltext import UNKNOWN


def subject_of(*metrics: Object) -> Subject:
    """A template with metrics that lack nothing but what they give."""
    usual: Object = {"name": "m", "interval": "1m", "provider": {"web": {}}}
    template: Object = {"kind": "AnalysisTemplate", "spec": {"metrics": [{**usual, **metric} for metric in metrics]}}
    return Subject(Found(template, "file", "", UNKNOWN), {}, {})


@pytest.mark.parametrize("text", ["0", "1s", "1h30m", "1.5h", ".5s", "-1m", "+1m", "1us", "1µs", "1μs", "1ns2ms"])
def test_durations(text: str) -> None:
    assert is_duration(text)


@pytest.mark.parametrize("text", ["", "1", "s", "1 s", "1d", "1h30", "1m\n", "--1m", "1e3s", "٣s", "1s" * 64, "."])
def test_no_durations(text: str) -> None:
    assert not is_duration(text)


@pytest.mark.parametrize(
    ("metric", "pointers"),
    [
        ({"count": 3, "failureLimit": 3}, []),
        ({"count": 3, "failureLimit": 4}, ["/spec/metrics/0/failureLimit"]),
        ({"count": "3", "inconclusiveLimit": "4"}, ["/spec/metrics/0/inconclusiveLimit"]),
        ({"failureLimit": -1}, ["/spec/metrics/0/failureLimit"]),
        ({"count": 2, "interval": None}, ["/spec/metrics/0/count"]),
        ({"interval": "soon"}, ["/spec/metrics/0/interval"]),
        ({"initialDelay": "{{args.unknown}}"}, []),
        ({"provider": {}}, ["/spec/metrics/0"]),
        ({"provider": {"web": {}, "job": {}}}, ["/spec/metrics/0/provider"]),
        ({"provider": 7}, ["/spec/metrics/0"]),
    ],
)
def test_what_the_controller_refuses(metric: Object, pointers: list[str]) -> None:
    assert [one.pointer for one in refused_by_controller(subject_of(metric))] == pointers


def test_equal_names_are_refused_once_each() -> None:
    found = list(refused_by_controller(subject_of({}, {}, {"name": "other"}, {})))
    assert [one.pointer for one in found] == ["/spec/metrics/1/name", "/spec/metrics/3/name"]


@pytest.mark.parametrize(
    ("metric", "times"),
    [
        ({"count": 3, "failureLimit": 2}, 0),
        ({"count": 3, "failureLimit": 3}, 1),
        ({"interval": None, "failureLimit": 1}, 1),
    ],
)
def test_limits_out_of_reach(metric: Object, times: int) -> None:
    assert len(list(unreachable_limits(subject_of(metric)))) == times


def test_unknown_fields_are_guessed() -> None:
    (found,) = unknown_fields(subject_of({"succesCondition": "true"}))
    assert found.mend == 'did you mean "successCondition"?'
    assert close_to("x" * 10_000, ["successCondition"]) is None


@pytest.mark.parametrize(
    ("metric", "message", "mend"),
    [
        ({"provider": {"web": {"jsonpath": 1}}}, 'web has no field "jsonpath", so', 'did you mean "jsonPath"?'),
        ({"provider": {"web": {"interval": 1}}}, 'web has no field "interval", so', "it is a field of a metric"),
        ({"query": "up"}, 'a metric has no field "query" in', "remove it; fields are name, interval, "),
        (
            {"query": "up", "provider": {"graphite": {}}},
            'a metric has no field "query", so',
            "it is a field of graphite",
        ),
        ({"provider": {"job": {}, "spec": {}}}, 'provider has no field "spec", so', "it is a field of job: "),
        (
            {"provider": {"prometheus": {"oauth2": {}}}},
            'prometheus has no field "oauth2"',
            "it is a field of prometheus.",
        ),
        ({"provider": {"web": {"headers": [{"name": 1}]}}}, "web.headers has no", "remove it; fields are key, value"),
        (
            {"provider": {"prometheus": {"authentication": {"sigv4": {"regoin": 1}}}}},
            'prometheus.authentication.sigv4 has no field "regoin", so it is not read',
            'did you mean "region"?',
        ),
        ({"provider": 7, "query": 1}, 'a metric has no field "query" in', "remove it"),
    ],
)
def test_unknown_fields(metric: Object, message: str, mend: str) -> None:
    (found,) = unknown_fields(subject_of({}, metric))
    assert found.message.startswith(message) and found.mend.startswith(mend)


@pytest.mark.parametrize(
    ("metric", "pointer", "message", "mend"),
    [
        ({"count": NumberText("0.5")}, "/count", "`count` is 0.5,", "write a whole number, or a text"),
        ({"interval": 60}, "/interval", "`interval` is 60,", "write a text in quotes"),
        ({"provider": {"web": {}}}, "/provider/web", "web has no `url`,", "add `url`: a text in quotes"),
        ({"provider": {"datadog": {"apiVersion": "v3"}}}, "/apiVersion", "`apiVersion` is", 'write "v1" or "v2"'),
        (
            {"provider": {"datadog": {"queries": {"a": 7}}}},
            "/queries/a",
            '`queries["a"]` is 7,',
            "write a text in quotes",
        ),
        (
            {"provider": {"newRelic": {"query": "q", "timeout": "5"}}},
            "/timeout",
            "`timeout` is",
            "write a whole number",
        ),
    ],
)
def test_refused_values(metric: Object, pointer: str, message: str, mend: str) -> None:
    (found,) = refused_values(subject_of({"provider": {"graphite": {}}, **metric}))
    assert found.pointer.endswith(pointer) and found.message.startswith(message) and found.mend == mend


def test_a_missing_provider_is_said_once() -> None:
    made = subject_of({"provider": None})
    assert list(refused_values(made)) == [] and len(list(refused_by_controller(made))) == 1


def test_a_misspelt_field_is_not_also_missing() -> None:
    made = subject_of({"provider": {"newRelic": {"Query": "q"}}})
    assert list(refused_values(made)) == []
    assert [one.mend for one in unknown_fields(made)] == ['did you mean "query"?']


def test_of_many_unknown_fields_the_first_are_looked_at() -> None:
    found = list(unknown_fields(subject_of({f"field{number}": 1 for number in range(20_000)})))
    assert len(found) == 51
    assert found[-1].message == "a metric has 19950 more fields that Argo Rollouts 1.8 doesn't know"


# ---- texts of conditions


@pytest.mark.parametrize(
    ("text", "found"),
    [("a", ["a"]), ("{{ args.a }}b", ["", "args.a", "b"]), ("{{a", None), ("a}}", ["a}}"]), ("", [""])],
)
def test_pieces(text: str, found: list[str] | None) -> None:
    assert pieces(text) == found


def test_references() -> None:
    assert referred_in("{{args.a}} {{ args.b }} {{other}}") == ["a", "b"]
    assert bound("{{args.a}}", {"a": "{{args.a}}"}) == "{{args.a}}"
    assert bound("{{args.b}}", {"a": "1"}) is None and bound("{{a}}", {"a": "1"}) is None


@pytest.mark.parametrize(
    ("condition", "without"),
    [
        ("asFloat(result) > 0.5", "(result) > 0.5"),
        ("isNaN(result[0]) || result[0] > 1", "false || result[0] > 1"),
        ("isInf(asInt(result), 1)", "false"),
        ("result.asFloat > 1", "result.asFloat > 1"),
        ('result == "asFloat(1)"', 'result == "asFloat(1)"'),
        ("isNaN(", "false"),
        ("asInt(" * 900, "asInt(" * 900),
    ],
)
def test_conversions(condition: str, without: str) -> None:
    assert without_conversions(condition) == without
    assert (conversions_in(condition) == []) is (condition == without)


def test_guards() -> None:
    assert list(guards_of_parts("default(result, 0) > isNil((result))")) == []
    assert list(guards_of_parts("default(result[0], 0) > 1")) == [("default", "result[0]")]
    assert list(guards_of_parts("isNil(")) == [("isNil", "")]


# ---- values


@pytest.mark.parametrize("number", ["0", "-0.5", "0.000001", "1000000", "-9223372036854.775808"])
def test_decimals_are_written_shortly(number: str) -> None:
    assert decimal_text(number_of_literal(number)) == number


@pytest.mark.parametrize(
    "shape",
    [
        "decimal",
        {"list": {"list": {"list": "decimal", "max": 64}, "max": 64}, "max": 64},
        {"record": {name: {"optional": "text"} for name in "abcdefghijkl"}},
        {"list": {"record": {name: "whole" for name in "abcd"}}, "max": 1000},
    ],
)
def test_values_are_few_and_small(shape: Json) -> None:
    conditions = ["result == 1 && result != 2 || a in [3, 4] and b > 5 and c < 6 and d == 7 and len(result) > 63"]
    values, _ = values_of(shape, conditions)
    assert 0 < len(values) <= MOST_VALUES
    assert max(map(size_of, values)) <= 2000


@pytest.mark.parametrize("shape", [None, 7, [], {}, {"list": "decimal"}, {"record": 1}, {"optional": {}}, "number"])
def test_no_shape_has_no_values(shape: Json) -> None:
    values, is_complete = values_of(shape, ["result > 1"])
    assert values in ([], [None]) and is_complete


def test_a_deep_shape_ends() -> None:
    shape: Json = "decimal"
    for _ in range(1000):
        shape = {"optional": shape}
    assert values_of(shape, []) in (([], True), ([None], True))


def test_value_text() -> None:
    assert value_text([NumberText("0.5"), "0.5", None, True, 1]) == '[0.5, "0.5", null, true, .. 5 items]'
    assert value_text({"a\n": {"b": []}}) == '{"a\\n": {"b": []}}'


def test_what_is_no_argument_cannot_be_resolved() -> None:
    provider = {
        "web": {"url": "http://{{args.host}}/{{ inputs.parameters.x }}", "body": "{{.status.phase}}{{.status.phase}}"}
    }
    found = [one.message for one in unknown_arguments(subject_of({"provider": provider}))]
    assert [message.partition("`")[2].partition("`")[0] for message in found] == [
        "{{args.host}}",
        "{{inputs.parameters.x}}",
        "{{.status.phase}}",
    ]


def test_of_many_refused_items_the_first_are_looked_at() -> None:
    found = list(refused_values(subject_of({"provider": {"web": {"url": "x", "headers": [0] * 20_000}}})))
    assert len(found) == 51
    assert found[-1].message == "there are 19950 more values of web.headers that the API server refuses"


@pytest.mark.parametrize(
    ("query", "condition", "found"),
    [
        ("a / b", "result[0] > 95", 1),
        ("a / b", "result[0] > 0.95", 0),
        ("100 * a / b", "result[0] > 95", 0),
        ("a / b > 100", "result[0] > 95", 1),
        ("a / b * 100", "result[0] > 95", 0),
        ("a / b * 100", "result[0] > 0.95", 1),
        ("a / b * 1000", "result[0] > 0.95", 0),
        ('a{path="/x"} * 100', "result[0] > 0.95", 0),
        ("a / b", "result[0] > 0", 0),
        ("a / b", "len(result) > 5", 0),
    ],
)
def test_scales(query: str, condition: str, found: int) -> None:
    metric = {"provider": {"prometheus": {"query": query}}, "successCondition": condition}
    assert len(list(scales(subject_of(metric)))) == found


def test_long_queries_take_no_longer() -> None:
    queries = [piece * 100_000 for piece in ('"', "{", "\\'", "* ", "a / ")]
    metrics = [{"provider": {"prometheus": {"query": query}}, "failureCondition": "result > 1"} for query in queries]
    assert len(list(scales(subject_of(*metrics)))) + len(list(divisions(subject_of(*metrics)))) <= 10
