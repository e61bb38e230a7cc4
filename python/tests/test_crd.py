"""The schema of the Custom Resources, and its reader."""
import time
from collections.abc import Iterator

import pytest

from argo_judge.crd.reader import Keyword, faults_of
from argo_judge.crd.schema import INT_OR_STRING, IS_OPEN, schema_of_kind, written_schema
from argo_judge.jsontext import NumberText
from argo_judge.lint.subjects import KINDS
from argo_judge.objects import Json, Object
from argo_judge.providers import NAMES

# What the reader knows; another keyword would be passed over.
KEYWORDS = {"$ref", "type", "properties", "required", "enum", "items", "additionalProperties", INT_OR_STRING, IS_OPEN}


def schemas_in(written: Object) -> Iterator[Object]:
    """A written schema, and those in it."""
    yield written
    inner = [*written.get("properties", {}).values()]
    inner += [written[name] for name in ("items", "additionalProperties") if name in written]
    for one in inner:
        yield from schemas_in(one)


def metric_with(provider: Json) -> Object:
    """A template whose metric has a provider."""
    return {"kind": "AnalysisTemplate", "spec": {"metrics": [{"name": "m", "provider": provider}]}}


# ---- the schema


def test_the_schema_has_known_keywords_alone() -> None:
    for definition in written_schema()["$defs"].values():
        for written in schemas_in(definition):
            assert set(written) <= KEYWORDS
            assert "$ref" not in written or set(written) == {"$ref"}
            assert set(written.get("required", ())) <= set(written.get("properties", ()))


def test_each_kind_has_a_schema_and_each_provider_its_fields() -> None:
    for kind in KINDS:
        fields = schema_of_kind(kind).fields["spec"].fields
        metric = fields["metrics"].items
        assert metric is not None and tuple(metric.fields["provider"].fields) == NAMES
        assert ("terminate" in fields) is (kind == "AnalysisRun")


# ---- the reader


@pytest.mark.parametrize(
    ("provider", "found"),
    [
        ({"web": {"url": "u", "jsonpath": "x"}}, [("/web", Keyword.PROPERTIES)]),
        ({"web": {"url": None}}, [("/web", Keyword.REQUIRED)]),
        ({"web": {"url": 7}}, [("/web/url", Keyword.TYPE)]),
        ({"web": {"url": NumberText("0.5")}}, [("/web/url", Keyword.TYPE)]),
        ({"web": {"url": "u", "method": "get"}}, [("/web/method", Keyword.ENUM)]),
        ({"web": {"url": "u", "method": None, "jsonBody": [1, {"a": 2}]}}, []),
        ({"web": {"url": "u", "headers": [{"key": "k"}, 7]}}, [("/0", Keyword.REQUIRED), ("/1", Keyword.TYPE)]),
        ({"datadog": {"queries": {"a": "q", "b": 1, "c": None}}}, [("/queries/b", Keyword.TYPE)]),
        ({"datadog": {"secretRef": {"namespaced": "true"}}}, [("/namespaced", Keyword.TYPE)]),
        ({"cloudWatch": {"metricDataQueries": [{"period": 300}, {"period": "5m"}]}}, []),
        ({"cloudWatch": {"metricDataQueries": [{"period": True}]}}, [("/period", Keyword.TYPE)]),
        ({"job": {"spec": {"any": [{}]}, "metadata": {"any": 7}}}, []),
        ({"newRelic": {"query": "q", "timeout": True}}, [("/timeout", Keyword.TYPE)]),
        ({"job": {"spec": []}}, [("/job/spec", Keyword.TYPE)]),
        ({"plugin": {"acme/any": {"deep": [None]}}}, []),
        ({"prometheus": {"authentication": {"sigv4": {"regoin": "x"}}}}, [("/sigv4", Keyword.PROPERTIES)]),
        ([], [("/provider", Keyword.TYPE)]),
    ],
)
def test_faults(provider: Json, found: list[tuple[str, Keyword]]) -> None:
    faults = list(faults_of(metric_with(provider), schema_of_kind("AnalysisTemplate")))
    assert [fault.keyword for fault in faults] == [keyword for _, keyword in found]
    assert all(fault.place.pointer.endswith(end) for fault, (end, _) in zip(faults, found))


def test_an_item_that_is_null_is_no_absent_field() -> None:
    made = {"kind": "AnalysisRun", "spec": {"metrics": [None], "ttlStrategy": None}}
    (fault,) = faults_of(made, schema_of_kind("AnalysisRun"))
    assert (fault.place.pointer, fault.place.name) == ("/spec/metrics/0", "metrics[0]")


def test_names_of_values_are_short() -> None:
    queries: Object = {"q" * 10_000: 7}
    (fault,) = faults_of(metric_with({"datadog": {"queries": queries}}), schema_of_kind("AnalysisTemplate"))
    assert len(fault.place.name) < 100


def test_a_template_is_looked_at_no_deeper_than_the_schema_is() -> None:
    deep: Json = []
    for _ in range(100_000):
        deep = [deep]
    made = metric_with({"plugin": {"p": deep}, "web": {"url": deep}, "job": {"spec": {"a": deep}}})
    (fault,) = faults_of(made, schema_of_kind("AnalysisTemplate"))
    assert fault.keyword is Keyword.TYPE


def test_many_faults_take_little_time() -> None:
    begun = time.monotonic()
    unknown: Object = {f"x{number}": 1 for number in range(20_000)}
    web = {**unknown, "url": "u", "headers": [{"name": "x"}] * 20_000}
    assert len(list(faults_of(metric_with({"web": web}), schema_of_kind("AnalysisTemplate")))) == 80_000
    assert time.monotonic() - begun < 20
