"""Stored answers of providers as values: known forms, and odd ones."""
import pytest

from argo_judge.notes import kept_notes
from argo_judge.providers import answered


def value_of(provider: str, text: str) -> tuple[object, int]:
    """The value of a provider's answer, and how many lines are noted of it."""
    with kept_notes() as noted:
        value = answered({"name": "m", "provider": {provider: {}}}, text)
    return value, len(noted)


@pytest.mark.parametrize(
    "text", ["[]", '[{"pointlist": []}]', "[{}]", '{"columns": []}', '{"columns": [{"values": []}]}']
)
def test_datadog_without_values_is_nil(text: str) -> None:
    assert value_of("datadog", text) == (None, 0)


@pytest.mark.parametrize("text", ['[{"pointlist": [[1, 2]]}]', '{"columns": [{"values": [1]}]}', "{}", "[0]"])
def test_datadog_of_another_form_is_taken_with_a_note(text: str) -> None:
    assert value_of("datadog", text)[1] == 1


@pytest.mark.parametrize(
    ("text", "value"),
    [
        ("[0.99 <nil>]", ["0.99", None]),
        ("[true false 1e-07]", [True, False, "1e-07"]),
        ("[NaN +Inf -Inf]", ["NaN", "+Inf", "-Inf"]),
        ("[1]", [1]),
        ("[]", []),
    ],
)
def test_influxdb_prints_lists_as_go_does(text: str, value: object) -> None:
    assert value_of("influxdb", text) == (value, 0)


@pytest.mark.parametrize("text", ["[map[a:1]]", "[0.9  0.8]", "[a b]", "map[]", "["])
def test_influxdb_of_another_form_is_a_text_with_a_note(text: str) -> None:
    assert value_of("influxdb", text) == (text, 1)


@pytest.mark.parametrize("text", ["plain", "NaN of what", "\x1b[31m"])
def test_a_text_of_a_provider_of_numbers_is_noted(text: str) -> None:
    assert value_of("prometheus", text) == (text, 1)


@pytest.mark.parametrize(
    ("text", "value"), [("NaN", "NaN"), ("+Inf", "+Inf"), ("1", 1), ("-0.5", "-0.5"), ("[0.5]", ["0.5"])]
)
def test_numbers_of_prometheus(text: str, value: object) -> None:
    assert value_of("prometheus", text) == (value, 0)


def test_a_provider_of_texts_is_not_noted() -> None:
    assert value_of("web", "healthy") == ("healthy", 0)
    assert value_of("plugin", "[a b]") == ("[a b]", 0)


def test_a_metric_without_provider() -> None:
    with kept_notes() as noted:
        assert answered({"name": "m"}, "[1, 2]") == [1, 2]
        assert answered(None, "text") == "text"
    assert noted == []
