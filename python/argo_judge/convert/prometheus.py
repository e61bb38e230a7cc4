"""Makes a document of argo_judge of a template and answers of Prometheus' HTTP API.

    curl -sG "$PROMETHEUS/api/v1/query" --data-urlencode "query=$QUERY" |
        recipes/from-prometheus --template template.json --shapes shapes.json

The input is one answer of /api/v1/query or /api/v1/query_range, or several one after another. An instant vector is
one measurement, the list of its series' values, as Argo Rollouts takes it; a scalar or a string is one value. A range
is a measurement for each of its times, of the values that its series have then: what instant queries at these times
would have answered; with --flat it is one measurement of all values, series by series. Sample values are texts already;
Prometheus' NaN and infinities stay as they are written.

An answer that is an error is an error of the provider; its message, and the warnings of any answer, are written
to standard error. An input without an answer, as of a Prometheus that is down, or of ranges without series alone, is
refused with status 2, unless --allow-empty asks for it. With --add-to the answers are added to a document that is
there, of another metric as a rule, in the order of their times where both sides have some:

    recipes/from-prometheus --add-to document.json --metric error-rate answers.json
"""
from argparse import ArgumentParser, Namespace

from argo_judge.convert.answers import add_flags, with_answers
from argo_judge.convert.samples import answers_of
from argo_judge.files import read_text, write_json
from argo_judge.jsontext import parsed_all
from argo_judge.notes import note
from argo_judge.objects import Object


def add_arguments(parser: ArgumentParser) -> None:
    """What the command takes."""
    add_flags(parser)
    parser.add_argument("--flat", action="store_true", help="a range is one measurement of all its values")


def main(words: Namespace) -> None:
    """Writes the document of Prometheus' answers."""
    notes: list[str] = []

    def measured() -> list[Object]:
        """What all answers measured; what is noted of them waits until they are written."""
        answers = enumerate(parsed_all(read_text(words.answers, "input"), "input"), 1)
        return [one for number, answer in answers for one in answers_of(answer, number, words.flat, notes)]

    write_json(with_answers(words, measured))
    for line in notes:
        note(line)
