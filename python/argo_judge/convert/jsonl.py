"""Makes a document of argo_judge of a template and one provider's answers, one JSON value a line.

    recipes/from-jsonl --template template.json --shapes shapes.json --run canary-1 --metric success-rate answers.jsonl

Fractions become decimal texts. Without --metric the template must have one metric; without --shapes it must have
the annotation argo-judge/shapes. A line of null is a value, too. An input without a value is refused (status 2), unless
--allow-empty asks for it. With --add-to the answers are added to a document that is there, of another metric as a rule:
they come after its measurements, since they have no times.

    recipes/from-jsonl --add-to document.json --metric latency latency.jsonl
"""
from argparse import ArgumentParser, Namespace

from argo_judge.convert.answers import add_flags, with_answers
from argo_judge.differences import note_texts
from argo_judge.files import read_text, write_json
from argo_judge.jsontext import parsed_lines
from argo_judge.objects import Json, Object
from argo_judge.templates import chosen_metric


def add_arguments(parser: ArgumentParser) -> None:
    """What the command takes."""
    add_flags(parser)


def main(words: Namespace) -> None:
    """Writes the document of a metric's answers."""
    values: list[Json] = []

    def answers_of() -> list[Object]:
        """A value for each line."""
        values.extend(parsed_lines(read_text(words.answers, "answers"), "answers"))
        return [{"value": value} for value in values]

    made = with_answers(words, answers_of)
    metric = chosen_metric(made["manifest"], words.metric)
    note_texts(metric, values, made["shapes"].get(metric))
    write_json(made)
