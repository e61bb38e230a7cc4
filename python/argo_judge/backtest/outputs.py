"""What a backtest writes, in the form that is asked for."""
from argo_judge.backtest.outcomes import Result
from argo_judge.backtest.plots import svg_of
from argo_judge.backtest.tables import object_of, text_of
from argo_judge.files import write_json, write_text


def write_result(result: Result, output: str) -> None:
    """Writes a result in a form."""
    if output == "json":
        write_json(object_of(result))
    elif output == "svg" and result.sweep is not None:
        write_text(svg_of(result, result.sweep))
    else:
        write_text(text_of(result))
