"""A plot of how many runs each value of an argument would have stopped, as SVG."""
from collections.abc import Iterator, Sequence
from xml.sax.saxutils import escape

from argo_judge.backtest.outcomes import Result
from argo_judge.backtest.sweeps import Sweep
from argo_judge.xmltext import xml_text

WIDTH, HEIGHT = 640, 360
LEFT, RIGHT, TOP, BOTTOM = 56, 16, 40, 56
MOST_LABELS = 10
SERIES = (("stopped", "#c0392b"), ("inconclusive", "#d68910"), ("undecided", "#7f8c8d"))


def text(x: float, y: float, words: str, anchor: str = "middle", size: int = 12) -> str:
    """Words at a place."""
    return f'<text x="{x:.1f}" y="{y:.1f}" text-anchor="{anchor}" font-size="{size}">{escape(xml_text(words))}</text>'


def across(place: int, times: int) -> float:
    """Where a value is from left to right."""
    return LEFT + (WIDTH - LEFT - RIGHT) * (place / (times - 1) if times > 1 else 0.5)


def down(number: int, most: int) -> float:
    """Where a number of runs is from top to bottom."""
    return TOP + (HEIGHT - TOP - BOTTOM) * (1 - number / most)


def grid(most: int) -> Iterator[str]:
    """A line and a label for some numbers of runs."""
    step = max(1, -(-most // 5))
    for number in range(0, most + 1, step):
        y = down(number, most)
        yield f'<line x1="{LEFT}" y1="{y:.1f}" x2="{WIDTH - RIGHT}" y2="{y:.1f}" stroke="#dddddd"/>'
        yield text(LEFT - 8, y + 4, str(number), "end")


def labels(values: Sequence[str]) -> Iterator[str]:
    """The values below the plot, of which some are left out where there are many."""
    for place in range(0, len(values), max(1, -(-len(values) // MOST_LABELS))):
        yield text(across(place, len(values)), HEIGHT - BOTTOM + 20, values[place])


def curve(numbers: Sequence[int], most: int, name: str, colour: str) -> Iterator[str]:
    """A line through points, and the points."""
    points = [(across(place, len(numbers)), down(number, most)) for place, number in enumerate(numbers)]
    line = " ".join(f"{x:.1f},{y:.1f}" for x, y in points)
    yield f'<polyline points="{line}" fill="none" stroke="{colour}" stroke-width="2"><title>{name}</title></polyline>'
    for x, y in points:
        yield f'<circle cx="{x:.1f}" cy="{y:.1f}" r="3" fill="{colour}"/>'


def legend(drawn: Sequence[tuple[str, str]]) -> Iterator[str]:
    """What each curve is."""
    for place, (name, colour) in enumerate(drawn):
        x = LEFT + 110 * place
        yield f'<rect x="{x}" y="12" width="12" height="12" fill="{colour}"/>'
        yield text(x + 18, 22, name, "start")


def svg_of(result: Result, sweep: Sweep) -> str:
    """Stopped runs are always drawn, and the other curves where they aren't 0 throughout."""
    most = max(1, result.judged)
    values = [value for value, _ in result.sums]
    numbers = {name: [getattr(sums, name) for _, sums in result.sums] for name, _ in SERIES}
    drawn = [(name, colour) for name, colour in SERIES if name == "stopped" or any(numbers[name])]
    parts = [*grid(most), *labels(values)]
    for name, colour in reversed(drawn):  # the last one is in front
        parts.extend(curve(numbers[name], most, name, colour))
    title = f"{sweep.argument}, of {result.judged} runs"
    parts += [*legend(drawn), text(LEFT + (WIDTH - LEFT - RIGHT) / 2, HEIGHT - 12, title)]
    head = (
        f'<svg xmlns="http://www.w3.org/2000/svg" viewBox="0 0 {WIDTH} {HEIGHT}" width="{WIDTH}" height="{HEIGHT}" '
        'font-family="sans-serif">'
    )
    return "\n".join([head, '<rect width="100%" height="100%" fill="#ffffff"/>', *parts, "</svg>", ""])
