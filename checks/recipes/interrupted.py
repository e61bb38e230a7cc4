"""Starts each recipe, and prints its status and its standard error where it is interrupted while it reads, where its
output is full, closed or a pipe that nobody reads, and where its input is closed."""
import json
import os
import signal
import subprocess
import tempfile
import time
from collections.abc import Callable
from concurrent.futures import ThreadPoolExecutor
from typing import Any

from checks import ROOT

RECIPES_FOLDER = ROOT / "recipes"
ENGINE = os.environ["ENGINE"]
BUNDLE = str(ROOT / "examples/bundles/success-rate.json")
RUN = str(ROOT / "examples/analysisrun.json")
SHAPES = str(RECIPES_FOLDER / "tests/analysisrun/shapes.json")
SUITE = str(RECIPES_FOLDER / "tests/kubectl-lint/suite.json")
TEMPLATE = str(ROOT / "examples/backtest/stricter.json")
# Each recipe's words; FIFO is replaced by the file that is read, which is a pipe where the recipe is interrupted.
RECIPES = {
    "from-jsonl": ["--allow-empty", "--add-to", "FIFO", os.devnull],
    "from-prometheus": ["--allow-empty", "--add-to", "FIFO", os.devnull],
    "go-on": ["--engine", ENGINE, "FIFO"],
    "split": ["--runs", "1", "FIFO", "new"],
    "join": ["parts"],
    "shapes": ["FIFO"],
    "from-analysisrun": ["--shapes", SHAPES, RUN],
    "compare-analysisrun": ["--engine", ENGINE, "--shapes", SHAPES, RUN],
    "lint": ["--engine", ENGINE, RUN],
    "test": ["--engine", ENGINE, SUITE],
    "backtest": ["--engine", ENGINE, "--template", TEMPLATE, "--arg", "threshold=0.99", RUN],
    "kubectl-argo_judge": ["check", "success-rate", "--engine", ENGINE],
}


def ready(folder: str, recipe: str, fifo: bool) -> list[str]:
    """The words of a recipe whose files are in the folder; a fifo in the place of the file that it reads first."""
    with open(BUNDLE, encoding="utf-8") as file:
        whole: dict[str, Any] = json.load(file)
    os.makedirs(f"{folder}/parts")
    numbered = [{**entry, "number": number} for number, entry in enumerate(whole["measurements"])]
    part = {**whole, "part": {"number": 0, "of": 1}, "measurements": numbered}
    with open(f"{folder}/parts/0.json", "w", encoding="utf-8") as file:
        json.dump(part, file)
    with open(BUNDLE, "rb") as document, open(f"{folder}/parts/0.report", "wb") as file:
        subprocess.run([ENGINE, "run", "--plain", "--output", "json"], stdin=document, stdout=file)
    if not fifo:
        return [word.replace("FIFO", BUNDLE) for word in RECIPES[recipe]]
    os.mkfifo(f"{folder}/fifo")
    os.replace(f"{folder}/fifo", f"{folder}/parts/0.json")
    return ["parts/0.json" if word in ("FIFO", RUN, SUITE) else word for word in RECIPES[recipe]]


def started(folder: str, recipe: str, words: list[str], **more: Any) -> "subprocess.Popen[str]":
    more = {"stdin": subprocess.DEVNULL, "stdout": subprocess.DEVNULL, "stderr": subprocess.PIPE, **more}
    return subprocess.Popen([f"{RECIPES_FOLDER}/{recipe}", *words], cwd=folder, text=True, **more)


def opened(path: str) -> int:
    """Opens a fifo to write as soon as somebody reads it."""
    while True:
        try:
            return os.open(path, os.O_WRONLY | os.O_NONBLOCK)
        except OSError:
            time.sleep(0.01)


def ended(one: "subprocess.Popen[str]") -> str:
    """Interrupts a recipe until it ends: right before a read Python takes notice of a signal only after it."""
    while True:
        one.send_signal(signal.SIGINT)
        try:
            return one.communicate(timeout=10)[1]
        except subprocess.TimeoutExpired:
            pass


def interrupted(folder: str, recipe: str) -> tuple[int, str]:
    words = ready(folder, recipe, True)
    if recipe == "kubectl-argo_judge":
        with open(f"{folder}/kubectl", "w", encoding="utf-8") as file:
            file.write("#!/bin/sh\nexec cat parts/0.json\n")
        os.chmod(f"{folder}/kubectl", 0o755)
    one = started(folder, recipe, words, env={**os.environ, "PATH": f"{folder}:{os.environ['PATH']}"})
    written = opened(f"{folder}/parts/0.json")
    errors = ended(one)
    os.close(written)
    return one.returncode, errors


def output(folder: str, recipe: str, **more: Any) -> tuple[int, str]:
    one = started(folder, recipe, ready(folder, recipe, False), **more)
    errors = one.communicate()[1]
    return one.returncode, errors


def full(folder: str, recipe: str) -> tuple[int, str]:
    with open("/dev/full", "w") as file:
        return output(folder, recipe, stdout=file)


def unread(folder: str, recipe: str) -> tuple[int, str]:
    reader, writer = os.pipe()
    os.close(reader)
    try:
        return output(folder, recipe, stdout=writer)
    finally:
        os.close(writer)


def closed(folder: str, recipe: str) -> tuple[int, str]:
    return output(folder, recipe, preexec_fn=lambda: os.close(1))


def input_closed(folder: str, recipe: str) -> tuple[int, str]:
    words = [word for word in RECIPES[recipe] if word not in ("FIFO", RUN)] + ["-"]
    ready(folder, recipe, False)
    one = started(folder, recipe, words, preexec_fn=lambda: os.close(0))
    errors = one.communicate()[1]
    return one.returncode, errors


def tried(case: tuple[Callable[[str, str], tuple[int, str]], str]) -> str:
    way, recipe = case
    with tempfile.TemporaryDirectory() as folder:
        status, errors = way(folder, recipe)
    return f"{way.__name__} {recipe}: status {status}: {errors}" + ("" if errors.endswith("\n") else "\n")


def main() -> None:
    ways = (interrupted, full, unread, closed)
    cases = [(way, recipe) for way in ways for recipe in RECIPES]
    cases += [(input_closed, recipe) for recipe in ("shapes", "from-analysisrun", "compare-analysisrun")]
    with ThreadPoolExecutor() as side_by_side:
        print("".join(side_by_side.map(tried, cases)), end="")


if __name__ == "__main__":
    main()
