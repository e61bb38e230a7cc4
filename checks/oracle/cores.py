"""The core of a board, read a second time from crates/ar_board/specs/Core.antt: steps on plain lists.

A bundle is a dict: `limits`, of each run a list of its metrics' limits as phases.py takes them; `entries`, of each
number its run and its event. A state is a dict: `next`, `queue`, `hands` with None for an empty one, `histories`, of
each run the numbers with their effects, and of an ordered core `parked`, a set of numbers. A step is 'put', or a list
of 'take' or 'post' and a worker.
"""

import sys

from checks.oracle.phases import outcome


def opening(bundle, workers, ordered):
    state = {"next": 0, "queue": [], "hands": [None] * workers, "histories": [[] for _ in bundle["limits"]]}
    return {**state, "parked": set()} if ordered else state


def outcome_after(bundle, run, numbers):
    """The outcome for the run after these numbers, in their order."""
    return outcome(bundle["limits"][run], [bundle["entries"][number][1] for number in numbers])


def put(bundle, places, state):
    """Moves the next number to the queue's end, where there is a place for it."""
    if state["next"] >= len(bundle["entries"]) or len(state["queue"]) >= places:
        return False
    state["queue"].append(state["next"])
    state["next"] += 1
    return True


def take(state, worker):
    """Moves the queue's first number into the worker's empty hand."""
    if worker >= len(state["hands"]) or state["hands"][worker] is not None or not state["queue"]:
        return False
    state["hands"][worker] = state["queue"].pop(0)
    return True


def append(bundle, state, run, number):
    """Adds the number at the end of its run's history, with the effect that it has there."""
    history = state["histories"][run]
    effects = outcome_after(bundle, run, [*(earlier for earlier, _ in history), number])[0]
    history.append((number, effects[-1]))


def least_lacking(bundle, state, run):
    """The least number of a run that its history lacks, or None."""
    there = {number for number, _ in state["histories"][run]}
    lacking = [number for number, (own, _) in enumerate(bundle["entries"]) if own == run and number not in there]
    return min(lacking, default=None)


def post(bundle, state, worker):
    """Moves the number in the worker's hand to its run's history. In an ordered core it is parked; then, as long as the
    least number of its run that the history lacks is parked, that number moves to the history's end."""
    if worker >= len(state["hands"]) or state["hands"][worker] is None:
        return False
    number = state["hands"][worker]
    state["hands"][worker] = None
    run = bundle["entries"][number][0]
    if "parked" not in state:
        append(bundle, state, run, number)
        return True
    state["parked"].add(number)
    while (least := least_lacking(bundle, state, run)) in state["parked"]:
        state["parked"].remove(least)
        append(bundle, state, run, least)
    return True


def make(bundle, places, state, step):
    """Makes a step in place, and says whether it could be made."""
    if step == "put":
        return put(bundle, places, state)
    kind, worker = step
    return take(state, worker) if kind == "take" else post(bundle, state, worker)


def occurrences(state, number):
    """How often a number is in what is still to put, the queue, the hands, the parked numbers and the histories."""
    posted = sum(number == other for history in state["histories"] for other, _ in history)
    parked = number in state.get("parked", ())
    return (number >= state["next"]) + state["queue"].count(number) + state["hands"].count(number) + parked + posted


def has_each_once(bundle, state):
    return all(occurrences(state, number) == 1 for number in range(len(bundle["entries"])))


def listed(items):
    return "[" + ", ".join("none" if item is None else str(item) for item in items) + "]"


def run_line(bundle, run, history):
    phase = outcome_after(bundle, run, [number for number, _ in history])[1]
    entries = ",".join(f" {number} {effect}" for number, effect in history)
    return f"run {run} {phase}:{entries}"


def answer(bundle, workers, places, ordered, steps):
    """What the call `core` answers. After each step each number has to be there just once."""
    state = opening(bundle, workers, ordered)
    moves = []
    for step in steps:
        moves.append("done" if make(bundle, places, state, step) else "idle")
        if not has_each_once(bundle, state):
            sys.exit(f"after {len(moves)} steps a number does not occur exactly once: {state}")
    lines = [listed(moves), f"next={state['next']} queue={listed(state['queue'])} hands={listed(state['hands'])}"]
    if ordered:
        lines[-1] += f" parked={listed(sorted(state['parked']))}"
    lines += [run_line(bundle, run, history) for run, history in enumerate(state["histories"])]
    return " / ".join(lines)
