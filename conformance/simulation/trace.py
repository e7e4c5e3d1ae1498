"""Traces (docs/FORMATS.md, "Trace")."""
from collections.abc import Iterator

from .faults import LOGIC
from .lines import spot
from .modules import Bus, Latches
from .report import end_line, text_of
from .voted import Voted


def words(latches: Latches) -> str:
    """Latches by their index."""
    return " ".join("%09o" % word for word in latches)


def exchange_lines(machine: Voted) -> Iterator[str]:
    """The exchange of the step that was made last."""
    if machine.exchange:
        name, where, word = machine.exchange
        yield "%s %s %09o" % (name, "%03o" % where if isinstance(where, int) else spot(where), word)


def step_lines(machine: Voted, step: int, before: Bus | None, repairs: int) -> Iterator[str]:
    """The lines of a step that was made; `before` has the votes before it, or none where all are told."""
    yield "STEP %d" % step
    yield from exchange_lines(machine)
    for _, at, twin, switched in machine.repairs[repairs:]:
        yield "REPAIR %s %d%s" % (spot(at), twin, " SWITCH" if switched else "")
    for m, c in sorted({(event.module, event.copy) for event in machine.script.active(step) if event.word in LOGIC}):
        yield "FAULT %d %d" % (m, c)
    for m, vote in enumerate(machine.votes):
        if before is None or vote != before[m]:
            yield "VOTE %d %s" % (m + 1, words(vote))
    for m, vote in enumerate(machine.votes):
        for c, copy in enumerate(machine.copies[m]):
            if copy != vote:
                yield "COPY %d %d %s" % (m + 1, c + 1, words(copy))


def trace(machine: Voted, count: int, first: int, told: int) -> str:
    """The trace of so many steps from the first on, of a run of so many times; from where the machine stands, where that is later."""
    first = max(first, machine.steps)
    lines = ["LVDC TRACE" if machine.guarded else "LVDC TRACE THROUGH"]
    while machine.steps < min(3 * count, first + told) and machine.end is None:
        step, before, repairs = machine.steps, machine.votes, len(machine.repairs)
        machine.step()
        if machine.steps > step >= first:
            lines += step_lines(machine, step, None if step == first else before, repairs)
    done = machine.end is not None or first + told >= 3 * count
    return text_of(lines + [end_line(machine.end) if done else "MORE"])
