"""Traces: what is made of a text when it is looked at is what its steps say, and pieces are joined to the whole."""
import dataclasses
from collections.abc import Iterator
from typing import Any

import pytest
from conftest import TOP
from simulated import Simulated
from test_worker_texts import CASES

from lvdc import Address, Deck, Difference, Flip, Trace, Word, commands, trace
from lvdc.steps import MemoryExchange

SIMULATED = Simulated()
DECK = Deck.read((TOP / "examples" / "subroutine.deck").read_text())
TEXTS = [text for case in CASES if case.parent.name == "trace" if (text := (case / "text").read_text()).startswith("LVDC TRACE")]


def made_of_steps(told: Trace) -> Trace:
    """The same trace as one that wasn't read."""
    return Trace(told.is_through, told.steps, told.end, told.text)


@pytest.mark.parametrize("number", range(len(TEXTS)))
def test_what_was_read_is_what_its_steps_say(number: int) -> None:
    told, made = Trace.read(TEXTS[number]), made_of_steps(Trace.read(TEXTS[number]))
    assert told == made and hash(told) == hash(made)
    assert list(told) == [told[at] for at in range(len(told))] == list(made.steps) == list(made)
    assert told[1:3] == made[1:3] == told.steps[1:3]
    assert told.records() == made.records()
    assert repr(told) == repr(made)
    assert dataclasses.asdict(told) == dataclasses.asdict(made)


@pytest.mark.parametrize("count", [1, 2, 7, 100])
def test_pieces_are_joined_to_the_whole(count: int, monkeypatch: pytest.MonkeyPatch) -> None:
    deck = DECK.with_faults(Flip(5, 1, 3, 3, 0, 1), Flip(2, 3, 4, 9, 0, 4))
    whole = trace(deck, worker=SIMULATED)
    monkeypatch.setattr(commands, "MOST_STEPS", count)
    assert trace(deck, worker=SIMULATED).text == whole.text


def differences(one: Trace, other: Trace) -> Iterator[tuple[int, dict[Address, Any]]]:
    """The words that two runs have stored otherwise after each step, from all that was stored and read up to there."""
    for at in range(min(len(one), len(other))):
        stored: list[dict[Address, Word]] = [{}, {}]
        known: dict[Address, Word] = {}
        for steps in zip(one.steps[:at + 1], other.steps[:at + 1]):
            for memory, step in zip(stored, steps):
                if isinstance(step.exchange, MemoryExchange) and step.exchange.kind == "STORE":
                    memory[step.exchange.address] = step.exchange.word
                elif isinstance(step.exchange, MemoryExchange) and step.exchange.address not in memory:
                    known.setdefault(step.exchange.address, step.exchange.word)
        pairs = {it: (stored[0].get(it, known.get(it)), stored[1].get(it, known.get(it))) for it in sorted({*stored[0], *stored[1]})}
        yield one.steps[at].number, {it: pair for it, pair in pairs.items() if pair[0] != pair[1]}


@pytest.mark.parametrize("flips", [(5, 6, 0, 0o1000), (4, 4, 0, 0o10), (3, 4, 0, 0o3000)])
def test_a_difference_has_the_words_that_were_stored_otherwise(flips: tuple[int, int, int, int]) -> None:
    module, step, latch, mask = flips
    right = trace(DECK, worker=SIMULATED)
    wrong = trace(DECK.with_faults(*(Flip(module, copy, step, step, latch, mask) for copy in (1, 2))), through=True, worker=SIMULATED)
    found: dict[int, Difference] = {it.number: it for it in wrong.diff(right)}
    assert found and wrong.first_difference(right) == next(iter(found.values()))
    for number, words in differences(wrong, right):
        assert (dict(found[number].words) if number in found else {}) == words
