"""Every fault, counted: a census of those that are alike is what a study of all of them comes to, row by row."""
import random
from collections.abc import Iterator

import pytest
from conftest import TOP
from simulated import Simulated

from lvdc import Address, Deck, Image, Pool, Worker, assemble_image, census, is_different, is_inadmissible, scripts, study, trace
from lvdc.accesses import accesses
from lvdc.scripts import Damages, Flips
from lvdc.values import LATCHES, MODULES

SIMULATED = Simulated()
EXAMPLES = TOP / "examples"
OPERATIONS = [*range(16), 11, 11, 15, 15, 1, 5]


@pytest.fixture(scope="module")
def pool(worker: Worker) -> Iterator[Pool]:
    """Two workers."""
    with Pool(2, program=worker.program) as found:
        yield found


def deck_of(name: str, pool: Pool) -> Deck:
    """An example whose program is an image."""
    deck = Deck.read((EXAMPLES / f"{name}.deck").read_text())
    image = deck.program if isinstance(deck.program, Image) else assemble_image(deck.program, worker=pool)
    start = None if isinstance(deck.start, str) else deck.start
    return Deck(image, deck.count, start, ports=deck.ports)


@pytest.mark.parametrize(("name", "groups"), [("multiply", scripts.PAIRS_OF_COPIES), ("subroutine", scripts.PAIRS_OF_COPIES), ("divide", [(2, 3)]),
                                             ("sum-that-wraps", scripts.SINGLE_COPIES)])
def test_a_census_of_flips_is_the_whole_enumeration(name: str, groups: list[tuple[int, ...]], pool: Pool) -> None:
    deck = deck_of(name, pool)
    every = Flips(deck, groups=groups)
    counted = census(deck, every, worker=pool)
    assert counted.findings() == study(deck, every, worker=pool)
    assert counted.asked < len(every) / 2
    assert counted.share(is_different) == counted.findings().share(is_different)


@pytest.mark.parametrize(("name", "width"), [("multiply", 1), ("sum-that-wraps", 2)])
def test_a_census_of_damages_is_the_whole_enumeration(name: str, width: int, pool: Pool) -> None:
    deck = deck_of(name, pool)
    every = Damages(deck.steps[:len(trace(deck, worker=pool))], bits=range(0, 28, 7), width=width, places=[*deck.places, Address(0, 5, 5)])
    assert census(deck, every, worker=pool).findings() == study(deck, every, worker=pool)


def test_a_census_of_some_steps_and_bits(pool: Pool) -> None:
    deck = deck_of("multiply", pool)
    every = Flips([2, 5, 6, 13], modules=[5, 6], groups=[(1, 3), (2, 3)], all_bits=True)
    counted = census(deck, every, worker=pool)
    found = study(deck, every, worker=pool)
    assert list(counted) == list(found)
    assert counted[5:7] == found.rows[5:7]
    for by in ("module", "step", "copy", "bit"):
        assert counted.shares(by, is_different) == found.shares(by, is_different)
    assert counted.counts("module")[0]["inadmissible"] == found.where(lambda it: it.script.about["module"] == 5).share(is_inadmissible).count
    assert counted.csv() == found.csv()


def drawn_deck(draw: random.Random) -> Deck:
    """A small program of any instructions, over sector 01 and PQ, which goes round."""
    length = draw.randrange(3, 9)
    code = [draw.choice(OPERATIONS) << 9 | draw.choice([0, 1, 2, 3, 0o775, 0o776, draw.randrange(512)]) for _ in range(length)]
    memory = {Address(0, 0, at): it for at, it in enumerate([*code, 8 << 9 | draw.randrange(length)])}
    memory |= {Address(0, 1, at): draw.randrange(2**26) for at in range(4)}
    return Deck(Image(memory), draw.randrange(4, 7))


@pytest.mark.parametrize("number", range(4))
def test_a_census_of_drawn_programs_is_the_whole_enumeration(number: int, pool: Pool) -> None:
    deck = drawn_deck(random.Random(number))
    every = scripts.Flips(deck.steps[:len(trace(deck, worker=pool))], groups=[(1, 2)])
    assert census(deck, every, worker=pool).findings() == study(deck, every, worker=pool)


def test_a_census_by_the_simulator() -> None:
    deck = Deck(Image({Address(0, 0, 0): 0o01000, Address(0, 0, 1): 0o13775, Address(0, 0, 2): 0o10000, Address(0, 1, 0): 5}), count=4)
    every = scripts.Flips(deck, groups=[(1, 2)], modules=[4, 6], bits=[0, 1, 2, 3])
    assert census(deck, every, worker=SIMULATED).findings() == study(deck, every, worker=SIMULATED)


def test_each_latch_that_a_step_keeps_has_the_same_vote(pool: Pool) -> None:
    deck = deck_of("telemetry", pool)
    told = trace(deck, worker=pool)
    votes = [dict(it) for _, it in told.votes()]
    for (step, access), before, after in zip(accesses(told), votes, votes[1:]):
        kept = {(module, latch) for module in MODULES for latch in range(len(LATCHES[module]))} - access.reads.keys() - access.writes
        assert all(before[module][latch] == after[module][latch] for module, latch in kept), step.number


def test_the_same_is_refused_as_by_a_study(pool: Pool) -> None:
    deck = deck_of("multiply", pool)
    with pytest.raises(ValueError, match="outside of the run"):
        census(deck, scripts.pairs(range(1000)), worker=pool)
    with pytest.raises(TypeError, match="flips, pairs or Damages"):
        census(deck, scripts.near_flips(deck, 1), worker=pool)  # type: ignore[arg-type]
