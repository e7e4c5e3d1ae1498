"""Which bits of latches are used, and that nothing else moves a figure: held against the simulator and against all flips of `sensor`."""
import random
import sys
from collections.abc import Iterator

import pytest
from conftest import TOP
from simulated import Simulated

from lvdc import Address, Damage, Deck, Fault, Flip, Image, Script, Worker, assemble_image, is_different, is_inadmissible, scripts, study
from lvdc.values import LATCHES, MODULES, USED

sys.path.insert(0, str(TOP / "conformance"))

from simulation.modules import Bus, bus_of, next_states  # noqa: E402

SIMULATED = Simulated()
SENSOR = Deck.read((TOP / "examples" / "programs" / "sensor.deck").read_text())
# six times of which the third stops by a shift without a meaning
STOPS = Deck(Image({Address(0, 0, 0): 0o17000, Address(0, 0, 1): 0o17001, Address(0, 0, 2): 0o16377}), count=6)
ALL_BITS = [(module, latch, bit) for module in MODULES for latch in range(len(LATCHES[module])) for bit in range(26)]
PLACES = {place: at for at, place in enumerate((module, latch) for module in MODULES for latch in range(len(LATCHES[module])))}

Words = list[int]


def drawn_words(draw: random.Random) -> Words:
    """The fifteen latches, most of them as a run may have them."""
    words = [draw.choice([draw.randrange(2**26), draw.randrange(2**26), 0, 1 << draw.randrange(26)]) for _ in PLACES]
    words[PLACES[1, 0]], words[PLACES[1, 1]] = draw.randrange(3), draw.choice([0, 0, draw.randrange(8)])
    operation, address = draw.randrange(16), draw.choice([draw.randrange(512), 0o775, 0o776])
    words[PLACES[3, 0]] = operation << 9 | address
    words[PLACES[6, 1]] = draw.choice([0, draw.randrange(4) | draw.choice([1, draw.randrange(32)]) << 2 | draw.randrange(4) << 7])
    words[PLACES[7, 0]], words[PLACES[7, 1]] = 0, draw.randrange(5) | draw.randrange(2**15) << 3
    return words


def states(words: Words) -> Bus:
    """The latches by their modules."""
    found, at = [], 0
    for module in MODULES:
        found.append(tuple(words[at:at + len(LATCHES[module])]))
        at += len(LATCHES[module])
    bus: Bus = bus_of(found)
    return bus


def looked_at(words: Words, memory: int, port: int) -> list[int]:
    """What comes of these latches in one step, of each latch the bits that are used; and what goes out: the stop, the request of phase C
    and the word that it stores or writes."""
    bus = states(words)
    following = [latch & mask for state, masks in zip(next_states(bus, memory, port), USED.values()) for latch, mask in zip(state, masks)]
    request = bus.exchange.request & USED[7][1] if bus.timer.phase % 4 >= 2 else 0
    kind = request & 7 if request & 7 in (1, 2, 3, 4) else 0
    word = {1: bus.accumulator.a, 2: bus.locator.saver, 3: bus.accumulator.a}.get(kind, 0)
    return [*following, bus.exchange.stop % 4, request if kind else 0, word]


def turned(draw: random.Random, place: tuple[int, int], bit: int) -> tuple[bool, bool]:
    """Whether turning a bit over changes, in one drawn step, any used bit but itself; and any used bit at all."""
    words, memory, port = drawn_words(draw), draw.randrange(2**26), draw.randrange(2**26)
    before = looked_at(words, memory, port)
    words[PLACES[place]] ^= 1 << bit
    after = looked_at(words, memory, port)
    changed = [one ^ other for one, other in zip(before, after)]
    others = [it if at != PLACES[place] else it & ~(1 << bit) for at, it in enumerate(changed)]
    return any(others), any(changed)


@pytest.mark.parametrize("place", PLACES, ids=lambda it: str(LATCHES[it[0]][it[1]]))
def test_a_bit_is_used_just_where_some_row_looks_at_it(place: tuple[int, int]) -> None:
    draw = random.Random(str(place))
    for bit in range(26):
        if USED[place[0]][place[1]] >> bit & 1:
            assert any(turned(draw, place, bit)[0] for _ in range(20_000)), f"nothing looks at bit {bit}"
        else:
            assert not any(turned(draw, place, bit)[1] for _ in range(200)), f"something looks at bit {bit}"


def test_there_are_252_bits_of_a_copy() -> None:
    assert sum(mask.bit_count() for masks in USED.values() for mask in masks) == 252
    widths = [[mask.bit_count() for mask in USED[module]] for module in MODULES]
    assert widths == [[2, 3], [17, 26], [13], [8], [26, 26], [26, 9, 26, 26, 24], [2, 18]]


def all_of_sensor(worker: Worker) -> Iterator[tuple[tuple[int, int, int], bool]]:
    """Each bit of each latch of two copies turned over at each 28th step of `sensor`, so in all phases, and whether anything came of it."""
    kind = scripts.Flips(SENSOR.steps[::28], groups=[(1, 2)], all_bits=True)
    for row in study(SENSOR, kind, worker=worker):
        about = row.script.about
        yield (int(about["module"]), int(about["latch"]), int(about["bit"])), is_different(row)


def test_nothing_comes_of_a_bit_that_is_not_used(worker: Worker) -> None:
    changed = {place for place, is_changed in all_of_sensor(worker) if is_changed}
    assert not [it for it in changed if not USED[it[0]][it[1]] >> it[2] & 1]
    assert len(changed) > 120


def test_unused_bits_and_steps_outside_move_no_figure(worker: Worker) -> None:
    of_deck = study(STOPS, scripts.pairs(STOPS.steps[:9]), worker=worker)
    assert of_deck.is_census
    kind = scripts.pairs(STOPS.steps[:9], all_bits=True)
    wide = study(STOPS, kind, worker=worker)
    used = [it for it in wide if USED[int(it.script.about["module"])][int(it.script.about["latch"])] >> int(it.script.about["bit"]) & 1]
    assert sum(map(is_different, used)) == of_deck.share(is_different).count == wide.share(is_different).count
    assert wide.share(is_different).share < of_deck.share(is_different).share
    assert "all 26" in kind.population.each
    assert "of all bits" in str(wide[0].script.about["kind"])
    for steps in (STOPS.steps, range(8, 10), range(18, 20), range(10_000)):
        with pytest.raises(ValueError, match=r"outside of the run: it has the steps 0 to 8 and ends with END STOPPED 8 SHIFT"):
            study(STOPS, scripts.pairs(steps, modules=[7]), worker=worker)
    assert len(study(STOPS, scripts.pairs(range(30), modules=[7]), worker=worker, outside=True)) == 30 * 3 * 20


def test_what_acts_outside_of_the_run_is_refused_by_name() -> None:
    deck = Deck(Image({Address(0, 0, 0): 0o17000}), count=3)
    cases: list[tuple[tuple[Fault, ...], int]] = [((Flip(5, 1, 9, 9, 0, 1),), 9), ((Flip(5, 1, 2, 2, 0, 1), Damage(0, 0, 0, 0, 11, 1)), 11)]
    for faults, step in cases:
        with pytest.raises(ValueError, match=f"script 2 acts at step {step}, which is outside of the run: it has the steps 0 to 8"):
            study(deck, [Script(()), Script(faults)], worker=SIMULATED)
    assert len(study(deck, [Script((Flip(5, 1, 9, 9, 0, 1),))], worker=SIMULATED, outside=True)) == 1


def test_kinds_know_the_deck() -> None:
    image = assemble_image(SENSOR.program.text, worker=SIMULATED) if not isinstance(SENSOR.program, Image) else SENSOR.program
    deck = Deck(image, 180)
    assert deck.steps == range(540)
    assert len(scripts.pairs(deck)) == len(scripts.pairs(deck.steps)) == 540 * 252 * 3
    assert len(scripts.Damages(deck)) == 540 * len(deck.places) * 2 * 28
    assert set(deck.places) == set(image.words)
    assert scripts.flips_apart(deck, [538], modules=[3], bits=[0]).ends == [2 * 9]
    with pytest.raises(ValueError, match="places=lvdc.assemble_image"):
        scripts.Damages(SENSOR)
    with pytest.raises(ValueError, match="its pair, 0 to 3, not 4"):
        scripts.Damages(deck, [Address(4, 0, 0)])


def test_a_census_has_no_interval(worker: Worker) -> None:
    kind = scripts.pairs(STOPS.steps[:9], modules=[3])
    whole, drawn = study(STOPS, kind, worker=worker), study(STOPS, kind.drawn(60, seed=2), worker=worker)
    assert str(whole.share(is_inadmissible)) == "351 of all 351, 100.0%"
    assert whole.share(is_inadmissible).interval is None
    assert drawn.share(is_inadmissible).interval is not None
    assert (whole.share(is_different).low, whole.share(is_different).high) == (whole.share(is_different).share,) * 2
    assert "inadmissible_low" not in whole.counts("module")[0]
    assert "inadmissible_low" in drawn.counts("module")[0]
    assert str(drawn.populations[0]).startswith("60 of 351, drawn with seed 2: ")
    assert not (whole + drawn).is_census
    assert not study(STOPS, list(kind), worker=worker).is_census
