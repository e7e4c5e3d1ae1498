"""Kinds of scripts: how many there are, in which order, and that a number draws the same."""
from itertools import combinations

import pytest
from hypothesis import given
from hypothesis import strategies as st

from lvdc import Address, Damage, Flip, Lag, Script, Unread
from lvdc.inputs import population_text, read_population, read_scripts, script_text
from lvdc.scripts import (DamagePairs, Damages, Lasting, Mixed, Near, Scripts, Simultaneous, at_rate, flips, flips_apart, near_flips, pairs,
                          simultaneous)
from lvdc.studies import name_of

PLACES = [Address(0, 1, 0), Address(0, 15, 3)]
KINDS: list[Scripts] = [
    flips(range(4), modules=[5, 3], latches=[0, 1], bits=[0, 25]), pairs([2, 4], modules=[6], bits=range(3)),
    near_flips([0, 1, 3, 9], 2, modules=[3], bits=[0]), Simultaneous(flips([0, 3], modules=[4], bits=[1, 3]), 3),
    Lasting(range(3), [1, 5], modules=[1, 7]), Damages([0, 5], PLACES, bits=[0, 27]),
    DamagePairs([0, 5], PLACES, [0, 3]), DamagePairs([0, 5], PLACES, [0, 3], twins=[0, 1], bits=[0, 1, 2], width=2, end=8),
    Damages([0, 5], PLACES, bits=[0, 1, 14, 27], width=3),
    Lasting([0, 2], [1, 3], kinds=["lag", "deaf", "force", "stick", "dead"], modules=[6], bits=[0, 26], places=PLACES),
    flips_apart([0, 1, 3, 9], [0, 2, 6], modules=[3], bits=[0, 1], end=9),
    Near(Lasting([0, 1], [2], kinds=["force", "dead"], modules=[3], copies=[1], bits=[0], places=PLACES), 1)]


@pytest.mark.parametrize("scripts", KINDS, ids=lambda it: type(it).__name__)
def test_a_kind_has_a_length_and_no_script_twice(scripts: Scripts) -> None:
    texts = [str(it) for it in scripts]
    assert len(texts) == len(scripts) == len(set(texts))
    drawn = [str(it) for it in scripts.drawn(50, 7)]
    assert drawn == [str(it) for it in scripts.drawn(50, 7)]
    assert set(drawn) <= set(texts)


def test_flips_go_by_steps_modules_latches_copies_and_bits() -> None:
    scripts = list(flips([4, 5], modules=[5], latches=[0, 1], bits=[0, 1]))
    assert scripts[0].faults == (Flip(5, 1, 4, 4, 0, 1),)
    assert scripts[3].faults == (Flip(5, 2, 4, 4, 0, 2),)
    assert scripts[-1].about == {"kind": "flip", "module": 5, "latch": 1, "copy": 3, "step": 5, "bit": 1}
    assert len(flips(range(42))) == 42 * 3 * 252
    assert len(flips(range(42), all_bits=True)) == 42 * 3 * 15 * 26


@pytest.mark.parametrize("kind", [flips([0, 2_999_999], all_bits=True), pairs([7])], ids=["flips", "pairs"])
def test_the_text_of_flips_is_that_of_their_faults(kind: Scripts) -> None:
    for script in kind:
        made = Script(script.faults, script.about)
        assert script == made and str(script) == str(made)
        assert set(script.first_steps) == set(made.first_steps)


def test_pairs_hurt_two_copies_of_a_latch() -> None:
    assert [it.faults for it in pairs([4], modules=[3], bits=[9])][2] == (Flip(3, 2, 4, 4, 0, 512), Flip(3, 3, 4, 4, 0, 512))


@given(st.sets(st.integers(0, 12), min_size=1), st.integers(0, 4))
def test_near_flips_are_all_pairs_at_steps_so_far_apart(steps: set[int], within: int) -> None:
    single = flips(sorted(steps), modules=[3], bits=[0, 3])
    near = near_flips(sorted(steps), within, modules=[3], bits=[0, 3])
    due = {str(a) + str(b) for a, b in combinations(list(single), 2) if abs(int(a.about["step"]) - int(b.about["step"])) <= within}
    assert {str(it) for it in near} == due
    assert len(near) == len(due)


@given(st.sets(st.integers(0, 12), min_size=1), st.sets(st.integers(0, 5), min_size=1), st.integers(1, 15))
def test_flips_apart_are_all_pairs_at_these_distances(steps: set[int], distances: set[int], end: int) -> None:
    apart = flips_apart(sorted(steps), sorted(distances), modules=[3], bits=[0, 3], end=end)
    at = {step: list(flips([step], modules=[3], bits=[0, 3])) for step in range(end)}
    due = [(step, step + d) for step in steps for d in distances if d and step + d < end]
    texts = {str(a) + str(b) for one, two in due for a in at[one] for b in at[two]}
    texts |= {str(a) + str(b) for step in steps if 0 in distances and step < end for a, b in combinations(at[step], 2)}
    assert {str(it) for it in apart} == texts
    assert len(apart) == len(texts)
    assert all(it.about["distance"] == int(it.about["second_step"]) - int(it.about["step"]) for it in apart)


def test_damage_of_both_twins_begins_in_either() -> None:
    scripts = list(DamagePairs([4], PLACES[:1], [0, 2], twins=[0, 1], bits=[3]))
    assert [it.faults for it in scripts] == [
        (Damage(0, 0, 1, 0, 4, 8), Damage(1, 0, 1, 0, 4, 8)), (Damage(0, 0, 1, 0, 4, 8), Damage(1, 0, 1, 0, 6, 8)),
        (Damage(1, 0, 1, 0, 4, 8), Damage(0, 0, 1, 0, 6, 8))]


def test_what_lasts_is_each_of_five_kinds() -> None:
    scripts = list(Lasting([2], [3], kinds=["force", "stick", "dead"], modules=[4], copies=[2], bits=[5], places=PLACES[:1], twins=[1]))
    assert [str(it) for it in scripts] == [
        "FORCE 4 2 2 4 0 000000040 000000000\n", "FORCE 4 2 2 4 0 000000040 000000040\n",
        "STICK 1 0 01 000 2 4 0000000040 0000000000\n", "STICK 1 0 01 000 2 4 0000000040 0000000040\n", "DEAD 1 0 2 4\n"]
    assert scripts[1].about == {"kind": "force", "module": 4, "latch": 0, "copy": 2, "bit": 5, "value": 1, "step": 2, "length": 3}


def test_a_distance_below_0_is_refused() -> None:
    with pytest.raises(ValueError, match="-1 apart"):
        near_flips([0], -1)
    with pytest.raises(ValueError, match="-1 apart"):
        flips_apart([0], [3, -1])


@pytest.mark.parametrize("scripts", KINDS, ids=lambda it: type(it).__name__)
def test_an_input_says_what_its_scripts_were_made_from(scripts: Scripts) -> None:
    given_scripts = list(scripts.drawn(20))
    told = scripts.drawn(20).population
    text = ("IMAGE\nLVDC 1\nEND\nRUN 9\nCAMPAIGN\n" + population_text(told)
            + "".join(script_text(name_of(at), it) for at, it in enumerate(given_scripts)))
    assert all(len(line) <= 120 for line in text.split("\n"))
    found = list(read_scripts(text))
    population = read_population(text)
    assert (population.size, population.drawn, population.seed) == (told.size, 20, 1)
    assert [name for name, _ in found] == [name_of(at) for at in range(20)]
    assert [it for _, it in found] == given_scripts


@given(st.lists(st.integers(1, 60), min_size=1, max_size=12))
def test_a_comment_is_no_longer_than_a_line(lengths: list[int]) -> None:
    script = Script((), {f"n{at}": "X" * length for at, length in enumerate(lengths)})
    text = script_text("A", script)
    assert all(len(line) <= 120 for line in text.split("\n"))
    assert list(read_scripts(f"IMAGE\nLVDC 1\nEND\nRUN 1\nCAMPAIGN\n{text}")) == [("A", script)]


def test_scripts_that_were_written_by_hand_are_read() -> None:
    text = "SOURCE\n END\nRUN 1\n CAMPAIGN\r\n\n SCRIPT A\n* by hand\n  FLIP 5 1 3 3 0 1\nSCRIPT B\n*: length=3, note=x y\nLAG 1 1 0 0\n"
    assert list(read_scripts(text)) == [("A", Script((Flip(5, 1, 3, 3, 0, 1),))), ("B", Script((Lag(1, 1, 0, 0),), {"length": 3, "note": "x y"}))]
    for wrong, number in (("SCRIPT A B\n", 5), ("SCRIPT A\nFLY\n", 6)):
        with pytest.raises(Unread) as caught:
            list(read_scripts("SOURCE\n END\nRUN 1\nCAMPAIGN\n" + wrong))
        assert caught.value.number == number
    with pytest.raises(Unread, match="CAMPAIGN"):
        list(read_scripts("IMAGE\nLVDC 1\nEND\nRUN 1\n"))


def test_lasting_faults_and_damage() -> None:
    assert next(iter(Lasting([3], [4], kinds=["lag"], modules=[2], copies=[1]))).faults == (Lag(2, 1, 3, 6),)
    script = list(DamagePairs([6], PLACES, [0, 9]))[2]
    assert script.faults == (Damage(0, 0, 1, 0, 6, 1), Damage(1, 0, 1, 0, 15, 1))
    assert script.about["distance"] == 9


def test_mixed_scripts_are_drawn_by_a_number() -> None:
    mixed = Mixed(20, PLACES)
    assert [str(it) for it in mixed.drawn(200, 3)] == [str(it) for it in mixed.drawn(200, 3)]
    assert {str(it).split(" ")[0] for it in mixed.drawn(200)} == {"FLIP", "FORCE", "LAG", "DEAF", "DAMAGE", "STICK", "DEAD"}


def test_so_many_at_one_step() -> None:
    kind = simultaneous(3, [2, 5], modules=[4], bits=[1, 3])
    texts = [str(it) for it in kind]
    each = [[str(it) for it in flips([step], modules=[4], bits=[1, 3])] for step in (2, 5)]
    assert sorted(texts) == sorted("".join(it) for singles in each for it in combinations(singles, 3))
    assert {len(set(it.faults)) for it in kind.drawn(200)} == {3}


def test_a_rate_hits_as_often_as_it_says() -> None:
    kind = at_rate(0.01, range(20), modules=[3])
    bits = 20 * 3 * 13
    counts = [len(it.faults) for it in kind.drawn(400, seed=5)]
    assert abs(sum(counts) / 400 - bits * 0.01) < 4 * (bits * 0.01 / 400) ** 0.5
    assert all(len(set(it.faults)) == len(it.faults) for it in kind.drawn(400))
    assert kind.population.size is None


def test_what_is_drawn_can_be_gone_through_again() -> None:
    drawn = flips(range(9)).drawn(20, seed=4)
    assert list(drawn) == list(drawn)
    assert (len(drawn), drawn.population.drawn, drawn.population.seed, drawn.population.size) == (20, 20, 4, 9 * 756)
    both = drawn + pairs(range(2))
    assert len(both) == 20 + 2 * 756
    assert [it.is_census for it in both.populations] == [False, True]


def test_nothing_is_drawn_from_nothing() -> None:
    with pytest.raises(ValueError, match="no such script"):
        flips([]).drawn(1)
