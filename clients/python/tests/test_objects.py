"""Every public object is pickled, copied, compared, hashed and told, as Python's own are."""
import copy
import dataclasses
import importlib.util
import pickle
import typing
from collections.abc import Iterator
from typing import Any

import pytest
from conftest import TOP
from simulated import Simulated

import lvdc
from lvdc import Address, Damage, Dead, Deaf, Deck, Flip, Force, Hop, Image, Lag, Place, Stick, Tape, Unplug, Word, scripts
from lvdc.frozen import Frozen

SIMULATED = Simulated()
PLAIN = "IMAGE\nLVDC 1\n0 00 000 000017000\n0 00 001 000012017\n0 00 002 000010000\n0 01 000 000000005\nEND\n"
SOURCE = lvdc.Source("        ORG   0,00,0,000\nLOOP    CLA   FIVE\n        TRA   LOOP\n        WORDS 0,01,000\nFIVE    DEC   5\n        END\n")
DECK = Deck.read(f"{PLAIN}SIMPLEX 1\nPORTS\nTAPE 000 5\nUNPLUG 017 2\nRUN 3\n")
HURT = DECK.with_faults(Flip(5, 1, 2, 2, 0, 1), Damage(0, 0, 1, 0, 0, 1))


def objects() -> Iterator[Any]:
    """One or more objects of every public class that isn't an error, an asker or a type of types."""
    yield from (Word(5), lvdc.Cell(5), lvdc.Port(5), Address(0, 1, 2), Place(0, 1, 0, 2), Hop(location=3), Image({Address(0, 0, 0): 5}), SOURCE)
    yield from (Flip(1, 1, 0, 0, 0, 1), Force(1, 1, 0, 0, 0, 1, 1), Lag(1, 1, 0, 2), Deaf(1, 1, 0, 2), Damage(0, 0, 1, 0, 0, 1))
    yield from (Stick(0, 0, 1, 0, 0, 3, 1, 0), Dead(0, 0, 0, 3), Tape(0, (1, 2)), Unplug(0, 3), HURT, DECK)
    run, pairs = lvdc.run(HURT, worker=SIMULATED), scripts.pairs([2, 3], modules=[5], bits=[0, 1])
    yield from (run, run.registers, run.end, run.kind, *run.exchanges[:1], *run.repairs[:1], lvdc.Stopped(3, "EXM"), lvdc.DeviceFailed(3, 1))
    yield from (lvdc.Logic(3, 5), lvdc.Memory(3, Address(0, 1, 0)), lvdc.Inadmissible(lvdc.Logic(3, 5)), lvdc.Done(), lvdc.Admissible())
    yield lvdc.debug(DECK, ["REGS", "MEM 0 01 000 2", "COPIES 5", "DIS 0 00 0 000 2", "BREAK 0 00 0 001", "STEP 9", "FLY"], worker=SIMULATED)
    told = lvdc.trace(DECK.with_faults(*(Flip(5, copy, 2, 2, 0, 1) for copy in (1, 2))), worker=SIMULATED, through=True)
    yield from (told, told[2], *told.diff(lvdc.trace(DECK, worker=SIMULATED)), lvdc.form(HURT, worker=SIMULATED))
    yield from (lvdc.assemble(SOURCE, worker=SIMULATED), lvdc.expand(SOURCE, worker=SIMULATED), lvdc.save(DECK, 2, worker=SIMULATED))
    yield lvdc.Soak.read("LVDC SOAK 1\nEND DONE\nTIMES 24\nA 000000005\nWRONG 3\nREPAIRS 1\n")
    yield lvdc.uplink(f"{PLAIN}UPLINK\n", worker=SIMULATED)
    study, campaign = lvdc.study(DECK, pairs, worker=SIMULATED), lvdc.campaign(DECK, pairs, worker=SIMULATED)
    yield from (study, study[0], study[0].outcome, study[0].script, lvdc.Same(), lvdc.Differs("PORT", 3), campaign, campaign[0])
    yield from (study.share(lvdc.is_different), study.populations[0], lvdc.census(DECK, pairs, worker=SIMULATED))
    yield lvdc.StudyRows.read("".join(f"{it}\n" for it in study) + "STUDY 12 ADMISSIBLE 0 SAME 0 FORM 0\n")
    yield lvdc.CampaignRows.read("".join(f"{it}\n" for it in campaign) + "CAMPAIGN 12 ADMISSIBLE 0 SAME 0\n")
    yield from (lvdc.Reply(0, b"text"), lvdc.Request(("run",), b"text"))


OBJECTS = list(objects())


@pytest.mark.parametrize("found", OBJECTS, ids=lambda it: type(it).__name__)
def test_an_object_is_pickled_and_copied(found: Any) -> None:
    for again in (pickle.loads(pickle.dumps(found)), copy.deepcopy(found), copy.copy(found)):
        assert type(again) is type(found)
        if not isinstance(found, lvdc.Census):
            assert again == found
            assert hash(again) == hash(found)
        assert str(again) == str(found)
        assert repr(again) == repr(found)
    assert len(repr(found)) < 500
    if dataclasses.is_dataclass(found) and not isinstance(found, type):
        assert len(dataclasses.asdict(found)) == len(dataclasses.fields(found))


def test_every_public_class_is_among_them() -> None:
    public = {value for name in lvdc.__all__ if isinstance(value := getattr(lvdc, name), type) and not typing.get_origin(value)}
    askers = {lvdc.Worker, lvdc.Pool}
    assert not {it for it in public - askers if not issubclass(it, lvdc.Error)} - {type(it) for it in OBJECTS}


@pytest.mark.parametrize("kind", [scripts.pairs([1, 2]), scripts.Near(scripts.flips([1, 2], modules=[3]), 1), scripts.Mixed(9, [Address(0, 1, 0)]),
                                  scripts.flips([1]).drawn(5), scripts.flips([1]).drawn(5) + scripts.pairs([1]),
                                  scripts.Lasting([1], [2], kinds=["force", "lag"])], ids=lambda it: type(it).__name__)
def test_a_kind_is_pickled_and_draws_the_same(kind: Any) -> None:
    drawn = kind if isinstance(kind, (scripts.Drawn, scripts.Several)) else kind.drawn(30)
    assert list(pickle.loads(pickle.dumps(drawn))) == list(copy.deepcopy(drawn)) == list(drawn)
    assert len(repr(kind)) < 400


def test_a_worker_and_a_pool_are_pickled_as_what_they_ask() -> None:
    with lvdc.Worker(TOP / "build", limit=3) as worker, lvdc.Pool(2, program=TOP / "build") as pool:
        assert (pickle.loads(pickle.dumps(worker)).program, pickle.loads(pickle.dumps(worker)).limit) == (worker.program, 3)
        assert len(pickle.loads(pickle.dumps(pool))) == 2


def test_findings_are_a_sequence_of_rows() -> None:
    found = lvdc.study(DECK, scripts.pairs([2, 3], modules=[5], bits=[0]), worker=SIMULATED)
    assert found[0] is found.rows[0]
    assert list(found[2:4]) == list(found.rows[2:4])
    assert found == found[:5] + found[5:]
    assert found != found[1:]
    assert found[0] in found
    assert len(found.where(lvdc.is_different)) == found.share(lvdc.is_different).count
    assert "12 scripts" in repr(found)


def test_notebooks_are_shown_tables() -> None:
    shown = [it for it in OBJECTS if hasattr(it, "_repr_html_")]
    assert {type(it) for it in shown} >= {lvdc.Report, lvdc.Trace, lvdc.Findings, lvdc.Deck, lvdc.Census}
    for it in shown:
        assert it._repr_html_().count("<table>") == it._repr_html_().count("</table>")
    assert "LVDC 1" in DECK._repr_html_()


def test_a_mapping_that_doesnt_change() -> None:
    found = Frozen({1: "one", 2: "two"})
    assert found == {2: "two", 1: "one"} and hash(found) == hash(Frozen({2: "two", 1: "one"}))
    assert (1 in found, len(found), list(found)) == (True, 2, [1, 2])
    with pytest.raises(TypeError):
        found[3] = "three"  # type: ignore[index]


@pytest.mark.skipif(importlib.util.find_spec("pandas") is None, reason="pandas isn't there")
def test_tables_keep_whole_numbers_and_octal_ports() -> None:
    frame = lvdc.trace(DECK, worker=SIMULATED).to_dataframe()
    assert frame.port.dropna().tolist() == ["017"]
    rows = lvdc.study(DECK, scripts.pairs([2], modules=[5], bits=[0]), worker=SIMULATED).to_dataframe()
    assert str(rows.dtypes["differs_time"]) in ("Int64", "int64")
