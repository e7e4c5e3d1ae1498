"""Campaigns and studies in pieces: rows know their scripts, and tables and pictures are made of them."""
import csv
import importlib.util
import io
import itertools
import math
from collections.abc import Sequence
from pathlib import Path

import pytest
from conftest import TOP
from hypothesis import given
from hypothesis import strategies as st
from simulated import Simulated

from lvdc import Address, Admissible, CampaignRow, Deck, Findings, Reply, Script, campaign, is_different, is_inadmissible, study, wilson
from lvdc.intervals import Share
from lvdc.scripts import Damages, flips, pairs
from lvdc.studies import name_of
from lvdc.tables import record

SUM = Deck.read((TOP / "examples" / "sum-that-wraps.deck").read_text())
SIMULATED = Simulated()


class Written:
    """Answers a study as if each script with two faults or more were inadmissible, and keeps what it was asked."""

    def __init__(self) -> None:
        self.asked: list[str] = []

    def ask(self, words: Sequence[str], given: bytes = b"", limit: float | None = None) -> Reply:
        """Rows in the order of the scripts; the run without faults is the simulator's."""
        if list(words) == ["run", "--plain"]:
            return SIMULATED.ask(words, given)
        assert list(words) == ["study"]
        self.asked.append(given.decode())
        scripts = [it.split("\n") for it in given.decode().split("SCRIPT ")[1:]]
        rows = [f"SCRIPT {it[0]} " + ("ADMISSIBLE SAME" if len(it) < 4 else "LOGIC 4 5 DIFFERS WORDS 0 01 002")
                + " COPIES 1 REPAIRS 0 - FORM NO\n" for it in scripts]
        return Reply(0, f"{''.join(rows)}STUDY {len(rows)} ADMISSIBLE 0 SAME 0 FORM 0\n".encode())


@pytest.fixture(scope="module")
def found() -> Findings[CampaignRow]:
    """A campaign of single flips and of pairs, by the simulator."""
    scripts = [*flips([3, 4], modules=[5], bits=[0]), *pairs([3, 4], modules=[5], bits=[0])]
    return campaign(SUM, scripts, worker=SIMULATED, at_once=7)


def test_rows_know_their_scripts(found: Findings[CampaignRow]) -> None:
    assert len(found) == 24
    assert [it.name for it in found] == [name_of(at) for at in range(24)]
    for row in found:
        assert isinstance(row.verdict, Admissible) == (len(row.script.faults) == 1)
    assert found.share(is_inadmissible).count == 12
    assert found.shares("step", is_inadmissible) == {3: Share(6, 12), 4: Share(6, 12)}
    assert 0 < found.share(is_different).count < 12


def test_a_table_has_a_row_for_each(found: Findings[CampaignRow], tmp_path: Path) -> None:
    rows = list(csv.DictReader(io.StringIO(found.csv())))
    assert len(rows) == 24
    assert rows[0]["faults"] == "FLIP 5 1 3 3 0 000000001"
    assert (rows[-1]["verdict"], rows[-1]["verdict_step"], rows[-1]["verdict_module"]) == ("LOGIC", "4", "5")
    found.to_csv(tmp_path / "rows.csv")
    assert (tmp_path / "rows.csv").read_bytes() == found.csv().encode()
    assert found.csv().count("\r\n") == found.csv().count("\n") == 25


def test_kinds_of_many_columns_have_one_table() -> None:
    scripts = [*flips([3], modules=[5], bits=[0]), *Damages([3], [Address(0, 1, 0)], bits=[0])]
    rows = campaign(SUM, scripts, worker=SIMULATED)
    columns = rows.columns()
    assert columns[:8] == ["name", "faults", "kind", "module", "latch", "copy", "step", "bit"]
    assert columns[8:] == ["twin", "place", "verdict", "verdict_step", "verdict_module", "verdict_address", "is_same"]
    assert rows.csv().split("\r\n")[0] == ",".join(columns)


def test_proportions_come_with_counts(found: Findings[CampaignRow]) -> None:
    assert [(it["step"], it["scripts"], it["inadmissible"]) for it in found.counts("step")] == [(3, 12, 6), (4, 12, 6)]
    assert [(it["kind"], it["inadmissible_share"]) for it in found.counts("kind")] == [("flip", 0), ("pair of flips", 1)]
    assert found.counts()[0]["scripts"] == 24
    assert found.counts("kind")[0]["inadmissible_high"] == wilson(0, 12)[1]


def test_a_study_of_devices_by_the_simulator() -> None:
    deck = Deck.read("IMAGE\nLVDC 1\n0 00 000 000012400\n0 00 001 000012017\n0 00 002 000010002\nEND\nPORTS\nTAPE 000 5\nRUN 3\n")
    rows = study(deck, [Script(()), *pairs([2], modules=[5], latches=[0], bits=[0])], worker=SIMULATED, at_once=2)
    assert [str(it.outcome) for it in rows] == ["SAME"] + 3 * ["DIFFERS PORT 1"]
    assert [it.form for it in rows] == [True, False, False, False]
    assert rows.columns()[-1] == "masks_by_form"
    assert rows.counts()[0] | {"scripts": 4, "inadmissible": 3, "different": 3, "masks_by_form": 1} == rows.counts()[0]


@pytest.mark.skipif(importlib.util.find_spec("pandas") is None, reason="pandas isn't there")
def test_a_dataframe(found: Findings[CampaignRow]) -> None:
    frame = found.to_dataframe()
    assert list(frame.groupby("step").size()) == [12, 12]
    assert frame["is_same"].dtype == bool
    assert list(frame.columns) == found.columns() == found.csv().split("\r\n")[0].split(",")


@pytest.mark.skipif(importlib.util.find_spec("matplotlib") is None, reason="matplotlib isn't there")
def test_pictures(found: Findings[CampaignRow], tmp_path: Path) -> None:
    from lvdc import plots
    plots.share({"one": found, "two": found}, by="step").savefig(tmp_path / "share.png")
    plots.failures(found).savefig(tmp_path / "failures.png")
    plots.failures(found, by=None).savefig(tmp_path / "outcomes.png")
    assert (tmp_path / "share.png").stat().st_size > 1000
    assert (tmp_path / "failures.png").stat().st_size > 1000


def test_a_study_is_asked_in_pieces_with_the_deck_before_each() -> None:
    written = Written()
    deck = Deck.read("IMAGE\nLVDC 1\nEND\nPORTS\nTAPE 000 5\nFAULTS\nLAG 1 1 0 0\nRUN 50000\nDEBUG\nGO\n")
    rows = study(deck, itertools.islice(itertools.cycle(pairs([3], modules=[5], bits=[0])), 4001), worker=written, at_once=9999)
    assert len(written.asked) == 3
    assert len(rows) == 4001
    assert all(it.startswith("IMAGE\nLVDC 1\nEND\nPORTS\nTAPE 000 000000005\nRUN 50000\nCAMPAIGN\nSCRIPT ") for it in written.asked)
    assert record(rows[0])["differs_address"] == "0 01 002"


def test_no_script_is_no_request() -> None:
    assert not len(study(SUM, [], worker=Written()))


def test_a_script_of_many_faults_has_a_piece_of_its_own() -> None:
    written = Written()
    long = Script(tuple(next(iter(flips([0]))).faults * 30_000))
    study(SUM, [long, long, long], worker=written)
    assert len(written.asked) == 3
    assert all(len(it) <= 1_048_576 for it in written.asked)


@given(st.integers(0, 1000), st.integers(0, 1000))
def test_wilson(count: int, more: int) -> None:
    low, high = wilson(count, count + more)
    assert 0 <= low <= high <= 1
    if count + more:
        assert low - 1e-12 <= count / (count + more) <= high + 1e-12


def test_wilson_by_known_values() -> None:
    assert [round(it, 4) for it in wilson(0, 10)] == [0, 0.2775]
    assert [round(it, 4) for it in wilson(5, 10)] == [0.2366, 0.7634]
    assert wilson(0, 0) == (0, 1)
    assert math.isnan(Share(0, 0).share)
    assert str(Share(1, 4)) == "1 of 4, 25.0% (4.6% to 69.9%)"
