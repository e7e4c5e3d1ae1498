"""Commands give objects whose texts are read whole: of random runs by the simulator, and by a worker where one is there."""
from pathlib import Path

import pytest
from conftest import TOP, cases, input_of, name_of
from hypothesis import HealthCheck, given, settings
from simulated import Simulated
from strategies import small_runs

import lvdc
from lvdc import Address, Damage, Deck, Done, Flip, Image, Refused, Report, Saved, Word, Worker
from lvdc.lines import encode
from lvdc.workers import Asker

SUM = Deck.read((TOP / "examples" / "sum-that-wraps.deck").read_text())
SIMULATED = Simulated()
FEW = settings(max_examples=40, deadline=None, suppress_health_check=[HealthCheck.too_slow, HealthCheck.function_scoped_fixture])


def reads_whole(deck: Deck, asker: Asker) -> None:
    """Each answer to a deck is printed again as the same text, and the two halves of a saved run are the whole."""
    report = lvdc.run(deck, worker=asker)
    assert str(report) == report.text
    through, plain = lvdc.run(deck, through=True, worker=asker), lvdc.run(deck, plain=True, worker=asker)
    assert (str(through), str(plain)) == (through.text, plain.text)
    session = lvdc.debug(deck, ["REGS", "STEP 1", "COPIES 5", "MEM 0 01 000 4", "DIS 0 00 0 000 3", "GO", "NOTHING"], worker=asker)
    assert str(session) == session.text
    saved = lvdc.save(deck, deck.count // 2, worker=asker)
    assert str(saved) == saved.text
    if isinstance(saved, Saved):
        assert str(lvdc.resume(saved, worker=asker)) == report.text
        assert str(lvdc.trace(saved, worker=asker)) == str(lvdc.trace(deck, saved.steps, worker=asker))


@FEW
@given(small_runs())
def test_random_runs_of_the_simulator_are_read_whole(deck: Deck) -> None:
    reads_whole(deck, SIMULATED)


@settings(FEW, max_examples=300)
@given(deck=small_runs())
def test_random_runs_of_a_worker_are_read_whole(worker: Worker, deck: Deck) -> None:
    reads_whole(deck, worker)


def answered() -> list[Path]:
    """The cases whose words a worker answers as the program does, but for soak runs, which are slow."""
    return [it for it in cases() if (it / "status").read_text() != "1\n" and not (it / "words").read_text().startswith("soak\n")]


@pytest.mark.parametrize("case", answered(), ids=name_of)
def test_a_worker_answers_the_cases(case: Path, worker: Worker) -> None:
    words, status = (case / "words").read_text().split("\n")[:-1], int((case / "status").read_text())
    reply = worker.ask(words, input_of(case))
    assert (reply.status, reply.text) == (status, (case / "text").read_bytes())


@pytest.fixture(params=["simulated", "worker"])
def asker(request: pytest.FixtureRequest) -> Asker:
    """The simulator, and a worker where one is there."""
    found: Asker = SIMULATED if request.param == "simulated" else request.getfixturevalue("worker")
    return found


def test_a_report_is_told_by_its_parts(asker: Asker) -> None:
    hurt = SUM.with_faults(Flip(5, 2, 4, 4, 0, 1), Damage(0, 0, 1, 0, 0, 1))
    report = lvdc.run(hurt, worker=asker)
    assert report.end == Done()
    assert report.registers.a.signed == -2**25
    assert report.word(Address(0, 1, 2)) == Word(0o200000000)
    assert report.word(Address(3, 0, 0)) == 0
    assert report.wrong == {(5, 2): 1}
    assert [(it.step, it.twin, it.is_switch) for it in report.repairs] == [(1, 0, True)]
    assert isinstance(report, Report)
    assert not report.lost


def test_a_refusal_names_the_line_and_its_text(asker: Asker) -> None:
    with pytest.raises(Refused, match="BadLine at line 4: 'RUN 1x'") as caught:
        lvdc.run("IMAGE\nLVDC 1\nEND\nRUN 1x\n", worker=asker)
    assert (caught.value.cause, caught.value.number, caught.value.line) == ("BadLine", 4, "RUN 1x")


def test_sources_are_assembled(asker: Asker, tmp_path: Path) -> None:
    path = TOP / "examples" / "two-syllables.source"
    listing = lvdc.assemble(path, worker=asker)
    image = lvdc.assemble_image(path, worker=asker)
    assert listing.text == (TOP / "examples" / "two-syllables.listing").read_text()
    assert lvdc.run(Deck(image, 3), worker=asker).registers.times == 3
    macros = TOP / "examples" / "five-threes.macros"
    assert str(lvdc.expand(macros, worker=asker)) == (TOP / "examples" / "five-threes.expansion").read_text()
    assert lvdc.assemble_image(macros, macros=True, worker=asker) == Image.read((TOP / "examples" / "five-threes.image").read_text())
    copy = tmp_path / "copy.source"
    copy.write_bytes(path.read_bytes())
    assert lvdc.assemble(copy, worker=asker) == listing


def test_messages_are_answered(asker: Asker) -> None:
    answers = lvdc.uplink(TOP / "examples" / "two-loads.uplink", worker=asker)
    assert answers.text == (TOP / "examples" / "two-loads.answers").read_text()
    assert encode(str(answers)) == encode(answers.text)


def test_a_run_isnt_both_plain_and_through() -> None:
    with pytest.raises(ValueError, match="not both"):
        lvdc.run(SUM, plain=True, through=True, worker=SIMULATED)
