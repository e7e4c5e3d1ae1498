"""Traces, forms and studies: the texts of tests/texts are read and printed again, and a worker answers the same."""
import pickle
from pathlib import Path

import pytest
from conftest import name_of
from test_cases import OF_WORKER

from lvdc import (Address, Damage, Differs, Done, Error, Form, Inadmissible, Logic, NoMemory, Refused, StudyRows, TimeLimit, Trace, Word,
                  Worker, WorkerFailed)
from lvdc.lines import Unread, decode
from lvdc.steps import MemoryExchange, PortExchange, ReadRepair
from lvdc.values import Port

TEXTS = Path(__file__).resolve().parent / "texts"
CASES = sorted(TEXTS.glob("*/*"))


def text_of(name: str) -> str:
    """The text of a case."""
    return (TEXTS / name / "text").read_text()


@pytest.mark.parametrize("case", CASES, ids=name_of)
def test_it_is_read_whole_and_printed_again(case: Path) -> None:
    text, status = (case / "text").read_text(), int((case / "status").read_text())
    if status == 2:
        refused = Refused(status, text, (case / "input").read_text())
        assert f"REFUSED {refused.cause} {refused.number}\n" == text
    else:
        found = OF_WORKER[case.parent.name](text)
        assert str(found) == found.text == text


@pytest.mark.parametrize("case", CASES, ids=name_of)
def test_a_worker_answers_it(case: Path, worker: Worker) -> None:
    words = (case / "words").read_text().split()
    reply = worker.ask(words, (case / "input").read_bytes())
    assert (reply.status, decode(reply.text)) == (int((case / "status").read_text()), (case / "text").read_text())


def test_a_trace_says_what_happens_in_each_step() -> None:
    trace = Trace.read(text_of("trace/a-sum-step-by-step"))
    assert isinstance(trace.end, Done)
    assert [it.number for it in trace.steps] == list(range(9))
    assert trace.steps[8].exchange == MemoryExchange("STORE", Address(0, 1, 2), Word(0o200000000))
    assert (trace.steps[8].time, trace.steps[8].phase) == (2, "C")
    accumulators = [votes[5][0] for _, votes in trace.votes()]
    assert accumulators[-1].signed == -2**25


def test_a_trace_has_wrong_copies_repairs_and_ports() -> None:
    wrong = Trace.read(text_of("trace/two-copies-outvote-the-third"))
    assert wrong.is_through
    assert wrong.steps[1].wrong == ((3, 1), (3, 2))
    assert wrong.steps[1].differing == {(3, 3): (Word(0o7001),)}
    assert Trace.read(text_of("trace/two-repairs")).steps[1].repair == ReadRepair(Address(0, 1, 0), 0, is_switch=True)
    ports = Trace.read(text_of("trace/a-word-through-two-ports"))
    assert ports.steps[2].exchange == PortExchange("IN", Port(0), Word(5))
    assert Trace.read(text_of("trace/one-wrong-copy-in-each-step")).end is None
    assert Trace.read(text_of("trace/an-inadmissible-step")).end == Inadmissible(Logic(4, 3))


def test_rows_of_a_study() -> None:
    rows = StudyRows.read(text_of("study/outcomes-over-a-tape"))
    by_name = {it.name: it for it in rows.rows}
    assert by_name["STORED"].outcome == Differs("WORDS", address=Address(0, 1, 2))
    assert by_name["TWICE"].outcome == Differs("PORT", time=1)
    assert (by_name["AWAY"].repairs, by_name["AWAY"].first_repair, by_name["AWAY"].form) == (2, 0, False)
    assert (rows.scripts, rows.admissible, rows.same, rows.form) == (10, 2, 2, 1)


def test_a_form() -> None:
    assert Form.read("FORM YES\n").is_masking
    assert Form.read("FORM NO 3\n").failing == 3


@pytest.mark.parametrize(("text", "number"), [
    ("", 1), ("LVDC TRACE\n", 2), ("LVDC TRACE\nMORE\nMORE\n", 3), ("LVDC TRACE\nSTEP 0\nVOTE 3 000000000 000000000\nMORE\n", 3),
    ("LVDC TRACE\nSTEP 0\nFAULT 1 2\nFAULT 1 1\nMORE\n", 4), ("LVDC TRACE\nSTEP 0\nSTEP 2\nMORE\n", 3), ("LVDC TRACE\nMORE", 2)])
def test_what_is_no_trace_is_named_by_its_line(text: str, number: int) -> None:
    with pytest.raises(Unread) as caught:
        Trace.read(text)
    assert caught.value.number == number


def test_a_refusal_has_the_text_of_its_line() -> None:
    refused = Refused(2, "REFUSED BadLine 2\n", "IMAGE\nLVDC 3\n")
    assert (refused.cause, refused.number, refused.line, refused.status) == ("BadLine", 2, "LVDC 3", 2)
    assert str(refused) == "BadLine at line 2: 'LVDC 3'"
    assert Refused(2, "REFUSED BadSection 9\n", "IMAGE\n").line == ""
    assert Refused(10, "REFUSED Device 014\n", "").number == 0o14


@pytest.mark.parametrize("error", [Refused(2, "REFUSED BadLine 2\n", "IMAGE\nLVDC 3\n"), Unread(3, "X", "END"), NoMemory("run"),
                                   TimeLimit("late"), WorkerFailed("gone")])
def test_exceptions_are_pickled(error: Error) -> None:
    again = pickle.loads(pickle.dumps(error))
    assert (type(again), str(again), again.__dict__) == (type(error), str(error), error.__dict__)


def test_a_fault_is_its_line() -> None:
    assert str(Damage(0, 0, 1, 0, 4, 1)) == "DAMAGE 0 0 01 000 4 0000000001"
