"""What lvdb is asked of a run: who wrote a word, which mistakes are made, why it ended, and how memory is assembled again."""
from pathlib import Path

import pytest
from conftest import TOP

import lvdc
from lvdc import Worker
from lvdc.lvdb.commands import carry_out
from lvdc.lvdb.console import Console
from lvdc.lvdb.errors import CommandError
from lvdc.lvdb.mistakes import KINDS
from lvdc.lvdb.program import Options, load
from lvdc.lvdb.session import Debugger
from lvdc.values import Address, Word

EXAMPLES = TOP / "examples"
ALL = sorted([*EXAMPLES.glob("*.source"), *EXAMPLES.glob("*.macros"), *EXAMPLES.glob("programs/*.deck"), *EXAMPLES.glob("programs/*.macros")])


def sitting(path: Path, worker: Worker, options: Options = Options()) -> Console:
    """A debugger over a file."""
    return Console(Debugger(load(path, options, worker), worker))


def told(console: Console, *lines: str) -> str:
    """What the last of these lines is answered."""
    return "\n".join([carry_out(console, it) for it in lines][-1])


def written(folder: Path, text: str, times: int = 40, start: str | None = None) -> tuple[Path, Options]:
    """A source in a file."""
    path = folder / "tried.source"
    path.write_text(text)
    return path, Options(times, start)


def source(text: str) -> str:
    """A source of lines that are parted by semicolons, of label:operation operand."""
    lines = [it.strip() for it in text.split(";")]
    parted = [(it.partition(":") if ":" in it else ("", "", it))[::2] for it in lines]
    return "".join(f"{label:8}{rest}\n" for label, rest in parted)


END = "STOP:TRA STOP; WORDS 0,01; X:OCT 50000; Y:DEC 7; END"
# Of each kind a program that makes it, the line that is named, and words that are said of it.
MADE: dict[str, tuple[str, int | None, str]] = {
    "early": (f"CODE; CLA X; MPY X; CLA 775; {END}", 4, "reads PQ, and the MPY of time 1"),
    "replaced": (f"CODE; CLA X; DIV X; MPY X; {END}", 4, "throws away the DIV of time 1"),
    "wrap": (f"CODE; CLA =D-33554432; SUB Y; {END}", 3, "-33554432 less 7 is -33554439"),
    "divide": (f"CODE; CLA X; DIV Y; {END}", 3, "divides 20480 by 7, which isn't greater"),
    "empty": ("CODE; CLA Z; STOP:TRA STOP; WORDS 0,01; Z:BSS 1; END", 2, "reads Z, where nothing was stored"),
    "unused": (f"CODE; CLA X; ADD Y; CLA Y; {END}", 4, "nothing has taken what time 1, ADD Y (line 3) made"),
    "operation": (f"ORG 0,01,0,000; BEGIN:CLA X; STO GET; GET:ADD Y; {END}", 3, "another operation at GET, whose line has ADD Y"),
    "unset": (f"CODE; CLA Y; ADD =D1; STO Y; {END}", 4, "changes Y, which time 0"),
    "syllable": (f"ORG 0,01,1,000; BEGIN:CLA BEGIN; ADD =D1; STO BEGIN; {END}", 4, "one location further is =O20000 there"),
    "past": (f"ORG 0,01,0,000; BEGIN:CLA GET; ADD =D1; STO GET; GET:CLA 377; {END}", 4, "its address goes from 377 to 400"),
    "outside": (f"ORG 0,01,0,000; BEGIN:CLA GET; ADD =D2; STO GET; GET:CLA Y; {END}", 5, "takes 0 01 010"),
    "lost": ("CODE; HOP =HSUB; STOP:TRA STOP; CODE; SUB:CLA X; TNZ ON; CLA X; ON:CLA X; STO 776; HOP 776; WORDS 0,01; X:DEC 1; END", 9,
             "keeps the way back of time 2"),
    "twice": ("CODE; HOP =HONE; STOP:TRA STOP; CODE; ONE:STO 776; HOP =HTWO; HOP 776; CODE; TWO:STO 776; HOP 776; END", 9, "which hasn't returned"),
    "sector": ("CODE; USE 0,02; CLA Z; STOP:TRA STOP; WORDS 0,02; Z:DEC 1; END", 3, "takes its data from 0,01"),
    "nowhere": (f"ORG 0,03,0,000; CLA X; {END}", None, "HOP 000"),
    "count": (f"CODE; LOOP:CLA X; TRA LOOP; {END}", None, "which is no TRA to itself")}


@pytest.mark.parametrize("kind", KINDS)
def test_each_kind_of_mistake_is_named_with_its_line(worker: Worker, tmp_path: Path, kind: str) -> None:
    text, line, words = MADE[kind]
    path, options = written(tmp_path, source(text), start="BEGIN" if "BEGIN" in text else None)
    console = sitting(path, worker, options)
    found = next((it for it in told(console, "mistakes").split("\n") if it.startswith(f"{kind}: ")), "")
    assert words in found and (line is None or f"(line {line})" in found), told(console, "mistakes")
    if kind != "count":
        assert told(console, f"catch {kind}", "continue").startswith(f"catch 1: {kind}: ")


def test_each_instruction_that_makes_a_mistake_is_named_where_its_kind_is_asked(worker: Worker, tmp_path: Path) -> None:
    path, options = written(tmp_path, source("CODE; CLA X; ADD Y; STO X; STO Y; STOP:TRA STOP; WORDS 0,01; X:DEC 1; Y:DEC 2; END"))
    console = sitting(path, worker, options)
    assert told(console, "mistakes").count("unset: ") == 1 and "(2 times in all)" in told(console, "mistakes")
    named = told(console, "mistakes unset").split("\n")
    assert [" changes X" in it or " changes Y" in it for it in named] == [True, True] and "times in all" not in "".join(named)


@pytest.mark.parametrize("path", sorted(EXAMPLES.glob("programs/*.deck")), ids=lambda it: str(it.stem))
def test_the_programs_make_no_mistake_but_by_intent(worker: Worker, path: Path) -> None:
    kinds = {it.kind for it in sitting(path, worker).debugger.mistakes().found}
    assert not kinds & {"early", "replaced", "syllable", "past", "operation", "unused", "lost", "twice", "sector", "nowhere"}


@pytest.mark.parametrize("path", ALL, ids=lambda it: str(it.name))
def test_memory_is_disassembled_to_a_source_of_the_same_words(worker: Worker, path: Path) -> None:
    console = sitting(path, worker)
    image = lvdc.assemble_image(console.debugger.program.deck.program, worker=worker)
    again = lvdc.assemble_image(told(console, "disassemble/s") + "\n", worker=worker)
    assert {at: it for at, it in again.words.items() if it} == {at: it for at, it in image.words.items() if it}


def test_an_image_is_disassembled_by_what_its_run_makes(worker: Worker) -> None:
    console = sitting(EXAMPLES / "sum-that-wraps.deck", worker)
    assert told(console, "disassemble/s").split("\n")[:4] == [
        "        ORG   0,00,0,000", "        CLA   000", "        ADD   001", "        STO   002"]


def test_a_changed_program_is_disassembled_as_it_is(worker: Worker) -> None:
    console = sitting(EXAMPLES / "programs" / "sort.deck", worker)
    again = lvdc.assemble_image(told(console, "until STOP", "disassemble/s") + "\n", worker=worker)
    report = console.debugger.replay.report(console.debugger.position // 3)
    assert {at: it for at, it in again.words.items() if it} == dict(report.words)


def test_who_wrote_a_word_and_what_it_came_from(worker: Worker) -> None:
    console = sitting(EXAMPLES / "programs" / "sort.deck", worker)
    assert told(console, "last LIST").startswith("LIST (0 01 062) hasn't been written up to here: line 71, DEC 3, gave it 000000003")
    lines = told(console, "until STOP", "last PASSES").split("\n")
    assert lines[0].startswith("PASSES (0 01 060) 377777777 (-1) -> 000000000 (0) at time ") and lines[0].endswith("by line 47: STO PASSES")
    assert lines[1:] and [it.split(", ")[1].split(" (")[0] for it in lines[2:]] == ["CLA PASSES", "ADD =D1"]
    lines = told(console, "writes PASSES").split("\n")
    assert lines[0] == "PASSES (0 01 060) is written 8 times in the run" and lines[-1].startswith("=>") and len(lines) == 9
    assert told(console, "writes A").split("\n")[0].startswith("A is written ")
    assert "is read 7 times" in told(console, "reads PASSES")


def test_a_product_that_is_waited_for_is_told_as_the_next_instruction_finds_it(worker: Worker) -> None:
    console = sitting(EXAMPLES / "programs" / "ascent.deck", worker)
    lines = told(console, "continue", "last ANGLE").split("\n")
    assert lines[0].endswith("at time 1197 by line 19: STO ANGLE")
    assert [it.split(", ")[1].split(" (")[0] for it in lines[2:]] == ["PIO 400", "ADD AIM", "SUB ANGLE", "MPH QUARTER", "ADD ANGLE"]
    assert lines[5].endswith("A is 377777723  -45")
    assert "time    1195  377777515 -> 377777723 -45  line 17: MPH QUARTER" in told(console, "writes A")
    assert told(console, "info ports").endswith("OUT 1198 017 000005112  line 20: PIO 017")
    sent = told(console, "last port 17").split("\n")
    assert sent[0] == "port 017 was given 000005112 (2634) at time 1198 by line 20: PIO 017" and sent[1:] == lines[1:]
    assert told(console, "writes port 017").split("\n")[:21:10] == [
        "port 017 is written 60 times in the run, the first 10 and the last 10:", "   time     198  000021150 8808  line 20: PIO 017",
        "=> time    1198  000005112 2634  line 20: PIO 017"]
    assert told(console, "reads port 000").startswith("port 000 is read 60 times in the run")
    assert told(console, "goto 5", "last port 017") == "port 017 hasn't been written up to here"
    with pytest.raises(CommandError, match="a port has an octal number up to 377"):
        told(console, "last port 400")
    assert told(console, "list ANGLE").split("\n")[5].endswith("ANGLE   DEC   9000       UPRIGHT")


def test_registers_and_reads_are_watched(worker: Worker, tmp_path: Path) -> None:
    path, options = written(tmp_path, source(MADE["early"][0]))
    console = sitting(path, worker, options)
    assert "lands in PQ in 4 instructions" in told(console, "step 2") and "MPY lands in PQ in 4 instructions" in told(console, "info registers")
    told(console, "goto 0")
    assert told(console, "watch 775").startswith("watch 1: PQ, now 000000000")
    assert told(console, "continue").split("\n")[0] == "watch 1: PQ 000000000 -> 000000014"
    assert console.debugger.position == 3 * 6
    assert told(console, "reverse-continue").split("\n")[1].startswith("time 5 at")
    assert told(console, "delete", "goto 0", "rwatch X", "continue").split("\n")[0] == "rwatch 2: X (0 01 000) is read, 000050000"
    assert told(console, "continue").split("\n")[1].startswith("time 2 at")


def test_conditions_hold_and_hits_are_passed_over(worker: Worker, tmp_path: Path) -> None:
    loop = source("CODE; BEGIN:CLA N; ADD =D1; STO N; TNZ BEGIN; STOP:TRA STOP; WORDS 0,01; N:DEC -9; END")
    path, options = written(tmp_path, loop, 100)
    console = sitting(path, worker, options)
    assert "if N == =D-5" in told(console, "break BEGIN if N == =D-5")
    assert told(console, "continue").split("\n")[1].startswith("time 16 at BEGIN")
    assert told(console, "condition 1 N > =D-3", "continue").split("\n")[1].startswith("time 28 at")
    assert told(console, "condition 1", "ignore 1 3", "run").split("\n")[1].startswith("time 12 at")
    assert told(console, "continue").split("\n")[1].startswith("time 16 at")
    assert "hit 7 times" in told(console, "info breakpoints")
    assert told(console, "delete", "watch N if $A >= 0", "continue").split("\n")[0] == "watch 2: N (0 01 000) 377777777 -> 000000000"


def test_next_passes_over_calls_and_holds(worker: Worker, tmp_path: Path) -> None:
    called = "NEAR:STO 777; CLA Y; HOP 777; CODE; SUB:STO 776; HOP 776; WORDS 0,01"
    text = source(f"CODE; CLA X; MPH X; HOP =HSUB; TRA NEAR; CLA Y; {END}".replace("WORDS 0,01", called))
    path, options = written(tmp_path, text)
    console = sitting(path, worker, options)
    lines = [told(console, "next").split("\n")[0].split(" at ")[0] for _ in range(5)]
    assert lines == ["time 1", "time 6", "time 9", "time 13", "time 14"]
    assert told(console, "goto 6", "break SUB", "next").split("\n")[0].startswith("breakpoint 1: SUB")


def test_a_file_is_read_anew_after_an_edit(worker: Worker, tmp_path: Path) -> None:
    path, options = written(tmp_path, source(MADE["early"][0]))
    console = sitting(path, worker, options)
    told(console, "break STOP", "break 4", "watch X", "hurt 5 1 for 1", "break 3 if X == 1", "display X", "display Y")
    path.write_text("* A COMMENT\n" + source(MADE["early"][0].replace("775", "Y").replace("X", "XX")))
    answer = told(console, "step 2", "reload")
    assert "is read anew" in answer and "watch 3 is gone: 'X' is no word" in answer and "time 0 at" in answer
    assert "break 4 is gone" in answer and "display 1 is gone" in answer and "2: Y = 000000007" in answer
    assert "put in  LAG 5 1 0 0" in told(console, "faults")
    assert told(console, "run").split("\n")[:3][0].startswith("breakpoint 2")
    path.write_text("        CODE\n")
    with pytest.raises(CommandError, match="is refused, and what was read before stays"):
        carry_out(console, "reload")
    assert told(console, "continue").split("\n")[0].startswith("breakpoint 1: STOP")


def test_cells_and_what_a_read_of_them_does(worker: Worker) -> None:
    console = sitting(EXAMPLES / "sum-that-wraps.deck", worker)
    assert "takes 177777777 of twin 0" in told(console, "x/cells 0,01,000")
    damaged = told(console, "damage 0,01,000 1", "x/cells 0,01,000").split("\n")
    assert damaged[1].endswith("syllable 1 07777 good, syllable 0 17776 bad") and damaged[2].endswith("good, syllable 0 17777 good")
    assert damaged[3].endswith("takes 177777777 of twin 1, and selects that twin; twin 0 is bad, and is rewritten")
    assert "takes 177777774 of twin 0, which isn't the intended word" in told(console, "undo", "damage 0,01,000 3", "x/cells 0,01,000")
    assert "finds no good cell" in told(console, "undo", "damage 0,01,000 1", "damage 0,01,000 1 1", "x/cells 0,01,000")
    assert "twin 0 is dead, and nothing is rewritten" in told(console, "undo", "undo", "kill 0 0", "x/cells 0,01,000")


def test_cells_are_those_of_a_saved_text(worker: Worker) -> None:
    console = sitting(EXAMPLES / "programs" / "sort.deck", worker)
    told(console, "goto 300 B")
    saved = lvdc.save(console.debugger.deck, 301, worker=worker)
    assert isinstance(saved, lvdc.Saved)
    from lvdc.lvdb.cells import code_of, twins_at
    twins = twins_at(console.debugger.replay, 3 * 301, worker)
    assert all(twins.stored((0, at)) == code_of(word) == saved.cells[0, at] for at, word in saved.words.items())


def test_where_a_fault_begins_to_show_and_why_a_run_ended(worker: Worker) -> None:
    console = sitting(EXAMPLES / "sum-that-wraps.deck", worker)
    assert told(console, "step", "hurt accumulator 1 for 1 flip A 1", "continue", "diff").split("\n")[1] == (
        "the first copy that differed from its vote: step 3, accumulator 1")
    ended = told(console, "goto 1", "hurt accumulator 3 for 1 flip A 1", "why")
    assert ended.split("\n") == ["in step 3 copies 1 and 3 of the accumulator are wrong, by these lines of the script:", "  FLIP 5 1 3 3 0 000000001",
                                 "  FLIP 5 3 3 3 0 000000001"]
    assert told(console, "through", "continue", "diff").split("\n") == [
        "first difference at step 3 (time 1, phase A), without faults behind `not`:", "  module 5, accumulator A: 177777776, not 177777777"]
    memory = sitting(EXAMPLES / "damaged-twice.deck", worker)
    assert "DAMAGE" in told(memory, "continue", "why") and "finds no good cell" in told(memory, "why")


def test_calls_of_macros_are_shown_with_what_they_come_to(worker: Worker) -> None:
    console = sitting(EXAMPLES / "five-threes.macros", worker, Options(200))
    assert told(console, "step").split("\n")[1:3] == ["   18          TIMES N,X,SUM", "   11=>        SUB   =O1"]
    lines = told(console, "info lines").split("\n")
    assert [it[8:] for it in lines[8:21]] == [
        "     9  TIMES   MACRO", "    10  L&0     CLA   &1", "    11          SUB   =O1", "    12          STO   &1", "    13          ADDTO &2,&3",
        "    14          CLA   &1", "    15          TNZ   L&0", "    16          MEND", "    17          ORG   0,00,0,000",
        "    18          TIMES N,X,SUM", "    10=>L001     CLA   N", "    11=>        SUB   =O1", "    12=>        STO   N"]
    assert lines[21].startswith("       5     4=>") and "by line 18, from line 6: STO SUM" in told(console, "until 19", "last SUM")
    told(console, "goto 1")
    assert told(console, "macro 18").count("=>") == 8 and told(console, "until 19").split("\n")[0].endswith("at STOP (0 00 0 010)")
    assert console.word(Address(0, 1, 2)) == Word(15)
