"""Each command of lvdb: what it answers, and that wrong arguments are told what is right and change nothing."""
import resource
import signal
from pathlib import Path

import pytest
from conftest import TOP

import lvdc
from lvdc import Address, Damage, Dead, Deaf, Deck, Flip, Force, Lag, Worker
from lvdc.lvdb.commands import COMMANDS, carry_out, find
from lvdc.lvdb.console import Console, Leave
from lvdc.lvdb.errors import CommandError
from lvdc.lvdb.program import Options, Program, load
from lvdc.lvdb.prompt import completions
from lvdc.lvdb.session import Debugger
from lvdc.workers import Asker

SUM = "examples/sum-that-wraps.deck"
SORT = "examples/programs/sort.deck"
LAST = 2_999_999


@pytest.fixture(scope="module")
def loaded(worker: Worker) -> dict[str, Program]:
    """The programs of these tests."""
    return {name: load(TOP / name, Options(), worker) for name in (SUM, SORT)}


@pytest.fixture
def sum_(loaded: dict[str, Program], worker: Worker) -> Console:
    """At the beginning of the sum that wraps."""
    return Console(Debugger(loaded[SUM], worker))


@pytest.fixture
def sort(loaded: dict[str, Program], worker: Worker) -> Console:
    """At the beginning of the sort."""
    return Console(Debugger(loaded[SORT], worker))


def told(console: Console, *lines: str) -> str:
    """What the last of these lines is answered."""
    answers = [carry_out(console, it) for it in lines]
    return "\n".join(answers[-1])


def all_of(console: Console) -> tuple[object, ...]:
    """What a command may change."""
    debugger = console.debugger
    return debugger.position, debugger.is_through, debugger.injected, debugger.breakpoints.values(), dict(console.displays)


# A line with wrong arguments of each command, and a part of what is right.
WRONG = [
    ("step x", "usage: step [N]"), ("step 0", "decimal and 1 or more"), ("step 1 2", "usage: step"), ("phase -1", "usage: phase [N]"),
    ("continue 5", "usage: continue"), ("until NOBODY", "is no place"), ("until 0,00,0", "is no place"), ("finish 1", "usage: finish"),
    ("finish", "no HOP has called"), ("back x", "usage: back [N]"), ("back", "nothing to go back to"), ("reverse-continue", "nothing to go back to"),
    ("reverse-continue 3", "usage: reverse-continue"), ("goto", "usage: goto TIME [A|B|C]"), ("goto -1", "is no time"), ("goto 3 D", "is no time"),
    ("goto 010", "is no time"), ("break LIST", "is a word and no line of code"), ("break 9999", "no line from 9999 on"),
    ("break 9,00,0,000", "is no place"), ("break 0,77,0,000", "in octal"), ("tbreak NOBODY", "is no place"),
    ("watch", "usage: watch WORD|A|PQ|SAVER"),
    ("watch NOBODY", "is no word"), ("watch 0,01", "is no word"), ("delete 7", "there is no breakpoint 7"), ("delete x", "usage: delete"),
    ("info", "say of what"), ("info c", "may be copies, calls"), ("info weather", "registers|breakpoints|copies"), ("copies 5", "usage: copies"),
    ("faults 1", "usage: faults"), ("backtrace 1", "usage: backtrace"), ("print", "the expression is missing"), ("print /z LIST", "is no format"),
    ("print 1 +", "a part is missing"), ("print (1", "parenthesis"), ("print $B", "is no register"), ("print NOBODY", "is no word"),
    ("print 9", "is no expression"), ("print =D33554432", "has 26 bits"), ("print * 1", "has nothing before it"), ("print 400000000", "has 26 bits"),
    ("x", "usage: x"), ("x/0 LIST", "is no format"), ("x/257 LIST", "is no format"), ("x/8q LIST", "is no format"), ("x/8 NOBODY", "is no word"),
    ("x/256 LIST", "to the end of the sector"), ("step/3", "has no format"), ("list NOBODY", "is no place"), ("list 5000", "the source has"),
    ("disassemble NOBODY", "is no place"), ("display NOBODY", "is no word"), ("undisplay 3", "there is no display 3"),
    ("set A 5", "comes from its deck alone"), ("set", "put a fault in"), ("hurt", "module and copy are missing"), ("hurt 8 1", "is no module"),
    ("hurt q 1", "is no module"), ("hurt 5 4", "is no copy here: it is 1 or 2 or 3"), ("hurt 5 1 for", "a count of steps"),
    ("hurt 5 1 flip", "is no way"),
    ("hurt 5 1 flip PQ 1", "is no latch of the accumulator: it has A, OPERAND"), ("hurt 5 1 flip 8", "no bits"), ("hurt 5 1 force 1", "is no way"),
    ("hurt 5 1 flip 400000000", "26 bits"), ("hurt 5 1 burn", "usage: hurt MODULE COPY"), ("damage", "usage: damage"),
    ("damage LIST", "usage: damage"),
    ("damage LIST 2 1", "is no twin here: it is 0 or 1"), ("damage NOBODY 1", "is no word"), ("damage LIST 0 2000000000", "28 bits"),
    ("damage 0 01 002", "usage: damage"), ("kill 0", "a twin, 0 or 1, and a pair"), ("kill 2 0", "is no twin"), ("kill 0 4", "is no pair"),
    ("undo", "nothing was put in"), ("undo 1", "usage: undo"), ("judge now", "usage: judge"), ("through 1", "usage: through"),
    ("guarded 1", "usage: guarded"), ("save", "the name of a file"), ("save /nowhere/at/all", "can't be written"),
    ("help fly", "there is no command"),
    ("quit now", "usage: quit"), ("fly", "there is no command 'fly'"), ("f", "may be faults, finish"), ("u1", "there is no command"),
    ("run 1", "usage: run"), ("next x", "usage: next [N]"), ("reload now", "usage: reload"),
    ("print LIST + 1", "LIST+1 is the word so many locations behind LIST, (LIST) + 1 the word at LIST and 1 more"),
    ("print " + "(" * 150 + "1" + ")" * 150, "at most 32 parentheses"), ("print =D99999999999999", "is no expression"),
    ("print " + "~" * 2000, "1000 characters"),
    ("break LIST if 1", "is a word"), ("break if", "a part is missing"), ("break LESS if 1 +", "a part is missing"),
    ("tbreak if NOBODY", "is no word"),
    ("watch if 1", "usage: watch"), ("rwatch", "usage: rwatch"), ("awatch NOBODY", "is no word"), ("rwatch PQ", "`watch PQ` stops where it changes"),
    ("catch flies", "usage: catch [KIND ..]"), ("condition", "the number is missing"), ("condition 3 1", "there is no breakpoint 3"),
    ("ignore 3", "there is no breakpoint 3"), ("last", "usage: last WORD"), ("last NOBODY", "is no word"), ("writes", "usage: writes"),
    ("reads", "usage: reads"), ("reads A", "`writes A` shows its changes"), ("mistakes of mine", "usage: mistakes"), ("diff 1", "usage: diff"),
    ("diff", "has no fault"), ("why not", "usage: why"), ("why", "hasn't ended"), ("macro x", "usage: macro"), ("macro", "no line that calls"),
    ("x/0cells LIST", "is no format"), ("disassemble/q", "is no format"), ("disassemble/s LESS", "nothing stands behind"),
    ("damage LIST 0 1 2", "usage: damage"), ("step " + "1" * 1000, "a line has at most 1000 characters")]


@pytest.mark.parametrize("line, right", WRONG, ids=[line.replace("/", "_")[:40] for line, _ in WRONG])
def test_wrong_arguments_are_told_what_is_right(sort: Console, line: str, right: str) -> None:
    before = all_of(sort)
    with pytest.raises(CommandError) as caught:
        carry_out(sort, line)
    assert right in str(caught.value)
    assert all_of(sort) == before


def test_each_command_has_a_line_with_wrong_arguments() -> None:
    assert {find(line.split("/")[0].split()[0]).name for line, _ in WRONG if line not in ("fly", "f", "u1")} == set(COMMANDS)


def test_what_is_wrong_at_the_end_changes_nothing(sum_: Console) -> None:
    carry_out(sum_, "continue")
    before = all_of(sum_)
    for line in ("step", "phase", "continue", "until 0,00,0,000", "until", "finish", "hurt 5 1", "damage 0,01,000 1", "kill 0 0"):
        with pytest.raises(CommandError, match="the run has ended: END DONE"):
            carry_out(sum_, line)
        assert all_of(sum_) == before


def test_short_forms_and_beginnings_are_the_commands() -> None:
    names = {"s": "step", "c": "continue", "b": "break", "tb": "tbreak", "d": "delete", "p": "print", "i": "info", "x": "x", "l": "list",
             "u": "until", "fin": "finish", "rc": "reverse-continue", "rs": "back", "bt": "backtrace", "h": "help", "q": "quit",
             "disas": "disassemble", "unti": "until", "cont": "continue", "wat": "watch", "n": "next", "r": "run", "la": "last", "mi": "mistakes",
             "si": "phase", "undi": "undisplay"}
    for short, name in names.items():
        assert find(short).name == name
    shorts = [it for command in COMMANDS.values() for it in (command.name, *command.shorts)]
    assert len(shorts) == len(set(shorts))


def test_a_stop_shows_line_exchange_registers_and_copies(sort: Console) -> None:
    lines = told(sort, "hurt accumulator 2 for 6 flip A 1", "step 2").split("\n")
    assert lines[0] == "time 2 at PASS (0 01 0 002)"
    assert lines[1].split()[:5] == ["8", "PASS", "CLA", "FIRST1", "THE"]
    assert "  STORE 0 01 060 377777771 PASSES" in lines
    assert "  A 000000000 -> 377777771  -7" in lines
    assert "  accumulator 2 differs: A 377777770, the vote is 377777771" in lines
    assert "  wrong by the script in step 5: accumulator 2" in lines


def test_within_a_time_the_fetch_is_shown_too(sum_: Console) -> None:
    assert told(sum_, "phase").split("\n")[:3] == ["time 0, phase B at 0 00 0 000", "       CLA 000", "  FETCH 0 00 000 000017000"]


def test_an_instruction_that_the_program_has_changed_is_shown_beside_its_line(sort: Console) -> None:
    assert "memory has CLA LIST+1 here now, written at time 30 by line 31: STO GET1" in told(sort, "tbreak GET1", "continue", "step", "until GET1")


def test_words_are_printed_in_all_forms(sort: Console) -> None:
    assert told(sort, "print LIST") == "LIST = 000000003  3  0.00000009"
    assert told(sort, "print/d LIST+1") == "LIST+1 = -33554432"
    assert told(sort, "p/f LIST+1") == "LIST+1 = -1.00000000"
    assert told(sort, "print (LIST) + 1") == "(LIST) + 1 = 000000004  4  0.00000012"
    assert told(sort, "print GET1").split("\n")[1] == "  the instruction there is CLA LIST"
    assert told(sort, "print 0 01 062") == "0 01 062 = 000000003  3  0.00000009"
    assert told(sort, "x/2o LIST") == "0 01 062  LIST       000000003\n0 01 063  LIST+1     200000000"
    assert told(sort, "x/1h 0,01,073").endswith("000000016  to 0 00 0 000, data 0 01")
    assert told(sort, "x/2i GET1").split("\n")[0].split()[:8] == ["0", "01", "0", "014", "17062", "CLA", "LIST", "GET1"]


@pytest.mark.parametrize("text, value", [
    ("1 + 2", 3), ("=D-1", 2**26 - 1), ("=O17", 15), ("- 1", 2**26 - 1), ("~0", 2**26 - 1), ("7 & 3 | 10", 0o13), ("2 * (3 + 4)", 14), ("7 ^ 1", 6),
    ("1 - 2 - 3", 2**26 - 4), ("$PQ", 0), ("A", 0), ("377777777 + 1", 0)])
def test_expressions_are_words(sum_: Console, text: str, value: int) -> None:
    assert sum_.value(text) == value


def test_lists_and_disassemblies_mark_the_place(sort: Console) -> None:
    assert told(sort, "list").split("\n")[5] == "    6=>BEGIN   CLA   =D-7"
    assert told(sort, "list").split("\n")[0].startswith("   11  ")
    assert told(sort, "list LESS").split("\n")[5].startswith("   56  LESS    STO   776")
    assert told(sort, "disassemble BEGIN 2").split("\n") == ["=> 0 01 0 000  17072  CLA =D-7           BEGIN          6  BEGIN   CLA   =D-7",
                                                            "   0 01 0 001  13060  STO PASSES         BEGIN+1        7          STO   PASSES"]
    assert len(told(sort, "disassemble LESS").split("\n")) == 8


def test_displays_are_shown_at_each_stop(sort: Console) -> None:
    assert told(sort, "display PASSES") == "1: PASSES = 000000000  0  0.00000000"
    assert told(sort, "step 2").split("\n")[-1] == "1: PASSES = 377777771  -7  -0.00000021"
    assert told(sort, "info displays") == "1: PASSES"
    assert told(sort, "undisplay", "info displays") == "there are no displays"


def test_breakpoints_are_told_with_their_lines(sort: Console) -> None:
    assert told(sort, "break LESS") == "breakpoint 1: LESS (0 00 0 000), line 56"
    assert told(sort, "tbreak 7") == "breakpoint for one stop 2: BEGIN+1 (0 01 0 001), line 7"
    assert told(sort, "watch PASSES") == "watch 3: PASSES (0 01 060), now 000000000  0  0.00000000"
    assert told(sort, "info breakpoints") == "1  break  LESS (0 00 0 000)\n2  break for one stop  BEGIN+1 (0 01 0 001)\n3  watch  PASSES (0 01 060)"
    assert told(sort, "continue").split("\n")[0] == "breakpoint 2: BEGIN+1 (0 01 0 001)"
    assert told(sort, "continue").split("\n")[0] == "watch 3: PASSES (0 01 060) 000000000 -> 377777771"
    assert told(sort, "delete 3") == "1 breakpoint left"
    with pytest.raises(CommandError, match="has a breakpoint already"):
        carry_out(sort, "break LESS")


def test_a_subroutine_is_left_by_the_hop_that_returns(sort: Console) -> None:
    carry_out(sort, "until LESS")
    assert told(sort, "backtrace").split("\n")[1].startswith("#1  called at time ")
    assert told(sort, "finish").split("\n")[0].endswith("at GET2+3 (0 01 0 021)")
    assert told(sort, "bt") == "#0  GET2+3 (0 01 0 021)"


@pytest.mark.parametrize("line, fault", [
    ("hurt 5 2", Lag(5, 2, 3, LAST)), ("hurt timer 1 for 2", Lag(1, 1, 3, 4)), ("hurt acc 3 deaf", Deaf(5, 3, 3, LAST)),
    ("hurt 5 1 for 1 flip 7", Flip(5, 1, 3, 3, 0, 7)), ("hurt 6 2 flip CONTROL 3", Flip(6, 2, 3, LAST, 1, 3)),
    ("hurt 2 1 for 9 force SAVER 7 5", Force(2, 1, 3, 11, 1, 7, 5)), ("damage 0,01,000 1", Damage(0, 0, 1, 0, 3, 1)),
    ("damage 0 01 000 1 17", Damage(1, 0, 1, 0, 3, 0o17)), ("kill 1 0", Dead(1, 0, 3, LAST))])
def test_faults_are_lines_of_the_deck_from_the_next_step_on(sum_: Console, line: str, fault: lvdc.Fault, tmp_path: Path) -> None:
    carry_out(sum_, "step")
    assert str(fault) in told(sum_, line)
    assert f"put in  {fault}" in told(sum_, "faults")
    path = tmp_path / "saved.deck"
    carry_out(sum_, f"save {path}")
    assert Deck.read(path.read_text()).faults == (fault,)
    with pytest.raises(CommandError, match="name another file"):
        carry_out(sum_, f"save {path}")
    assert told(sum_, "undo").startswith(f"{fault} is out again")
    assert sum_.debugger.injected == ()


def test_a_deck_without_room_is_not_saved_in_part(sum_: Console, tmp_path: Path) -> None:
    path, limits = tmp_path / "saved.deck", resource.getrlimit(resource.RLIMIT_FSIZE)
    before = signal.signal(signal.SIGXFSZ, signal.SIG_IGN)
    resource.setrlimit(resource.RLIMIT_FSIZE, (10, limits[1]))
    try:
        with pytest.raises(CommandError, match="can't be written"):
            carry_out(sum_, f"save {path}")
    finally:
        resource.setrlimit(resource.RLIMIT_FSIZE, limits)
        signal.signal(signal.SIGXFSZ, before)
    assert not path.exists()


def test_a_deck_that_is_saved_runs_as_it_was_debugged(sum_: Console, worker: Asker, tmp_path: Path) -> None:
    for line in ("step", "hurt 5 1 for 1 flip 1", "damage 0,01,000 1", f"save {tmp_path}/saved.deck", "continue"):
        carry_out(sum_, line)
    report = lvdc.run(tmp_path / "saved.deck", worker=worker)
    assert str(report.registers.a) == sum_.debugger.state.registers()["A"]
    assert sum_.word(Address(0, 1, 2)) == report.word(Address(0, 1, 2)) == 0o200000000


def test_judge_says_whether_it_is_withstood_and_which_condition_isnt_met(sum_: Console) -> None:
    assert told(sum_, "judge") == ("withstood: END DONE, all 3 instruction times are made\nFORM YES, the script masks by form: it is withstood "
                                   "whatever program runs")
    carry_out(sum_, "step")
    carry_out(sum_, "hurt 5 1 for 1")
    lines = told(sum_, "hurt 5 2 for 1", "judge").split("\n")
    assert lines[0] == "not withstood: END INADMISSIBLE 3 LOGIC 5, two copies of the accumulator are wrong in instruction time 1, phase A"
    assert lines[1].startswith("FORM NO 1, condition 1 isn't met: in some step")
    with pytest.raises(CommandError, match="the run has ended: END INADMISSIBLE 3 LOGIC 5"):
        carry_out(sum_, "step")
    assert told(sum_, "through", "step").split("\n")[0].startswith("time 2 at")
    assert told(sum_, "guarded").split("\n")[1].startswith("time 1 at")


def test_the_copies_are_a_table_with_marks(sum_: Console) -> None:
    lines = told(sum_, "hurt 5 2 for 3 flip 11", "step", "copies").split("\n")
    at = next(number for number, it in enumerate(lines) if it.startswith("accumulator"))
    assert lines[at] == "accumulator  A        177777777  =          177777766  ="
    assert lines[at + 1] == " " * 51 + "^^"
    assert lines[-1] == "1 of 21 copies differs from the vote"


def test_what_is_asked_of_all_is_shown(sum_: Console, sort: Console) -> None:
    assert told(sum_, "info registers").split("\n")[0] == "A      000000000  0"
    assert "0 01 000             177777777  33554431  0.99999997" in told(sum_, "info memory")
    assert told(sum_, "info ports") == "nothing went through a port so far"
    assert told(sum_, "info faults") == "mode: guarded\nthere are no faults"
    assert told(sum_, "info calls") == "#0  0 00 0 000"
    assert "of them code of the source" in told(sort, "info memory")
    assert all(it in told(sort, "help") for it in COMMANDS)
    assert told(sort, "help st") == "step [N]\n  makes N instruction times, or one; short s"


def test_words_are_completed(sort: Console) -> None:
    assert list(completions(sort, "unt")) == ["until"]
    assert list(completions(sort, "info co")) == ["copies"]
    assert list(completions(sort, "break GE")) == ["GET1", "GET2"]
    assert list(completions(sort, "hurt a")) == ["accumulator"]


def test_quit_leaves(sort: Console) -> None:
    with pytest.raises(Leave):
        carry_out(sort, "q")


def test_an_image_and_a_deck_with_macros_are_loaded(worker: Worker, tmp_path: Path) -> None:
    image = load(TOP / "examples" / "sum-that-wraps.image", Options(times=5), worker)
    assert image.deck.count == 5 and image.find_line(1)[0] == 2
    deck = tmp_path / "macros.deck"
    deck.write_text("SOURCE\n" + (TOP / "examples" / "five-threes.macros").read_text() + "RUN 100\n")
    program = load(deck, Options(), worker)
    assert program.has_macros and program.deck.count == 100
    assert "".join(f"{it}\n" for it in program.lines) == deck.read_text()
    written = [program.line_at(program.number_of(it)) for it in program.rows.values() if program.body_of(it)]
    assert written == ["        TIMES N,X,SUM"] * 8


def test_a_refusal_of_a_source_with_macros_names_its_own_line(worker: Worker, tmp_path: Path) -> None:
    path = tmp_path / "wrong.macros"
    path.write_text("SET     MACRO\n        CLA   &1\n        MEND\n        CODE\n        SET   NOBODY\n        END\n")
    with pytest.raises(lvdc.Refused, match="UndefinedName at line 5"):
        load(path, Options(), worker)
