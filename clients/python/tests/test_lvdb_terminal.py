"""lvdb at a pseudo terminal, as a person sits at it; and scripts of commands on standard input."""
import os
import subprocess
import sys
from collections.abc import Callable, Iterator
from pathlib import Path
from typing import Any

import pytest
from conftest import TOP
from test_lvdb_protocol import long_deck

from lvdc import Worker

BUG = "examples/sort-that-wraps.source"
PROMPT = "(lvdb) "
SOURCES = TOP / "clients" / "python" / "src"
WORDS = [sys.executable, "-m", "lvdc.lvdb"]
Start = Callable[..., Any]


def names_of(terminal: str, home: Path) -> dict[str, str]:
    """The environment of a session: a terminal of this kind that answers no questions, and a history of its own."""
    return {**os.environ, "TERM": terminal, "HOME": str(home), "PYTHONPATH": str(SOURCES), "PYTHONDONTWRITEBYTECODE": "1",
            "PROMPT_TOOLKIT_NO_CPR": "1", "COLUMNS": "160"}


@pytest.fixture
def start(worker: Worker, tmp_path: Path) -> Iterator[Start]:
    """Starts lvdb at a pseudo terminal, and waits for its first prompt."""
    pexpect: Any = pytest.importorskip("pexpect")
    started: list[Any] = []

    def begin(*words: str, terminal: str = "dumb") -> Any:
        found = pexpect.spawn(WORDS[0], [*WORDS[1:], *words], cwd=str(TOP), env=names_of(terminal, tmp_path), encoding="utf-8", timeout=60,
                              dimensions=(40, 160))
        started.append(found)
        found.expect_exact(PROMPT.strip())
        return found

    yield begin
    for it in started:
        it.close(force=True)


def ended(session: Any) -> None:
    """Waits until lvdb has left."""
    session.expect(pytest.importorskip("pexpect").EOF)
    session.wait()


def typed(session: Any, line: str) -> str:
    """What a line is answered, up to the next prompt."""
    session.sendline(line)
    session.expect_exact(PROMPT)
    text: str = session.before
    return text.replace("\r", "")


def test_the_bug_of_the_page_is_found_in_seven_commands(start: Start) -> None:
    session = start(BUG, "--start", "BEGIN", "--times", "2500")
    assert "STOP" in typed(session, "until STOP")
    words = [line.split()[-1] for line in typed(session, "x/8d LIST").splitlines() if " LIST" in line and line[0] == "0"]
    assert words == ["0", "3", "33554431", "-33554432", "-1", "20000000", "-20000000", "3"]
    assert int(words[2]) > int(words[3])
    typed(session, "watch LIST+2")
    assert "000000000 -> 177777777" in typed(session, "reverse-continue")
    assert "at LESS (" in typed(session, "until LESS")
    assert "OTHER" in typed(session, "step 2")
    last = typed(session, "step")
    assert "A 200000000 -> 000000001" in last and "177777777 ONE" in last


def test_the_end_of_input_leaves(start: Start) -> None:
    session = start("examples/sum-that-wraps.deck")
    session.sendeof()
    ended(session)
    assert (session.exitstatus, session.signalstatus) == (0, None)


def test_quit_leaves(start: Start) -> None:
    session = start("examples/sum-that-wraps.deck")
    session.sendline("q")
    ended(session)
    assert session.exitstatus == 0


def test_an_interrupt_ends_a_long_continue(start: Start, tmp_path: Path) -> None:
    session = start(str(long_deck(tmp_path)))
    typed(session, "step 3")
    # a word that never changes is looked for in all pieces of the trace, which takes many seconds
    typed(session, "watch 0 17 100")
    session.sendline("continue")
    with pytest.raises(Exception, match="Timeout|TIMEOUT"):
        session.expect_exact(PROMPT, timeout=0.5)
    session.sendintr()
    session.expect_exact("interrupted: still at time 3")
    session.expect_exact(PROMPT)
    assert "time 4 at" in typed(session, "step")


def test_an_empty_line_does_the_last_command_again(start: Start) -> None:
    session = start("examples/sum-that-wraps.deck")
    assert "time 1 at" in typed(session, "step")
    assert "time 2 at" in typed(session, "")


def test_what_is_refused_changes_nothing_at_a_terminal(start: Start) -> None:
    session = start("examples/sum-that-wraps.deck")
    assert "usage: step [N]" in typed(session, "step x")
    assert "there is no set" in typed(session, "set A 5")
    assert "time 1 at" in typed(session, "step")


def test_words_are_completed_and_lines_are_coloured(start: Start) -> None:
    pytest.importorskip("prompt_toolkit")
    session = start(BUG, "--start", "BEGIN", terminal="xterm")
    session.send("unt\t")
    session.expect_exact("il")
    session.send(" LES\t")
    session.expect_exact("S")
    session.send("\r")
    session.expect(r"\x1b\[1mtime [0-9]+ at LESS ")
    session.expect_exact(PROMPT.strip())
    session.send("q\r")
    ended(session)
    assert session.exitstatus == 0


def script(lines: str, *words: str, folder: Path = TOP) -> tuple[int, str, str]:
    """The status, the output and the errors of a script of commands."""
    found = subprocess.run([*WORDS, *words], input=lines, capture_output=True, text=True, cwd=folder, timeout=60, check=False,
                           env={**os.environ, "PYTHONPATH": str(SOURCES), "PYTHONDONTWRITEBYTECODE": "1"})
    return found.returncode, found.stdout, found.stderr


def test_a_script_reads_as_a_session(worker: Worker) -> None:
    status, told, errors = script("# a comment\nstep\nprint $A\n\nquit\nstep\n", "examples/sum-that-wraps.deck")
    assert (status, errors) == (0, "")
    lines = [it.removeprefix(PROMPT) for it in told.splitlines() if it.startswith(PROMPT)]
    assert lines == ["# a comment", "step", "print $A", "", "quit"]
    assert "$A = 177777777  33554431  0.99999997" in told


def test_a_script_with_a_refused_command_has_status_1(worker: Worker) -> None:
    status, told, errors = script("fly\nstep\n", "examples/sum-that-wraps.deck")
    assert status == 1 and "there is no command 'fly'" in errors and "time 1 at" in told


def test_a_tape_is_supplied_by_the_command_line(worker: Worker, tmp_path: Path) -> None:
    (tmp_path / "reads.source").write_text("        CODE\n        PIO   400\n        PIO   017\nSTOP    TRA   STOP\n        END\n")
    status, told, _ = script("until STOP\ninfo ports\n", "reads.source", "--tape", "000", "5", "7", "--times", "10", folder=tmp_path)
    assert status == 0
    assert "TAPE 000, 2 words\nIN 0 000 000000005  line 2: PIO 400\nOUT 1 017 000000005  line 3: PIO 017" in told


def test_a_source_with_macros_says_whose_lines_are_shown(worker: Worker) -> None:
    _, told, _ = script("list\nmacro 18\n", "examples/five-threes.macros")
    assert "The source has macros" in told and "   18=>        TIMES N,X,SUM" in told and "L001     CLA   N" in told


@pytest.mark.parametrize("words, sentence", [
    (["/nowhere/at.all"], "can't be read"), (["examples/refused-deck.deck"], "BadLine"), (["examples/sum-that-wraps.deck", "--times", "3"], "RUN"),
    (["examples/damaged-cell.saved"], "no program"), ([], "usage"), (["examples/sum-that-wraps.deck", "--fly"], "usage"),
    (["examples/sum-that-wraps.source", "--tape", "000"], "usage"), (["examples/sum-that-wraps.source", "--tape", "017", "5"], "NoDevice"),
    (["examples/sum-that-wraps.source", "--start", "NOBODY"], "UndefinedName"), (["examples/two-loads.uplink"], "BadSection")])
def test_a_file_that_cant_be_debugged_is_refused(worker: Worker, words: list[str], sentence: str) -> None:
    status, told, errors = script("", *words)
    assert (status, told) == (1, "") and sentence in errors


@pytest.mark.parametrize("words, redirected", [
    *(("examples/sum-that-wraps.deck", it) for it in [">/dev/full", ">&-", "<&-", "2>&-", ">&- 2>&- <&-", "2>/dev/full", ">/dev/full 2>/dev/full"]),
    ("--dap", ">/dev/full"), ("--dap", "<&- >&-"), ("/nowhere/at.all", "2>/dev/full")])
def test_streams_that_are_full_or_closed_end_without_a_traceback(worker: Worker, words: str, redirected: str) -> None:
    line = f"printf 'step\\nfly\\n' | {sys.executable} -m lvdc.lvdb {words} {redirected}"
    found = subprocess.run(["bash", "-c", line], capture_output=True, text=True, cwd=TOP, timeout=60, check=False,
                           env={**os.environ, "PYTHONPATH": str(SOURCES), "PYTHONDONTWRITEBYTECODE": "1"})
    assert "Traceback" not in found.stderr and "Exception ignored" not in found.stderr
    assert found.returncode in (0, 1)


def test_what_is_too_long_is_refused_before_it_is_read(worker: Worker, tmp_path: Path) -> None:
    large = tmp_path / "large.deck"
    with large.open("wb") as file:
        file.truncate(300_000_000)
    status, told, errors = script("", str(large))
    assert (status, told) == (1, "") and "more than 1048576 bytes" in errors
    assert script("", "/dev/zero")[2] == errors.replace(str(large), "/dev/zero")
    status, _, errors = script("print " + "1" * 3_000_000 + "\nstep\n", "examples/sum-that-wraps.deck")
    assert status == 1 and errors == "a line has at most 1000 characters\n"
