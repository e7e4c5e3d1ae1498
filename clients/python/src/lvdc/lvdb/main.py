"""The command lvdb: lvdb FILE [--times N] [--start NAME] [--tape PORT WORD..], or lvdb --dap."""
import os
import re
import signal
import sys
from collections.abc import Sequence
from pathlib import Path
from typing import TextIO

from lvdc.check.main import check_file
from lvdc.decks import Tape
from lvdc.errors import Error
from lvdc.lines import tokens
from lvdc.lvdb.commands import carry_out, split
from lvdc.lvdb.console import Console, Leave
from lvdc.lvdb.program import MOST_TIMES, Options, Program, load
from lvdc.lvdb.prompt import Prompt, choose_prompt, plain_prompt
from lvdc.lvdb.session import Debugger, Stop
from lvdc.lvdb.show import Style
from lvdc.refusals import Refused
from lvdc.streams import NO_MEMORY, complain, drop_output, leave, open_streams
from lvdc.values import STEPS_A_TIME
from lvdc.workers import Asker, Worker

USAGE = """usage: lvdb FILE [--times N] [--start NAME] [--tape PORT WORD ..]
       lvdb --dap
FILE is a deck, a source, with macros or without, or an image; the options are for a source or an image.
"""
_OCTAL = re.compile("[0-7]{1,9}")
_INTERRUPTED = 130


class Usage(Exception):
    """The words are no command line of lvdb."""


def read_words(words: Sequence[str]) -> tuple[Path, Options]:
    """The file and the options of a command line."""
    if not words or words[0].startswith("-"):
        raise Usage
    left, times, start, ports = list(words[1:]), None, None, []
    while left:
        match left:
            case ["--times", count, *rest] if re.fullmatch("[0-9]{1,7}", count) and int(count) <= MOST_TIMES:
                times, left = int(count), rest
            case ["--start", name, *rest] if re.fullmatch("[A-Z][A-Z0-9]{0,7}|[0-7]{1,9}", name):
                start, left = name, rest
            case ["--tape", port, *rest] if _OCTAL.fullmatch(port) and int(port, 8) < 256:
                count_of_words = next((at for at, it in enumerate(rest) if not _OCTAL.fullmatch(it)), len(rest))
                ports.append(_tape(port, rest[:count_of_words]))
                left = rest[count_of_words:]
            case _:
                raise Usage
    return Path(words[0]), Options(times, start, ports)


def _tape(port: str, words: Sequence[str]) -> Tape:
    """The words of a tape."""
    try:
        return Tape(int(port, 8), [int(it, 8) for it in words])
    except ValueError as error:
        raise Usage from error


def opening_lines(program: Program) -> list[str]:
    """What is said of a program at first."""
    kind = "source" if program.listing is not None else "image"
    lines = [f"lvdb: {program.path}: {kind}, {program.deck.count} instruction times at most, {len(program.deck.faults)} fault lines"]
    if program.has_macros:
        lines.append("The source has macros; behind a line that calls one stands the instruction of its expansion. `macro` shows all of them.")
    return lines


def converse(console: Console, prompt: Prompt) -> int:
    """Carries out line after line until the input ends; 1 where a command of a script was refused."""
    is_script, last, status = prompt is plain_prompt, "", 0
    while True:
        try:
            line = prompt()
        except EOFError:
            return status
        except KeyboardInterrupt:
            print()
            continue
        if not tokens(line) and not is_script:
            line = last
        if not tokens(line) or line.lstrip().startswith("#"):
            continue
        try:
            is_done = carry_out_line(console, line)
        except Leave:
            return status
        last = line if is_done and split(line)[0].repeats else ""
        status = max(status, int(is_script and not is_done))


def carry_out_line(console: Console, line: str) -> bool:
    """Writes what a line is answered; False where it is refused or interrupted."""
    try:
        for it in carry_out(console, line):
            print(it)
        return True
    except KeyboardInterrupt:
        complain(f"interrupted: still at time {console.debugger.position // STEPS_A_TIME}")
    except Error as error:
        sys.stdout.flush()
        complain(error)
    finally:
        sys.stdout.flush()
    return False


def style_of(stream: TextIO) -> Style:
    """Colour, where a terminal has it."""
    return Style(stream.isatty() and os.environ.get("TERM", "dumb") != "dumb" and "NO_COLOR" not in os.environ)


def debug_file(path: Path, options: Options, asker: Asker) -> int:
    """A session over a file."""
    debugger = Debugger(load(path, options, asker), asker)
    console = Console(debugger, style_of(sys.stdout))
    for line in opening_lines(debugger.program):
        print(line)
    for line in console.stopped(Stop(debugger.state, debugger.state)):
        print(line)
    sys.stdout.flush()
    return converse(console, choose_prompt(console))


def main() -> None:
    """The command."""
    words = sys.argv[1:]
    # a shell that starts it in the background has it ignore interrupts
    signal.signal(signal.SIGINT, signal.default_int_handler)
    open_streams()
    status = 0
    try:
        status = carry_out_words(words)
        sys.stdout.flush()
    except Usage:
        complain(USAGE.rstrip("\n"))
        status = 1
    except KeyboardInterrupt:
        status = _INTERRUPTED
    except BrokenPipeError:
        drop_output()
        status = 1
    except Error as error:
        complain(f"lvdb: {error}")
        status = 1
    except OSError as error:
        drop_output()
        complain(f"lvdb: what is told can't be written: {error.strerror}")
        status = 1
    except MemoryError:
        complain(f"lvdb: {NO_MEMORY}")
        status = 1
    leave(status)


def carry_out_words(words: Sequence[str]) -> int:
    """Does what the command line says."""
    if words in (["--help"], ["-h"]):
        print(USAGE, end="")
        return 0
    if words == ["--dap"]:
        from lvdc.lvdb.protocol import serve
        # without a buffer, since a thread waits in it when the process ends
        with open(sys.stdin.fileno(), "rb", buffering=0, closefd=False) as incoming:
            serve(incoming, sys.stdout.buffer)
        return 0
    with Worker() as worker:
        path, options = read_words(words)
        try:
            return debug_file(path, options, worker)
        except Refused as refused:
            complain(f"lvdb: {refused}")
            for it in check_file(path, worker):
                complain(it)
            return 1
