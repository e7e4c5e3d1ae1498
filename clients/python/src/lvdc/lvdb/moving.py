"""The commands that move: forward, back, and to a time or a place."""
import re
from collections.abc import Iterator
from pathlib import Path

from lvdc.check.main import check_file
from lvdc.lvdb.console import Console
from lvdc.lvdb.errors import CommandError
from lvdc.lvdb.registry import COMMANDS, Told, command, count_in, want_nothing
from lvdc.lvdb.session import Stop
from lvdc.refusals import Refused
from lvdc.values import STEPS_A_TIME

_TIME = re.compile("0|[1-9][0-9]{0,6}")


@command("[N]", "makes N instruction times, or one", "s", repeats=True)
def step(console: Console, words: list[str]) -> Told:
    """Instruction times."""
    return console.stopped(console.debugger.step(count_in("step", words)))


@command("[N]", "the same, but a subroutine that is called is made up to its return, and a product that is waited for up to its end", "n",
         repeats=True)
def next_(console: Console, words: list[str]) -> Told:
    """Instructions with their calls."""
    return console.stopped(console.debugger.next(count_in("next", words)))


@command("[N]", "makes N phases (steps of the machine, three to an instruction time), or one", "ph", "stepi", "si", repeats=True)
def phase(console: Console, words: list[str]) -> Told:
    """Steps."""
    return console.stopped(console.debugger.phase(count_in("phase", words)))


@command("", "goes on to a breakpoint or a change that is watched, else to the end of the run", "c", repeats=True)
def continue_(console: Console, words: list[str]) -> Told:
    """To a breakpoint."""
    want_nothing("continue", words)
    return console.stopped(console.debugger.proceed())


@command("", "begins anew, and goes on as `continue` does", "r")
def run(console: Console, words: list[str]) -> Told:
    """From the beginning."""
    want_nothing("run", words)
    return console.stopped(console.debugger.run())


@command("", "reads the file anew after an edit, and stands at the beginning; breakpoints, displays and faults stay")
def reload(console: Console, words: list[str]) -> Iterator[str]:
    """The file anew."""
    want_nothing("reload", words)
    path = console.debugger.program.path
    try:
        gone = console.debugger.reload()
    except Refused as refused:
        told = "\n".join(check_file(Path(path), console.debugger.asker))
        raise CommandError(f"{path} is refused, and what was read before stays\n{told}") from refused
    yield f"{path} is read anew"
    yield from gone
    yield from console.drop_displays()
    yield from console.stopped(Stop(console.debugger.state, console.debugger.state))


@command("[PLACE]", "goes on to a place, whatever breakpoints are on the way; without one to a place behind this in its sector, out of a loop",
         "u", repeats=True)
def until(console: Console, words: list[str]) -> Told:
    """To a place."""
    debugger = console.debugger
    return console.stopped(debugger.run_to(debugger.program.find_place(words)) if words else debugger.run_behind())


@command("", "goes on until the subroutine that was called last has returned, by the HOP that returns", "fin", repeats=True)
def finish(console: Console, words: list[str]) -> Told:
    """Out of a subroutine."""
    want_nothing("finish", words)
    return console.stopped(console.debugger.finish())


@command("[N]", "goes back N instruction times, or one", "bk", "reverse-step", "rs", repeats=True)
def back(console: Console, words: list[str]) -> Told:
    """Instruction times back."""
    return console.stopped(console.debugger.step_back(count_in("back", words)))


@command("", "goes back to a breakpoint, or before a change that is watched, else to the beginning", "rc", repeats=True)
def reverse_continue(console: Console, words: list[str]) -> Told:
    """Back to a breakpoint."""
    want_nothing("reverse-continue", words)
    return console.stopped(console.debugger.reverse())


@command("TIME [A|B|C]", "goes to where an instruction time begins, or a phase of it", "g")
def goto(console: Console, words: list[str]) -> Told:
    """To a time."""
    if len(words) not in (1, 2) or not _TIME.fullmatch(words[0]) or words[1:] and words[1] not in list("ABC"):
        raise COMMANDS["goto"].wrong(f"{' '.join(words)!r} is no time, which is decimal" if words else "the time is missing")
    phases = "ABC".index(words[1]) if words[1:] else 0
    return console.stopped(console.debugger.go_to(int(words[0]) * STEPS_A_TIME + phases))
