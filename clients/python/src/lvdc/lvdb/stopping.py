"""The commands of breakpoints, of what is watched, and of mistakes that are caught."""
import re
from collections.abc import Iterator

from lvdc.lvdb.breakpoints import Breakpoint
from lvdc.lvdb.console import Console
from lvdc.lvdb.errors import CommandError
from lvdc.lvdb.expressions import in_all_forms
from lvdc.lvdb.mistakes import KINDS
from lvdc.lvdb.registry import COMMANDS, COUNT, Told, command
from lvdc.lvdb.searches import LATCHES_WATCHED
from lvdc.lvdb.show import place_text
from lvdc.values import Address

# what the addresses of the machine's own are in a source
_OF_PQ, _OF_SAVER = "775", {"776": 0o376, "777": 0o377}
_RESIDUAL = 0o17


@command("[PLACE] [if EXPRESSION]", "stops where the instruction there comes next; without a place here; with a condition where that isn't 0",
         "b", "br", "brk")
def break_(console: Console, words: list[str]) -> Told:
    """A breakpoint."""
    return _set_breakpoint(console, words, "break")


@command("[PLACE] [if EXPRESSION]", "the same for the next stop alone", "tb")
def tbreak(console: Console, words: list[str]) -> Told:
    """A breakpoint for one time."""
    return _set_breakpoint(console, words, "tbreak")


def _set_breakpoint(console: Console, words: list[str], kind: str) -> Iterator[str]:
    """Sets a breakpoint."""
    debugger = console.debugger
    words, condition = _condition(console, words)
    place = debugger.program.find_place(words) if words else debugger.place
    found = debugger.add_breakpoint(kind, place, place_text(debugger, place), " ".join(words) or str(place))
    line = debugger.program.line_of(place)
    shown = "breakpoint for one stop" if kind == "tbreak" else "breakpoint"
    yield f"{shown} {found.number}: {found.text}" + (f", line {line}" if line is not None else "") + _conditioned(console, found, condition)


def _condition(console: Console, words: list[str]) -> tuple[list[str], str]:
    """The words before `if`, and the expression behind it, which is tried."""
    if "if" not in words:
        return words, ""
    at = words.index("if")
    condition = " ".join(words[at + 1:])
    console.value(condition)
    return words[:at], condition


def _conditioned(console: Console, found: Breakpoint, condition: str) -> str:
    """Gives a breakpoint its condition."""
    if condition:
        console.debugger.set_condition(found.number, condition)
    return f", if {condition}" if condition else ""


@command("WORD|A|PQ|SAVER [if EXPRESSION]", "stops where another word is stored there, or is in the register; back, before it", "wa")
def watch(console: Console, words: list[str]) -> Told:
    """A watched word."""
    return _watch(console, words, "watch")


@command("WORD [if EXPRESSION]", "stops after an instruction that takes the word as its operand")
def rwatch(console: Console, words: list[str]) -> Told:
    """A word that is watched for reads."""
    return _watch(console, words, "rwatch")


@command("WORD [if EXPRESSION]", "stops where the word is read, and where another one is stored there")
def awatch(console: Console, words: list[str]) -> Told:
    """A word that is watched for both."""
    return _watch(console, words, "awatch")


def _watch(console: Console, words: list[str], kind: str) -> Iterator[str]:
    """Watches a word or a register."""
    words, condition = _condition(console, words)
    if not words:
        raise COMMANDS[kind].wrong("the word is missing")
    at = watched(console, words)
    if isinstance(at, str) and kind != "watch":
        raise CommandError(f"reads of {at} can't be watched: `watch {at}` stops where it changes")
    name = at if isinstance(at, str) else console.debugger.program.name_of(at)
    text = name if isinstance(at, str) else f"{name} ({at})" if name else str(at)
    found = console.debugger.add_breakpoint(kind, at, text, " ".join(words))
    now = console.debugger.state.latch(LATCHES_WATCHED[at]) if isinstance(at, str) else console.word(at)
    yield f"{kind} {found.number}: {found.text}, now {in_all_forms(now)}" + _conditioned(console, found, condition)


def watched(console: Console, words: list[str]) -> Address | str:
    """A register by its name, or a word; 775 is PQ, 776 and 777 are the saver's words, as in a source."""
    text, program = words[0].removeprefix("$"), console.debugger.program
    if len(words) == 1 and text in LATCHES_WATCHED and (text != words[0] or text not in program.names):
        return text
    if words == [_OF_PQ]:
        return "PQ"
    if len(words) == 1 and words[0] in _OF_SAVER:
        return Address(console.debugger.data[0], _RESIDUAL, _OF_SAVER[words[0]])
    return program.find_address(words)


@command("[KIND ..]", "stops where a mistake of these kinds is made, of any where none is named: " + ", ".join(KINDS), "cat")
def catch(console: Console, words: list[str]) -> Iterator[str]:
    """Mistakes."""
    unknown = [it for it in words if it not in KINDS]
    if unknown:
        raise COMMANDS["catch"].wrong(f"{unknown[0]!r} is no kind of mistake")
    text = " ".join(words) or "any mistake"
    found = console.debugger.add_breakpoint("catch", text, text, text, set(words) or set(KINDS))
    yield f"catch {found.number}: {found.text}"


@command("NUMBER [EXPRESSION]", "stops there only where the expression isn't 0; without one always", "cond")
def condition(console: Console, words: list[str]) -> Iterator[str]:
    """A condition."""
    number = _number_of(console, "condition", words[:1])
    found = console.debugger.set_condition(number, " ".join(words[1:]))
    yield str(found)


@command("NUMBER COUNT", "passes over the next COUNT hits of a breakpoint, which may be 0")
def ignore(console: Console, words: list[str]) -> Iterator[str]:
    """Hits that are passed over."""
    number = _number_of(console, "ignore", words[:1])
    if len(words) != 2 or not re.fullmatch("[0-9]{1,7}", words[1]):
        raise COMMANDS["ignore"].wrong("a count is wanted")
    yield str(console.debugger.breakpoints.change(number, left=int(words[1])))


def _number_of(console: Console, name: str, words: list[str]) -> int:
    """The number of a breakpoint."""
    if not words or not COUNT.fullmatch(words[0]) or int(words[0]) not in console.debugger.breakpoints:
        raise COMMANDS[name].wrong(f"there is no breakpoint {words[0]}; `info breakpoints` shows them" if words else "the number is missing")
    return int(words[0])


@command("[NUMBER ..]", "takes breakpoints, watches and catches away; without a number all", "d", "del")
def delete(console: Console, words: list[str]) -> Iterator[str]:
    """Breakpoints away."""
    breakpoints = console.debugger.breakpoints
    numbers = {_number_of(console, "delete", [it]) for it in words}
    for number in numbers or set(breakpoints):
        breakpoints.remove(number)
    yield f"{len(breakpoints)} breakpoint{'s' * (len(breakpoints) != 1)} left"
