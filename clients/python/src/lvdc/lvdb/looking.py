"""The commands that show: registers, copies, words, lines and instructions."""
import re
from collections.abc import Iterator

from lvdc.listings import Instruction
from lvdc.lvdb.cells import cell_lines, twins_at
from lvdc.lvdb.console import Console
from lvdc.lvdb.disassembly import source_lines
from lvdc.lvdb.errors import CommandError
from lvdc.lvdb.expressions import fraction, in_all_forms
from lvdc.lvdb.information import INFORMATION
from lvdc.lvdb.made import made_between
from lvdc.lvdb.mistakes import MOST_LOOKED
from lvdc.lvdb.places import address_of, comma, hop_of, read_address, run_of
from lvdc.lvdb.program import Program
from lvdc.lvdb.registry import COMMANDS, COUNT, Told, command, want_nothing
from lvdc.lvdb.session import SYLLABLE
from lvdc.lvdb.show import copies_lines
from lvdc.values import PAIRS, STEPS_A_TIME, Address, Place, Word

_FORMAT = re.compile("/([0-9]*)(cells|[odfhi]?)")
_LINES_SHOWN, _ROWS_SHOWN, _MOST_WORDS = 10, 8, 256


@command("registers|breakpoints|copies|memory|faults|ports|displays|calls|lines", "shows what there is of these", "i", "inf")
def info(console: Console, words: list[str]) -> Told:
    """What there is."""
    found = [name for name in INFORMATION if len(words) == 1 and name.startswith(words[0])]
    if len(found) > 1:
        raise COMMANDS["info"].wrong(f"{words[0]!r} may be {', '.join(found)}")
    if not found:
        raise COMMANDS["info"].wrong(f"{' '.join(words)!r} is none of these" if words else "say of what")
    return INFORMATION[found[0]](console)


@command("", "shows the votes over all latches, and the copies that differ with their digits marked")
def copies(console: Console, words: list[str]) -> Told:
    """The 21 copies."""
    want_nothing("copies", words)
    return copies_lines(console.debugger.state, console.style)


@command("", "shows the fault lines of the deck, and those that were put in", "fa")
def faults(console: Console, words: list[str]) -> Told:
    """The script."""
    want_nothing("faults", words)
    return INFORMATION["faults"](console)


@command("", "shows the calls of subroutines that haven't returned, the innermost first", "bt", "where")
def backtrace(console: Console, words: list[str]) -> Told:
    """The calls."""
    want_nothing("backtrace", words)
    return INFORMATION["calls"](console)


@command("[/odfhi] NAME|ADDRESS|EXPRESSION", "shows a word in octal, as a signed number and as a fraction; with a format in that alone", "p",
         "inspect")
def print_(console: Console, words: list[str]) -> Iterator[str]:
    """A word."""
    form, words = _format("print", words, one=True)
    if not words:
        raise COMMANDS["print"].wrong("the expression is missing")
    text = " ".join(words)
    address = read_address(words) if len(words) == 3 else None
    word = console.value(comma(address) if address is not None else text)
    yield f"{text} = {_formed(console, word, form[1])}"
    place = console.debugger.program.names.get(text.partition("+")[0])
    if isinstance(place, Place) and not form[1] and word is not None and len(words) == 1:
        syllable = int(word) >> 13 if place.syllable else int(word) & SYLLABLE
        yield f"  the instruction there is {console.debugger.named(syllable, place)}"


@command("[/NF] NAME|ADDRESS", "shows N words from there on; F is o octal, d decimal, f fraction, h HOP constant, i instruction, none the first "
         "three; /cells is what both twins store, with parity, and what a read would do", repeats=True)
def x(console: Console, words: list[str]) -> Told:
    """Words of memory."""
    (count, form), words = _format("x", words)
    if not words:
        raise COMMANDS["x"].wrong("the name or address is missing")
    debugger = console.debugger
    first = debugger.program.find_address(words)
    if form == "i":
        named = debugger.program.names.get(words[0].partition("+")[0])
        syllable = named.syllable if isinstance(named, Place) else 0
        return _instruction_rows(console, Place(first.bank, first.sector, syllable, first.location), count)
    if first.location + count > 256:
        raise COMMANDS["x"].wrong(f"from there to the end of the sector there are {256 - first.location} words")
    addresses = run_of(first, count)
    if form == "cells":
        twins = twins_at(debugger.replay, debugger.position, debugger.asker)
        return (line for it in addresses for line in cell_lines(twins, it, debugger.program.name_of(it)))
    words_there = debugger.replay.words(debugger.position, addresses)
    return (_word_line(console, *it, form) for it in zip(addresses, words_there))


def _format(name: str, words: list[str], one: bool = False) -> tuple[tuple[int, str], list[str]]:
    """The count and the letter of a format, where one stands first, and the other words."""
    if not words or not words[0].startswith("/"):
        return (1, ""), words
    found = _FORMAT.fullmatch(words[0])
    count = 1 if found is None or not found[1] else int(found[1])
    if found is None or not 1 <= count <= _MOST_WORDS or one and found[1]:
        raise COMMANDS[name].wrong(f"{words[0]!r} is no format")
    return (count, found[2]), words[1:]


def _instructions(console: Console, word: Word, address: Address | None) -> list[str]:
    """Both instructions of a word, with names where it is known where the word stands."""
    debugger, halves = console.debugger, [int(word) & SYLLABLE, int(word) >> 13]
    if address is None:
        return debugger.decoder.instructions(halves)
    return [debugger.named(half, Place(address.bank, address.sector, it, address.location)) for it, half in enumerate(halves)]


def _formed(console: Console, word: Word | None, form: str, address: Address | None = None) -> str:
    """A word in a format."""
    if word is None or not form:
        return in_all_forms(word)
    match form:
        case "o":
            return str(word)
        case "d":
            return str(word.signed)
        case "f":
            return fraction(word)
        case "i":
            return " / ".join(_instructions(console, word, address))
    hop = hop_of(word)
    place = Place(hop.module, hop.sector, hop.syllable, hop.location)
    return f"{word}  to {place}, data {hop.data_module:o} {hop.data_sector:02o}"


def _word_line(console: Console, address: Address, word: Word | None, form: str) -> str:
    """A word of memory with its address and name."""
    return f"{address}  {console.debugger.program.name_of(address):10} {_formed(console, word, form, address)}"


@command("[LINE|NAME|PLACE|ADDRESS]", "shows ten lines of the source, around here or there; again, the next ten", "l", repeats=True)
def list_(console: Console, words: list[str]) -> Iterator[str]:
    """Lines of the source, or of the file of an image."""
    program = console.debugger.program
    here = program.line_of(console.debugger.place)
    if words:
        number = int(words[0]) if len(words) == 1 and COUNT.fullmatch(words[0]) else _line_there(program, words)
        first = max(1, (number or 1) - _LINES_SHOWN // 2)
    else:
        first = console.next_line or max(1, (here or 1) - _LINES_SHOWN // 2)
    if first > len(program.lines):
        raise CommandError(f"the source has {len(program.lines)} lines; `list 1` begins anew")
    for number in range(first, min(first + _LINES_SHOWN, len(program.lines) + 1)):
        yield f"{number:5d}{'=>' if number == here else '  '}{program.lines[number - 1]}"
    console.next_line = first + _LINES_SHOWN


def _line_there(program: Program, words: list[str]) -> int | None:
    """The number of the line of a word, or of a place of code."""
    is_word = read_address(words) is not None or isinstance(program.names.get(words[0].partition("+")[0]), Address)
    return program.line_of_word(program.find_address(words)) if is_word else program.line_of(program.find_place(words))


@command("[/s] [PLACE [N]]", "shows N instructions as memory has them now, beside their lines, from here or there on; eight without N; with /s "
         "all of memory as a source that is assembled to the same words", "dis", repeats=True)
def disassemble(console: Console, words: list[str]) -> Told:
    """Instructions."""
    debugger, count = console.debugger, _ROWS_SHOWN
    if words[:1] == ["/s"]:
        want_nothing("disassemble /s", words[1:])
        return _source_lines(console)
    if words and words[0].startswith("/"):
        raise COMMANDS["disassemble"].wrong(f"{words[0]!r} is no format")
    if len(words) in (2, 5) and COUNT.fullmatch(words[-1]):
        *words, last = words
        count = int(last)
    return _instruction_rows(console, debugger.program.find_place(words) if words else debugger.place, count)


def _source_lines(console: Console) -> Iterator[str]:
    """All of memory as a source. Instructions are those of the source; over an image those that the run makes."""
    debugger = console.debugger
    words = {at: it for at, it in debugger.replay.report(debugger.position // STEPS_A_TIME).words.items() if at.bank < len(PAIRS)}
    places = set(debugger.program.rows) or {it.place for it in made_between(debugger.replay, 0, MOST_LOOKED) if not it.is_held}
    return source_lines({it for it in places if it.module < len(PAIRS)}, words, debugger.decoder)


def _instruction_rows(console: Console, place: Place, count: int) -> Iterator[str]:
    """Instructions as memory has them now, in one syllable of rising locations; the line of one that was changed has a mark."""
    debugger, count = console.debugger, min(count, 256 - place.location)
    found = debugger.replay.words(debugger.position, run_of(address_of(place), count))
    syllables = [0 if it is None else int(it) >> 13 if place.syllable else int(it) & SYLLABLE for it in found]
    debugger.decoder.instructions(syllables)
    here = debugger.place
    for at, (word, syllable) in enumerate(zip(found, syllables)):
        row = Place(place.module, place.sector, place.syllable, place.location + at)
        told = "?" if word is None else f"{syllable:05o}  {debugger.named(syllable, row)}"
        label = debugger.program.label(row)
        yield f"{'=>' if row == here else '  '} {row}  {told:24}  {label:11}{_line_of(console, row, syllable)}".rstrip()


def _line_of(console: Console, place: Place, syllable: int) -> str:
    """The line of an instruction, with a mark where memory has another one."""
    row = console.debugger.program.rows.get(place)
    if row is None or not isinstance(row.field, Instruction):
        return ""
    mark = " " if row.field.syllable == syllable else "*"
    return f"{console.debugger.program.number_of(row):5d}{mark} {row.line}"


@command("[EXPRESSION]", "shows an expression now and at each stop; without one all of them", "disp")
def display(console: Console, words: list[str]) -> Iterator[str]:
    """An expression at each stop."""
    if not words:
        yield from console.display_lines()
        return
    text = " ".join(words)
    value = console.value(text)
    console.last_display += 1
    console.displays[console.last_display] = text
    yield f"{console.last_display}: {text} = {in_all_forms(value)}"


@command("[NUMBER ..]", "no longer shows these expressions; without a number none", "und")
def undisplay(console: Console, words: list[str]) -> Iterator[str]:
    """Expressions away."""
    for it in words:
        if not COUNT.fullmatch(it) or int(it) not in console.displays:
            raise COMMANDS["undisplay"].wrong(f"there is no display {it}; `info displays` shows them")
    for number in {int(it) for it in words} or set(console.displays):
        del console.displays[number]
    yield f"{len(console.displays)} display{'s' * (len(console.displays) != 1)} left"
