"""The commands that ask of the whole run: who wrote a word, which mistakes are made, where a fault begins to show, and why a run ended."""
import re
from collections import Counter
from collections.abc import Iterator

from lvdc.lvdb.comparing import difference_lines, reason_lines
from lvdc.lvdb.console import Console
from lvdc.lvdb.errors import CommandError
from lvdc.lvdb.expressions import in_all_forms
from lvdc.lvdb.history import Access, Port, Watched, all_accesses, last_access, source_of
from lvdc.lvdb.made import Made
from lvdc.lvdb.mistakes import KINDS
from lvdc.lvdb.registry import COMMANDS, Told, command, want_nothing
from lvdc.lvdb.show import made_text
from lvdc.lvdb.stopping import watched
from lvdc.parts import Parts
from lvdc.values import Address, Place, Word

_MOST_LINES, _AT_EACH_END = 20, 10
_PORT = re.compile("[0-3]?[0-7]{1,2}")


@command("WORD|A|PQ|SAVER|port PORT", "says who wrote the word last, or to the port, up to here, and what it came from", "la")
def last(console: Console, words: list[str]) -> Iterator[str]:
    """The last store."""
    at = _wanted(console, "last", words)
    debugger = console.debugger
    found = last_access(debugger.replay, debugger.position, at)
    if found is None:
        yield f"{_called(console, at)} hasn't been written up to here{_given_by(console, at)}"
        return
    change = f"was given {_word_text(found.word)}" if isinstance(at, Port) else f"{_word_text(found.before)} -> {_word_text(found.word)}"
    yield f"{_called(console, at)} {change} at time {found.time} by {made_text(debugger, found.time)}"
    chain = [] if at in ("PQ", "SAVER") else source_of(debugger.replay, found.time + (at == "A"))
    yield from ["A came from:"] * bool(chain)
    yield from (_source_line(console, it) for it in chain)


def _source_line(console: Console, made: Made) -> str:
    """An instruction that a word came from."""
    operand = "" if made.operand is None else f"  with {made.operand}  {made.operand.signed}"
    return f"  {console.debugger.described(made)}{operand}  A is {Word(made.after.a)}  {Word(made.after.a).signed}"


@command("WORD|A|PQ|SAVER|port PORT", "shows all stores of the run to the word, all changes of the register, or all that the port was given", "wr")
def writes(console: Console, words: list[str]) -> Told:
    """All stores."""
    return _all(console, _wanted(console, "writes", words), False)


@command("WORD|port PORT", "shows all reads of the run that take the word as an operand, or a word of the port")
def reads(console: Console, words: list[str]) -> Told:
    """All reads."""
    at = _wanted(console, "reads", words)
    if isinstance(at, str):
        raise CommandError(f"{at} is a register: `writes {at}` shows its changes")
    return _all(console, at, True)


def _all(console: Console, at: Watched, is_read: bool) -> Iterator[str]:
    """All stores or reads, the first and the last of them where they are many."""
    debugger = console.debugger
    found = all_accesses(debugger.replay, at, is_read)
    kind, are_many = "read" if is_read else "written", len(found) > _MOST_LINES
    yield f"{_called(console, at)} is {kind} {len(found)} time{'s' * (len(found) != 1)} in the run" + (
        f", the first {_AT_EACH_END} and the last {_AT_EACH_END}:" if are_many else "") + ("" if found or is_read else _given_by(console, at))
    for it in [*found[:_AT_EACH_END], *found[-_AT_EACH_END:]] if are_many else found:
        yield f"{'=>' if _is_last(debugger.position, it, found) else '  '} time {it.time:7d}  {_words(it)}  {made_text(debugger, it.time)}"


def _is_last(position: int, access: Access, found: list[Access]) -> bool:
    """Whether an access is the last one that is made."""
    return access == next((it for it in reversed(found) if it.step < position), None)


def _words(access: Access) -> str:
    """What an access did."""
    before = "" if access.before is None else f"{access.before} -> "
    return f"{before}{access.word} {access.word.signed}"


def _word_text(word: Word | None) -> str:
    """A word, and its number."""
    return "?" if word is None else f"{word} ({word.signed})"


def _wanted(console: Console, name: str, words: list[str]) -> Watched:
    """The word, the register or the port that is asked for."""
    match words:
        case []:
            raise COMMANDS[name].wrong("the word is missing")
        case ["port", number] if _PORT.fullmatch(number):
            return Port(int(number, 8))
        case ["port", *_]:
            raise COMMANDS[name].wrong("a port has an octal number up to 377")
    return watched(console, words)


def _called(console: Console, at: Watched) -> str:
    """A word by its name and address, a register, or a port."""
    name = console.debugger.program.name_of(at) if isinstance(at, Address) else ""
    return f"{name} ({at})" if name else str(at)


def _given_by(console: Console, at: Watched) -> str:
    """Which line gave a word that was never stored."""
    line = console.debugger.program.line_of_word(at) if isinstance(at, Address) else None
    if line is None or not isinstance(at, Address):
        return ""
    parts = Parts.of(console.debugger.program.line_at(line))
    return f": line {line}, {parts.operation} {parts.operand}, gave it {in_all_forms(console.word(at))}"


@command("[KIND ..]", "names the mistakes of the whole run that the machine lets pass, of these kinds or of all: " + ", ".join(KINDS), "mi")
def mistakes(console: Console, words: list[str]) -> Iterator[str]:
    """Mistakes."""
    unknown = [it for it in words if it not in KINDS]
    if unknown:
        raise COMMANDS["mistakes"].wrong(f"{unknown[0]!r} is no kind")
    looked = console.debugger.mistakes()
    found = [it for it in looked.found if it.kind in (words or KINDS)]
    # of a kind that is asked for each instruction that makes it is named, else the first one
    keys = [(it.kind, it.made.place if words and it.made else None) for it in found]
    counts, shown = Counter(keys), set[tuple[str, Place | None]]()
    for key, it in zip(keys, found):
        if key not in shown:
            shown.add(key)
            more = f" ({counts[key]} times in all)" if counts[key] > 1 else ""
            yield f"{it.kind}: {it.text}{more}"
    if not found:
        yield "none is found"
    if not looked.is_whole:
        yield f"instruction times from {looked.times} on weren't looked at"


@command("", "says where the run up to here first differs from the one without faults")
def diff(console: Console, words: list[str]) -> Told:
    """The first difference."""
    want_nothing("diff", words)
    debugger = console.debugger
    return difference_lines(debugger.replay, debugger.faultless(), debugger.position)


@command("", "says why the run has ended at what can't be withstood: which copies or cells, by which lines of the script")
def why(console: Console, words: list[str]) -> Told:
    """Why."""
    want_nothing("why", words)
    debugger, end = console.debugger, console.debugger.end
    address = getattr(end, "address", None) or getattr(getattr(end, "cause", None), "address", None)
    name = debugger.program.name_of(address) if address is not None else ""
    return reason_lines(debugger.replay, end, debugger.position, name, debugger.asker)


@command("[LINE]", "shows what the lines that call macros are written out to, or one of them; before `=>` stands the number of the line of the "
         "definition", "mac")
def macro(console: Console, words: list[str]) -> Iterator[str]:
    """Expansions."""
    program = console.debugger.program
    if len(words) > 1 or words and not words[0].isdigit():
        raise COMMANDS["macro"].wrong(f"{' '.join(words)!r} is no line")
    rows = [] if program.listing is None else [it for it in program.listing.rows if program.body_of(it)]
    shown = [it for it in rows if not words or program.number_of(it) == int(words[0])]
    if not shown:
        raise CommandError("no such line calls a macro" if rows else "the source has no line that calls a macro")
    before = 0
    for row in shown:
        number = program.number_of(row)
        if number != before:
            yield f"{number:5d}  {program.line_at(number)}"
        yield f"{program.body_of(row):5d}=>{str(row.field or ''):20} {row.line}".rstrip()
        before = number
