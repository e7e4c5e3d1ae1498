"""The commands that put faults in and take them out, that judge, and that set the mode."""
import re
from collections.abc import Iterable, Iterator

from lvdc.faults import END_OF_STEPS, Damage, Dead, Deaf, Fault, Flip, Force, Lag
from lvdc.lvdb.console import Console
from lvdc.lvdb.errors import CommandError
from lvdc.lvdb.places import read_address
from lvdc.lvdb.registry import COMMANDS, COUNT, Told, command, want_nothing
from lvdc.lvdb.session import describe_end
from lvdc.lvdb.states import MODULE_NAMES
from lvdc.values import COPIES, LATCHES, NAMES, PAIRS, TWINS, Cell, Word

_OCTAL = re.compile("[0-7]{1,10}")
CONDITIONS = {
    1: "in some step a module has two wrong copies or more",
    2: "a line on memory names no duplex pair",
    3: "two lines of damage name one place, or parity can't see one",
    4: "a dead twin comes back before the end, or a line names the other twin of its pair"}


@command("MODULE COPY [for N] [flip [LATCH] BITS|force [LATCH] BITS VALUE|lag|deaf]",
         "hurts a copy in the next N steps, or from now on: bits are turned over or forced, or it keeps its latches (lag, where nothing is "
         "said), or hears its own number's copies (deaf)", "hu")
def hurt(console: Console, words: list[str]) -> Told:
    """A copy goes wrong."""
    if len(words) < 2:
        raise COMMANDS["hurt"].wrong("module and copy are missing")
    module, copy, rest = _module_of(words[0]), _one_of("copy", words[1], COPIES), words[2:]
    first = console.debugger.position
    last = END_OF_STEPS - 1
    if rest[:1] == ["for"]:
        if len(rest) < 2 or not COUNT.fullmatch(rest[1]):
            raise COMMANDS["hurt"].wrong("a count of steps stands behind `for`")
        last, rest = min(last, first + int(rest[1]) - 1), rest[2:]
    match rest:
        case [] | ["lag"]:
            return _inject(console, Lag(module, copy, first, last))
        case ["deaf"]:
            return _inject(console, Deaf(module, copy, first, last))
        case ["flip", *more] if 1 <= len(more) <= 2:
            return _inject(console, Flip(module, copy, first, last, _latch_of(module, more[:-1]), _bits(more[-1], Word)))
        case ["force", *more] if 2 <= len(more) <= 3:
            bits, value = _bits(more[-2], Word), _bits(more[-1], Word)
            return _inject(console, Force(module, copy, first, last, _latch_of(module, more[:-2]), bits, value))
    raise COMMANDS["hurt"].wrong(f"{' '.join(rest)!r} is no way to hurt a copy")


@command("NAME|ADDRESS [TWIN] BITS", "turns bits over in the cell that a twin stores there, 0 where none is said, before the next step", "da", "dam")
def damage(console: Console, words: list[str]) -> Told:
    """A cell goes wrong."""
    program = console.debugger.program
    size = 3 if read_address(words[:3]) is not None else 1
    if not size < len(words) <= size + 2:
        raise COMMANDS["damage"].wrong("a word, and the bits of its cell in octal, are wanted")
    address = program.find_address(words[:size])
    bits = _bits(words[-1], Cell)
    twins = [address.bank // 4] if address.bank % 4 in program.simplex else list(TWINS)
    twin = _one_of("twin", words[size], twins) if len(words) == size + 2 else twins[0]
    return _inject(console, Damage(twin, address.bank % 4, address.sector, address.location, console.debugger.position, bits))


@command("TWIN PAIR", "a twin of a pair of memory is dead from now on", "ki")
def kill(console: Console, words: list[str]) -> Told:
    """A twin dies."""
    if len(words) != 2:
        raise COMMANDS["kill"].wrong("a twin, 0 or 1, and a pair, 0 to 3, are wanted")
    twin, pair = _one_of("twin", words[0], TWINS), _one_of("pair", words[1], PAIRS)
    return _inject(console, Dead(twin, pair, console.debugger.position, END_OF_STEPS - 1))


def _inject(console: Console, fault: Fault) -> Iterator[str]:
    """Puts a fault in."""
    console.debugger.inject(fault)
    yield f"{fault}, from step {console.debugger.position} on; `undo` takes it out"


def _module_of(text: str) -> int:
    """A module by its number or the beginning of its name."""
    found = [number for name, number in MODULE_NAMES.items() if text == str(number) or name.startswith(text)]
    if len(found) != 1:
        raise CommandError(f"{text!r} is no module: they are {', '.join(f'{number} {name}' for name, number in MODULE_NAMES.items())}")
    return found[0]


def _one_of(what: str, text: str, numbers: Iterable[int]) -> int:
    """A number of some few."""
    found = [it for it in numbers if text == str(it)]
    if not found:
        raise CommandError(f"{text!r} is no {what} here: it is {' or '.join(map(str, numbers))}")
    return found[0]


def _latch_of(module: int, words: list[str]) -> int:
    """A latch of a module by its name; the first where none is named."""
    if not words:
        return 0
    if words[0] not in LATCHES[module]:
        raise CommandError(f"{words[0]!r} is no latch of the {NAMES[module]}: it has {', '.join(LATCHES[module])}")
    return LATCHES[module].index(words[0])


def _bits(text: str, kind: type[Word]) -> Word:
    """Bits in octal."""
    if not _OCTAL.fullmatch(text) or int(text, 8) >= 1 << kind.BITS:
        raise CommandError(f"{text!r} are no bits: an octal number of {kind.BITS} bits is wanted")
    return kind.read(text)


@command("", "takes the fault that was put in last out again", "un")
def undo(console: Console, words: list[str]) -> Iterator[str]:
    """A fault out again."""
    want_nothing("undo", words)
    fault, stop = console.debugger.undo()
    yield f"{fault} is out again"
    yield from console.stopped(stop)


@command("", "says whether the run is withstood to its end, how it ends, and which condition of the form its script doesn't meet", "j")
def judge(console: Console, words: list[str]) -> Iterator[str]:
    """To the end."""
    want_nothing("judge", words)
    end, times, form = console.debugger.judge()
    is_withstood = not str(end).startswith("END INADMISSIBLE")
    yield f"{'withstood' if is_withstood else 'not withstood'}: {describe_end(end, times)}"
    failing = form.failing
    yield str(form).strip() + (", the script masks by form: it is withstood whatever program runs" if failing is None else
                               f", condition {failing} isn't met: {CONDITIONS[failing]}")


@command("", "goes through every fault from now on: no step is judged", "th")
def through(console: Console, words: list[str]) -> Iterator[str]:
    """The mode."""
    want_nothing("through", words)
    yield "through every fault: no step is judged"
    yield from console.stopped(console.debugger.switch(True))


@command("", "judges each step again: the run ends at the first that can't be withstood", "gu")
def guarded(console: Console, words: list[str]) -> Iterator[str]:
    """The mode."""
    want_nothing("guarded", words)
    yield "guarded: each step is judged"
    yield from console.stopped(console.debugger.switch(False))
