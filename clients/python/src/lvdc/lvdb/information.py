"""What `info` shows."""
from collections import Counter
from collections.abc import Callable, Iterable, Iterator

from lvdc.decks import Tape
from lvdc.listings import Instruction
from lvdc.lvdb.console import Console
from lvdc.lvdb.errors import CommandError
from lvdc.lvdb.expressions import in_all_forms
from lvdc.lvdb.made import made_between
from lvdc.lvdb.mistakes import MOST_LOOKED
from lvdc.lvdb.show import copies_lines, made_text, place_text
from lvdc.reports import Exchange
from lvdc.steps import PortExchange
from lvdc.values import STEPS_A_TIME, Address, Word

_MOST_LINES = 20


def _at_most(lines: list[str], what: str) -> Iterator[str]:
    """The last lines of many, and how many there are."""
    if len(lines) > _MOST_LINES:
        yield f"{len(lines)} {what}, the last {_MOST_LINES} of them:"
    yield from lines[-_MOST_LINES:]


def registers(console: Console) -> Iterator[str]:
    """All registers."""
    state = console.debugger.state
    if state.pending is not None:
        yield str(state.pending)
    for name, text in state.registers().items():
        word = f"  {Word.read(text).signed}" if name in ("A", "PQ") else ""
        where = f"  {console.debugger.program.label(state.place(console.debugger.program.simplex))}" if name == "PLACE" else ""
        yield f"{name:6} {text}{word}{where}".rstrip()


def breakpoints(console: Console) -> Iterator[str]:
    """Breakpoints and watches."""
    found = console.debugger.breakpoints.values()
    if not found:
        yield "there are no breakpoints"
    yield from map(str, found)


def copies(console: Console) -> Iterable[str]:
    """The 21 copies."""
    return copies_lines(console.debugger.state, console.style)


def memory(console: Console) -> Iterator[str]:
    """The words that aren't 0 or can't be recovered: those of code are counted, the others shown."""
    debugger = console.debugger
    words = debugger.replay.report(debugger.position // STEPS_A_TIME).words
    code = {Address(it.module, it.sector, it.location) for it in debugger.program.rows}
    shown = [f"{it}  {debugger.program.name_of(it):10} {in_all_forms(word)}" for it, word in words.items() if it not in code]
    yield f"after {debugger.position // STEPS_A_TIME} instruction times {len(words)} words aren't 0" + (
        f", {len(words) - len(shown)} of them code of the source" if debugger.program.rows else "")
    yield from shown[:_MOST_LINES]
    if len(shown) > _MOST_LINES:
        yield f"and {len(shown) - _MOST_LINES} more; `x/8 ADDRESS` shows any"


def faults(console: Console) -> Iterator[str]:
    """The script: the lines of the deck, and those that were put in."""
    debugger = console.debugger
    yield f"mode: {'through every fault' if debugger.is_through else 'guarded'}"
    yield from _at_most([f"deck    {it}" for it in debugger.program.deck.faults], "fault lines of the deck")
    yield from _at_most([f"put in  {it}" for it in debugger.injected], "fault lines that were put in")
    if not debugger.deck.faults:
        yield "there are no faults"


def ports(console: Console) -> Iterator[str]:
    """What was supplied to tapes, and what went through ports so far."""
    debugger = console.debugger
    time, rest = divmod(debugger.position, STEPS_A_TIME)
    for it in debugger.deck.ports:
        yield f"TAPE {it.port:03o}, {len(it.words)} words" if isinstance(it, Tape) else str(it)
    log = list(debugger.replay.report(time).exchanges)
    for step in debugger.replay.steps(debugger.position - rest, debugger.position):
        if isinstance(step.exchange, PortExchange):
            log.append(Exchange(time, step.exchange.port, step.exchange.word, step.exchange.kind == "OUT"))
    if len(log) > _MOST_LINES:
        yield f"{len(log)} exchanges, the last {_MOST_LINES} of them:"
    yield from (f"{it}  {made_text(debugger, it.time)}" for it in log[-_MOST_LINES:])
    if not log:
        yield "nothing went through a port so far"


def displays(console: Console) -> Iterator[str]:
    """The expressions that are shown at each stop."""
    if not console.displays:
        yield "there are no displays"
    yield from (f"{number}: {text}" for number, text in console.displays.items())


def calls(console: Console) -> Iterator[str]:
    """The calls that haven't returned, the innermost first."""
    debugger = console.debugger
    stack = debugger.stack()
    yield f"#0  {place_text(debugger, debugger.place)}"
    for number, it in enumerate(reversed(stack.calls), 1):
        yield f"#{number}  called at time {it.time} from {place_text(debugger, it.caller)}, goes back to {place_text(debugger, it.back)}"
    if stack.since:
        yield f"HOPs before instruction time {stack.since} weren't looked for"


def lines(console: Console) -> Iterator[str]:
    """The source, with how often the whole run makes each instruction; below a line that calls a macro stands what it is written out to."""
    debugger, program = console.debugger, console.debugger.program
    if program.listing is None:
        raise CommandError("an image has no lines of a source")
    counts = Counter(it.place for it in made_between(debugger.replay, 0, MOST_LOOKED) if not it.is_held)
    last = min([*program.numbers[:1], *(it - 1 for it in program.bodies if it)]) - 1
    for row in program.listing.rows:
        number, body = program.number_of(row), program.body_of(row)
        count = str(counts[row.field.place]) if isinstance(row.field, Instruction) else ""
        yield from (f"{'':8} {it:5d}  {program.line_at(it)}".rstrip() for it in range(last + 1, number + bool(body)))
        yield (f"{count:>8} {body:5d}=>{row.line}" if body else f"{count:>8} {number:5d}  {row.line}").rstrip()
        last = number


INFORMATION: dict[str, Callable[[Console], Iterable[str]]] = {
    "registers": registers, "breakpoints": breakpoints, "copies": copies, "memory": memory, "faults": faults, "ports": ports,
    "displays": displays, "calls": calls, "lines": lines}
