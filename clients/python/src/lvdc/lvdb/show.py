"""What is shown: where the debugger stands after a command, and the copies of the seven modules."""
from collections.abc import Iterator
from dataclasses import dataclass

from lvdc.listings import Instruction
from lvdc.lvdb.history import last_access
from lvdc.lvdb.places import address_of, hop_of
from lvdc.lvdb.session import SYLLABLE, Debugger, Stop, describe_end
from lvdc.lvdb.states import DATA, INSTR, State, all_latches
from lvdc.steps import MemoryExchange, Step, StepExchange
from lvdc.values import COPIES, LATCHES, NAMES, STEPS_A_TIME, Place, Word

_MOST_COPIES, _PIECES_BACK = 6, 2
_WITHOUT_CHANGE = ("PLACE",)


@dataclass(frozen=True, slots=True)
class Style:
    """How a terminal shows what matters; without colour all is plain."""

    is_coloured: bool = False

    def _in(self, code: str, text: str) -> str:
        """A text in a colour or a weight."""
        return f"\x1b[{code}m{text}\x1b[0m" if self.is_coloured else text

    def head(self, text: str) -> str:
        """Where the debugger stands."""
        return self._in("1", text)

    def source(self, text: str) -> str:
        """A line of the source."""
        return self._in("36", text)

    def alarm(self, text: str) -> str:
        """A fault, or an end."""
        return self._in("31", text)


def stop_lines(debugger: Debugger, stop: Stop, style: Style) -> Iterator[str]:
    """Where the debugger stands: why, the place and its line, exchanges, registers that changed, copies that differ, and the end."""
    yield from stop.reasons
    yield style.head(position_text(debugger, stop.now))
    yield from (style.source(it) for it in instruction_lines(debugger))
    steps = last_steps(debugger, stop.now)
    yield from _exchange_lines(debugger, steps, stop.now)
    yield from _register_lines(stop)
    if stop.now.pending is not None:
        yield f"  {stop.now.pending}"
    yield from (style.alarm(it) for it in _fault_lines(steps, stop.now))
    end = debugger.end
    if end is not None:
        yield style.alarm(describe_end(end, debugger.deck.count))


def position_text(debugger: Debugger, state: State) -> str:
    """How many instruction times are made, the phase within one, and the place."""
    phase = f", phase {state.phase}" if state.position % STEPS_A_TIME else ""
    held = f", held for {state.hold} more" if state.hold else ""
    return f"time {state.time}{phase}{held} at {place_text(debugger, state.place(debugger.program.simplex))}"


def place_text(debugger: Debugger, place: Place) -> str:
    """A place, and its name where it has one."""
    label = debugger.program.label(place)
    return f"{label} ({place})" if label else str(place)


def instruction_lines(debugger: Debugger) -> Iterator[str]:
    """The line of the source at hand, that of its expansion where it calls a macro, and the instruction in memory where it is another one."""
    program, place, syllable = debugger.program, debugger.place, debugger.syllable()
    row = program.rows.get(place)
    if row is not None:
        number = program.number_of(row)
        yield f"{number:5d}  {program.line_at(number)}"
        if program.body_of(row):
            yield f"{program.body_of(row):5d}=>{row.line}"
    due = row.field.syllable if row is not None and isinstance(row.field, Instruction) else None
    if syllable is not None and syllable != due:
        instruction = debugger.named(syllable, place, hop_of(debugger.state.latch(DATA)))
        yield f"       {instruction}" if row is None else f"       memory has {instruction} here now{_writer_of(debugger, place)}"


def _writer_of(debugger: Debugger, place: Place) -> str:
    """Which instruction wrote a word of code, where that is near."""
    found = last_access(debugger.replay, debugger.position, address_of(place), pieces=_PIECES_BACK)
    return "" if found is None else f", written at time {found.time} by {made_text(debugger, found.time)}"


def made_text(debugger: Debugger, time: int) -> str:
    """The instruction of an instruction time, of one that is held that which waits: its line and what it is."""
    replay = debugger.replay
    state = replay.state(STEPS_A_TIME * time)
    while state.hold:
        time -= 1
        state = replay.state(STEPS_A_TIME * time)
    place = state.place(replay.simplex)
    syllable = replay.state(STEPS_A_TIME * time + 1).latch(INSTR) & SYLLABLE
    where = debugger.program.line_called(place) or str(place)
    return f"{where}: {debugger.named(syllable, place, hop_of(state.latch(DATA)))}"


def last_steps(debugger: Debugger, state: State) -> list[Step]:
    """The steps of the instruction time that was made last or is begun."""
    first = max(0, (state.position - 1) // STEPS_A_TIME * STEPS_A_TIME)
    return debugger.replay.steps(first, state.position)


def exchange_text(debugger: Debugger, exchange: StepExchange) -> str:
    """An exchange as the trace has it, with the name of its word."""
    name = debugger.program.name_of(exchange.address) if isinstance(exchange, MemoryExchange) and exchange.kind != "FETCH" else ""
    return f"{exchange} {name}".rstrip()


def _exchange_lines(debugger: Debugger, steps: list[Step], state: State) -> Iterator[str]:
    """What was exchanged and repaired; fetches within an instruction time alone, since after it its line tells them."""
    is_within = state.position % STEPS_A_TIME != 0
    for step in steps:
        if step.exchange is not None and (is_within or step.exchange.kind != "FETCH"):
            yield f"  {exchange_text(debugger, step.exchange)}"
        if step.repair is not None:
            yield f"  {step.repair}, found in step {step.number}"


def _register_lines(stop: Stop) -> Iterator[str]:
    """The registers that changed."""
    before, now = stop.before.registers(), stop.now.registers()
    for name in dict.fromkeys([*now, *before]):
        if name not in _WITHOUT_CHANGE and before.get(name, "0") != now.get(name, "0"):
            signed = f"  {Word.read(now[name]).signed}" if name in ("A", "PQ") else ""
            yield f"  {name} {before.get(name, '0')} -> {now.get(name, '0')}{signed}"


def _fault_lines(steps: list[Step], state: State) -> Iterator[str]:
    """The copies that were wrong by the script, and those that differ."""
    for step in steps:
        if step.wrong:
            copies = ", ".join(f"{NAMES[module]} {copy}" for module, copy in step.wrong)
            yield f"  wrong by the script in step {step.number}: {copies}"
    lines = list(_differing_lines(state))
    yield from lines[:_MOST_COPIES]
    if len(lines) > _MOST_COPIES:
        yield f"  and {len(lines) - _MOST_COPIES} more latches; `copies` shows them"


def _differing_lines(state: State) -> Iterator[str]:
    """Each latch of a copy that isn't as its vote."""
    for (module, copy), latches in state.differing.items():
        for name, word, vote in zip(LATCHES[module], latches, state.votes[module]):
            if word != vote:
                yield f"  {NAMES[module]} {copy} differs: {name} {word}, the vote is {vote}"


def copies_lines(state: State, style: Style) -> Iterator[str]:
    """The votes over all latches, and what of them each copy has otherwise, its digits marked."""
    yield "module       latch    vote       copy 1     copy 2     copy 3"
    for module, index, name in all_latches():
        vote = state.votes[module][index]
        words = [state.differing[module, copy][index] if (module, copy) in state.differing else vote for copy in COPIES]
        shown = ["=".ljust(9) if word == vote else _digits(word, vote, style) for word in words]
        yield f"{NAMES[module] if index == 0 else '':12} {name:8} {vote}  {'  '.join(shown)}".rstrip()
        if not style.is_coloured and any(word != vote for word in words):
            marks = [_marks(word, vote).ljust(9) for word in words]
            yield f"{'':33}{'  '.join(marks)}".rstrip()
    count = len(state.differing)
    yield f"{count} of 21 copies differ{'s' * (count == 1)} from the vote" if count else "all 21 copies are as the vote"


def _marks(word: Word, vote: Word) -> str:
    """Marks below the digits in which bits differ."""
    return "".join(" " if one == other else "^" for one, other in zip(str(word), str(vote)))


def _digits(word: Word, vote: Word, style: Style) -> str:
    """A word whose digits in which bits differ are shown as faults."""
    return "".join(one if one == other else style.alarm(one) for one, other in zip(str(word), str(vote)))
