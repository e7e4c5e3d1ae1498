"""The debugger's own state: a deck with the faults that were put in, the mode, and how many steps of the run are made."""
from collections.abc import Callable, Iterator, Set
from dataclasses import dataclass, replace
from pathlib import Path

from lvdc import commands
from lvdc.decks import Deck
from lvdc.ends import Done, End, Inadmissible, Logic, Stopped
from lvdc.faults import Fault
from lvdc.listings import Instruction
from lvdc.lvdb.breakpoints import Breakpoint, Breakpoints, find_again
from lvdc.lvdb.calls import Stack, came_by_hop, returned, stack_at
from lvdc.lvdb.errors import CommandError
from lvdc.lvdb.expressions import Words as Given
from lvdc.lvdb.expressions import addresses_in, evaluate
from lvdc.lvdb.made import Made
from lvdc.lvdb.mistakes import Looked, Mistake, look_for_mistakes
from lvdc.lvdb.operands import named
from lvdc.lvdb.places import bank_of, hop_of
from lvdc.lvdb.program import Program, load
from lvdc.lvdb.replays import Decoder, Replay
from lvdc.lvdb.searches import Arrivals, Change, Found, Read, Wanted, Words, back, end_of, onward, onward_to
from lvdc.lvdb.states import DATA, INSTR, PLACE, State
from lvdc.lvdb.windows import Window
from lvdc.parts import Parts
from lvdc.refusals import NoAnswer
from lvdc.traces import Form
from lvdc.values import NAMES, STEPS_A_TIME, Address, Hop, Place, Word
from lvdc.workers import Asker

_KEPT_REPLAYS = 4
SYLLABLE = (1 << 13) - 1


@dataclass(frozen=True, slots=True)
class Stop:
    """Where the debugger stands after a command: the machine before it and now, and why it stopped there."""

    before: State
    now: State
    reasons: tuple[str, ...] = ()


class Debugger:
    """One program that is debugged. Each call that moves gives where it stopped; what can't be done raises CommandError, and nothing is
    changed."""

    def __init__(self, program: Program, asker: Asker) -> None:
        self.program, self.asker = program, asker
        self.position = 0
        self.is_through = False
        self.injected: tuple[Fault, ...] = ()
        self.breakpoints = Breakpoints()
        self.decoder = Decoder(asker)
        self._mistakes: dict[tuple[tuple[Fault, ...], bool], Looked] = {}
        self._replays: dict[tuple[tuple[Fault, ...], bool], Replay] = {}

    # ---- what there is

    @property
    def deck(self) -> Deck:
        """The program's deck with all that was put in."""
        return self._deck_with(self.injected)

    def _deck_with(self, injected: tuple[Fault, ...]) -> Deck:
        """The program's deck with these faults behind its own."""
        return replace(self.program.deck, faults=(*self.program.deck.faults, *injected))

    @property
    def replay(self) -> Replay:
        """The run as it is now."""
        return self._replay_of(self.injected, self.is_through)

    def _replay_of(self, injected: tuple[Fault, ...], is_through: bool) -> Replay:
        """A run with these faults; those that were asked last are kept."""
        key = injected, is_through
        found = self._replays.pop(key, None) or Replay(self._deck_with(injected), is_through, self.asker, self.program.simplex)
        self._replays[key] = found
        while len(self._replays) > _KEPT_REPLAYS:
            del self._replays[next(iter(self._replays))]
        return found

    @property
    def state(self) -> State:
        """The machine now."""
        return self.replay.state(self.position)

    @property
    def place(self) -> Place:
        """Where the next instruction stands; within an instruction time, where its instruction stands."""
        return self.state.place(self.program.simplex)

    @property
    def data(self) -> tuple[int, int]:
        """The bank and the sector from which the machine takes its data."""
        hop = hop_of(self.state.latch(DATA))
        return bank_of(hop.data_module, self.program.simplex), hop.data_sector

    @property
    def end(self) -> End | None:
        """How the run has ended, where no further step is made."""
        return self.replay.end_at(self.position)

    def stack(self) -> Stack:
        """The calls that haven't returned."""
        return stack_at(self.replay, self.position)

    def syllable(self) -> int | None:
        """The instruction that the next step belongs to: what is about to be fetched, or was; None where there is none."""
        state, step = self.state, self.replay.next_step(self.position)
        if state.hold or step is None and state.phase == "A":
            return None
        if state.phase != "A":
            return state.latch(INSTR) & SYLLABLE
        exchange = None if step is None else step.exchange
        if exchange is None or exchange.kind != "FETCH":
            return None
        return exchange.word >> 13 if hop_of(state.latch(PLACE)).syllable else exchange.word & SYLLABLE

    # ---- moving

    def step(self, count: int = 1) -> Stop:
        """Makes instruction times; one that is begun is the first of them."""
        return self._advance((self.position // STEPS_A_TIME + count) * STEPS_A_TIME)

    def phase(self, count: int = 1) -> Stop:
        """Makes steps."""
        return self._advance(self.position + count)

    def go_to(self, position: int) -> Stop:
        """Goes to where so many steps are made."""
        return self._move(self.replay.reach(position), *([] if position >= 0 else ["the run begins here"]))

    def step_back(self, count: int = 1) -> Stop:
        """Goes back by instruction times; one that is begun is the first of them."""
        self._need_past()
        return self.go_to((-(-self.position // STEPS_A_TIME) - count) * STEPS_A_TIME)

    def proceed(self) -> Stop:
        """Goes on to a breakpoint or to what is watched, else to the end."""
        self._need_future()
        return self._proceed_from(self.position, self.breakpoints.copy())

    def run(self) -> Stop:
        """Begins anew, and goes on likewise; a breakpoint where the run begins is met at once."""
        counted, start = self.breakpoints.copy(), self.replay.start
        met = [it for it in counted.at_place(start.place(self.program.simplex)) if self._holds(it.condition, self._loaded, start.latch)]
        return self._arrive(Found(0), counted) if counted.pass_over(met) else self._proceed_from(0, counted)

    def _loaded(self, address: Address) -> Word | None:
        """A word as it is where the run begins."""
        return self.replay.words(0, [address])[0]

    def _proceed_from(self, position: int, counted: Breakpoints) -> Stop:
        """Goes on from a position."""
        return self._arrive(onward(self.replay, position, self._wanted(counted)), counted)

    def reverse(self) -> Stop:
        """Goes back to a breakpoint or before what is watched, else to the beginning. Hits aren't counted going back."""
        self._need_past()
        found = back(self.replay, self.position, self._wanted(self.breakpoints.without_counts()))
        return self._move(0, "the run begins here") if found is None else self._arrive(found, self.breakpoints)

    def next(self, count: int = 1) -> Stop:
        """Makes instructions as `step` does, but a call of a subroutine up to its return, and a product that is waited for up to its end."""
        self._need_future()
        before, position = self.state, self.position
        for _ in range(count):
            position, reasons = self._next_from(position)
            if reasons is not None or self.replay.end_at(position) is not None:
                break
        stop = self._move(position) if reasons is None else self._arrive(*reasons)
        return replace(stop, before=before)

    def _next_from(self, position: int) -> tuple[int, tuple[Found, Breakpoints] | None]:
        """Where the instruction at a position is done, with its call; or the breakpoint that comes before."""
        time = position // STEPS_A_TIME
        after = self.replay.reach((time + 1) * STEPS_A_TIME)
        back_at = returned(self.replay, time, self.program.simplex) if position % STEPS_A_TIME == 0 else None
        if back_at is None:
            return self.replay.reach(after + STEPS_A_TIME * self.replay.state(after).hold), None
        counted = self.breakpoints.copy()
        wanted = self._wanted(counted)
        found = Found(back_at) if wanted.is_nothing else onward(self.replay, after - 1, wanted)
        return (back_at, None) if found.position >= back_at else (found.position, (found, counted))

    def run_to(self, place: Place) -> Stop:
        """Goes on to a place, whatever breakpoints there are on the way."""
        self._need_future()
        return self._move(onward(self.replay, self.position, Wanted(frozenset([place]))).position)

    def run_behind(self) -> Stop:
        """Goes on to a place behind this one in its sector, so out of a loop that ends here."""
        self._need_future()
        return self._move(self._or_end(onward_to(self.replay, self.position, Arrivals.behind(hop_of(self.state.latch(PLACE))))))

    def finish(self) -> Stop:
        """Goes on until the innermost call has returned by a HOP."""
        self._need_future()
        stack = self.stack()
        if not stack.calls:
            since = f" since instruction time {stack.since}" if stack.since else ""
            raise CommandError(f"no HOP has called a subroutine that hasn't returned{since}; `until PLACE` goes on to a place")
        innermost = stack.calls[-1]
        arrivals = Arrivals.at(frozenset([innermost.back]), self.replay)
        return self._move(self._or_end(onward_to(self.replay, self.position, arrivals, lambda it: came_by_hop(self.replay, it))))

    def _or_end(self, position: int | None) -> int:
        """A position, or the end of the run where there is none."""
        return end_of(self.replay) if position is None else position

    def _advance(self, position: int) -> Stop:
        """Goes on to where so many steps are made."""
        self._need_future()
        return self._move(self.replay.reach(position))

    def _arrive(self, found: Found, counted: Breakpoints) -> Stop:
        """Stops where a search came to; the hits were counted, and a breakpoint for one time is used up."""
        met = [it for it in counted.values() if it.meets(found.what)] if isinstance(found.what, Change | Read | Mistake) else []
        reasons = [it.reason(found, self._instructions) for it in met]
        stop = self._move(found.position)
        if found.position % STEPS_A_TIME == 0 and not stop.now.hold:
            here = [it for it in counted.at_place(self.place) if it.left == 0 and self._holds(it.condition, self.word_now, self.state.latch)]
            reasons += [f"breakpoint {it.number}: {it.text}" for it in here]
            met += here
        self.breakpoints = counted.hit(met)
        return replace(stop, reasons=tuple(reasons))

    def _instructions(self, address: Address, words: tuple[Word | None, Word | None]) -> str:
        """What the instruction in a word was, and what it is; empty where the source has none there."""
        told = []
        for row in self.program.code_at(address):
            assert isinstance(row.field, Instruction)
            place = row.field.place
            halves = [0 if it is None else int(it) >> 13 if place.syllable else int(it) & SYLLABLE for it in words]
            told.append(" -> ".join(self.named(it, place) for it in halves))
        return f", {'; '.join(told)}" if told else ""

    def _move(self, position: int, *reasons: str) -> Stop:
        """Stands at a position that the run comes to."""
        before, now = self.state, self.replay.state(position)
        self.position = position
        return Stop(before, now, reasons)

    def _wanted(self, counted: Breakpoints) -> Wanted:
        """What breakpoints look for. Where one has a condition or a count, hits are counted in `counted` as they come."""
        whats = {what for it in counted.values() for what in it.whats}
        kinds = {kind for it in counted.values() for kind in it.kinds}
        asked = {at for it in counted.values() for at in addresses_in(it.condition, self.program)}
        caught = tuple(Found(it.position, it) for it in self.mistakes().found if it.kind in kinds) if kinds else ()

        def is_met(found: Found, words: Words, window: Window) -> bool:
            met = [it for it in counted.values() if it.meets(found.what) and self._holds(
                it.condition, words.__getitem__, lambda at: window.latch(found.position - 1, *at))]
            return counted.pass_over(met)
        return Wanted(frozenset(it for it in whats if isinstance(it, Place)), frozenset(it for it in whats if isinstance(it, Change)),
                      frozenset(it for it in whats if isinstance(it, Read)), caught, asked, is_met if counted.are_counted else None)

    def _holds(self, condition: str, word: Callable[[Address], Word | None], latch: Callable[[tuple[int, int]], Word]) -> bool:
        """Whether a condition isn't 0; one of a word that can't be recovered holds, so that it is seen."""
        return not condition or evaluate(condition, Given(self.program, word, latch)) != 0

    def word_now(self, address: Address) -> Word | None:
        """A word of memory now."""
        return self.replay.words(self.position, [address])[0]

    def _need_future(self) -> None:
        """Wants that a step is left."""
        end = self.end
        if end is not None:
            raise CommandError(f"the run has ended: {describe_end(end, self.deck.count)}; `back` and `goto` go back")

    def _need_past(self) -> None:
        """Wants that a step is made."""
        if self.position == 0:
            raise CommandError("this is where the run begins: there is nothing to go back to")

    # ---- breakpoints

    def add_breakpoint(self, kind: str, at: Place | Address | str, text: str, typed: str = "", kinds: Set[str] = frozenset()) -> Breakpoint:
        """Sets a breakpoint at a place, watches a word or a register, or catches mistakes."""
        return self.breakpoints.add(Breakpoint(self.breakpoints.last + 1, kind, at, text, typed, frozenset(kinds)))

    def set_condition(self, number: int, condition: str) -> Breakpoint:
        """Gives a breakpoint a condition, which is tried now; an empty one takes it away."""
        self._holds(condition, self.word_now, self.state.latch)
        return self.breakpoints.change(number, condition=condition)

    def faultless(self) -> Replay:
        """The run without any fault."""
        return Replay(self.program.deck.with_faults(), self.is_through, self.asker, self.program.simplex)

    # ---- mistakes

    def mistakes(self) -> Looked:
        """The mistakes of the run as it is now."""
        key = self.injected, self.is_through
        if key not in self._mistakes:
            self._mistakes = {key: look_for_mistakes(self.program, self.replay, self.described, self.asker)}
        return self._mistakes[key]

    def described(self, made: Made) -> str:
        """An instruction time in words."""
        where = self.program.line_called(made.place) or str(made.place)
        return f"time {made.time}, {self.named(made.syllable, made.place, hop_of(made.before.data))} ({where})"

    def named(self, syllable: int, place: Place, data: Hop | None = None) -> str:
        """An instruction with the name of its operand; where it is that of its line, as it stands there."""
        row = self.program.rows.get(place)
        if row is not None and isinstance(row.field, Instruction) and row.field.syllable == syllable:
            parts = Parts.of(row.line)
            return f"{parts.operation} {parts.operand}"
        if data is None and place in self.program.uses:
            use = self.program.uses[place]
        else:
            hop = hop_of(self.state.latch(DATA)) if data is None else data
            use = bank_of(hop.data_module, self.program.simplex), hop.data_sector
        return named(self.program, self.decoder.instruction(syllable), place, use)

    # ---- an edit

    def reload(self) -> list[str]:
        """Reads the file anew, and stands at the beginning. Breakpoints and faults stay as far as they still have a meaning; those that have
        none are told. A file that is refused changes nothing."""
        program = load(Path(self.program.path), self.program.options, self.asker)
        breakpoints, faults = self.breakpoints, self.injected
        self.program, self.position, self.injected, self.breakpoints = program, 0, (), Breakpoints(last=breakpoints.last)
        self._replays, self._mistakes = {}, {}
        return [*self._put_again(breakpoints), *self._inject_again(faults)]

    def _put_again(self, breakpoints: Breakpoints) -> Iterator[str]:
        """Sets breakpoints in a program that was read anew, and tells which can't be."""
        for it in breakpoints.values():
            try:
                self._holds(it.condition, self.word_now, self.state.latch)
                self.breakpoints.add(replace(it, **find_again(self.program, it)))
            except CommandError as error:
                yield f"{it.kind} {it.number} is gone: {error}"

    def _inject_again(self, faults: tuple[Fault, ...]) -> Iterator[str]:
        """Puts faults in again, and tells which can't be."""
        for fault in faults:
            try:
                self.inject(fault)
            except CommandError as error:
                yield f"{fault} is out: {error}"

    # ---- faults and the mode

    def inject(self, fault: Fault) -> None:
        """Puts a fault in, which begins with the next step."""
        end = self.end
        if end is not None:
            raise CommandError(f"the run has ended: {describe_end(end, self.deck.count)}; no step is left to be hurt, so go back first")
        self._change((*self.injected, fault), self.is_through)

    def undo(self) -> tuple[Fault, Stop]:
        """Takes the last fault that was put in out again."""
        if not self.injected:
            raise CommandError("nothing was put in: hurt, damage and kill put faults in; those of the deck stay")
        fault = self.injected[-1]
        return fault, self._change(self.injected[:-1], self.is_through)

    def switch(self, is_through: bool) -> Stop:
        """Sets the mode."""
        return self._change(self.injected, is_through)

    def _change(self, injected: tuple[Fault, ...], is_through: bool) -> Stop:
        """Replays another deck, or the same in another mode, to the same step; or to its end, where that comes first."""
        replay = self._replay_of(injected, is_through)
        try:
            commands.form(replay.text, worker=self.asker)
        except NoAnswer as refused:
            raise CommandError(f"the deck can't have it: {refused}") from refused
        before, position = self.state, replay.reach(self.position)
        stop = Stop(before, replay.state(position))
        self.injected, self.is_through, self.position = injected, is_through, position
        return stop

    def judge(self) -> tuple[End, int, Form]:
        """How the guarded run ends, how many instruction times it makes, and the form of its script."""
        report = commands.run(self.deck, worker=self.asker)
        return report.end, report.registers.times, commands.form(self.deck, worker=self.asker)


def describe_end(end: End, count: int) -> str:
    """An end in words, with the line of the report."""
    match end:
        case Done():
            return f"END DONE, all {count} instruction times are made"
        case Inadmissible(cause=Logic(module=module)):
            told = f"two copies of the {NAMES[module]} are wrong"
        case Inadmissible():
            told = "the word that is to be read can't be recovered"
        case Stopped(address=None):
            told = "the machine has stopped"
        case Stopped():
            told = "a read found no good cell"
        case _:
            told = "a device failed"
    return f"{end}, {told} in instruction time {end.step // STEPS_A_TIME}, phase {'ABC'[end.step % STEPS_A_TIME]}"
