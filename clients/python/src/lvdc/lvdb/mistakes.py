"""Mistakes that this machine lets pass: each is looked for in the instruction times of a run, and named with the lines that made it."""
import re
from collections.abc import Callable, Iterator
from dataclasses import dataclass, field

from lvdc import commands
from lvdc.ends import Done, End
from lvdc.images import Image
from lvdc.listings import Instruction
from lvdc.lvdb.made import (ADD, CLA, DIV, HOP, MPH, MPY, OF_PQ, OF_SAVER, PIO, RSU, STO, SUB, TMI, TNZ, TRA, Made,
                            made_between)
from lvdc.lvdb.operands import TRANSFERS
from lvdc.lvdb.places import address_of, hop_of, place_of
from lvdc.lvdb.program import Program
from lvdc.lvdb.replays import Replay
from lvdc.lvdb.states import pending_of
from lvdc.parts import Parts
from lvdc.values import STEPS_A_TIME, Address, Place, Word
from lvdc.workers import Asker

# what each kind is, as `help` and the book have it
KINDS = {
    "early": "PQ is read before what is under way lands in it",
    "replaced": "a product or a quotient is thrown away by the next one",
    "wrap": "a sum or a difference doesn't fit into a word",
    "divide": "a dividend isn't smaller than its divisor",
    "empty": "a word is read where the source has only room, and nothing was stored",
    "unused": "what was computed in A is replaced before anything takes it",
    "unset": "a word is used as it was loaded, and changed after it",
    "syllable": "a step changes the other half of the instruction's word",
    "past": "a step goes past location 377",
    "operation": "a changed instruction gets another operation than its line has",
    "outside": "a changed instruction names a word where the source has nothing",
    "lost": "the way back is kept after a transfer, which has replaced it",
    "twice": "a way back that is still wanted is stored over",
    "sector": "the machine's data sector isn't the one of USE",
    "nowhere": "an instruction is made where the source has none",
    "count": "the count ends the run before the program"}
MOST_LOOKED = 100_000
_STEP, _MOST_CALLS = 16, 64
_HALVES = {0: (0, 8191), 1: (13, 8191)}


@dataclass(frozen=True, slots=True)
class Mistake:
    """What was found: of which kind, after how many steps of the run, and in words; `made` is the instruction time that they are said of."""

    kind: str
    position: int
    words: str
    made: Made | None = None
    describe: Callable[[Made], str] | None = None

    @property
    def text(self) -> str:
        """The words, behind the instruction."""
        return self.words if self.made is None or self.describe is None else f"{self.describe(self.made)} {self.words}"


@dataclass
class _Call:
    """A call that hasn't returned: its way back, where it was made, and whether the subroutine has kept the way back."""

    back: int
    caller: Place
    is_kept: bool = False
    lost_by: Made | None = None


@dataclass
class Finder:
    """Looks at one instruction time after another, from the beginning of a run on. `words` are the words of memory."""

    program: Program
    words: dict[Address, int]
    describe: Callable[[Made], str]
    said: set[Place] = field(default_factory=set)
    used: dict[Address, Made] = field(default_factory=dict)
    stored: set[Address] = field(default_factory=set)
    fetched_back: set[Address] = field(default_factory=set)
    calls: list[_Call] = field(default_factory=list)
    issued: Made | None = None
    computed: Made | None = None
    last: Made | None = None

    def look(self, made: Made) -> Iterator[Mistake]:
        """The mistakes of an instruction time."""
        if not made.is_held:
            for kind, text in self._found(made):
                yield Mistake(kind, made.position, text, made, self.describe)
            self._remember(made)
        self.last = made

    def at_the_end(self, end: End | None, position: int) -> Iterator[Mistake]:
        """Whether the program came to its end, a TRA to itself, before the count did."""
        if isinstance(end, Done) and self.last is not None and not self._rests(self.last):
            place = place_of(self.last.after.place, self.program.simplex)
            yield Mistake("count", position, f"the count of {self.last.time + 1} instruction times ends the run at {self._called(place)}, "
                                             "which is no TRA to itself")

    def _rests(self, made: Made) -> bool:
        """Whether an instruction is a TRA to itself, or goes on to one."""
        place = place_of(made.after.place, self.program.simplex)
        word = self.words.get(address_of(place), 0)
        syllable = word >> 13 if place.syllable else word & 8191
        return syllable == TRA << 9 | place.syllable << 8 | place.location

    def _found(self, made: Made) -> Iterator[tuple[str, str]]:
        """The kinds and the words of what is wrong."""
        yield from self._of_the_unit(made)
        yield from self._of_sums(made)
        yield from self._of_results(made)
        yield from self._of_places(made)
        yield from self._of_words(made)
        yield from self._of_calls(made)

    # ---- the arithmetic unit

    def _of_the_unit(self, made: Made) -> Iterator[tuple[str, str]]:
        """PQ too early, a result that is thrown away, a quotient that doesn't fit."""
        under_way = pending_of(made.before.control)
        whose = "what is under way"
        if under_way and self.issued:
            line = self.program.line_called(self.issued.place)
            whose = f"the {under_way.name} of time {self.issued.time}" + (f" ({line})" if line else "")
        if made.reads_pq and under_way:
            more = under_way.instructions
            yield "early", f"reads PQ, and {whose} lands in it {more} instruction{'s' * (more != 1)} later"
        if under_way and under_way.instructions > 1 and (made.code in (MPY, MPH, DIV) or made.code == STO and made.bits == OF_PQ):
            yield "replaced", f"throws away {whose}, which lands in {under_way.instructions} instructions"
        if made.code == DIV and made.operand is not None:
            dividend, divisor = Word(made.before.a).signed >> 2, made.operand.signed >> 2
            if abs(dividend) >= abs(divisor):
                yield "divide", f"divides {Word(made.before.a).signed} by {made.operand.signed}, which isn't greater: the quotient doesn't fit"

    def _of_sums(self, made: Made) -> Iterator[tuple[str, str]]:
        """Sums and differences that wrap."""
        if made.operand is None or made.code not in (ADD, SUB, RSU):
            return
        one, other = Word(made.before.a).signed, made.operand.signed
        exact = {ADD: one + other, SUB: one - other, RSU: other - one}[made.code]
        if exact != Word(exact % (1 << Word.BITS)).signed:
            told = {ADD: f"{one} and {other}", SUB: f"{one} less {other}", RSU: f"{other} less {one}"}[made.code]
            yield "wrap", f"wraps: {told} is {exact}, which doesn't fit into a word"

    def _of_results(self, made: Made) -> Iterator[tuple[str, str]]:
        """What A was computed to be, and nothing takes."""
        if self.computed is not None and self._replaces_a(made):
            yield "unused", f"replaces A, and nothing has taken what {self.describe(self.computed)} made of it"

    @staticmethod
    def _replaces_a(made: Made) -> bool:
        """Whether it gives A a word that takes nothing of the one before."""
        return made.code == CLA or made.code == PIO and made.bits >> 8 == 1

    # ---- where it stands, and which words it takes

    def _of_places(self, made: Made) -> Iterator[tuple[str, str]]:
        """Instructions that the source doesn't have, and another data sector than it says."""
        rows, place = self.program.rows, made.place
        if not rows or place in self.said:
            return
        if place not in rows:
            self.said.add(place)
            if self.last is None or self.last.place in rows:
                yield "nowhere", "is made where the source has no instruction; an empty word is HOP 000"
            return
        due, (pair, sector) = hop_of(made.before.data), self.program.uses[place]
        is_right = due.data_module == 2 * pair and (made.bits >> 8 == 1 or due.data_sector == sector)
        if not is_right and self._names_data(made):
            self.said.add(place)
            yield "sector", (f"is assembled for data sector {pair:o},{sector:02o}, which USE says, and the machine takes its data from "
                             f"{due.data_module // 2:o},{due.data_sector:02o}: a CDS or a HOP constant sets it")

    def _names_data(self, made: Made) -> bool:
        """Whether an instruction that is as its line says has a name or a literal for a word of data."""
        parts = Parts.of(self.program.rows[made.place].line)
        return parts.operation not in TRANSFERS and re.match("[A-Z=]", parts.operand) is not None and not self._is_changed(made)

    def _of_words(self, made: Made) -> Iterator[tuple[str, str]]:
        """Changed instructions that go astray, and words that nothing sets."""
        touched = made.stored or made.read
        if touched is not None and self.program.rows and made.bits not in OF_SAVER and self._is_changed(made) and (
                touched[0] not in self.program.taken and touched[0] not in self.stored):
            yield "outside", f"takes {touched[0]}, where the source has nothing"
        if made.read is not None and made.read[0] in self.program.room and made.read[0] not in self.stored and made.read[0] not in self.used:
            yield "empty", f"reads {self._named(made.read[0])}, where nothing was stored"
        if made.stored is None:
            return
        address, word = made.stored
        before = self.words.get(address, 0)
        if word == before:
            return
        first = self.used.get(address)
        if first is not None and address not in self.stored and made.bits not in OF_SAVER:
            yield "unset", (f"changes {self._named(address)}, which {self.describe(first)} used as it was loaded: nothing sets it at the beginning, "
                            "so a second run goes on from there")
        yield from self._of_steps(address, before, word)

    def _of_steps(self, address: Address, before: int, word: int) -> Iterator[tuple[str, str]]:
        """A changed instruction that was stepped wrongly."""
        rows = self.program.code_at(address)
        halves = [it.field.place.syllable for it in rows if isinstance(it.field, Instruction)]
        changed = [it for it, (shift, mask) in _HALVES.items() if before >> shift & mask != word >> shift & mask]
        if halves and not set(halves) & set(changed):
            other = "=O20000" if halves[0] else "=D1"
            yield "syllable", (f"changes syllable {changed[0]} of {self._named(address)}, whose instruction stands in syllable {halves[0]}: "
                               f"one location further is {other} there")
        for half in set(halves) & set(changed):
            shift, mask = _HALVES[half]
            one, other_one = before >> shift & mask, word >> shift & mask
            due = next(it.field.syllable for it in rows if isinstance(it.field, Instruction) and it.field.place.syllable == half)
            if other_one >> 9 != due >> 9:
                yield "operation", (f"makes another operation at {self._named(address)}, whose line has "
                                    f"{' '.join(self._line_at(address, half))}")
            if 0 < other_one - one <= _STEP and one >> 8 != other_one >> 8:
                yield "past", f"steps {self._named(address)} past location 377: its address goes from {one & 511:03o} to {other_one & 511:03o}"

    def _line_at(self, address: Address, half: int) -> tuple[str, str]:
        """The operation and the operand of the line of an instruction."""
        parts = Parts.of(self.program.rows[Place(address.bank, address.sector, half, address.location)].line)
        return parts.operation, parts.operand

    def _is_changed(self, made: Made) -> bool:
        """Whether an instruction isn't that of its line."""
        row = self.program.rows.get(made.place)
        return row is not None and isinstance(row.field, Instruction) and row.field.syllable != made.syllable

    # ---- calls

    def _of_calls(self, made: Made) -> Iterator[tuple[str, str]]:
        """Ways back that are lost."""
        if made.code != STO or made.bits not in OF_SAVER or made.stored is None:
            return
        innermost = self.calls[-1] if self.calls else None
        if innermost is not None and not innermost.is_kept and innermost.lost_by is not None and innermost.lost_by is not self.last:
            yield "lost", (f"keeps the way back of {self.describe(innermost.lost_by)}, and not that of the call from "
                           f"{self._called(innermost.caller)}, which the transfer has replaced")
        address, word = made.stored
        old = self.words.get(address, 0)
        outer = [it for it in self.calls if it.back == old and not (it is innermost and it.back == made.before.saver)]
        if outer and old != word and address not in self.fetched_back:
            yield "twice", (f"stores over the way back of the call from {self._called(outer[0].caller)}, which hasn't returned: keep one of them in "
                            "the other word, 776 or 777, or in a word of its own")

    def _remember(self, made: Made) -> None:
        """What later instruction times are looked at by."""
        if made.code in (MPY, MPH, DIV):
            self.issued = made
        if made.makes_a:
            self.computed = None if self._replaces_a(made) else made
        elif made.code in (STO, PIO, TNZ, TMI, MPY, DIV):
            self.computed = None
        for it in (made.fetched, made.read):
            if it is not None and it[0] not in self.stored:
                self.used.setdefault(it[0], made)
        if made.read is not None and made.code != HOP:
            self.fetched_back.add(made.read[0])
        if made.stored is not None:
            self.words[made.stored[0]] = made.stored[1]
            self.stored.add(made.stored[0])
            self.fetched_back.discard(made.stored[0])
        self._follow_calls(made)

    def _follow_calls(self, made: Made) -> None:
        """Calls: a HOP that goes to no way back, and a transfer whose way back is stored at once."""
        if made.code == HOP:
            backs = [it.back >> 10 for it in self.calls]
            target = made.after.place >> 10
            if target in backs:
                del self.calls[len(backs) - 1 - backs[::-1].index(target):]
            else:
                self.calls.append(_Call(made.after.saver, made.place))
                del self.calls[:-_MOST_CALLS]
        elif made.is_transfer and self.calls and not self.calls[-1].is_kept and self.calls[-1].lost_by is None:
            self.calls[-1].lost_by = made
        elif made.code == STO and made.bits in OF_SAVER:
            is_by_transfer = self.last is not None and self.last.is_transfer and self.last.code != HOP
            if self.calls and self.calls[-1].back == made.before.saver:
                self.calls[-1].is_kept = True
            elif is_by_transfer and self.last is not None:
                self.calls.append(_Call(made.before.saver, self.last.place, True))

    # ---- in words

    def _named(self, address: Address) -> str:
        """A word by its name."""
        return self.program.name_of(address) or str(address)

    def _called(self, place: Place) -> str:
        """A place by its name and its line."""
        line = self.program.line_called(place)
        return (self.program.label(place) or str(place)) + (f" ({line})" if line else "")


@dataclass(frozen=True)
class Looked:
    """The mistakes of a run, and how many instruction times were looked at; `is_whole` where these are all."""

    found: tuple[Mistake, ...]
    times: int
    is_whole: bool


def look_for_mistakes(program: Program, replay: Replay, describe: Callable[[Made], str], asker: Asker) -> Looked:
    """Looks at the instruction times of a run from its beginning on, at most at some."""
    finder = Finder(program, _loaded(program, asker), describe)
    found: list[Mistake] = []
    times = 0
    for made in made_between(replay, 0, MOST_LOOKED):
        times = made.time + 1
        found += finder.look(made)
    position = replay.reach(STEPS_A_TIME * MOST_LOOKED)
    end = replay.end_at(position)
    return Looked((*found, *finder.at_the_end(end, position)), times, end is not None)


def _loaded(program: Program, asker: Asker) -> dict[Address, int]:
    """The words with which memory is filled."""
    image = program.deck.program if isinstance(program.deck.program, Image) else commands.assemble_image(program.deck.program, worker=asker)
    return {at: int(it) for at, it in image.words.items()}
