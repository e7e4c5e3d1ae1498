"""Instruction times as a trace tells them: which instruction was made, with what, and what came of it."""
from collections.abc import Iterator
from dataclasses import dataclass, replace

from lvdc.lvdb.places import place_of
from lvdc.lvdb.replays import LONG, Replay
from lvdc.lvdb.states import A, CONTROL, DATA, HOLD, INSTR, MOST_HELD, PLACE, PQ, SAVER
from lvdc.values import STEPS_A_TIME, Address, Place, Word

HOP, MPY, SUB, DIV, TNZ, MPH, AND, ADD, TRA, XOR, PIO, STO, TMI, RSU, CDS, CLA = range(16)
WITH_OPERAND = {HOP, MPY, SUB, DIV, MPH, AND, ADD, XOR, RSU, CLA}
MAKING_A = {SUB, MPH, AND, ADD, XOR, RSU, CLA}
OF_PQ, OF_SAVER = 0o775, (0o776, 0o777)
_SYLLABLE = (1 << 13) - 1
_PIECE = LONG // STEPS_A_TIME * STEPS_A_TIME


@dataclass(frozen=True, slots=True)
class Latched:
    """The votes over some latches between two instruction times."""

    a: int
    pq: int
    control: int
    saver: int
    place: int
    data: int
    is_held: bool


@dataclass(frozen=True, slots=True)
class Made:
    """An instruction time. `fetched`, `read` and `stored` are exchanges with memory, `port` one with a port, which is `IN` or `OUT`."""

    time: int
    before: Latched
    after: Latched
    syllable: int
    place: Place
    fetched: tuple[Address, Word] | None = None
    read: tuple[Address, Word] | None = None
    stored: tuple[Address, Word] | None = None
    port: tuple[str, int, Word] | None = None

    @property
    def position(self) -> int:
        """How many steps are made after it."""
        return STEPS_A_TIME * (self.time + 1)

    @property
    def is_held(self) -> bool:
        """Whether no instruction was made."""
        return self.before.is_held

    @property
    def code(self) -> int:
        """The operation."""
        return self.syllable >> 9

    @property
    def bits(self) -> int:
        """The nine bits of the operand."""
        return self.syllable & 0o777

    @property
    def reads_pq(self) -> bool:
        """Whether it reads PQ."""
        return not self.is_held and self.code in WITH_OPERAND and self.bits == OF_PQ

    @property
    def operand(self) -> Word | None:
        """The word that it works with, of memory or of PQ."""
        if self.reads_pq:
            return Word(self.before.pq)
        return None if self.read is None else self.read[1]

    @property
    def makes_a(self) -> bool:
        """Whether it gives A a word."""
        is_read, is_shift = self.bits >> 8 == 1, self.bits >> 7 == 1
        return not self.is_held and (self.code in MAKING_A or self.code == PIO and is_read or self.code == CDS and is_shift)

    @property
    def is_transfer(self) -> bool:
        """Whether it is a HOP, or a transfer that is made."""
        is_made = {HOP: True, TRA: True, TNZ: self.before.a != 0, TMI: self.before.a >> (Word.BITS - 1) == 1}
        return not self.is_held and is_made.get(self.code, False)


class _Votes:
    """The votes so far."""

    def __init__(self, votes: dict[int, tuple[Word, ...]]) -> None:
        self.votes: dict[int, tuple[int, ...]] = {module: tuple(map(int, it)) for module, it in votes.items()}

    def take(self, line: str) -> None:
        """A line VOTE."""
        self.votes[int(line[5])] = tuple(int(it, 8) for it in line[7:].split(" "))

    def latch(self, at: tuple[int, int]) -> int:
        """A latch of a module."""
        return self.votes[at[0]][at[1]]

    def latched(self) -> Latched:
        """What is between two instruction times."""
        a, pq, control, saver, place, data = map(self.latch, (A, PQ, CONTROL, SAVER, PLACE, DATA))
        return Latched(a, pq, control, saver, place, data, self.latch(HOLD) % MOST_HELD != 0)


def made_between(replay: Replay, first: int, past: int) -> Iterator[Made]:
    """The instruction times from one on and below another, as far as they are made whole."""
    position, end = STEPS_A_TIME * first, STEPS_A_TIME * past
    votes = _Votes(dict(replay.state(position).votes))
    while position < end:
        window = replay.window(position, min(_PIECE, end - position))
        yield from _made_in(window.text, replay, votes, position)
        position = window.past
        if window.end is not None:
            return


def _made_in(text: str, replay: Replay, votes: _Votes, position: int) -> Iterator[Made]:
    """The instruction times of a piece that begins where one does."""
    before, exchanges = votes.latched(), dict[str, str]()
    for at, block in enumerate(text.split("\nSTEP ")[1:]):
        for line in block.split("\n")[1:]:
            if line.startswith("VOTE "):
                votes.take(line)
            elif line.startswith(("FETCH ", "OPERAND ", "STORE ", "IN ", "OUT ")):
                kind, _, rest = line.partition(" ")
                exchanges[kind] = rest
        if (position + at) % STEPS_A_TIME == STEPS_A_TIME - 1:
            after = votes.latched()
            made = Made((position + at) // STEPS_A_TIME, before, after, votes.latch(INSTR) & _SYLLABLE, place_of(before.place, replay.simplex))
            yield _with_exchanges(made, exchanges) if exchanges else made
            before, exchanges = after, {}


def _with_exchanges(made: Made, exchanges: dict[str, str]) -> Made:
    """An instruction time with what was exchanged in it."""
    words = {kind: (Address.read(rest[:8]), Word.read(rest[9:])) for kind, rest in exchanges.items() if kind not in ("IN", "OUT")}
    ports = [(kind, int(rest[:3], 8), Word.read(rest[4:])) for kind, rest in exchanges.items() if kind in ("IN", "OUT")]
    return replace(made, fetched=words.get("FETCH"), read=words.get("OPERAND"), stored=words.get("STORE"), port=ports[0] if ports else None)
