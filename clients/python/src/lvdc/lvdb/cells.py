"""What the two twins of memory store of a word, and what a read of it would do.

The cells are those of the saved text of the run, with what the steps since then stored and rewrote, and with the lines of the script that
act before the next step."""
from collections.abc import Iterator
from dataclasses import dataclass, field

from lvdc import commands
from lvdc.faults import Damage, Dead, Stick
from lvdc.lvdb.errors import CommandError
from lvdc.lvdb.replays import Replay
from lvdc.reports import Report
from lvdc.saved import Saved
from lvdc.steps import MemoryExchange, Step
from lvdc.values import STEPS_A_TIME, TWINS, Address, Cell, Word
from lvdc.workers import Asker

_MOST_STEPS = 3_000
_HALF, _SYLLABLE = (1 << 14) - 1, (1 << 13) - 1


def code_of(word: int) -> Cell:
    """The one good cell of a word: the number of ones is odd in each half."""
    halves = [word & _SYLLABLE, word >> 13]
    odd = [it | (1 - it.bit_count() % 2) << 13 for it in halves]
    return Cell(odd[0] | odd[1] << 14)


def halves_of(cell: int) -> list[tuple[int, bool]]:
    """The two syllables of a cell, syllable 1 first, each with whether its half is good."""
    return [(half & _SYLLABLE, half.bit_count() % 2 == 1) for half in (cell >> 14, cell & _HALF)]


def is_good(cell: int) -> bool:
    """Whether both halves are good."""
    return all(good for _, good in halves_of(cell))


def word_of(cell: int) -> Word:
    """The word of a good cell."""
    (high, _), (low, _) = halves_of(cell)
    return Word(high << 13 | low)


@dataclass
class Twins:
    """What both twins store, and which of them is selected in each pair; `words` are the intended ones."""

    cells: dict[tuple[int, Address], Cell]
    words: dict[Address, Word]
    selected: list[int]
    simplex: tuple[int, ...]
    dead: set[tuple[int, int]] = field(default_factory=set)
    stuck: dict[tuple[int, Address], list[Stick]] = field(default_factory=dict)

    def twins_of(self, address: Address) -> list[tuple[int, Address]]:
        """The twins that hold a word, each with the physical place."""
        place = Address(address.bank % 4, address.sector, address.location)
        return [(it, place) for it in TWINS if place.bank not in self.simplex or it == address.bank // 4]

    def stored(self, at: tuple[int, Address]) -> Cell:
        """What a twin stores at a place."""
        return self.cells.get(at, code_of(0))

    def shown(self, at: tuple[int, Address]) -> Cell:
        """What a twin shows there: nothing where it is dead, and stuck bits as they are stuck."""
        if (at[0], at[1].bank) in self.dead:
            return Cell(0)
        cell = int(self.stored(at))
        for it in self.stuck.get(at, []):
            cell = cell & ~it.mask | it.value & it.mask
        return Cell(cell)

    def make(self, step: Step) -> None:
        """What a step stored and rewrote."""
        if step.repair is not None:
            place = Address(step.repair.address.bank % 4, step.repair.address.sector, step.repair.address.location)
            if step.repair.is_switch:
                self.selected[place.bank] = 1 - self.selected[place.bank]
            if (step.repair.twin, place.bank) not in self.dead and isinstance(step.exchange, MemoryExchange):
                self.cells[step.repair.twin, place] = code_of(step.exchange.word)
        if isinstance(step.exchange, MemoryExchange) and step.exchange.kind == "STORE":
            self.words[step.exchange.address] = step.exchange.word
            for it in self.twins_of(step.exchange.address):
                if (it[0], it[1].bank) not in self.dead:
                    self.cells[it] = code_of(step.exchange.word)

    def begin(self, replay: Replay, step: int) -> None:
        """What the script does before a step, and what is in force in it."""
        faults = replay.deck.faults
        for it in faults:
            if isinstance(it, Damage) and it.step == step:
                at = it.twin, Address(it.pair, it.sector, it.location)
                self.cells[at] = Cell(int(self.stored(at)) ^ it.mask)
        self.dead = {(it.twin, it.pair) for it in faults if isinstance(it, Dead) and it.first <= step <= it.last}
        self.stuck = {}
        for it in faults:
            if isinstance(it, Stick) and it.first <= step <= it.last:
                self.stuck.setdefault((it.twin, Address(it.pair, it.sector, it.location)), []).append(it)


def twins_at(replay: Replay, position: int, asker: Asker) -> Twins:
    """Both twins after so many steps, as the next step finds them."""
    time = position // STEPS_A_TIME
    saved = commands.save(replay.deck, time, worker=asker)
    if isinstance(saved, Report):
        last = position - 1
        time = getattr(saved.end, "step", last) // STEPS_A_TIME
        saved = commands.save(replay.deck, time, worker=asker)
    if isinstance(saved, Report) or position - STEPS_A_TIME * time > _MOST_STEPS:
        raise CommandError("cells are shown of a run that is judged, up to where it ends, and of the steps through every fault near behind that")
    return _made_on(replay, saved, STEPS_A_TIME * time, position)


def _made_on(replay: Replay, saved: Saved, first: int, position: int) -> Twins:
    """The twins of a saved text, with the steps since then."""
    twins = Twins(dict(saved.cells), dict(saved.words), list(saved.selected), tuple(replay.simplex))
    for number in range(first, position):
        twins.begin(replay, number)
        twins.make(replay.steps(number, number + 1)[0])
    twins.begin(replay, position)
    return twins


def cell_lines(twins: Twins, address: Address, name: str) -> Iterator[str]:
    """A word as it is intended, as each twin has it, and what a read would do."""
    intended = twins.words.get(address, Word(0))
    yield f"{address}  {name:10} intended {intended}".rstrip()
    for it in twins.twins_of(address):
        stored, shown = twins.stored(it), twins.shown(it)
        told = f"dead, stores {stored}" if (it[0], it[1].bank) in twins.dead else f"{shown}" + (
            f" (stuck; stores {stored})" if shown != stored else "")
        halves = ", ".join(f"syllable {1 - at} {half:05o} {'good' if good else 'bad'}" for at, (half, good) in enumerate(halves_of(shown)))
        yield f"  twin {it[0]}{' selected' if len(twins.twins_of(address)) == 2 and twins.selected[it[1].bank] == it[0] else ''}: {told}: {halves}"
    yield f"  a read {read_text(twins, address)}"


def read_text(twins: Twins, address: Address) -> str:
    """What a read of a word would do."""
    held = twins.twins_of(address)
    selected = twins.selected[address.bank % 4]
    rising = sorted(held, key=lambda it: it[0] != selected)
    good = [it for it in rising if is_good(twins.shown(it))]
    if not good:
        return "finds no good cell: the machine stops there, and a run that is judged ends before"
    word, used = word_of(twins.shown(good[0])), good[0][0]
    told = f"takes {word} of twin {used}"
    if word != twins.words.get(address, Word(0)):
        told += ", which isn't the intended word: parity doesn't see it"
    if len(held) == 2 and used != selected:
        told += ", and selects that twin"
    bad = [it for it in rising if it not in good]
    if len(held) == 2 and bad:
        is_dead = (bad[0][0], bad[0][1].bank) in twins.dead
        told += f"; twin {bad[0][0]} is " + ("dead, and nothing is rewritten" if is_dead else "bad, and is rewritten")
    return told
