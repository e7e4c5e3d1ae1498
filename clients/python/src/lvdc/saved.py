"""Saved texts: a run that was stopped between two instruction times, with all that it needs to go on."""
import re
from collections.abc import Iterator, Mapping
from dataclasses import dataclass, field
from typing import Self

from lvdc.decks import LETTERS, Unplug
from lvdc.faults import Fault, read_fault
from lvdc.frozen import Frozen
from lvdc.lines import ADDRESS, CELL, NUMBER, PORT, TWIN, WORD, Lines, pattern
from lvdc.reports import Exchange, Repair, take_exchanges, take_repairs
from lvdc.values import COPIES, LATCHES, MODULES, Address, Cell, Port, Word

_TITLE = pattern("LVDC", "SAVE", "1")
_STEPS = pattern("STEPS", NUMBER)
_COUNT = pattern("COUNT", NUMBER)
_SIMPLEX = pattern("SIMPLEX", "([0-3](?: [0-3]){0,3})")
_SELECT = pattern("SELECT", TWIN, TWIN, TWIN, TWIN)
_CELL = pattern("CELL", TWIN, ADDRESS, CELL)
_WORD = pattern("WORD", ADDRESS, WORD)
_STATE = pattern("STATE", PORT, WORD)
_UNPLUG = pattern("UNPLUG", PORT, NUMBER)
_FAULT = re.compile("(?:FLIP|FORCE|LAG|DEAF|DAMAGE|STICK|DEAD) .*")
_ORDER = re.compile("[A-U]{21}")
_END = pattern("END")


@dataclass(frozen=True, slots=True)
class CopyState:
    """A copy of a module: in how many steps it differed from the vote, and its latches by index."""

    differed: int
    latches: tuple[Word, ...]


@dataclass(frozen=True, slots=True, repr=False)
class Saved:
    """The state of a run, and the rest of its deck.

    `copies` has all 21 by (module, copy), `selected` the selected twin of each pair, `cells` the stored cells by twin and physical place
    (an Address whose bank is the pair) that aren't that of the word 0, `words` the intended words that aren't 0, and `states` the words
    that devices hold, by port."""

    steps: int
    count: int
    simplex: tuple[int, ...]
    copies: Mapping[tuple[int, int], CopyState]
    selected: tuple[int, ...]
    cells: Mapping[tuple[int, Address], Cell]
    words: Mapping[Address, Word]
    exchanges: tuple[Exchange, ...]
    repairs: tuple[Repair, ...]
    states: tuple[tuple[Port, Word], ...]
    unplugs: tuple[Unplug, ...]
    faults: tuple[Fault, ...]
    orders: tuple[str, ...]
    text: str = field(repr=False, compare=False)

    @classmethod
    def read(cls, text: str) -> Self:
        """Reads a saved text whole."""
        lines = Lines(text)
        lines.need(_TITLE, "LVDC SAVE 1")
        steps, count = int(lines.need(_STEPS, "STEPS")[1]), int(lines.need(_COUNT, "COUNT")[1])
        simplex = lines.may(_SIMPLEX)
        pairs = tuple(map(int, simplex[1].split(" "))) if simplex else ()
        copies = Frozen(dict(_take_copies(lines)))
        selected = tuple(map(int, lines.need(_SELECT, "SELECT").groups()))
        cells = {place: Cell.read(it[3]) for place, it in lines.rising(_CELL, lambda it: (int(it[1]), Address.read(it[2])))}
        words = {address: Word.read(it[2]) for address, it in lines.rising(_WORD, lambda it: Address.read(it[1]))}
        exchanges, repairs = tuple(take_exchanges(lines)), tuple(take_repairs(lines))
        states = tuple((Port.read(it[1]), Word.read(it[2])) for it in lines.each(_STATE))
        unplugs = tuple(Unplug(int(it[1], 8), int(it[2])) for it in lines.each(_UNPLUG))
        faults, orders = tuple(_take_faults(lines)), tuple(_take_orders(lines))
        lines.need(_END, "END")
        lines.end()
        return cls(steps, count, pairs, copies, selected, Frozen(cells), Frozen(words), exchanges, repairs, states,
                   unplugs, faults, orders, text)

    def __repr__(self) -> str:
        return f"<Saved after {self.steps} steps of {3 * self.count}>"

    def __str__(self) -> str:
        lines = ["LVDC SAVE 1", f"STEPS {self.steps}", f"COUNT {self.count}"]
        lines += [" ".join(["SIMPLEX", *map(str, self.simplex)])] if self.simplex else []
        lines += [" ".join(["COPY", str(module), str(copy), str(it.differed), *map(str, it.latches)])
                  for (module, copy), it in self.copies.items()]
        lines += [" ".join(["SELECT", *map(str, self.selected)])]
        lines += [f"CELL {twin} {place} {cell}" for (twin, place), cell in self.cells.items()]
        lines += [f"WORD {address} {word}" for address, word in self.words.items()]
        lines += [*map(str, self.exchanges), *map(str, self.repairs), *(f"STATE {port} {word}" for port, word in self.states)]
        lines += [*map(str, self.unplugs), *map(str, self.faults), *self.orders, "END"]
        return "".join(f"{it}\n" for it in lines)


def _take_copies(lines: Lines) -> Iterator[tuple[tuple[int, int], CopyState]]:
    """The 21 lines COPY."""
    for module in MODULES:
        for copy in COPIES:
            form = pattern("COPY", str(module), str(copy), NUMBER, *[WORD] * len(LATCHES[module]))
            count, *latches = lines.need(form, f"COPY {module} {copy}").groups()
            yield (module, copy), CopyState(int(count), tuple(map(Word.read, latches)))


def _take_faults(lines: Lines) -> Iterator[Fault]:
    """The fault lines, in the one spelling that is printed."""
    for found in lines.each(_FAULT):
        try:
            fault = read_fault(found[0])
        except ValueError as error:
            raise lines.fault("a fault line") from error
        if str(fault) != found[0]:
            raise lines.fault(f"the spelling {fault}")
        yield fault


def _take_orders(lines: Lines) -> Iterator[str]:
    """The order lines."""
    for found in lines.each(_ORDER):
        if sorted(found[0]) != sorted(LETTERS):
            raise lines.fault("each of the letters A to U once")
        yield found[0]
