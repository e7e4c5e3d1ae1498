"""The duplex memory (docs/MACHINE.md, "The twin memory")."""
from collections.abc import Mapping, Sequence, Set

from .faults import Event
from .words import ZERO, Address, code, decoded, holders, place


class Twins:
    """What both twins store, which of them is selected in each pair, and what is stuck and dead."""

    def __init__(self, image: Mapping[Address, int], simplex: Set[int]) -> None:
        self.simplex = simplex
        self.cells: dict[tuple[int, Address], int] = {}
        self.selected = [0, 0, 0, 0]
        self.in_force: list[Event] = []
        for at, word in image.items():
            self.write(at, word)

    def stored(self, twin: int, where: Address) -> int:
        """The cell that a twin stores at a place."""
        return self.cells.get((twin, where), ZERO)

    def keep(self, twin: int, where: Address, cell: int) -> None:
        """Stores a cell."""
        self.cells[twin, where] = cell

    def prepare(self, active: Sequence[Event]) -> None:
        """Does the damage of a step; what is stuck and dead in it is in force till the next one."""
        for event in active:
            if event.word == "DAMAGE":
                self.keep(event.twin, event.place, self.stored(event.twin, event.place) ^ event.mask)
        self.in_force = [event for event in active if event.word in ("STICK", "DEAD")]

    def is_dead(self, twin: int, pair: int) -> bool:
        """Is a twin of a pair dead?"""
        return any(event.word == "DEAD" and event.twin == twin and event.place[0] == pair for event in self.in_force)

    def shows(self, twin: int, where: Address) -> int:
        """The cell that a read finds."""
        if self.is_dead(twin, where[0]):
            return 0
        cell = self.stored(twin, where)
        for event in self.in_force:
            if event.word == "STICK" and event.twin == twin and event.place == where:
                cell = cell & ~event.mask | event.value & event.mask
        return cell

    def write(self, at: Address, word: int) -> None:
        """Stores the code of a word in each twin that holds the address and isn't dead."""
        for twin in holders(at, self.simplex):
            if not self.is_dead(twin, place(at)[0]):
                self.keep(twin, place(at), code(word))

    def read(self, at: Address) -> tuple[int | None, int | None, bool]:
        """The word, or None where no cell is good; the twin repaired, or None; whether the selection switched."""
        where = place(at)
        held = holders(at, self.simplex)
        if len(held) == 1:
            return decoded(self.shows(held[0], where)), None, False
        words = [decoded(self.shows(twin, where)) for twin in (0, 1)]
        chosen = self.selected[where[0]]
        switched = words[chosen] is None
        if switched:
            chosen = 1 - chosen
        word = words[chosen]
        if word is None:
            return None, None, False
        self.selected[where[0]] = chosen
        repaired = next((twin for twin in (0, 1) if words[twin] is None), None)
        if repaired is not None and not self.is_dead(repaired, where[0]):
            self.keep(repaired, where, code(word))
        return word, repaired, switched

    def is_recoverable(self, at: Address, word: int) -> bool:
        """Some twin shows the code of the word, and each that shows another cell shows a bad one."""
        shown = [self.shows(twin, place(at)) for twin in holders(at, self.simplex)]
        return code(word) in shown and all(cell == code(word) or decoded(cell) is None for cell in shown)
