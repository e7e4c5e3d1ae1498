"""The machine between two steps, as a trace tells it."""
from collections.abc import Collection, Mapping
from dataclasses import dataclass

from lvdc.lvdb.places import hop_of, place_of
from lvdc.steps import Latches, Step
from lvdc.values import LATCHES, MODULES, STEPS_A_TIME, Place, Word

# The latches that a debug session shows as registers, by their names there.
A, PQ, SAVER, PLACE, DATA = (5, 0), (6, 0), (2, 1), (2, 0), (4, 0)
HOLD, INSTR, CONTROL = (1, 1), (3, 0), (6, 1)
# the kinds of what is under way in the arithmetic unit, by bits 1 and 0 of CONTROL
_UNDER_WAY = {1: "MPY", 2: "MPH", 3: "DIV"}
MOST_HELD = 8
MODULE_NAMES = {"timer": 1, "locator": 2, "decoder": 3, "selector": 4, "accumulator": 5, "multiplier": 6, "exchange": 7}


@dataclass(frozen=True, slots=True)
class Pending:
    """A product or quotient that is under way: of which instruction, and after how many instructions more it is there."""

    name: str
    instructions: int

    def __str__(self) -> str:
        where = "PQ and A" if self.name == "MPH" else "PQ"
        return f"{self.name} lands in {where} in {self.instructions} instruction{'s' * (self.instructions != 1)}"


def pending_of(control: int) -> Pending | None:
    """What the latch CONTROL tells: a kind in bits 1 and 0, and in bits 6 to 2 the phases that are left."""
    kind, phases = control & 3, control >> 2 & 31
    return Pending(_UNDER_WAY[kind], -(-phases // STEPS_A_TIME)) if kind and phases else None


@dataclass(frozen=True, slots=True)
class State:
    """After so many steps: the votes of all modules, and the step that was made last; none at the beginning."""

    position: int
    votes: Mapping[int, Latches]
    made: Step | None

    @property
    def time(self) -> int:
        """How many instruction times are made whole."""
        return self.position // STEPS_A_TIME

    @property
    def phase(self) -> str:
        """The phase of the next step: A, B or C."""
        return "ABC"[self.position % STEPS_A_TIME]

    def latch(self, at: tuple[int, int]) -> Word:
        """The vote over a latch of a module."""
        module, index = at
        return self.votes[module][index]

    @property
    def hold(self) -> int:
        """How many instruction times are still held."""
        return self.latch(HOLD) % MOST_HELD

    @property
    def pending(self) -> Pending | None:
        """The product or quotient that is under way."""
        return pending_of(self.latch(CONTROL))

    @property
    def differing(self) -> Mapping[tuple[int, int], Latches]:
        """The latches of each copy that differs from its vote."""
        return {} if self.made is None else self.made.differing

    def place(self, simplex: Collection[int] = ()) -> Place:
        """Where the next instruction stands, by its bank."""
        return place_of(self.latch(PLACE), simplex)

    def registers(self) -> dict[str, str]:
        """The registers as a report shows them, and the hold where there is one."""
        place, data = hop_of(self.latch(PLACE)), hop_of(self.latch(DATA))
        shown = {name: str(self.latch(at)) for name, at in (("A", A), ("PQ", PQ), ("SAVER", SAVER))}
        shown["PLACE"] = str(Place(place.module, place.sector, place.syllable, place.location))
        shown["DATA"] = f"{data.data_module:o} {data.data_sector:02o}"
        shown["DUP"] = f"{place.dupin} {data.dupdn}"
        return {**shown, "HOLD": str(self.hold)} if self.hold else shown


def all_latches() -> list[tuple[int, int, str]]:
    """Each latch: its module, its index and its name."""
    return [(module, index, name) for module in MODULES for index, name in enumerate(LATCHES[module])]
