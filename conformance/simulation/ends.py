"""How runs end, and what is asked of a machine for its report (docs/FORMATS.md, "Report")."""
from collections.abc import Sequence, Set
from typing import NamedTuple, Protocol

from .words import Address, Hop

# time, port, 1 where it is read, and the word
Exchanged = tuple[int, int, int, int]

# step, address, twin, and whether the selection switched
Repaired = tuple[int, Address, int, bool]


class End(NamedTuple):
    """An end before all times are made: STOPPED or INADMISSIBLE, the step, the cause, and what the cause names."""
    word: str
    step: int
    cause: str
    module: int = 0
    at: Address = (0, 0, 0)


class Opening(NamedTuple):
    """What a run depends on beside its script and the devices: words by address, simplex pairs, the start constant, (port, time) of each
    UNPLUG line."""
    image: dict[Address, int]
    simplex: Set[int]
    start: Hop
    unplugs: Sequence[tuple[int, int]]


class Machine(Protocol):
    """What each of the machines tells for the first parts of a report."""

    @property
    def opening(self) -> Opening:
        """What it depends on."""

    @property
    def end(self) -> End | None:
        """The end, where it has come."""

    @property
    def times(self) -> int:
        """The instruction times that are made."""

    @property
    def log(self) -> Sequence[Exchanged]:
        """The exchanges with ports."""

    def registers(self) -> tuple[Hop, int, int, int]:
        """PLACE with the data fields, A, PQ and SAVER."""

    def intended(self, at: Address) -> int:
        """The word that was last stored there."""

    def is_known(self, at: Address) -> bool:
        """Can the word be recovered?"""
