"""Whether a script masks by form (docs/FORMATS.md, "Form"; docs/WITHSTANDS.md, "The law of form")."""
from collections.abc import Sequence, Set

from .ends import Opening
from .faults import LOGIC, Event
from .words import Address


def is_one_wrong(lines: Sequence[Event]) -> bool:
    """Has each module at most one wrong copy at each step? Lines that all begin in the run are asked about."""
    ends: dict[tuple[int, int], int] = {}
    for line in sorted((line for line in lines if line.word in LOGIC), key=lambda line: line.first):
        others = [ends.get((line.module, copy), -1) for copy in (1, 2, 3) if copy != line.copy]
        if max(others) >= line.first:
            return False
        ends[line.module, line.copy] = max(ends.get((line.module, line.copy), -1), line.last)
    return True


def is_duplex(lines: Sequence[Event], simplex: Set[int]) -> bool:
    """Does each line name a duplex pair?"""
    return all(line.place[0] not in simplex for line in lines)


def bits_of_halves(mask: int) -> list[int]:
    """How many bits under a mask each half of a cell has."""
    return [half.bit_count() for half in (mask >> 14, mask & 0o37777)]


def is_seen(line: Event) -> bool:
    """Does a reader of parity see what a line does to a cell?"""
    if line.word == "DAMAGE":
        return any(bits % 2 == 1 for bits in bits_of_halves(line.mask))
    return max(bits_of_halves(line.mask)) <= 1


def is_once_and_seen(lines: Sequence[Event]) -> bool:
    """Is no place named twice, over both twins, and each line seen?"""
    places: list[Address] = [line.place for line in lines]
    return len(places) == len(set(places)) and all(is_seen(line) for line in lines)


def is_dead_for_good(lines: Sequence[Event], last_step: int) -> bool:
    """Does each twin that dies stay dead up to the last step, and does no line name the other twin of its pair?"""
    named = {(line.place[0], line.twin) for line in lines}
    return all(line.last >= last_step and (line.place[0], 1 - line.twin) not in named for line in lines if line.word == "DEAD")


def first_unmet(opening: Opening, script: Sequence[Event], count: int) -> int | None:
    """The least of the four conditions that fails in a run of so many times, or None."""
    lines = [line for line in script if line.first < 3 * count]
    on_memory = [line for line in lines if line.word not in LOGIC]
    met = [is_one_wrong(lines), is_duplex(on_memory, opening.simplex),
           is_once_and_seen([line for line in on_memory if line.word != "DEAD"]), is_dead_for_good(on_memory, 3 * count - 1)]
    return met.index(False) + 1 if False in met else None
