"""Kinds of several faults: two of a kind near each other or just so far apart, so many at one step, at a rate, or of every kind."""
import bisect
import math
from abc import abstractmethod
from collections.abc import Iterable, Iterator
from itertools import accumulate

from lvdc.faults import Damage, Dead, Deaf, Fault, Flip, Force, Lag, Stick
from lvdc.populations import Population
from lvdc.scripts.kinds import About, Below, ByStep, Drawable, Indexed, Script, Scripts, Steps, end_of, steps_of
from lvdc.scripts.singles import checked_places, chosen, damage, masks_of, named_bits, places_of
from lvdc.values import LATCHES, USED, Address, Cell, Word, check


class Near(Scripts):
    """Two different scripts of a kind, at first steps at most `within` apart; the second isn't the earlier."""

    def __init__(self, kind: ByStep, within: int) -> None:
        if kind.steps != sorted(set(kind.steps)):
            raise ValueError("the steps rise")
        if within < 0:
            raise ValueError(f"two steps are no {within} apart")
        self.kind, self.within = kind, within
        self.each = f"two, at steps at most {within} apart, each of them {kind.each}"

    def __len__(self) -> int:
        each = self.kind.each_step
        ends = (self._partners(at * each)[1] - at * each for at in range(len(self.kind.steps)))
        return sum(each * end - each * (each + 1) // 2 for end in ends)

    def __iter__(self) -> Iterator[Script]:
        for index in range(len(self.kind)):
            one = self.kind.script(index)
            for other in range(index + 1, self._partners(index)[1]):
                yield _both(one, self.kind.script(other))

    def draw(self, below: Below) -> Script:
        """One of them, each as likely."""
        # Any script and any offset in the widest window are equally likely; a partner that isn't there is drawn anew, with its script.
        while True:
            index = below(len(self.kind))
            first, end = self._partners(index)
            other = first + below((2 * self.within + 1) * self.kind.each_step)
            if other < end and other != index:
                return _both(self.kind.script(min(index, other)), self.kind.script(max(index, other)))

    def _partners(self, index: int) -> tuple[int, int]:
        """The first script near this one, and one more than the last."""
        steps, each = self.kind.steps, self.kind.each_step
        step = steps[index // each]
        return bisect.bisect_left(steps, step - self.within) * each, bisect.bisect_right(steps, step + self.within) * each


class AtDistances(Indexed):
    """Scripts of two faults so many steps apart, of which the later begins before the step `end`: by distances, steps of the earlier one,
    and what else a kind goes by. The steps rise."""

    def __init__(self, steps: Steps, distances: Iterable[int], end: int | None) -> None:
        self.steps, self.distances = steps_of(steps), list(distances)
        before = end_of(steps) if end is None else end
        if min(self.distances, default=0) < 0:
            raise ValueError(f"two steps are no {min(self.distances)} apart")
        counts = (bisect.bisect_left(self.steps, before - distance) * self.choices(distance) for distance in self.distances)
        self.ends = list(accumulate(counts))

    @abstractmethod
    def choices(self, distance: int) -> int:
        """How many scripts there are at a distance for each step."""

    @abstractmethod
    def pair(self, step: int, distance: int, index: int) -> Script:
        """The script of this number, of those at a distance whose earlier fault is at a step."""

    def __len__(self) -> int:
        return self.ends[-1] if self.ends else 0

    def script(self, index: int) -> Script:
        """The script of this number."""
        at = bisect.bisect_right(self.ends, index)
        distance = self.distances[at]
        step, rest = divmod(index - (self.ends[at - 1] if at else 0), self.choices(distance))
        return self.pair(self.steps[step], distance, rest)


class Apart(AtDistances):
    """Two different scripts of a kind, at first steps just so many apart."""

    def __init__(self, kind: ByStep, distances: Iterable[int], *, end: int | None = None) -> None:
        self.kind = kind
        super().__init__(kind.steps, distances, end)
        self.each = f"two, at steps just so far apart, each of them {kind.each}"

    def choices(self, distance: int) -> int:
        """How many there are for each step."""
        each = self.kind.each_step
        return each * each if distance else each * (each - 1) // 2

    def pair(self, step: int, distance: int, index: int) -> Script:
        """The script of this number; of two at one step the one of the lesser number is the first."""
        if distance:
            one, two = divmod(index, self.kind.each_step)
        else:
            two = (1 + math.isqrt(1 + 8 * index)) // 2
            one = index - two * (two - 1) // 2
        return _both(self.kind.at(step, one), self.kind.at(step + distance, two))


class DamagePairs(AtDistances):
    """The same bits, one if no other width is given, are turned over in each twin at one place, in the other twin so many steps after the
    first: by distances, steps, places, twins that are the first, and bits. Twin 0 is the first if no others are given."""

    def __init__(self, steps: Steps, places: Iterable[Address] | None = None, distances: Iterable[int] = (0,), *, bits: Iterable[int] = (0,),
                 twins: Iterable[int] = (0,), width: int = 1, end: int | None = None) -> None:
        self.places, self.twins, self.masks = places_of(steps, places), list(twins), masks_of(bits, width)
        super().__init__(steps, distances, end)
        self.each = f"the same {'bit' if width == 1 else f'{width} bits'} of one word turned over in each twin, so many steps apart"

    def choices(self, distance: int) -> int:
        """How many there are for each step; where both twins are hit in one step none is the first."""
        return len(self.places) * (len(self.twins) if distance else min(1, len(self.twins))) * len(self.masks)

    def pair(self, step: int, distance: int, index: int) -> Script:
        """The script of this number."""
        place, twin, mask = chosen(index, self.places, self.twins if distance else self.twins[:1], self.masks)
        faults = damage(twin, place, step, mask), damage(1 - twin, place, step + distance, mask)
        about: About = {"kind": "two damages", "twin": twin, "place": str(place), "step": step, "distance": distance, **named_bits(mask)}
        return Script(faults, about)


class Simultaneous(Scripts):
    """So many different scripts of a kind at one step: all choices of them, at each step."""

    def __init__(self, kind: ByStep, count: int) -> None:
        check("a count of faults at one step", count, 64, 1)
        self.kind, self.count = kind, count
        self.each = f"{count} at one step, each of them {kind.each}" if count > 1 else kind.each

    def __len__(self) -> int:
        return len(self.kind.steps) * math.comb(self.kind.each_step, self.count)

    def __iter__(self) -> Iterator[Script]:
        for step in self.kind.steps:
            for index in range(math.comb(self.kind.each_step, self.count)):
                yield self._together(step, _choice(index, self.count))

    def draw(self, below: Below) -> Script:
        """One of them, each as likely."""
        step, them = self.kind.steps[below(len(self.kind.steps))], set[int]()
        while len(them) < self.count:
            them.add(below(self.kind.each_step))
        return self._together(step, sorted(them))

    def _together(self, step: int, them: list[int]) -> Script:
        """The scripts of these numbers at a step."""
        faults = tuple(fault for it in them for fault in self.kind.at(step, it).faults)
        return Script(faults, {"kind": "simultaneous", "step": step, "count": self.count})


class AtRate(Drawable):
    """At each step each bit of a kind of flips is turned over with the same small chance, by itself: any number of faults, none too."""

    def __init__(self, kind: ByStep, per_bit_per_step: float) -> None:
        if not 0 < per_bit_per_step < 1:
            raise ValueError(f"a chance is between 0 and 1, not {per_bit_per_step}")
        self.kind, self.per_bit_per_step = kind, per_bit_per_step

    @property
    def population(self) -> Population:
        """All runs of this length."""
        return Population(f"a run in which each of {self.kind.each_step} bits is turned over at each of {len(self.kind.steps)} steps with the "
                          f"chance {self.per_bit_per_step:g}")

    def draw(self, below: Below) -> Script:
        """A run: the gaps between the bits that are hit are drawn, so that it costs what it hits."""
        faults: list[Fault] = []
        at, end, miss = -1, len(self.kind), math.log1p(-self.per_bit_per_step)
        while True:
            at += 1 + int(math.log((1 + below(1 << 53)) / (1 << 53)) / miss)
            if at >= end:
                break
            faults += self.kind.script(at).faults
        return Script(tuple(faults), {"kind": "at rate", "rate": f"{self.per_bit_per_step:g}", "count": len(faults)})


class Mixed(Drawable):
    """Scripts of faults of every kind, one to `most` in each, within steps 0 to `last` and at these places. There is no end of them: they
    are drawn, each kind of fault as likely."""

    def __init__(self, last: int, places: Iterable[Address], *, most: int = 4) -> None:
        self.last, self.places, self.most = last, checked_places(places), most

    @property
    def population(self) -> Population:
        """Scripts without an end."""
        return Population(f"one to {self.most} faults, each of a kind that is drawn evenly of seven")

    def draw(self, below: Below) -> Script:
        """A script."""
        faults = tuple(self._fault(below) for _ in range(1 + below(self.most)))
        return Script(faults, {"kind": "mixed", "faults_drawn": len(faults)})

    def _fault(self, below: Below) -> Fault:
        """A fault of any kind."""
        kind = below(7)
        return self._copy_fault(kind, below) if kind < 4 else self._memory_fault(kind, below)

    def _span(self, below: Below) -> tuple[int, int]:
        """A first step, and a last one at most three later."""
        first = below(self.last + 1)
        return first, min(self.last, first + below(4))

    def _copy_fault(self, kind: int, below: Below) -> Fault:
        """A fault of a copy."""
        module, copy, (first, last) = 1 + below(7), 1 + below(3), self._span(below)
        if kind == 0:
            return Lag(module, copy, first, last)
        if kind == 1:
            return Deaf(module, copy, first, last)
        latch = below(len(LATCHES[module]))
        mask = _used_mask(module, latch, below)
        if kind == 2:
            return Flip(module, copy, first, last, latch, mask)
        return Force(module, copy, first, last, latch, mask, below(1 << Word.BITS))

    def _memory_fault(self, kind: int, below: Below) -> Fault:
        """A fault of a memory."""
        twin, place, (first, last), mask = below(2), self.places[below(len(self.places))], self._span(below), 1 << below(Cell.BITS)
        if kind == 4:
            return Damage(twin, place.bank, place.sector, place.location, first, mask)
        if kind == 5:
            return Stick(twin, place.bank, place.sector, place.location, first, last, mask, below(1 << Cell.BITS))
        return Dead(twin, place.bank, first, self.last if below(2) else last)


def _used_mask(module: int, latch: int, below: Below) -> int:
    """One bit that a latch uses."""
    used = [bit for bit in range(Word.BITS) if USED[module][latch] >> bit & 1]
    return 1 << used[below(len(used))]


def _choice(index: int, count: int) -> list[int]:
    """The choice of this number, of so many rising numbers from 0 on (the combinatorial number system)."""
    found: list[int] = []
    for left in range(count, 0, -1):
        at = left - 1
        while math.comb(at + 1, left) <= index:
            at += 1
        index -= math.comb(at, left)
        found.append(at)
    return found[::-1]


def _both(one: Script, two: Script) -> Script:
    """Two scripts of which the second doesn't begin earlier."""
    first, second = one.about, two.about
    kind = "two flips" if first["kind"] == second["kind"] == "flip" else f"{first['kind']} and {second['kind']}"
    others = {f"second_{name}": value for name, value in second.items() if name != "kind"}
    distance = int(second["step"]) - int(first["step"])
    return Script(one.faults + two.faults, {**first, "kind": kind, "distance": distance, **others})
