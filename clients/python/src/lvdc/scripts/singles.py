"""Kinds of one fault, and of one fault alike in two copies."""
from collections.abc import Callable, Iterable, Iterator, Sequence
from functools import cached_property, partial
from itertools import chain, combinations, groupby, product
from typing import NamedTuple, TypeAlias, TypeVar

from lvdc.decks import Deck
from lvdc.faults import Damage, Dead, Deaf, Fault, Flip, Force, Lag, Stick
from lvdc.scripts.kinds import About, ByStep, Script, Steps, steps_of
from lvdc.values import COPIES, LATCHES, MODULES, PAIRS, TWINS, USED, Address, Cell, Word, check

Lasts: TypeAlias = tuple[About, Callable[[int, int], Fault]]  # what a fault is, and how it is made of its first and last step
First = TypeVar("First")
Second = TypeVar("Second")
Third = TypeVar("Third")
SINGLE_COPIES: tuple[tuple[int, ...], ...] = ((1,), (2,), (3,))
PAIRS_OF_COPIES: tuple[tuple[int, ...], ...] = ((1, 2), (1, 3), (2, 3))
_STEP = "@"  # stands in a text where the step does
MOST_LATCHES = max(map(len, LATCHES.values()))


class Flips(ByStep):
    """One bit is turned over at one step in each copy of a group of copies of one latch: by steps, modules, latches, groups and bits.

    `bits` are those of each latch that uses them; without them all that it uses, and with `all_bits` all 26. Raises ValueError where a
    module, a latch or a bit isn't there."""

    def __init__(self, steps: Steps, *, modules: Iterable[int] = MODULES, latches: Iterable[int] | None = None,
                 bits: Iterable[int] | None = None, groups: Sequence[tuple[int, ...]] = SINGLE_COPIES, all_bits: bool = False) -> None:
        self.steps, self.groups, self.all_bits = steps_of(steps), list(groups), all_bits
        self.places = bits_of_latches(modules, latches, bits, all_bits=all_bits)
        self._names: list[int | str] = [it[0] if len(it) == 1 else "+".join(map(str, it)) for it in self.groups]
        # module, latch, group and bit of each script of a step
        self.made = [(module, latch, group, bit) for (module, latch), them in groupby(self.places, lambda it: it[:2])
                     for group, (_, _, bit) in product(range(len(self.groups)), list(them))]
        self.each_step = len(self.made)
        for copy in chain.from_iterable(self.groups):
            check("a copy", copy, 4, 1)
        in_pairs = any(len(it) > 1 for it in self.groups)
        self.kind = ("pair of flips" if in_pairs else "flip") + " of all bits" * all_bits
        self.each = (f"{'the same' if in_pairs else 'one'} {'bit of all 26' if all_bits else 'used bit'} of one latch turned over in "
                     f"{'two copies' if in_pairs else 'one copy'} at one step")

    def at(self, step: int, index: int) -> Script:
        """The script of this number at a step."""
        return Script._of(_Numbered(self, step, index))

    def faults_of(self, step: int, index: int) -> tuple[Fault, ...]:
        """Its faults."""
        module, latch, group, bit = self.made[index]
        return tuple([Flip(module, copy, step, step, latch, 1 << bit) for copy in self.groups[group]])

    def about_of(self, step: int, index: int) -> About:
        """What it is made from."""
        module, latch, group, bit = self.made[index]
        return {"kind": self.kind, "module": module, "latch": latch, "copy": self._names[group], "step": step, "bit": bit}

    def text_of(self, step: int, index: int) -> str:
        """Its text."""
        return self._texts[index].replace(_STEP, str(step))

    @cached_property
    def _texts(self) -> list[str]:
        """The text of each script of a step, but for that step."""
        return ["".join(f"FLIP {module} {copy} {_STEP} {_STEP} {latch} {Word(1 << bit)}\n" for copy in self.groups[group])
                for module, latch, group, bit in self.made]


class _Numbered(NamedTuple):
    """The script of a number at a step."""

    kind: Flips
    step: int
    number: int


class Lasting(ByStep):
    """A copy lags, is deaf or has a bit that is forced, a bit of a twin is stuck, or a twin is dead, for some steps: by first steps, lengths
    and faults. Places and twins are those of stuck bits, and dead are twins of the places' pairs; without places there is none of either.
    Bits of latches are those that are used."""

    KINDS = ("lag", "deaf", "force", "stick", "dead")

    def __init__(self, firsts: Steps, lengths: Iterable[int], *, kinds: Iterable[str] = ("lag", "deaf"),
                 modules: Iterable[int] = MODULES, copies: Iterable[int] = COPIES, latches: Iterable[int] | None = None,
                 bits: Iterable[int] | None = None, places: Iterable[Address] = (), twins: Iterable[int] = TWINS) -> None:
        self.steps, self.lengths = steps_of(firsts), list(lengths)
        self.copies = [(module, copy) for module in modules for copy in copies]
        self.bits, self.latches = None if bits is None else list(bits), None if latches is None else list(latches)
        self.places, self.twins = checked_places(places), list(twins)
        for length in self.lengths:
            check("a length in steps", length, 3_000_001, 1)
        makers = {"lag": self._lags, "deaf": self._deaf, "force": self._forced, "stick": self._stuck, "dead": self._dead}
        chosen = [kinds] if isinstance(kinds, str) else list(kinds)
        for kind in chosen:
            if kind not in makers:
                raise ValueError(f"a kind is one of {', '.join(makers)}, not {kind!r}")
        self.made = [it for kind in chosen for it in makers[kind]()]
        self.each_step = len(self.lengths) * len(self.made)
        self.each = f"one fault that lasts ({', '.join(chosen)}), for {', '.join(map(str, self.lengths))} steps"

    def at(self, step: int, index: int) -> Script:
        """The script of this number at a step."""
        length, which = divmod(index, len(self.made))
        about, make = self.made[which]
        steps = self.lengths[length]
        return Script((make(step, step + steps - 1),), {**about, "step": step, "length": steps})

    def _lags(self) -> Iterator[Lasts]:
        """Copies that lag."""
        return (({"kind": "lag", "module": m, "copy": c}, partial(Lag, m, c)) for m, c in self.copies)

    def _deaf(self) -> Iterator[Lasts]:
        """Copies that are deaf."""
        return (({"kind": "deaf", "module": m, "copy": c}, partial(Deaf, m, c)) for m, c in self.copies)

    def _forced(self) -> Iterator[Lasts]:
        """Bits of latches that are forced to 0 and to 1."""
        bits = None if self.bits is None else [it for it in self.bits if it < Word.BITS]
        for m, c in self.copies:
            for (_, latch, bit), value in product(bits_of_latches([m], self.latches, bits, may_lack=True), (0, 1)):
                about: About = {"kind": "force", "module": m, "latch": latch, "copy": c, "bit": bit, "value": value}
                yield about, partial(Force, m, c, latch=latch, mask=1 << bit, value=value << bit)

    def _stuck(self) -> Iterator[Lasts]:
        """Bits of cells that are stuck at 0 and at 1."""
        bits = range(Cell.BITS) if self.bits is None else self.bits
        for it, twin, bit, value in product(self.places, self.twins, bits, (0, 1)):
            about: About = {"kind": "stick", "place": str(it), "twin": twin, "bit": bit, "value": value}
            yield about, partial(Stick, twin, it.bank, it.sector, it.location, mask=1 << bit, value=value << bit)

    def _dead(self) -> Iterator[Lasts]:
        """Twins that are dead."""
        pairs = sorted({it.bank for it in self.places})
        return (({"kind": "dead", "pair": pair, "twin": twin}, partial(Dead, twin, pair)) for pair in pairs for twin in self.twins)


class Damages(ByStep):
    """Some bits of the cell that a twin stores at a place, one if no other width is given, are turned over before one step: by steps, places,
    twins and bits. A place is an Address whose bank is the pair; without places they are the words of the deck's image."""

    def __init__(self, steps: Steps, places: Iterable[Address] | None = None, *, twins: Iterable[int] = TWINS,
                 bits: Iterable[int] = range(Cell.BITS), width: int = 1) -> None:
        self.steps, self.places = steps_of(steps), places_of(steps, places)
        self.twins, self.masks = list(twins), masks_of(bits, width)
        self.each_step = len(self.places) * len(self.twins) * len(self.masks)
        self.width = width
        self.each = f"{'one bit' if width == 1 else f'{width} bits'} of one cell of one twin turned over before one step"

    def at(self, step: int, index: int) -> Script:
        """The script of this number at a step."""
        place, twin, mask = chosen(index, self.places, self.twins, self.masks)
        about: About = {"kind": "damage", "twin": twin, "place": str(place), "step": step, **named_bits(mask)}
        return Script((damage(twin, place, step, mask),), about)

    def place_of(self, index: int) -> Address:
        """The place of the script of this number at a step."""
        return self.places[index // (len(self.twins) * len(self.masks))]


def bits_of_latches(modules: Iterable[int], latches: Iterable[int] | None, bits: Iterable[int] | None, *, all_bits: bool = False,
                    may_lack: bool = False) -> list[tuple[int, int, int]]:
    """The module, latch and bit of each bit that is asked for, as far as the latch uses it, in their order. Raises ValueError, unless they
    may lack, where one that is named isn't there in any."""
    named_modules, named_latches, named_bits_ = list(modules), None if latches is None else list(latches), None if bits is None else list(bits)
    for module in named_modules:
        check("a module", module, 8, 1)
    found = [(module, latch, bit) for module in named_modules for latch in (named_latches or range(len(LATCHES[module])))
             if 0 <= latch < len(LATCHES[module])
             for bit in (range(Word.BITS) if named_bits_ is None else named_bits_)
             if 0 <= bit < Word.BITS and (all_bits or USED[module][latch] >> bit & 1)]
    if may_lack:
        return found
    for latch in named_latches or ():
        if not any(0 <= latch < len(LATCHES[module]) for module in named_modules):
            raise ValueError(f"there is no latch {latch} in the modules {named_modules}")
    for bit in named_bits_ or ():
        if not any(it[2] == bit for it in found):
            raise ValueError(f"none of the latches uses a bit {bit}" + ("" if all_bits else ": all_bits=True has the bits 0 to 25 of each"))
    return found


def checked_places(places: Iterable[Address]) -> list[Address]:
    """Places of a twin: addresses whose bank is a pair. Raises ValueError where one isn't."""
    found = list(places)
    for it in found:
        if not isinstance(it, Address):
            raise TypeError(f"a place is an Address, not {it!r}")
        if it.bank not in PAIRS:
            raise ValueError(f"the bank of a place is its pair, 0 to 3, not {it.bank}")
    return found


def places_of(steps: Steps, places: Iterable[Address] | None) -> list[Address]:
    """The places that are given, else those of the words of the deck's image."""
    if places is not None:
        return checked_places(places)
    if not isinstance(steps, Deck):
        raise TypeError("without a deck the places are to be given, as places=[Address(0, 1, 0)]")
    return checked_places(steps.places)


def masks_of(bits: Iterable[int], width: int) -> list[tuple[int, ...]]:
    """Each choice of so many bits of a cell."""
    found = list(bits)
    for bit in found:
        check("a bit of a cell", bit, Cell.BITS)
    return list(combinations(found, width))


def damage(twin: int, place: Address, step: int, bits: Iterable[int]) -> Damage:
    """Damage of these bits."""
    return Damage(twin, place.bank, place.sector, place.location, step, sum(1 << bit for bit in bits))


def named_bits(bits: Sequence[int]) -> About:
    """The column of one bit, or of several."""
    return {"bit": bits[0]} if len(bits) == 1 else {"bits": "+".join(map(str, bits))}


def chosen(index: int, first: Sequence[First], second: Sequence[Second], third: Sequence[Third]) -> tuple[First, Second, Third]:
    """The choice of this number, one of each; the last goes fastest."""
    index, last = divmod(index, len(third))
    at, middle = divmod(index, len(second))
    return first[at], second[middle], third[last]
