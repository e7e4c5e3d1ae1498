"""The events of a fault script, one dataclass for each kind. Their fields stand in the order of the fault line and have the names of
docs/MACHINE.md; `str` prints the line, and `read_fault` reads it.

Steps count from 0, three to an instruction time. An event acts from its first step to its last; DAMAGE acts once, before its step."""
import re
from collections.abc import Callable
from dataclasses import dataclass
from typing import TypeAlias

from lvdc.lines import tokens
from lvdc.values import LATCHES, Cell, Word, check

END_OF_STEPS = 3_000_000
END_OF_WORDS = 1 << Word.BITS


def _check_copy(module: int, copy: int, first: int, last: int) -> None:
    """Wants a module, a copy, and steps."""
    if type(module) is type(copy) is type(first) is type(last) is int and 0 < module < 8 and 0 < copy < 4 and 0 <= first <= last < END_OF_STEPS:
        return
    check("a module", module, 8, 1)
    check("a copy", copy, 4, 1)
    _check_steps(first, last)


def _check_steps(first: int, last: int) -> None:
    """Wants a first step that is no later than the last."""
    check("the last step", last, END_OF_STEPS)
    check("the first step", first, last + 1)


def _check_place(twin: int, pair: int, sector: int, location: int) -> None:
    """Wants a place of a twin."""
    check("a twin", twin, 2)
    check("a pair", pair, 4)
    check("a sector", sector, 16)
    check("a location", location, 256)


def _check_latch(module: int, latch: int, *words: int) -> None:
    """Wants a latch that the module has, and words."""
    if type(latch) is int and all(type(it) is int and 0 <= it < END_OF_WORDS for it in words) and 0 <= latch < len(LATCHES[module]):
        return
    check(f"a latch of module {module}", latch, len(LATCHES[module]))
    for word in words:
        check("a word", word, END_OF_WORDS)


@dataclass(frozen=True, slots=True)
class Flip:
    """The bits under the mask are turned over in what the copy latches there. The mask has 26 bits."""

    module: int
    copy: int
    first: int
    last: int
    latch: int
    mask: int

    def __post_init__(self) -> None:
        _check_copy(self.module, self.copy, self.first, self.last)
        _check_latch(self.module, self.latch, self.mask)

    def __str__(self) -> str:
        return f"FLIP {self.module} {self.copy} {self.first} {self.last} {self.latch} {int(self.mask):09o}"


@dataclass(frozen=True, slots=True)
class Force:
    """The bits under the mask are the value's in what the copy latches there. Mask and value have 26 bits."""

    module: int
    copy: int
    first: int
    last: int
    latch: int
    mask: int
    value: int

    def __post_init__(self) -> None:
        _check_copy(self.module, self.copy, self.first, self.last)
        _check_latch(self.module, self.latch, self.mask, self.value)

    def __str__(self) -> str:
        return f"FORCE {self.module} {self.copy} {self.first} {self.last} {self.latch} {int(self.mask):09o} {int(self.value):09o}"


@dataclass(frozen=True, slots=True)
class Lag:
    """The copy keeps its old latches."""

    module: int
    copy: int
    first: int
    last: int

    def __post_init__(self) -> None:
        _check_copy(self.module, self.copy, self.first, self.last)

    def __str__(self) -> str:
        return f"LAG {self.module} {self.copy} {self.first} {self.last}"


@dataclass(frozen=True, slots=True)
class Deaf:
    """The copy hears the copies of its own number in place of the votes."""

    module: int
    copy: int
    first: int
    last: int

    def __post_init__(self) -> None:
        _check_copy(self.module, self.copy, self.first, self.last)

    def __str__(self) -> str:
        return f"DEAF {self.module} {self.copy} {self.first} {self.last}"


@dataclass(frozen=True, slots=True)
class Damage:
    """Before the step the bits under the mask are turned over in the cell that the twin stores at this place. The mask has 28 bits."""

    twin: int
    pair: int
    sector: int
    location: int
    step: int
    mask: int

    def __post_init__(self) -> None:
        _check_place(self.twin, self.pair, self.sector, self.location)
        check("a step", self.step, END_OF_STEPS)
        check("a mask", self.mask, 1 << Cell.BITS)

    def __str__(self) -> str:
        return f"DAMAGE {self.twin} {self.pair} {self.sector:02o} {self.location:03o} {self.step} {int(self.mask):010o}"


@dataclass(frozen=True, slots=True)
class Stick:
    """The twin shows the value's bits under the mask at this place. Mask and value have 28 bits."""

    twin: int
    pair: int
    sector: int
    location: int
    first: int
    last: int
    mask: int
    value: int

    def __post_init__(self) -> None:
        _check_place(self.twin, self.pair, self.sector, self.location)
        _check_steps(self.first, self.last)
        check("a mask", self.mask, 1 << Cell.BITS)
        check("a value", self.value, 1 << Cell.BITS)

    def __str__(self) -> str:
        place = f"{self.twin} {self.pair} {self.sector:02o} {self.location:03o}"
        return f"STICK {place} {self.first} {self.last} {int(self.mask):010o} {int(self.value):010o}"


@dataclass(frozen=True, slots=True)
class Dead:
    """The twin shows 0 throughout the pair and stores nothing."""

    twin: int
    pair: int
    first: int
    last: int

    def __post_init__(self) -> None:
        _check_place(self.twin, self.pair, 0, 0)
        _check_steps(self.first, self.last)

    def __str__(self) -> str:
        return f"DEAD {self.twin} {self.pair} {self.first} {self.last}"


FAULTS: tuple[type, ...] = (Flip, Force, Lag, Deaf, Damage, Stick, Dead)
Fault: TypeAlias = Flip | Force | Lag | Deaf | Damage | Stick | Dead
CopyFault: TypeAlias = Flip | Force | Lag | Deaf
MemoryFault: TypeAlias = Damage | Stick | Dead


def first_step(fault: Fault) -> int:
    """The step at which a fault begins to act."""
    return fault.step if isinstance(fault, Damage) else fault.first


def _octal(most: int) -> tuple[str, int]:
    """The form of an octal number of at most so many digits."""
    return f"[0-7]{{1,{most}}}", 8


_DECIMAL = "0|[1-9][0-9]{0,6}", 10
_WORD, _CELL, _PAIR, _SECTOR, _LOCATION = _octal(9), _octal(10), _octal(1), _octal(2), _octal(3)
_COPY = [_DECIMAL] * 4
_AT = [_DECIMAL, _PAIR, _SECTOR, _LOCATION]
_FORMS: dict[str, tuple[Callable[..., Fault], list[tuple[str, int]]]] = {
    "FLIP": (Flip, [*_COPY, _DECIMAL, _WORD]), "FORCE": (Force, [*_COPY, _DECIMAL, _WORD, _WORD]), "LAG": (Lag, _COPY),
    "DEAF": (Deaf, _COPY), "DAMAGE": (Damage, [*_AT, _DECIMAL, _CELL]), "STICK": (Stick, [*_AT, _DECIMAL, _DECIMAL, _CELL, _CELL]),
    "DEAD": (Dead, [_DECIMAL, _PAIR, _DECIMAL, _DECIMAL])}


def read_fault(line: str) -> Fault:
    """The event of a fault line, with whatever blanks. Raises ValueError where the line is none.

    >>> from lvdc import read_fault
    >>> read_fault("LAG 5 1 0 3")
    Lag(module=5, copy=1, first=0, last=3)
    """
    word, *fields = tokens(line) or [""]
    if word not in _FORMS or len(fields) != len(_FORMS[word][1]):
        raise ValueError(f"{line!r} is no fault line")
    kind, forms = _FORMS[word]
    if not all(re.fullmatch(form, it) for it, (form, _) in zip(fields, forms)):
        raise ValueError(f"{line!r} is no fault line")
    return kind(*(int(it, base) for it, (_, base) in zip(fields, forms)))
