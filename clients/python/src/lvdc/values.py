"""Values of the machine: words, cells, addresses, places of instructions and HOP constants. Words and addresses are printed in octal
digits, as in every text of the program."""
import dataclasses
import functools
from dataclasses import dataclass
from typing import Self

MODULES = range(1, 8)
COPIES = range(1, 4)
TWINS = range(2)
PAIRS = range(4)
STEPS_A_TIME = 3
_OF_NUMBERS = tuple("bcdeEfFgGnoxX%")

# The latches of each module by index, as docs/MACHINE.md names them, and of the 26 bits of each those that are used: that some row there
# looks at. Whatever stands in the others, nothing comes of it.
_LATCHES: dict[int, tuple[tuple[str, int], ...]] = {
    1: (("PHASE", 0o3), ("HOLD", 0o7)), 2: (("PLACE", 0o377776004), ("SAVER", 0o377777777)), 3: (("INSTR", 0o17777),), 4: (("DATA", 0o1772),),
    5: (("A", 0o377777777), ("OPERAND", 0o377777777)),
    6: (("PQ", 0o377777777), ("CONTROL", 0o777), ("M", 0o377777777), ("H", 0o377777777), ("Q", 0o77777777)),
    7: (("STOP", 0o3), ("REQUEST", 0o777777))}
LATCHES: dict[int, tuple[str, ...]] = {module: tuple(name for name, _ in latches) for module, latches in _LATCHES.items()}
USED: dict[int, tuple[int, ...]] = {module: tuple(mask for _, mask in latches) for module, latches in _LATCHES.items()}
NAMES = {1: "timer", 2: "locator", 3: "decoder", 4: "selector", 5: "accumulator", 6: "multiplier", 7: "exchange"}


def check_whole(what: str, value: int) -> None:
    """Wants a whole number: an int, or what stands for one, and no bool."""
    if type(value) is not int and (isinstance(value, bool) or not hasattr(value, "__index__")):
        raise TypeError(f"{what} is a whole number, not {value!r}")


def check(what: str, value: int, end: int, first: int = 0) -> None:
    """Wants a whole number from `first` on and below `end`. Raises TypeError or ValueError."""
    check_whole(what, value)
    if not first <= value < end:
        raise ValueError(f"{what} is {first} to {end - 1}, not {value}")


class Word(int):
    """A data word: 26 bits, as a number below 2^26. It is printed in nine octal digits, under each format but those of a number.

    Raises ValueError where a number isn't one of so many bits, TypeError where it is no whole number.

    >>> from lvdc import Word
    >>> print(Word(15), f"{Word(15):>12}", f"{Word(15):d}", Word.of_signed(-1), Word(0o377777777).signed)
    000000017    000000017 15 377777777 -1
    """

    __slots__ = ()
    BITS, DIGITS = 26, 9

    def __new__(cls, value: int = 0) -> Self:
        check_whole(f"a {cls.__name__}", value)
        if not 0 <= value < 1 << cls.BITS:
            raise ValueError(f"a {cls.__name__} has {cls.BITS} bits: {value} is none")
        return super().__new__(cls, value)

    def __format__(self, form: str) -> str:
        return int.__format__(self, form) if form[-1:] in _OF_NUMBERS else format(str(self), form)

    @classmethod
    def read(cls, digits: str) -> Self:
        """A word from its octal digits. Raises ValueError where they are none."""
        if not isinstance(digits, str):
            raise TypeError(f"a {cls.__name__} is read from octal digits, as '000000017', not {digits!r}: a number is {cls.__name__}(..)")
        return cls(int(digits, 8))

    @classmethod
    def of_signed(cls, value: int) -> Self:
        """The word in two's complement of a number from -2^25 to 2^25 - 1."""
        check("a signed value", value, 1 << (cls.BITS - 1), -1 << (cls.BITS - 1))
        return cls(value % (1 << cls.BITS))

    @property
    def signed(self) -> int:
        """The value in two's complement."""
        return int(self) - (int(self) >> (self.BITS - 1) << self.BITS)

    def __str__(self) -> str:
        return f"{int(self):0{self.DIGITS}o}"

    def __repr__(self) -> str:
        return f"{type(self).__name__}(0o{self})"


class Port(Word):
    """A port: 8 bits, printed in three octal digits."""

    __slots__ = ()
    BITS, DIGITS = 8, 3


class Cell(Word):
    """What memory stores of a word, or a mask over it: 28 bits, two syllables of 13 bits with a parity bit above each. It is printed in
    ten octal digits, and has no signed value of its own."""

    __slots__ = ()
    BITS, DIGITS = 28, 10


@dataclass(frozen=True, slots=True, order=True)
class Address:
    """A word of memory: bank 0 to 7, sector 0 to 15, location 0 to 255. Printed `p ss lll`, in octal. Raises ValueError where one is another.

    >>> from lvdc import Address
    >>> print(Address(0, 1, 0o100), Address.read("0 17 377"))
    0 01 100 0 17 377
    """

    bank: int
    sector: int
    location: int

    def __post_init__(self) -> None:
        check("a bank", self.bank, 8)
        check("a sector", self.sector, 16)
        check("a location", self.location, 256)

    @staticmethod
    def read(text: str) -> "Address":
        """An address from its three octal numbers, as `0 01 000`. Raises ValueError where they are none."""
        return _read_address(text)

    def __str__(self) -> str:
        return f"{self.bank:o} {self.sector:02o} {self.location:03o}"


@functools.lru_cache(maxsize=1 << 14)
def _read_address(text: str) -> Address:
    """An address from its text; the same few are read again and again."""
    bank, sector, location = text.split(" ")
    return Address(int(bank, 8), int(sector, 8), int(location, 8))


@dataclass(frozen=True, slots=True, order=True)
class Place:
    """Where an instruction stands: module 0 to 7, sector 0 to 15, syllable 0 or 1, location 0 to 255. Printed `m ss s lll`, in octal; a
    breakpoint and a listing have the bank or the pair in place of the module."""

    module: int
    sector: int
    syllable: int
    location: int

    def __post_init__(self) -> None:
        check("a module of memory", self.module, 8)
        check("a sector", self.sector, 16)
        check("a syllable", self.syllable, 2)
        check("a location", self.location, 256)

    @classmethod
    def read(cls, text: str) -> Self:
        """A place from its four octal numbers."""
        module, sector, syllable, location = text.split(" ")
        return cls(int(module, 8), int(sector, 8), int(syllable, 8), int(location, 8))

    def __str__(self) -> str:
        return f"{self.module:o} {self.sector:02o} {self.syllable} {self.location:03o}"


@dataclass(frozen=True, slots=True)
class Hop:
    """A HOP constant: the next instruction's module, sector, syllable and location, the data module and sector, and both DUP bits. The
    spare bit is dropped. Printed as its word."""

    module: int = 0
    sector: int = 0
    syllable: int = 0
    location: int = 0
    data_module: int = 0
    data_sector: int = 1
    dupin: int = 1
    dupdn: int = 1

    def __post_init__(self) -> None:
        for field, end in zip(dataclasses.fields(self), (8, 16, 2, 256, 8, 16, 2, 2)):
            check(field.name, getattr(self, field.name), end)

    @classmethod
    def of(cls, word: int) -> Self:
        """The constant that a word has."""
        check("a word", word, 1 << 26)
        return cls(word >> 23, word >> 19 & 15, word >> 18 & 1, word >> 10 & 255, word >> 7 & 7, word >> 3 & 15, word >> 2 & 1, word >> 1 & 1)

    @property
    def word(self) -> Word:
        """The word of the constant, with spare bit 0."""
        place = self.module << 23 | self.sector << 19 | self.syllable << 18 | self.location << 10
        return Word(place | self.data_module << 7 | self.data_sector << 3 | self.dupin << 2 | self.dupdn << 1)

    def __str__(self) -> str:
        return str(self.word)
