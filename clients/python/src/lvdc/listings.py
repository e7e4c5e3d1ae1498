"""Listings of the assembler."""
import re
from collections.abc import Mapping
from dataclasses import dataclass, field
from typing import Self, TypeAlias

from lvdc.frozen import Frozen
from lvdc.lines import WORD, Lines, pattern
from lvdc.reports import PLACE
from lvdc.values import Address, Place, Word

_AREA = r"([0-3] (?:0[0-7]|1[0-7]) - [0-3][0-7]{2})"
_PAIR_ADDRESS = r"([0-3] (?:0[0-7]|1[0-7]) [0-3][0-7]{2})"
_NAME = "([A-Z][A-Z0-9]{0,7})"
_ROW = re.compile(r"( *[1-9][0-9]*) (.{20}) (.*)", re.DOTALL)
_FIELD = re.compile(rf"(?:{PLACE} ([01][0-7]{{4}})|{_AREA}(?: {WORD})?)? *")
_POOL = pattern("POOL", _PAIR_ADDRESS, WORD)
_NAMED = pattern("NAME", _NAME, f"(?:{PLACE}|{_AREA})")


@dataclass(frozen=True, slots=True)
class Instruction:
    """A row's instruction: where it stands, by its pair, and its syllable of 13 bits."""

    place: Place
    syllable: int

    def __str__(self) -> str:
        return f"{self.place} {self.syllable:05o}"


@dataclass(frozen=True, slots=True)
class Room:
    """A row's words: where the first stands, by its pair, and its word; none where the row is BSS."""

    address: Address
    word: Word | None

    def __str__(self) -> str:
        return area(self.address) + (f" {self.word}" if self.word is not None else "")


Field: TypeAlias = Instruction | Room | None


def area(address: Address) -> str:
    """An address as a listing prints it."""
    return f"{address.bank:o} {address.sector:02o} - {address.location:03o}"


def _address(text: str) -> Address:
    """An address as a listing prints it of words."""
    return Address.read(text.replace(" - ", " "))


@dataclass(frozen=True, slots=True)
class Row:
    """A line of the source: its number, what it has in memory, and the line."""

    number: int
    field: Field
    line: str

    def __str__(self) -> str:
        return f"{self.number:7d} {str(self.field or ''):20} {self.line}"


@dataclass(frozen=True, slots=True, repr=False)
class Listing:
    """What the assembler made of a source: rows, the words that it made for literals, and where each name stands (the place of an
    instruction, or the address of a word), by pairs."""

    rows: tuple[Row, ...]
    pool: tuple[tuple[Address, Word], ...]
    names: Mapping[str, Place | Address]
    text: str = field(repr=False, compare=False)

    @classmethod
    def read(cls, text: str) -> Self:
        """Reads a listing whole."""
        lines = Lines(text)
        rows: list[Row] = []
        while (found := lines.may(_ROW)) is not None:
            inner = _FIELD.fullmatch(found[2])
            if inner is None or found[1] != f"{len(rows) + 1:7d}":
                raise lines.fault("a row of a listing")
            rows.append(Row(int(found[1]), _field(inner), found[3]))
        if not rows:
            raise lines.unread("a row of a listing")
        pool = tuple((Address.read(it[1]), Word.read(it[2])) for it in lines.each(_POOL))
        names: dict[str, Place | Address] = {}
        for it in lines.each(_NAMED):
            if it[1] in names:
                raise lines.fault("a name that is new")
            names[it[1]] = Place.read(it[2]) if it[2] else _address(it[3])
        lines.end()
        return cls(tuple(rows), pool, Frozen(names), text)

    def __repr__(self) -> str:
        return f"<Listing of {len(self.rows)} rows, {len(self.names)} names>"

    def __str__(self) -> str:
        lines = [*map(str, self.rows), *(f"POOL {address} {word}" for address, word in self.pool)]
        lines += [f"NAME {name} {it if isinstance(it, Place) else area(it)}" for name, it in self.names.items()]
        return "".join(f"{it}\n" for it in lines)


def _field(found: re.Match[str]) -> Field:
    """What the field of twenty places says."""
    if found[1]:
        return Instruction(Place.read(found[1]), int(found[2], 8))
    return Room(_address(found[3]), Word.read(found[4]) if found[4] else None) if found[3] else None
