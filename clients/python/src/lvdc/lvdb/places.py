"""Places and addresses as they are typed, and what the latches of HOP constants say."""
import re
from collections.abc import Collection, Sequence

from lvdc.lvdb.errors import CommandError
from lvdc.values import Address, Hop, Place

_OCTAL = re.compile("[0-7]{1,3}")
WITHOUT_SPARE = ~1


def hop_of(latch: int) -> Hop:
    """The fields of a HOP constant that a latch has."""
    return Hop.of(latch & WITHOUT_SPARE)


def bank_of(module: int, simplex: Collection[int]) -> int:
    """The bank that a module number means, as MACHINE.md has it: its low bit counts where the pair is simplex."""
    pair = module // 2
    return pair + 4 if module % 2 and pair in simplex else pair


def place_of(latch: int, simplex: Collection[int]) -> Place:
    """Where the next instruction stands, by its bank."""
    hop = hop_of(latch)
    return Place(bank_of(hop.module, simplex), hop.sector, hop.syllable, hop.location)


def address_of(place: Place) -> Address:
    """The word in which an instruction stands."""
    return Address(place.module, place.sector, place.location)


def split_fields(words: Sequence[str], count: int) -> list[int] | None:
    """The octal numbers of a place or an address that is typed with commas or blanks; None where it is none of so many."""
    fields = [it for word in words for it in word.split(",")]
    if len(fields) != count or not all(map(_OCTAL.fullmatch, fields)):
        return None
    return [int(it, 8) for it in fields]


def read_place(words: Sequence[str]) -> Place | None:
    """The place `p,ss,s,lll`; None where the words have another form."""
    fields = split_fields(words, 4)
    if fields is None:
        return None
    try:
        return Place(*fields)
    except ValueError as fault:
        raise CommandError(f"{fault}: a place is bank, sector, syllable and location, in octal") from fault


def read_address(words: Sequence[str]) -> Address | None:
    """The address `p,ss,lll`; None where the words have another form."""
    fields = split_fields(words, 3)
    if fields is None:
        return None
    try:
        return Address(*fields)
    except ValueError as fault:
        raise CommandError(f"{fault}: an address is bank, sector and location, in octal") from fault


def run_of(first: Address, count: int) -> list[Address]:
    """So many addresses from one on, in its sector."""
    return [Address(first.bank, first.sector, first.location + it) for it in range(count)]


def comma(at: Place | Address) -> str:
    """A place or an address as it is typed."""
    return str(at).replace(" ", ",")
