"""Words, cells, HOP constants, addresses and instructions (docs/MACHINE.md, from "Words" to "Memory")."""
from collections.abc import Set
from typing import NamedTuple

WORD = 2**26

# bank, sector and location; of a place in a twin the pair stands first, not the bank
Address = tuple[int, int, int]

# ---- words


def signed(word: int) -> int:
    """The word as a number with a sign."""
    return word - WORD if word >= WORD // 2 else word


def right(word: int, places: int) -> int:
    """The word shifted to the right, with its sign."""
    return (signed(word) >> places) % WORD


def left(word: int, places: int) -> int:
    """The word shifted to the left."""
    return (word << places) % WORD


def product(a: int, m: int) -> int:
    """What a multiply comes to."""
    return ((signed(a) >> 2) * (signed(m) >> 2) >> 21) % WORD


def quotient(a: int, m: int) -> int:
    """What a divide comes to."""
    a, m = signed(a) >> 2, signed(m) >> 2
    negative = (a < 0) != (m < 0)
    if abs(a) >= abs(m):
        return 0o200000000 if negative else 0o177777774
    size = abs(a) * 2**23 // abs(m)
    return 4 * (-size if negative else size) % WORD


SHIFTS = [0o000, 0o001, 0o002, 0o020, 0o040]


def shifted(word: int, pattern: int) -> int:
    """What a shift by one of these patterns leaves."""
    return {0o000: 0, 0o001: right(word, 1), 0o002: right(word, 2), 0o020: left(word, 1), 0o040: left(word, 2)}[pattern]


# ---- cells


def is_odd(half: int) -> bool:
    """Has a half an odd number of ones?"""
    return bin(half).count("1") % 2 == 1


def code(word: int) -> int:
    """The one good cell of a word."""
    upper, lower = word >> 13, word & 0o17777
    return ((0 if is_odd(upper) else 1) << 27) | (upper << 14) | ((0 if is_odd(lower) else 1) << 13) | lower


def decoded(cell: int) -> int | None:
    """The word of a good cell, or None."""
    if not is_odd(cell >> 14) or not is_odd(cell & 0o37777):
        return None
    return (cell >> 14 & 0o17777) << 13 | cell & 0o17777


ZERO = code(0)

# ---- HOP constants


class Hop(NamedTuple):
    """The fields of a HOP constant."""
    imod: int
    isec: int
    syl: int
    loc: int
    dmod: int
    dsec: int
    dupin: int
    dupdn: int


def hop_of(word: int) -> Hop:
    """The fields of a word."""
    return Hop(imod=word >> 23, isec=word >> 19 & 15, syl=word >> 18 & 1, loc=word >> 10 & 255, dmod=word >> 7 & 7,
               dsec=word >> 3 & 15, dupin=word >> 2 & 1, dupdn=word >> 1 & 1)


def word_of(hop: Hop) -> int:
    """The word of these fields."""
    return (hop.imod << 23 | hop.isec << 19 | hop.syl << 18 | hop.loc << 10 | hop.dmod << 7 | hop.dsec << 3
            | hop.dupin << 2 | hop.dupdn << 1)


def after(hop: Hop) -> Hop:
    """One location further."""
    return hop._replace(loc=(hop.loc + 1) % 256)


def jumped(hop: Hop, address: int) -> Hop:
    """Where a transfer goes."""
    return hop._replace(syl=address >> 8, loc=address & 255)


def with_data(hop: Hop, address: int) -> Hop:
    """What CDS leaves: data module in bits 6 to 4, data sector in bits 3 to 0, DUPDN in bit 8."""
    return hop._replace(dmod=address >> 4 & 7, dsec=address & 15, dupdn=address >> 8)


# ---- addresses: (bank, sector, location)


def bank_of(module: int, simplex: Set[int]) -> int:
    """The bank that a module number means."""
    pair, low = divmod(module, 2)
    return pair + 4 * low if pair in simplex else pair


def fetch_address(hop: Hop, simplex: Set[int]) -> Address:
    """The address that is fetched from."""
    return bank_of(hop.imod, simplex), hop.isec, hop.loc


def syllable_at(hop: Hop, word: int) -> int:
    """The syllable of a fetched word."""
    return word >> 13 if hop.syl else word & 0o17777


PQ, SAVER, MEMORY = "PQ", "SAVER", "MEMORY"


def operand_kind(address: int) -> str:
    """What nine address bits name."""
    return PQ if address == 0o775 else SAVER if address in (0o776, 0o777) else MEMORY


def operand_sector(hop: Hop, address: int) -> int:
    """The sector in use, or with A9 the residual one."""
    return 15 if address >> 8 else hop.dsec


def operand_address(hop: Hop, address: int, simplex: Set[int]) -> Address:
    """The address of an operand in memory."""
    return bank_of(hop.dmod, simplex), operand_sector(hop, address), address & 255


def banks(simplex: Set[int]) -> list[int]:
    """The banks that are there, in order."""
    return [0, 1, 2, 3] + [pair + 4 for pair in sorted(simplex)]


def holders(at: Address, simplex: Set[int]) -> list[int]:
    """The twins that hold an address."""
    return [at[0] // 4] if at[0] % 4 in simplex else [0, 1]


def place(at: Address) -> Address:
    """The physical place of an address in a twin: pair, sector, location."""
    return at[0] % 4, at[1], at[2]


# ---- instructions

NAMES = "HOP MPY SUB DIV TNZ MPH AND ADD TRA XOR PIO STO TMI RSU CDS CLA".split()
TAKES_OPERAND = set("HOP MPY SUB DIV MPH AND ADD XOR RSU CLA".split())
MEANINGLESS = "SHIFT"


def decode(syllable: int) -> tuple[str, int]:
    """The operation and the nine address bits; code 14 is CDS, SHF, a shift without meaning, or EXM."""
    name, address = NAMES[syllable >> 9], syllable & 0o777
    if name == "CDS" and address & 0o200:
        name = "EXM" if address & 0o400 else "SHF"
        if name == "SHF" and address & 0o177 not in SHIFTS:
            name = MEANINGLESS
    return name, address


def written(syllable: int) -> str:
    """The instruction as text."""
    name, address = decode(syllable)
    return "%s %03o" % ("SHF" if name == MEANINGLESS else name, address)
