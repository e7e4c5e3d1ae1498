"""Instructions as a source has them: with names for their operands, and with the numbers that can be typed."""
from lvdc.lvdb.program import Program
from lvdc.values import Address, Place

TRANSFERS = ("TRA", "TNZ", "TMI")
_RESIDUAL = 0o17
_PQ, _SAVER = 0o775, (0o776, 0o777)
_SHIFTS = (0, 1, 2, 0o20, 0o40)

Use = tuple[int, int]


def named(program: Program, instruction: str, place: Place, use: Use) -> str:
    """An instruction, as `CLA 400` in a session, with the name of its operand. `use` are the pair and the sector of data."""
    found = typed(program, instruction, place, use)
    mnemonic, operand = instruction.split()
    if found != instruction or mnemonic in (*TRANSFERS, "SHF", "CDS", "PIO", "EXM"):
        return found
    address = operand_address(int(operand, 8), use)
    name = "" if address is None else program.name_of(address)
    return f"{mnemonic} {name}" if name else instruction


def typed(program: Program, instruction: str, place: Place, use: Use) -> str:
    """The same as it can be typed, so that it is assembled to the same syllable there; without names of literals. What can't be typed, as
    a shift without meaning, is as it was."""
    mnemonic, operand = instruction.split()
    bits = int(operand, 8)
    if mnemonic in TRANSFERS:
        name = program.label(Place(place.module, place.sector, bits >> 8, bits & 255))
        return f"{mnemonic} {name}" if name else instruction
    if mnemonic in ("SHF", "CDS"):
        return by_numbers(instruction)
    address = operand_address(bits, use) if mnemonic not in ("PIO", "EXM") else None
    name = "" if address is None else program.name_of(address)
    return f"{mnemonic} {name}" if name and name[0] != "=" else instruction


def by_numbers(instruction: str) -> str:
    """An instruction as it can be typed without a name."""
    mnemonic, operand = instruction.split()
    bits = int(operand, 8)
    if mnemonic == "SHF":
        return f"SHF {bits & 0o177:03o}"
    if mnemonic == "CDS" and can_be_typed(instruction):
        return f"CDS {bits >> 5 & 3:o},{bits & 15:02o}"
    return instruction


def can_be_typed(instruction: str) -> bool:
    """Whether the assembler takes the instruction."""
    mnemonic, operand = instruction.split()
    bits = int(operand, 8)
    return mnemonic != "EXM" and not (mnemonic == "SHF" and bits & 0o177 not in _SHIFTS) and not (
        mnemonic == "CDS" and (not bits >> 8 or bits >> 4 & 1))


def operand_address(bits: int, use: Use) -> Address | None:
    """The word of memory that nine bits name; None where they name PQ or a word of the saver."""
    pair, sector = use
    if bits == _PQ or bits in _SAVER:
        return None
    return Address(pair, _RESIDUAL if bits >> 8 else sector, bits & 255)
