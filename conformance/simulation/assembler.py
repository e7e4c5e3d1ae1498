"""The assembler and its listing (docs/ASSEMBLER.md)."""
import re
from collections.abc import Iterator, Sequence
from typing import NamedTuple

from .lines import Image, LIMIT, Refused, is_comment, spot
from .words import NAMES, SHIFTS, WORD, Address, Hop, word_of

NAME = r"[A-Z][A-Z0-9]{0,7}"
WITH_LITERAL = set("HOP MPY SUB DIV MPH AND ADD XOR RSU CLA".split())
TRANSFERS = set("TRA TNZ TMI".split())
INSTRUCTIONS = WITH_LITERAL | TRANSFERS | set("STO PIO SHF CDS".split())
CONSTANTS = {"OCT", "DEC", "HOPC"}
IN_WORDS = CONSTANTS | {"BSS"}
DIRECTIVES = {"CODE", "ORG", "WORDS", "USE", "END"}
OPERATIONS = INSTRUCTIONS | IN_WORDS | DIRECTIVES

ADDRESS = r"[0-7]{1,9}|%s(?:\+[0-9]{1,3})?" % NAME
LITERAL = r"=(?:O[0-7]{1,9}|D[+-]?[0-9]{1,9}|H%s)" % NAME
OPERANDS = {
    "PIO": r"[0-7]{1,9}", "SHF": r"[0-7]{1,9}", "CDS": r"[0-7]{1,9},[0-7]{1,9}", "OCT": r"[0-7]{1,9}", "DEC": r"[+-]?[0-9]{1,9}",
    "HOPC": NAME,
}
OPERANDS.update({name: ADDRESS for name in TRANSFERS | {"STO"}})
OPERANDS.update({name: "%s|%s" % (ADDRESS, LITERAL) for name in WITH_LITERAL})


class Item(NamedTuple):
    """A line of a source that is no comment. The numbers are what the operand of ORG, WORDS, USE or BSS says."""
    line: int
    label: str
    operation: str
    operand: str
    numbers: list[int]


# ---- what lines mean


def parted(line: str) -> tuple[str, str, str]:
    """Label, operation and operand of a line that is no comment; "" where one is missing."""
    words = re.split("[ \t]+", line)
    label, operation, operand = (words + ["", ""])[:3]
    return label, operation, operand


def fields(operand: str, counts: Sequence[int], bounds: Sequence[int]) -> list[int] | None:
    """Octal fields parted by commas, each below its bound; None where they aren't."""
    parts = operand.split(",")
    if len(parts) not in counts or not all(re.fullmatch("[0-7]{1,9}", part) for part in parts):
        return None
    numbers = [int(part, 8) for part in parts]
    return numbers if all(number < bound for number, bound in zip(numbers, bounds)) else None


def directive_operand(operation: str, operand: str) -> list[int] | None:
    """What the operand of ORG, WORDS, USE or BSS says, or None."""
    if operation == "ORG":
        return fields(operand, (4,), (4, 16, 2, 256))
    if operation == "WORDS":
        return fields(operand, (2, 3), (4, 16, 256))
    if operation == "USE":
        return fields(operand, (2,), (4, 16))
    if re.fullmatch("[0-9]{1,9}", operand) and 1 <= int(operand) <= 256:
        return [int(operand)]
    return None


def read_item(line: str, number: int, kind: str | None) -> Item:
    """The item of a line, in a block of this kind; or its first refusal."""
    label, operation, operand = parted(line)
    if label and (not re.fullmatch(NAME, label) or operation in DIRECTIVES):
        raise Refused("BadLabel", number, 3)
    if operation == "EXM":
        raise Refused("ExecuteModified", number, 3)
    if operation not in OPERATIONS:
        raise Refused("UnknownOperation", number, 3)
    if (operation in INSTRUCTIONS and kind != "CODE") or (operation in IN_WORDS and kind != "WORDS"):
        raise Refused("BadDirective", number, 3)
    if operation in ("ORG", "WORDS", "USE", "BSS"):
        numbers = directive_operand(operation, operand)
        if numbers is None:
            raise Refused("BadDirective", number, 3)
        return Item(number, label, operation, operand, numbers)
    if operation in OPERANDS and not re.fullmatch(OPERANDS[operation], operand):
        raise Refused("BadOperand", number, 3)
    return Item(number, label, operation, operand, [])


def parse(lines: list[str], first: int) -> tuple[list[Item], int]:
    """The items of a source, and how many of its lines there are up to END."""
    items: list[Item] = []
    kind: str | None = None
    end: int | None = None
    for k, line in enumerate(lines):
        number = first + k
        if len(line) > LIMIT:
            raise Refused("LineTooLong", number, 3)
        if is_comment(line):
            continue
        if end is not None:
            raise Refused("AfterEnd", number, 3)
        item = read_item(line, number, kind)
        if item.operation == "END":
            end = k + 1
            continue
        kind = {"CODE": "CODE", "ORG": "CODE", "WORDS": "WORDS"}.get(item.operation, kind)
        items.append(item)
    if end is None:
        raise Refused("MissingEnd", first + len(lines), 3)
    return items, end


# ---- where blocks stand. A slot is (pair, sector, syllable, location).

Slot = tuple[int, int, int, int]

# an address, and the syllable of an instruction
Spot = tuple[Address, int | None]


class Block(NamedTuple):
    """Lines that stand one behind the other; where: the numbers of ORG or WORDS, none for CODE."""
    line: int
    kind: str
    where: list[int]
    items: list[Item]

    def is_fixed(self) -> bool:
        """Does the block say where it stands?"""
        return len(self.where) == (4 if self.kind == "CODE" else 3)

    def size(self) -> int:
        """How many instructions or words it has."""
        return sum(map(size_of, self.items))


def blocks_of(items: list[Item]) -> list[Block]:
    """The blocks of a source."""
    blocks: list[Block] = []
    for item in items:
        if item.operation in ("CODE", "ORG", "WORDS"):
            blocks.append(Block(item.line, "WORDS" if item.operation == "WORDS" else "CODE", item.numbers, []))
        elif item.operation != "USE":
            blocks[-1].items.append(item)
    return blocks


def size_of(item: Item) -> int:
    """How many instructions or words a line is."""
    return item.numbers[0] if item.operation == "BSS" else 1


class Layout:
    """Where each line stands, and which slots are taken."""

    def __init__(self, items: list[Item]) -> None:
        self.taken: set[Slot] = {(pair, 15, s, 0o375) for pair in range(4) for s in (0, 1)}
        self.spots: dict[int, Spot] = {}
        blocks = [block for block in blocks_of(items) if block.items]
        for block in blocks:
            if block.is_fixed():
                self.place_fixed(block)
        self.taken |= {(pair, 15, s, loc) for pair in range(4) for s in (0, 1) for loc in (0o376, 0o377)}
        for block in blocks:
            if not block.is_fixed():
                self.place_floating(block)

    @staticmethod
    def slots(kind: str, pair: int, sector: int, syl: int, loc: int, size: int) -> set[Slot]:
        """The slots of so many instructions or words from here on."""
        syllables = (syl,) if kind == "CODE" else (0, 1)
        return {(pair, sector, s, loc + k) for s in syllables for k in range(size)}

    def take(self, block: Block, pair: int, sector: int, syl: int, loc: int, slots: set[Slot]) -> None:
        """Lets a block stand here."""
        self.taken |= slots
        for item in block.items:
            self.spots[item.line] = (pair, sector, loc), syl if block.kind == "CODE" else None
            loc += size_of(item)

    def place_fixed(self, block: Block) -> None:
        """Places a block that says where it stands."""
        pair, sector, loc = block.where[0], block.where[1], block.where[-1]
        syl = block.where[2] if block.kind == "CODE" else 0
        if loc + block.size() > 256:
            raise Refused("NoRoom", block.line, 3)
        slots = self.slots(block.kind, pair, sector, syl, loc, block.size())
        if slots & self.taken:
            raise Refused("Overlap", block.line, 3)
        self.take(block, pair, sector, syl, loc, slots)

    @staticmethod
    def starts_of(block: Block) -> Iterator[tuple[int, int, int]]:
        """The pairs, sectors and syllables that a block may stand in, the first choice first."""
        if block.kind == "CODE":
            return ((pair, sector, syl) for pair in range(4) for sector in range(16) for syl in (0, 1))
        return iter([(block.where[0], block.where[1], 0)])

    def place_floating(self, block: Block) -> None:
        """Places a block at the first room that there is."""
        for pair, sector, syl in self.starts_of(block):
            for loc in range(256 - block.size() + 1):
                slots = self.slots(block.kind, pair, sector, syl, loc, block.size())
                if not slots & self.taken:
                    self.take(block, pair, sector, syl, loc, slots)
                    return
        raise Refused("NoRoom", block.line, 3)

    def pool(self, pair: int, sector: int) -> Address | None:
        """The least free word of a sector, which is then taken; or None."""
        for loc in range(256):
            slots = self.slots("WORDS", pair, sector, 0, loc, 1)
            if not slots & self.taken:
                self.taken |= slots
                return pair, sector, loc
        return None


# ---- what operands come to


class Assembly:
    """What a source comes to."""

    def __init__(self, items: list[Item]) -> None:
        self.named: dict[str, Item] = {}
        self.in_use: dict[int, tuple[int, int]] = {}
        self.note_names(items)
        self.layout = Layout(items)
        self.syllables: dict[Spot, int] = {}
        self.words: dict[Address, int] = {}
        self.pooled: dict[tuple[int, int, int], Address] = {}
        for item in items:
            if item.line in self.layout.spots:
                self.assemble_item(item)

    def note_names(self, items: list[Item]) -> None:
        """Notes the sector in use at each line, and the line of each name."""
        use = (0, 1)
        for item in items:
            if item.operation == "USE":
                use = item.numbers[0], item.numbers[1]
            self.in_use[item.line] = use
        for item in items:
            if item.label:
                if item.label in self.named:
                    raise Refused("DuplicateName", item.line, 3)
                self.named[item.label] = item

    def defines(self, name: str) -> bool:
        """Is a name defined?"""
        return name in self.named

    def hop_of(self, name: str) -> Hop | None:
        """The HOP constant of a line of code; None for any other name."""
        (pair, sector, loc), syl = self.layout.spots[self.named[name].line]
        if syl is None:
            return None
        data = self.in_use[self.named[name].line]
        return Hop(2 * pair, sector, syl, loc, 2 * data[0], data[1], 1, 1)

    def assemble_item(self, item: Item) -> None:
        """The syllable or the word of a line."""
        at, syl = self.layout.spots[item.line]
        if item.operation in CONSTANTS:
            self.words[at] = self.constant(item, {"OCT": "O", "DEC": "D", "HOPC": "H"}[item.operation] + item.operand)
        elif item.operation in INSTRUCTIONS:
            number = NAMES.index("CDS" if item.operation == "SHF" else item.operation)
            self.syllables[at, syl] = number << 9 | self.address(item)

    def constant(self, item: Item, text: str) -> int:
        """The word of O, D or H and its operand."""
        kind, operand = text[0], text[1:]
        if kind == "H":
            if operand not in self.named:
                raise Refused("UndefinedName", item.line, 3)
            hop = self.hop_of(operand)
            if hop is None:
                raise Refused("OutOfSector", item.line, 3)
            return word_of(hop)
        number = int(operand, 8 if kind == "O" else 10)
        low, high = (0, WORD - 1) if kind == "O" else (-WORD // 2, WORD // 2 - 1)
        if not low <= number <= high:
            raise Refused("OutOfRange", item.line, 3)
        return number % WORD

    def address(self, item: Item) -> int:
        """The nine address bits."""
        operand = item.operand
        if item.operation == "SHF":
            pattern = int(operand, 8)
            if pattern not in SHIFTS:
                raise Refused("OutOfRange", item.line, 3)
            return 0o200 | pattern
        if item.operation == "CDS":
            pair, sector = (int(part, 8) for part in operand.split(","))
            if pair > 3 or sector > 15:
                raise Refused("OutOfRange", item.line, 3)
            return 0o400 | 2 * pair << 4 | sector
        if re.fullmatch("[0-7]+", operand):
            if int(operand, 8) > 0o777:
                raise Refused("OutOfRange", item.line, 3)
            return int(operand, 8)
        if operand.startswith("="):
            return self.literal(item)
        return self.named_address(item)

    def literal(self, item: Item) -> int:
        """The address of the word that a literal is pooled in."""
        word = self.constant(item, item.operand[1:])
        pair, sector = self.in_use[item.line]
        key = pair, sector, word
        if key not in self.pooled:
            at = self.layout.pool(pair, sector)
            if at is None:
                raise Refused("NoRoom", item.line, 3)
            self.pooled[key] = at
            self.words[at] = word
        return self.pooled[key][2]

    def named_address(self, item: Item) -> int:
        """The address of a name and its offset."""
        name, _, offset = item.operand.partition("+")
        if name not in self.named:
            raise Refused("UndefinedName", item.line, 3)
        (pair, sector, loc), syl = self.layout.spots[self.named[name].line]
        loc += int(offset or "0")
        if loc > 255:
            raise Refused("OutOfRange", item.line, 3)
        if item.operation in TRANSFERS:
            own = self.layout.spots[item.line][0]
            if syl is None or (pair, sector) != own[:2]:
                raise Refused("OutOfSector", item.line, 3)
            return syl << 8 | loc
        used_pair, used_sector = self.in_use[item.line]
        residual = 0 if sector == used_sector else 0o400
        if pair != used_pair or sector not in (used_sector, 15) or residual | loc == 0o775:
            raise Refused("OutOfSector", item.line, 3)
        return residual | loc

    def image(self) -> Image:
        """The words of the syllables and constants."""
        words = dict(self.words)
        for (at, syl), syllable in self.syllables.items():
            words[at] = words.get(at, 0) | syllable << (13 if syl else 0)
        return Image(words)


def assemble(lines: list[str], first: int = 1) -> Assembly:
    """The assembly of a source whose first line has this number."""
    return Assembly(parse(lines, first)[0])


# ---- the listing


def listing(lines: list[str]) -> str:
    """The listing of a source."""
    items, end = parse(lines, 1)
    assembly = Assembly(items)
    by_line = {item.line: item for item in items}
    rows = ["%7d %-20s %s" % (k + 1, row_field(assembly, by_line.get(k + 1)), line) for k, line in enumerate(lines[:end])]
    rows += ["POOL %s %09o" % (spot(at), key[2]) for key, at in assembly.pooled.items()]
    rows += ["NAME %s %s" % (name, place_of(assembly, item)) for name, item in assembly.named.items()]
    return "".join(row + "\n" for row in rows)


def place_of(assembly: Assembly, item: Item) -> str:
    """Where a line stands, as it is printed."""
    (pair, sector, loc), syl = assembly.layout.spots[item.line]
    return "%o %02o %s %03o" % (pair, sector, "-" if syl is None else syl, loc)


def row_field(assembly: Assembly, item: Item | None) -> str:
    """What stands before a line in the listing."""
    if item is None or item.line not in assembly.layout.spots:
        return ""
    at, syl = assembly.layout.spots[item.line]
    if item.operation == "BSS":
        return place_of(assembly, item)
    if item.operation in CONSTANTS:
        return place_of(assembly, item) + " %09o" % assembly.words[at]
    return place_of(assembly, item) + " %05o" % assembly.syllables[at, syl]
