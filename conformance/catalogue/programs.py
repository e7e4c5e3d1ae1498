"""Programs that come to every address, every location and every place, and programs that are drawn."""
import itertools
import random
from collections.abc import Sequence

from . import Case, comment

TITLE = "programs"
SHOWS = """Loops and chains that use all 512 operand addresses, all 256 locations and both syllables, all ports, all data places; and programs
that were drawn, which fill sectors of several banks with instructions of every kind. Each is tried on the plain machine and on the voted one.
A program that keeps too few bits of a number differs here."""

WAYS = (("on-the-plain-machine", "run --plain"), ("", "run"))


def both(name: str, shows: str, given: str, has: str = "") -> list[Case]:
    """A deck on both machines."""
    return [Case("-".join(filter(None, (name, way))), shows, words, given, has=has) for way, words in WAYS]


def drawn_words(number: int, count: int) -> list[int]:
    """So many words."""
    draw = random.Random(number)
    return [draw.randrange(2**26) for _ in range(count)]


def image_of(words: dict[tuple[int, int, int], int], start: int = 0o16, simplex: Sequence[int] = ()) -> str:
    """The text of an image, behind the line IMAGE."""
    first = "LVDC 2\nSTART %09o\n" % start + ("SIMPLEX%s\n" % "".join(" %d" % pair for pair in simplex) if simplex else "")
    return "IMAGE\n" + first + "".join("%o %02o %03o %09o\n" % (*at, word) for at, word in sorted(words.items()) if word) + "END\n"


# ---- every address, every location


def loop_of(code_sector: int, loop: list[int], constant: int, data_sector: int) -> tuple[dict[tuple[int, int, int], int], int]:
    """The words of a loop with a constant 1 at a location, and where it starts."""
    words = {(0, code_sector, k): syllable for k, syllable in enumerate(loop)}
    words[0, code_sector, constant] = 1
    return words, code_sector << 19 | 0o4 | data_sector << 3 | 2


def every_address(name: str, code_sector: int, data_sector: int) -> list[Case]:
    """A loop whose ADD is raised by one each time: 256 addresses, with A9 where the code isn't in sector 17."""
    a9 = 0 if code_sector == 15 else 256
    own = 256 - a9  # the loop reaches its own words with the A9 that its ADD hasn't
    add, one, total = own | 4, own | 0o373, own | 0o374
    loop = [0o17000 | add, 0o07000 | one, 0o13000 | add, 0o17000 | total, (0o07000 | a9) - 1, 0o13000 | total, 0o10000]
    words, start = loop_of(code_sector, loop, 0o373, code_sector if a9 else data_sector)
    table = {(0, data_sector, k): word for k, word in enumerate(drawn_words(512 + a9, 256))}
    note = "The word of the ADD in location 004 is raised by one in each round, so the words of sector %02o are summed up." % data_sector
    return both(name, "ADD with each of the 256 addresses with A9 %d%s." % (a9 > 0, "; 775 is PQ" if a9 else ""),
                comment(note) + image_of({**table, **words}, start) + "RUN %d\n" % (7 * 256))


def every_location(name: str, code_sector: int, data_sector: int) -> list[Case]:
    """A loop whose STO is raised by one each time."""
    a9 = 0 if code_sector == 15 else 256
    own = 256 - a9
    sto, one = own | 3, own | 0o373
    loop = [0o17000 | sto, 0o07000 | one, 0o13000 | sto, (0o13000 | a9) - 1, 0o10000]
    words, start = loop_of(code_sector, loop, 0o373, code_sector if a9 else data_sector)
    note = "The word of the STO in location 003 is raised by one in each round, and stored there."
    return both(name, "STO with each of the 256 addresses with A9 %d%s." % (a9 > 0, "; 775 is PQ, 776 and 777 take the saver" if a9 else ""),
                comment(note) + image_of(words, start) + "RUN %d\n" % (5 * 256))


def every_port() -> list[Case]:
    """A loop whose PIO is raised by one each time."""
    words, start = loop_of(15, [0o17403, 0o07773, 0o13403, 0o11777, 0o10000], 0o373, 1)
    given = (comment("The PIO in location 003 is raised by one in each round, and written.") + image_of(words, start)
             + "PORTS\nTAPE 0 11 22 33\nTAPE 13 44 55\nRUN %d\n" % (5 * 512))
    return both("every-port", "PIO with each of its 512 addresses.", given)


def every_transfer() -> list[Case]:
    """Transfers that go through all places of a sector, one after another."""
    draw = random.Random(512)
    chain = [1, *draw.sample(range(2, 512), 510), 0]
    syllables = {here: draw.choice([0o10000, 0o04000, 0o14000]) | there for here, there in zip(chain, chain[1:])}
    syllables[0] = 0o17000
    words = {(0, 0, k): syllables[k] | syllables[256 + k] << 13 for k in range(256)}
    words[0, 1, 0] = 0o252525252
    given = comment("CLA 000 makes A negative. Then TRA, TNZ and TMI go through all other slots of the sector.") + image_of(words) + "RUN 600\n"
    return both("every-transfer", "Transfers to each slot of a sector, in both syllables, by all three of their instructions.", given)


def every_data_place() -> list[Case]:
    """CDS to the data places of eight banks, and a sum in each."""
    words: dict[tuple[int, int, int], int] = {}
    for bank, sector in itertools.product(range(8), range(16)):
        words[bank, sector, 2] = random.Random(16 * bank + sector).randrange(2**26)
    places = [pattern for pattern in range(512) if not pattern & 0o200 and pattern & 0o177 not in (0o160, 0o161)]
    random.Random(256).shuffle(places)
    for segment in range(4):
        instructions = [syllable for pattern in places[64 * segment:64 * segment + 64] for syllable in (0o16000 | pattern, 0o07002, 0o13003)]
        pattern = instructions[-3]
        module, sector, after = pattern >> 4 & 7, pattern & 15, (segment + 1) % 4
        constant = 7 << 23 | after // 2 << 19 | after % 2 << 18 | 4 | module << 7 | sector << 3 | (pattern >> 8 & 1) << 1
        words[module // 2 + module % 2 * 4, sector, 0o20 + after] = constant
        for k, syllable in enumerate([*instructions, 0o00020 | after]):
            at = 7, segment // 2, k
            words[at] = words.get(at, 0) & 0o17777 << 13 * (1 - segment % 2) | syllable << 13 * (segment % 2)
    start = 7 << 23 | 0o4 | 1 << 3 | 2
    given = (comment("Each CDS is followed by ADD 002 and STO 003 in the new data place. The code stands in module 7, sectors 00 and 01, which are "
                     "no data places here.") + image_of(words, start, [0, 1, 2, 3]) + "RUN %d\n" % (3 * len(places) + 4))
    return both("every-data-place", "CDS to each place of eight banks of sixteen sectors but those of the code, with DUPDN 0 and 1.", given)


# ---- drawn programs

OPERANDS = [0o01, 0o02, 0o03, 0o05, 0o06, 0o07, 0o11, 0o15, 0o17]


class Program:
    """A program of some sectors that are full of instructions, one behind the other."""

    def __init__(self, number: int, simplex: list[int]) -> None:
        self.draw, self.simplex = random.Random(number), simplex
        self.words: dict[tuple[int, int, int], int] = {}
        banks = [0, 1, 2, 3, *(pair + 4 for pair in simplex)]
        self.code = [(bank, sector) for bank, sector in zip(self.draw.sample(banks, 4), self.draw.sample(range(8), 4))]
        self.data = [(self.draw.choice(banks), sector) for sector in self.draw.sample(range(8, 15), 3)]
        for bank in sorted({bank for bank, _ in self.data}):
            self.fill(bank, 15)
        for bank, sector in self.data:
            self.fill(bank, sector)
        for k in range(2 * len(self.code)):
            self.segment(k)

    def fill(self, bank: int, sector: int) -> None:
        """Words all over a sector."""
        for location in range(0o370):
            if self.draw.random() < 0.4:
                self.words[bank, sector, location] = self.draw.randrange(1, 2**26)

    def module(self, bank: int) -> int:
        """A module number that means a bank."""
        pair = bank % 4
        return 2 * pair + (bank // 4 if pair in self.simplex else self.draw.randrange(2))

    def place(self, k: int) -> tuple[int, int, int]:
        """Bank, sector and syllable of a segment."""
        bank, sector = self.code[k // 2]
        return bank, sector, k % 2

    def segment(self, k: int) -> None:
        """Fills a syllable of a sector, up to a HOP to the next one."""
        bank, sector, syllable = self.place(k)
        last = len(self.code) * 2 - 1
        location, data = 0, self.data[k % 3]
        instructions = [self.instruction(at) for at in range(0o374)]
        cds = 0o16000 | self.module(data[0]) << 4 | data[1] | self.draw.randrange(2) << 8
        instructions += [cds, 0o00370 + k % 8 if k < last else 0o10000 | syllable << 8 | 0o375]
        following = self.place((k + 1) % (last + 1))
        constant = (self.module(following[0]) << 23 | following[1] << 19 | following[2] << 18 | self.module(data[0]) << 7 | data[1] << 3
                    | self.draw.randrange(4) << 1)
        self.words[data[0], data[1], 0o370 + k % 8] = constant
        for location, instruction in enumerate(instructions):
            at = bank, sector, location
            self.words[at] = self.words.get(at, 0) | instruction << 13 * syllable

    def instruction(self, at: int) -> int:
        """An instruction that goes on, or a transfer some locations ahead."""
        draw = self.draw
        how = draw.random()
        address = draw.randrange(512)
        if how < 0.55:
            return draw.choice(OPERANDS) << 9 | address
        if how < 0.75:
            address = address if address & 255 < 0o370 or address > 0o774 else address & 0o407
            return 0o13000 | address
        if how < 0.83:
            return 0o16200 | draw.choice([0, 1, 2, 0o20, 0o40])
        if how < 0.88:
            return 0o12000 | draw.choice([0, 0o14, 0o15, 0o16, 0o17, draw.randrange(256)]) | draw.randrange(2) << 8
        if how < 0.93:
            bank, sector = draw.choice(self.data)
            return 0o16000 | self.module(bank) << 4 | sector | draw.randrange(2) << 8
        return 0o17000 | address

    def deck(self, number: int) -> str:
        """The deck."""
        bank, sector, _ = self.place(0)
        data = self.data[0]
        start = self.module(bank) << 23 | sector << 19 | self.module(data[0]) << 7 | data[1] << 3 | 4
        tape = "PORTS\n" + "".join("TAPE 000 %o\n" % word for word in drawn_words(number, 12))
        return (comment("Drawn with the number %d: four sectors of instructions, both syllables of each, one behind the other." % number)
                + image_of(self.words, start, self.simplex) + tape + "RUN %d\n" % (8 * 256))


def drawn(number: int, simplex: list[int]) -> list[Case]:
    """A drawn program."""
    return both("drawn-%d" % number, "A drawn program%s." % (" with simplex pairs" if simplex else ""), Program(number, simplex).deck(number))


CASES = [
    *every_address("every-address-of-the-data-sector", 15, 3), *every_address("every-address-of-the-residual-sector", 2, 15),
    *every_location("every-location-of-the-data-sector", 15, 3), *every_location("every-location-of-the-residual-sector", 2, 15),
    *every_port(), *every_transfer(), *every_data_place(),
    *drawn(1, []), *drawn(3, [0]), *drawn(4, [1, 2]), *drawn(5, [0, 1, 2, 3]),
]
