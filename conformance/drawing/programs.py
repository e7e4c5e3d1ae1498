"""Programs at random, as images."""
from .scripts import Scripts

# The sector of the code and its first location: also at the end of a sector, and in sector 17.
HOMES = [(0, 0), (0, 0), (0, 0), (0, 0o373), (15, 0o370), (1, 0o372)]
HOP, MPY, SUB, DIV, TNZ, MPH, AND, ADD, TRA, XOR, PIO, STO, TMI, RSU, CDS, CLA = range(16)
ARITHMETIC = [SUB, AND, ADD, XOR, RSU, CLA]
PORTS = [0, 1, 0o14, 0o14, 0o15, 0o16, 0o17, 0o17, 0o20]
SHIFTS = [0o200, 0o201, 0o201, 0o202, 0o220, 0o240]
PQ, SAVER = 0o775, 0o776


class Programs(Scripts):
    """Draws programs. A busy one has many products and quotients; an orderly one has its instructions in short runs that show something."""

    is_busy = is_orderly = False

    def low(self) -> int:
        """A word that the program has in the sector in use, or in the residual one."""
        return self.choice([0, 0, 0, 0, 0, 0o400]) | self.randrange(8)

    def address(self) -> int:
        """An operand's nine bits: PQ, the saver's words and the places beside them too."""
        ends = [PQ, PQ, SAVER, 0o777, 0o774, 0o375, 0o376, 0o377] + [PQ] * 4 * self.is_busy
        return self.choice([self.low(), self.low(), self.low(), self.low(), self.low(), self.low(), *ends])

    def syllable(self) -> int:
        """An instruction that a program might have, or any."""
        if self.chance(0.06):
            return self.randrange(2**13)
        common = [CLA, CLA, ADD, SUB, RSU, AND, XOR, STO, STO, MPY, MPH, DIV, TRA, TNZ, TMI, PIO, CDS, HOP]
        code = self.choice([MPY, DIV, DIV, MPH, STO, CLA, CLA, ADD, RSU, CDS] if self.is_busy else common)
        if code == PIO:
            return code << 9 | self.choice([0o400, 0]) | self.choice(PORTS)
        if code == CDS:
            return code << 9 | self.choice([*SHIFTS, 0o001, 0o401, 0o021, 0o017, 0o203, 0o600])
        if code in (TRA, TNZ, TMI):
            return code << 9 | (self.home[1] + self.randrange(12)) % 256 | self.choice([0, 0, 0, 0o400])
        return code << 9 | self.address()

    # ---- short runs of instructions

    def by_pq(self) -> list[int]:
        """PQ gets a word, and an instruction has it as its operand."""
        operation = self.choice([*ARITHMETIC, *ARITHMETIC, MPY, DIV, MPH, HOP])
        return [CLA << 9 | self.low(), STO << 9 | PQ, CLA << 9 | self.low(), operation << 9 | PQ, STO << 9 | self.low()]

    def by_product(self) -> list[int]:
        """A product or a quotient lands, early or late, among other instructions."""
        fillers = [self.choice([self.syllable(), CLA << 9 | self.low(), ADD << 9 | self.low(), STO << 9 | PQ, CLA << 9 | PQ])
                   for _ in range(self.choice([0, 0, 2, 3, 4, 7, 8]))]
        operation = self.choice([MPY, MPY, DIV, DIV, MPH])
        return [CLA << 9 | self.low(), operation << 9 | self.low(), *fillers, self.choice([CLA, CLA, ADD, STO]) << 9 | PQ, STO << 9 | self.low()]

    def by_port(self) -> list[int]:
        """A word goes out to a port, and another one comes in."""
        port = self.choice(PORTS)
        held = [MPH << 9 | self.low()] if self.chance(0.3) else []
        return [CLA << 9 | self.low(), PIO << 9 | port, *held, CLA << 9 | self.low(), PIO << 9 | 0o400 | port]

    def by_sector(self) -> list[int]:
        """Another module or sector is in use, where a word is stored and read."""
        sector = self.choice([0, 0, 0o20, 0o40, 0o40, 0o60, 0o100]) | self.choice([0, 1, 1, 2, 15]) | self.choice([0, 0, 0o400])
        at = self.choice([self.low(), self.low(), 0o375, 0o376, 0o377, 0o775])
        return [CDS << 9 | sector, self.choice([STO, CLA, ADD]) << 9 | at, self.choice([CLA, ADD, STO]) << 9 | self.low(),
                CDS << 9 | self.choice([1, 1, 0o41])]

    def by_sign(self) -> list[int]:
        """A word decides where it goes on."""
        there = (self.home[1] + self.randrange(12)) % 256
        return [CLA << 9 | self.low(), self.choice([TMI, TMI, TNZ]) << 9 | there, STO << 9 | self.choice([SAVER, 0o777, self.low()])]

    def runs(self) -> list[int]:
        """Twenty instructions in short runs."""
        code: list[int] = []
        while len(code) < 20:
            more = [self.by_pq, self.by_product, self.by_port, self.by_sector, self.by_sign]
            code += self.choice([more[0], more[1], *more])() if self.chance(0.8) else [self.syllable()]
        return code[:20]

    # ---- images

    def hop(self) -> int:
        """A HOP constant that leads into the program, mostly."""
        sector, first = self.home
        if self.chance(0.2):
            sector = self.choice([0, 1, 15])
        place = self.choice([0, 0, 0, 1, 2]) << 13 | sector << 9 | self.choice([0, 0, 1]) << 8 | (first + self.randrange(8)) % 256
        return place << 10 | self.choice([0, 0, 0, 1, 2]) << 7 | self.choice([1, 1, 1, 0, 15]) << 3 | self.randrange(4) << 1

    def start(self) -> int:
        """The HOP constant of a start: of an orderly program its first instruction, mostly."""
        sector, first = self.home
        if not self.is_orderly or self.chance(0.2):
            return self.hop()
        return (sector << 9 | first) << 10 | self.choice([1, 1, 1, 15]) << 3 | self.randrange(4) << 1

    def words(self, simplex: list[int]) -> dict[tuple[int, int, int], int]:
        """The words of an image."""
        sector, first = self.home
        code = self.runs() if self.is_orderly else [self.syllable() for _ in range(12)]
        words = {(0, sector, (first + k) % 256): self.syllable() << 13 | syllable for k, syllable in enumerate(code)}
        words.update({(0, 1, k): self.choice([self.word(), self.word(), self.hop()]) for k in range(8)})
        words.update({(0, 15, k): self.word() for k in (0, 1, 2, 252, 253, 254, 255) if self.chance(0.5)})
        for bank in [1] + [pair + 4 for pair in simplex]:
            words.update({(bank, self.choice([0, 1]), k): self.word() for k in range(4)})
        return words

    def image(self, simplex: list[int]) -> list[str]:
        """The lines of an image."""
        start = self.start() if self.chance(0.95) else self.choice([2**26 + 14, 15])
        lines = ["LVDC 2", "START %09o" % start] if simplex or self.chance(0.3) else ["LVDC 1"]
        lines = lines[:1] if self.chance(0.02) else lines
        lines += ["SIMPLEX" + "".join(" %d" % pair for pair in simplex)] if simplex else []
        return ["IMAGE", *lines, *("%o %02o %03o %09o" % (*at, word) for at, word in sorted(self.words(simplex).items())), "END"]
