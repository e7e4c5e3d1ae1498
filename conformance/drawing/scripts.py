"""Fault lines at random, many of which meet."""
from simulation.faults import FORMS, LOGIC
from simulation.modules import LATCHES

from .numbers import Numbers

ALL = "FLIP FLIP FLIP FORCE FORCE LAG DEAF DAMAGE DAMAGE DAMAGE STICK STICK DEAD".split()
OF_COPIES = "FLIP FLIP FORCE FORCE LAG DEAF".split()
OF_MEMORY = "DAMAGE DAMAGE STICK STICK DEAD".split()
OF_CELLS = ["DAMAGE", "STICK"]
# What each number of a fault line may not be, or may just be.
LIMITS = {"m": ["0", "8", "7"], "c": ["0", "4"], "w": ["2"], "p": ["4", "00"], "ss": ["20", "017"], "lll": ["400", "0377"],
          "f": ["3000000", "00"], "l": ["3000000", "2999999", "0"], "t": ["3000000", "2999999", "00"], "i": ["2", "5", "01"],
          "mask": ["400000000", "2000000000", "0000000000", "00000000000"], "value": ["400000000", "2000000000", "377777777"]}


class Scripts(Numbers):
    """Draws fault lines. `home` is the sector and the location where a deck's code begins; `kinds` are the words of a script's lines."""

    home = 0, 0
    kinds = ALL
    last = 0

    def spot(self) -> str:
        """A place that a program is likely to come to."""
        sector, first = self.home
        near = self.choice([(0, sector, (first + self.randrange(14)) % 256), (0, 1, self.randrange(8)), (0, 15, self.randrange(253, 256))])
        far = self.choice([0, 0, 0, 0, 1, 3]), self.choice([0, 0, 1, 1, 1, 15, 2]), self.choice([253, 254, 255, *range(14)])
        return "%o %o %o" % (near if self.chance(0.6) else far)

    def fault(self, last: int) -> str:
        """A fault line."""
        kind = self.choice(self.kinds)
        module, twin = self.randrange(1, 8), self.randrange(2)
        copy = "%s %d %d %s" % (kind, module, self.randrange(1, 4), self.steps(last))
        latch = " %d %o" % (self.randrange(LATCHES[module - 1]), self.choice([self.word(), self.word(), self.word(), 0]))
        if kind == "DAMAGE":
            return "DAMAGE %d %s %d %o" % (twin, self.spot(), self.step_near(last), self.mask())
        if kind == "STICK":
            value = self.choice([0, 2**28 - 1, self.randrange(2**28)])
            return "STICK %d %s %s %o %o" % (twin, self.spot(), self.steps(last), self.mask(), value)
        if kind == "DEAD":
            return "DEAD %d %d %s" % (twin, self.choice([0, 0, 1, 3]), self.death())
        return copy + (latch if kind in ("FLIP", "FORCE") else "") + (" %o" % self.word() if kind == "FORCE" else "")

    def death(self) -> str:
        """The steps of a DEAD line, which end with the run, before it or after it."""
        first = self.step_near(self.last)
        return "%d %d" % (first, max(first, self.choice([self.last - 1, self.last, self.last, self.last + 1, 3, 2_900_000])))

    def moved(self, first: str, last: str) -> list[str]:
        """The same steps, or some that reach into them."""
        begin, end = int(first), int(last)
        if self.chance(0.5):
            return [first, last]
        begin = max(begin + self.choice([-1, 0, 1, -2]), 0)
        return [str(begin), str(max(begin, end + self.choice([-1, 0, 1, 2])))]

    def beside(self, line: str) -> str:
        """A fault line that meets another one: of the same copy or the same place, in the same steps or nearly."""
        tokens = line.split()
        if tokens[0] in LOGIC:
            kind, copy = self.choice(["FLIP", "FORCE", "FORCE", "LAG", "DEAF"]), [*tokens[1:3], *self.moved(*tokens[3:5])]
            if self.chance(0.3):
                copy[1] = "%d" % self.randrange(1, 4)
            latch = tokens[5] if len(tokens) > 5 else "0"
            more = [latch, "%o" % self.word(), "%o" % self.word()]
            return " ".join([kind, *copy, *more[:{"FLIP": 2, "FORCE": 3}.get(kind, 0)]])
        if tokens[0] == "DEAD":
            return self.beside_death(tokens)
        return self.beside_cell(tokens)

    def beside_death(self, tokens: list[str]) -> str:
        """A line on a pair of which a twin dies."""
        twin, pair = self.choice(["0", "1"]), tokens[2]
        if self.chance(0.4):
            return " ".join(["DEAD", twin, pair, self.death()])
        first = max(int(tokens[3]) + self.choice([-3, -1, 0, 1]), 0)
        place = "%s %o %o" % (pair, self.choice([0, 1]), self.randrange(8))
        return "DAMAGE %s %s %d %o" % (twin, place, first, self.mask()) if self.chance(0.6) else \
            "STICK %s %s %d %d %o %o" % (twin, place, first, first + 3, self.mask(), self.randrange(2**28))

    def beside_cell(self, tokens: list[str]) -> str:
        """A line on the same place of a twin or of the other one, or on one beside it."""
        place, twin = tokens[2:5], self.choice([tokens[1], tokens[1], "0", "1"])
        if self.chance(0.3):
            at = self.randrange(3)
            place[at] = "%o" % min(int(place[at], 8) + 1, [3, 15, 255][at])
        first, last = self.moved(tokens[5], tokens[6] if tokens[0] == "STICK" else tokens[5])
        if self.chance(0.5):
            return " ".join(["DAMAGE", twin, *place, self.choice([first, last]), self.choice(["%o" % self.mask(), tokens[-1]])])
        return " ".join(["STICK", twin, *place, first, last, "%o" % self.mask(), "%o" % self.choice([0, 2**28 - 1, self.randrange(2**28)])])

    def script(self, last: int, counts: list[int], met: float = 0.4) -> list[str]:
        """So many fault lines, in any order; this share of them meet another one."""
        self.last = max(last, 0)
        self.kinds = self.choice([ALL, ALL, ALL, OF_COPIES, OF_MEMORY, OF_CELLS])
        lines: list[str] = []
        for _ in range(self.choice(counts)):
            lines.append(self.beside(self.choice(lines)) if lines and self.chance(met) else self.fault(last))
        return self.sample(lines, len(lines))

    def faults(self, last: int) -> list[str]:
        """Fault lines, of which some meet."""
        lines = self.script(last, [1, 1, 2, 3, 6, 12, 40])
        lines += self.outvoting(last) if self.chance(0.25) else []
        if lines and self.chance(0.1):
            at = self.randrange(len(lines))
            lines[at] = self.spoiled(lines[at])
        return lines

    def outvoting(self, last: int) -> list[str]:
        """Two copies that are forced to one value: what the vote then has no instruction makes, mostly."""
        module, (one, two) = self.choice([1, 1, 7, 7, 7, 2, 3, 4, 5, 5, 6]), self.sample([1, 2, 3], 2)
        first = self.step_near(last)
        steps = "%d %d" % (first, first + self.choice([0, 0, 0, 1, 2, 40]))
        latch = self.choice([0, 1]) if module == 7 else self.randrange(LATCHES[module - 1])
        port = self.choice([0, 0, 1, 0o14, 0o16]) << 3
        value = self.choice([self.randrange(4), self.randrange(16), 4 | port, 3 | port, self.choice([1, 2, 5, 6, 7]) | self.word() & ~7,
                             self.word()])
        lines = ["FORCE %d %d %s %d %o %o" % (module, copy, steps, latch, self.choice([2**26 - 1, 7]), value) for copy in (one, two)]
        return lines + (self.outvoting(last) if self.chance(0.4) else [])

    def spoiled(self, line: str) -> str:
        """A fault line with a number at its limit or past it."""
        tokens = line.split()
        names = FORMS[tokens[0]].split()
        at = self.randrange(len(names))
        tokens[at + 1] = self.choice(LIMITS[names[at]])
        return " ".join(tokens)
