"""Decks at random."""
from collections.abc import Sequence

from .sources import CODE_NAMES, DATA_NAMES, Sources
from .programs import HOMES

LETTERS = "ABCDEFGHIJKLMNOPQRSTU"
WRONG_PORTS = ["TAPE 16 400000000", "TAPE 400 1", "TAPE 17 1", "TAPE 14 1", "TAPE 0", "UNPLUG 0 01", "UNPLUG 20 0", "UNPLUG 1 0", "UNPLUG 1 1000001"]
MOST_TIMES = ["999999999", "1000000", "1000001", "0000000003", "000000003"]
MOST_OF_A_CAMPAIGN = ["10000", "10001", "10001", "1000001"]
STOPPING = ["IMAGE", "LVDC 1", "0 00 000 000016600", "END"]


def text_of(lines: Sequence[str]) -> str:
    """The text of lines."""
    return "".join(line + "\n" for line in lines)


class Decks(Sources):
    """Draws decks."""

    def program(self, simplex: list[int]) -> list[str]:
        """An image or a source, where it starts, and pairs that are simplex."""
        if self.chance(0.1):
            start = ["START %s" % self.choice([*CODE_NAMES, *CODE_NAMES, *DATA_NAMES])]
            return ["SOURCE", *self.source(), *(start if self.chance(0.7) else [])]
        in_image = simplex if self.chance(0.6) else simplex[1:]
        lines = self.image(in_image)
        place = "%o" % self.start() if self.chance(0.99) else self.choice(CODE_NAMES)
        lines += ["START " + place] if self.home != (0, 0) or self.chance(0.3) else []
        return lines + (["SIMPLEX" + "".join(" %d" % pair for pair in simplex if pair not in in_image)] if simplex != in_image else [])

    def ports(self, times: int) -> list[str]:
        """The section PORTS."""
        unplugged = self.sample([0, 1, 0o14, 0o15, 0o16, 0o17], self.choice([0, 1, 3, 6]))
        lines = ["UNPLUG %o %d" % (port, self.randrange(self.choice([12, times + 2]))) for port in unplugged]
        more = [self.choice([*WRONG_PORTS, *("TAPE %o 1" % port for port in unplugged)])] if self.chance(0.15) else []
        return ["PORTS", "TAPE 0 %o %o %o" % (self.word(), self.word(), self.word()), *lines, *more]

    def orders(self) -> list[str]:
        """The section ORDER."""
        orders = ["".join(self.sample(LETTERS, 21)) for _ in range(self.choice([1, 2, 2, 16, 16, 17]))]
        return ["ORDER", *orders, *["A" + LETTERS[:-1]] * self.chance(0.1)]

    def open_deck(self, times: int) -> list[str]:
        """The lines of a deck before its faults."""
        self.home, self.is_busy, self.is_orderly = self.choice(HOMES), self.chance(0.35), self.chance(0.6)
        return self.program([pair for pair in range(4) if self.chance(0.1)])

    def deck(self) -> str:
        """A deck."""
        times = self.choice([0, 1, 3, 10, 30, 30, 60, 60])
        lines = self.open_deck(times)
        lines += self.ports(times) if self.chance(0.4) else []
        lines += ["FAULTS", *self.faults(3 * times - 1)] if self.chance(0.65) else []
        lines += self.orders() if self.chance(0.2) else []
        return text_of(lines + ["RUN %d" % times] + ["* THE END"] * self.chance(0.15))

    def stopping_deck(self, times: list[str]) -> str:
        """A deck that stops at once, of a number of times at a limit."""
        return text_of([*STOPPING, *["FAULTS"] * self.chance(0.1), "RUN %s" % self.choice(times)])

    def formed(self) -> str:
        """A deck with a short script, which masks by form or nearly does."""
        times = self.choice([0, 1, 2, 3, 10])
        lines = self.script(3 * times - 1, [1, 2, 2, 3, 3, 4], 0.6)
        simplex = ["SIMPLEX %d" % self.choice([0, 1, 3])] if self.chance(0.2) else []
        return text_of(["IMAGE", "LVDC 1", "END", *simplex, "FAULTS", *lines, "RUN %d" % times])

    # ---- sessions

    def command(self) -> str:
        """A command of a session."""
        sector, first = self.home
        here = "0 %o %d %o" % (sector, self.randrange(2), (first + self.randrange(12)) % 256)
        odd = "%o %o %o %o" % (self.choice([0, 3, 4]), self.choice([0, 15, 16]), self.choice([0, 1, 2]), self.choice([0, 254, 255, 256]))
        line = self.choice(["STEP %d" % self.choice([1, 1, 2, 7]), "GO", "GO", "REGS", "BREAK " + here, "BREAK " + here,
                            "DIS " + here + " 3", "MEM %s %d" % (self.spot(), self.randrange(5)), "COPIES %d" % self.randrange(1, 8),
                            self.odd_command(odd)])
        return line.replace(" ", self.choice(["  ", "\t"]), 1) if self.chance(0.05) else line

    def odd_command(self, place: str) -> str:
        """A command at a limit, or one past it."""
        count = self.choice([0, 1, 2, 3, 256, 257])
        bank, sector, _, location = place.split()
        return self.choice(["BREAK " + place, "DIS %s %d" % (place, count), "MEM %s %s %s %d" % (bank, sector, location, count), "COPIES 0",
                            "COPIES 8", "COPIES 01", "REGS 1", "GO 1", "STEP 0", "STEP 01", "STEP 1000000", "STEP 1000001", "STEP", "HALT"])

    def session(self) -> str:
        """A deck with commands."""
        commands = [self.command() for _ in range(12)]
        if self.chance(0.1):
            commands = ["BREAK 0 0 %d %o" % (k % 2, k) for k in range(self.choice([16, 17]))] + commands
        return self.deck() + text_of(["DEBUG", *commands])
