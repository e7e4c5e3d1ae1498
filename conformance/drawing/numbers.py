"""Numbers at random."""
import random

ENDS = [0, 1, 2**25 - 1, 2**25, 2**25 + 1, 2**26 - 1]


class Numbers(random.Random):
    """Draws words and masks, many of them near an end."""

    def chance(self, share: float) -> bool:
        """True in this share of the cases."""
        return self.random() < share

    def word(self) -> int:
        """A word: any, a small one, one with one bit, or one at an end of the signs or near it."""
        near = (self.choice([0, 1 << 25]) + self.randrange(-9, 9)) % 2**26
        return self.choice([self.randrange(2**26), self.randrange(2**26), self.randrange(2**26), self.randrange(16),
                            1 << self.randrange(26), near, near, self.choice(ENDS)])

    def mask(self) -> int:
        """A mask of a cell: one bit mostly, or two or three near each other, one in each half, none, or any."""
        bit = 1 << self.randrange(28)
        return self.choice([bit, bit, bit, bit, 3 << self.randrange(27), 7 << self.randrange(26), bit % 2**14 << 14 | 1, 0,
                            self.randrange(2**28)])

    def step_near(self, last: int) -> int:
        """A step of a run whose last one is this, or one just after it."""
        return max(self.choice([self.randrange(last + 3), self.randrange(last + 3), self.randrange(4), last - 1, last, last + 1]), 0)

    def steps(self, last: int) -> str:
        """The first and the last step of an event."""
        first = self.step_near(last)
        return "%d %d" % (first, first + self.choice([0, 0, 0, 1, 2, 5, 40, 2_900_000]))
