"""Proportions with their intervals."""
import math
from dataclasses import dataclass

from lvdc.values import check

Z_95 = 1.959963984540054  # two-sided, 95 %


@dataclass(frozen=True, slots=True)
class Share:
    """So many of a total. Of a sample Wilson's interval of the proportion behind it goes from `low` to `high`, at 95 %; of no total it is 0
    to 1, and the share is no number. Of a census the share is what there is: it has no interval, and `low` and `high` are the share.

    >>> from lvdc import Share
    >>> print(Share(1, 4), "|", Share(1, 4, is_census=True))
    1 of 4, 25.0% (4.6% to 69.9%) | 1 of all 4, 25.0%
    """

    count: int
    total: int
    is_census: bool = False

    def __post_init__(self) -> None:
        check("a total", self.total, 1 << 63)
        check("a count", self.count, self.total + 1)

    @property
    def share(self) -> float:
        """The proportion, 0 to 1."""
        return self.count / self.total if self.total else math.nan

    @property
    def interval(self) -> tuple[float, float] | None:
        """The ends of the interval; None of a census."""
        return None if self.is_census else wilson(self.count, self.total)

    @property
    def low(self) -> float:
        """The lower end of the interval."""
        return self.share if self.is_census else wilson(self.count, self.total)[0]

    @property
    def high(self) -> float:
        """The upper end of the interval."""
        return self.share if self.is_census else wilson(self.count, self.total)[1]

    def __str__(self) -> str:
        told = f"{self.count} of {'all ' * self.is_census}{self.total}"
        if self.total:
            told += f", {self.share:.1%}" + ("" if self.is_census else f" ({self.low:.1%} to {self.high:.1%})")
        return told


def wilson(count: int, total: int, z: float = Z_95) -> tuple[float, float]:
    """Wilson's interval of a proportion, for a normal deviate z. Raises ValueError where the count is no part of the total.

    >>> from lvdc import wilson
    >>> [round(it, 4) for it in wilson(0, 10)]
    [0.0, 0.2775]
    """
    check("a total", total, 1 << 63)
    check("a count", count, total + 1)
    if total == 0:
        return 0.0, 1.0
    share, square = count / total, z * z
    middle = (share + square / (2 * total)) / (1 + square / total)
    half = z / (1 + square / total) * math.sqrt(share * (1 - share) / total + square / (4 * total * total))
    return (0.0 if count == 0 else middle - half), (1.0 if count == total else middle + half)
