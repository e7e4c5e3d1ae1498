"""The kinds that are asked for most, by their names."""
from collections.abc import Iterable

from lvdc.scripts.combined import Apart, AtRate, Near, Simultaneous
from lvdc.scripts.kinds import Steps, end_of
from lvdc.scripts.singles import PAIRS_OF_COPIES, Flips
from lvdc.values import COPIES, MODULES


def flips(steps: Steps, *, modules: Iterable[int] = MODULES, latches: Iterable[int] | None = None, bits: Iterable[int] | None = None,
          copies: Iterable[int] = COPIES, all_bits: bool = False) -> Flips:
    """One bit of one latch in one copy at one step.

    `steps` are a Deck, for all steps of its run, or numbers; modules are 1 to 7, latches count from 0, copies are 1 to 3, and bits are 0 to
    25 of those that a latch uses. Raises ValueError where one that is named isn't there.

    >>> from lvdc import scripts
    >>> len(scripts.flips(range(60)))
    45360
    """
    return Flips(steps, modules=modules, latches=latches, bits=bits, groups=[(it,) for it in copies], all_bits=all_bits)


def pairs(steps: Steps, *, modules: Iterable[int] = MODULES, latches: Iterable[int] | None = None, bits: Iterable[int] | None = None,
          all_bits: bool = False) -> Flips:
    """The same bit of one latch in two of its copies at one step; parameters and errors are those of `flips`.

    >>> from lvdc import scripts
    >>> next(iter(scripts.pairs([4], modules=[3]))).faults
    (Flip(module=3, copy=1, first=4, last=4, latch=0, mask=1), Flip(module=3, copy=2, first=4, last=4, latch=0, mask=1))
    """
    return Flips(steps, modules=modules, latches=latches, bits=bits, groups=PAIRS_OF_COPIES, all_bits=all_bits)


def near_flips(steps: Steps, within: int, *, modules: Iterable[int] = MODULES, latches: Iterable[int] | None = None,
               bits: Iterable[int] | None = None) -> Near:
    """Any two flips at steps at most `within` apart; parameters and errors are those of `flips`.

    >>> from lvdc import scripts
    >>> len(scripts.near_flips(range(3), 1, modules=[3], bits=[0]))
    27
    """
    return Near(flips(steps, modules=modules, latches=latches, bits=bits), within)


def flips_apart(steps: Steps, distances: Iterable[int], *, modules: Iterable[int] = MODULES, latches: Iterable[int] | None = None,
                bits: Iterable[int] | None = None, end: int | None = None) -> Apart:
    """Any two flips at steps just so many apart; the steps are those of the earlier one, and the later one comes before the step `end`, which
    is the end of the run where a Deck is given. Other parameters and errors are those of `flips`.

    >>> from lvdc import scripts
    >>> len(scripts.flips_apart(range(3), [2], modules=[3], bits=[0], end=3))
    9
    """
    return Apart(flips(steps, modules=modules, latches=latches, bits=bits), distances, end=end_of(steps) if end is None else end)


def simultaneous(count: int, steps: Steps, *, modules: Iterable[int] = MODULES, latches: Iterable[int] | None = None,
                 bits: Iterable[int] | None = None, copies: Iterable[int] = COPIES) -> Simultaneous:
    """So many different flips at one step; other parameters and errors are those of `flips`.

    >>> from lvdc import scripts
    >>> len(scripts.simultaneous(2, [7]))
    285390
    """
    return Simultaneous(flips(steps, modules=modules, latches=latches, bits=bits, copies=copies), count)


def at_rate(per_bit_per_step: float, steps: Steps, *, modules: Iterable[int] = MODULES, latches: Iterable[int] | None = None,
            bits: Iterable[int] | None = None, copies: Iterable[int] = COPIES) -> AtRate:
    """Runs in which each bit is turned over at each step with this chance, by itself: they are drawn, and may have any number of faults.
    Other parameters and errors are those of `flips`.

    >>> from lvdc import scripts
    >>> [len(it.faults) for it in scripts.at_rate(1e-5, range(540)).drawn(8, seed=2)]
    [3, 7, 7, 1, 5, 1, 4, 10]
    """
    return AtRate(flips(steps, modules=modules, latches=latches, bits=bits, copies=copies), per_bit_per_step)
