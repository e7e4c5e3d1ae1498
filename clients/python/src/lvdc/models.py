"""What formulas say of redundancy, where faults come by chance: models, of no program and of no machine that flew. docs/RELIABILITY.md holds
them against scripts that are drawn. A chance is between 0 and 1, a rate is in failures a step; each function raises ValueError else."""
import math
from collections.abc import Iterable

from lvdc.values import MODULES, USED, check

COPIES = 3


def check_chance(what: str, chance: float) -> None:
    """Wants a number from 0 to 1."""
    if not 0 <= chance <= 1:
        raise ValueError(f"{what} is between 0 and 1, not {chance!r}")


def at_most(failed: int, copies: int, chance: float) -> float:
    """That at most so many of some copies fail, each by itself with this chance.

    >>> from lvdc import models
    >>> models.at_most(1, 3, 0.5)
    0.5
    """
    check_chance("a chance", chance)
    check("a count of copies", copies, 1 << 31)
    return sum(math.comb(copies, k) * chance**k * (1 - chance)**(copies - k) for k in range(min(failed, copies) + 1))


def triple(chance: float, *, copies: int = COPIES) -> float:
    """That a vote of copies is right, where each copy fails with this chance: less than half of them have failed.

    >>> from lvdc import models
    >>> round(models.triple(0.1), 4), round(models.triple(0.1, copies=5), 4), models.triple(0.5)
    (0.972, 0.9914, 0.5)
    """
    return at_most((copies - 1) // 2, copies, chance)


def voted(chance: float, *, modules: int = len(MODULES), copies: int = COPIES) -> float:
    """The same of as many modules, seven if no other number is given, all of whose votes are right.

    >>> from lvdc import models
    >>> round(models.voted(0.1), 4), round(models.voted(0.1, modules=1), 4)
    (0.8197, 0.972)
    """
    check("a count of modules", modules, 1 << 31)
    return triple(chance, copies=copies)**modules


def failed_by(rate: float, steps: int) -> float:
    """The chance that what fails for good at this rate has failed within so many steps.

    >>> from lvdc import models
    >>> round(models.failed_by(1e-4, 3000), 5)
    0.25918
    """
    check("a count of steps", steps, 1 << 63)
    if not rate >= 0:
        raise ValueError(f"a rate is 0 or more, not {rate!r}")
    return -math.expm1(-rate * steps)


def for_good(rate: float, steps: int, *, modules: int = len(MODULES), copies: int = COPIES) -> float:
    """With memory of what has failed: each copy fails for good at this rate, and all votes are right to the end.

    >>> from lvdc import models
    >>> round(models.for_good(3e-6, 3000), 5)
    0.99833
    """
    return voted(failed_by(rate, steps), modules=modules, copies=copies)


def anew(chance: float, steps: int, *, modules: int = len(MODULES), copies: int = COPIES) -> float:
    """Without memory: each copy is wrong in each step with this chance, whatever was before, and all votes are right in all steps.

    >>> from lvdc import models
    >>> round(models.anew(3e-6, 3000), 7)
    0.9999994
    """
    check("a count of steps", steps, 1 << 63)
    return voted(chance, modules=modules, copies=copies)**steps


def simultaneous(count: int, *, modules: Iterable[int] = MODULES) -> float:
    """That no module has two hit copies, where so many different used bits of these modules are hit at one step, each choice as likely: the
    share that `scripts.simultaneous` estimates, exactly.

    >>> from lvdc import models
    >>> [round(models.simultaneous(count), 4) for count in (1, 2, 3)]
    [1.0, 0.8157, 0.5578]
    """
    check("a count of bits", count, 1 << 31)
    # the ways to choose k bits of which no module has any in two copies, k from 0 on
    ways, bits = [1], 0
    for module in modules:
        used = sum(mask.bit_count() for mask in USED[module])
        bits += COPIES * used
        own = [1] + [COPIES * math.comb(used, k) for k in range(1, min(count, used) + 1)]
        ways = [sum(ways[k] * own[total - k] for k in range(max(0, total - len(own) + 1), min(total, len(ways) - 1) + 1))
                for total in range(min(count, len(ways) + len(own) - 2) + 1)]
    if count > bits:
        raise ValueError(f"there are {bits} bits, not {count}")
    return ways[count] / math.comb(bits, count) if count < len(ways) else 0.0


def at_rate(per_bit_per_step: float, steps: int, *, modules: Iterable[int] = MODULES) -> float:
    """That in no step a module has two hit copies, where each used bit is hit in each step with this chance: the share of admissible runs that
    `scripts.at_rate` estimates, exactly.

    >>> from lvdc import models
    >>> round(models.at_rate(1e-5, 540), 4)
    0.9972
    """
    check_chance("a chance", per_bit_per_step)
    check("a count of steps", steps, 1 << 63)
    found = 1.0
    for module in modules:
        used = sum(mask.bit_count() for mask in USED[module])
        found *= triple(-math.expm1(used * math.log1p(-per_bit_per_step)) if per_bit_per_step < 1 else 1.0)
    return found**steps


def scrubbed(rate: float, steps: int, interval: int, words: int = 1) -> float:
    """Of memory: each of the two cells of each word is hit at this rate, a loop reads each word once in `interval` steps, and no word is hit
    twice between two reads.

    >>> from lvdc import models
    >>> round(models.scrubbed(1e-4, 3000, 90, words=5), 5)
    0.97384
    """
    hits = [2 * rate * length for length in _rounds(steps, interval)]
    return math.prod((1 + it) * math.exp(-it) for it in hits)**words


def cells_voted(rate: float, steps: int, interval: int, words: int = 1, *, cells: int = COPIES) -> float:
    """The same of three cells and a vote in the place of two with parity.

    >>> from lvdc import models
    >>> round(models.cells_voted(1e-4, 3000, 90, words=5), 5)
    0.96114
    """
    return math.prod(triple(failed_by(rate, length), copies=cells) for length in _rounds(steps, interval))**words


def unhit(rate: float, steps: int, cells: int = 1) -> float:
    """That none of so many cells is hit.

    >>> from lvdc import models
    >>> round(models.unhit(1e-4, 3000, cells=5), 5)
    0.22313
    """
    return math.exp(-cells * rate * steps)


def _rounds(steps: int, interval: int) -> list[int]:
    """The steps of each round of a loop, the last of which may be shorter."""
    check("a count of steps", steps, 1 << 63)
    check("an interval in steps", interval, 1 << 63, 1)
    return [interval] * (steps // interval) + [steps % interval]
