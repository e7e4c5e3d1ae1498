"""Kinds of fault scripts, to be asked of a program one after another.

Each kind is a collection of scripts: it can be gone through whole, has a length and a `population`, and `drawn(count, seed)` draws so many
of it, each from all, so that one may come twice; the same seed draws the same scripts. A script knows what it was made from, in `about`,
which names the columns of a table. Steps count from 0, three to an instruction time; bits count from 0, the lowest.

The steps of a kind are those of a deck, where a Deck is given, or any that rise. The bits of a latch are those that are used: that some row
of docs/MACHINE.md looks at. `all_bits=True` has all 26 of each, and the name of the kind then says so.

>>> from lvdc import Deck, Image, scripts
>>> deck = Deck(Image({}), count=180)
>>> print(scripts.pairs(deck).population)
all 408240: the same used bit of one latch turned over in two copies at one step
>>> print(scripts.pairs(deck, modules=[3]).drawn(2, seed=1).population)
2 of 21060, drawn with seed 1: the same used bit of one latch turned over in two copies at one step
"""
from lvdc.scripts.combined import Apart, AtDistances, AtRate, DamagePairs, Mixed, Near, Simultaneous
from lvdc.scripts.functions import at_rate, flips, flips_apart, near_flips, pairs, simultaneous
from lvdc.scripts.kinds import ByStep, Drawn, Indexed, Script, Scripts, Several, drawn_by
from lvdc.scripts.singles import PAIRS_OF_COPIES, SINGLE_COPIES, Damages, Flips, Lasting

__all__ = ["PAIRS_OF_COPIES", "SINGLE_COPIES", "Apart", "AtDistances", "AtRate", "ByStep", "DamagePairs", "Damages", "Drawn", "Flips", "Indexed",
           "Lasting", "Mixed", "Near", "Script", "Scripts", "Several", "Simultaneous", "at_rate", "drawn_by", "flips", "flips_apart",
           "near_flips", "pairs", "simultaneous"]
