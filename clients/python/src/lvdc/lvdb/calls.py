"""Calls of subroutines, as far as the HOP saver tells: each HOP loads it with the way back, and a HOP that goes to the way back of a call
ends that call and those inside of it."""
from collections.abc import Collection, Iterator
from dataclasses import dataclass

from lvdc.lvdb.made import HOP, OF_SAVER, STO, made_between
from lvdc.lvdb.places import place_of
from lvdc.lvdb.replays import LONG, SHORT, Replay
from lvdc.lvdb.searches import Arrivals, onward_to
from lvdc.lvdb.states import INSTR
from lvdc.lvdb.windows import Window
from lvdc.values import STEPS_A_TIME, Place

_MOST_CALLS = 64
_PLACE, _INSTRUCTION, _HOP = "\nVOTE 2 ", "\nVOTE 3 ", "\nVOTE 3 000000"
_GROWTH = 8
_BITS_OF_ADDRESS, _CODES = 9, 15


@dataclass(frozen=True, slots=True)
class Call:
    """A HOP that wasn't a return: its instruction time, where it stands, where it went, and the way back that it left in the saver."""

    time: int
    caller: Place
    entry: Place
    back: Place


@dataclass(frozen=True, slots=True)
class Stack:
    """The calls that haven't returned, the outermost first. Those before an instruction time weren't looked for."""

    calls: tuple[Call, ...]
    since: int


def hops(window: Window) -> Iterator[tuple[int, str, str, str]]:
    """Each HOP that a piece tells: its last step, PLACE before it, and PLACE and SAVER after it.

    Its line VOTE 2 is the first one behind the line VOTE 3 that has it; a further one before the next VOTE 3 is that of the same HOP, made
    again."""
    text = window.text
    fetched = text.find(_HOP)
    while fetched >= 0:
        made, other = text.find(_PLACE, fetched), text.find(_INSTRUCTION, fetched + 1)
        while made >= 0 and (other < 0 or made < other):
            step = int(text[text.rindex("\nSTEP ", 0, made) + 6:made].split("\n", 1)[0])
            if step % STEPS_A_TIME == STEPS_A_TIME - 1 and step != window.first:
                place, saver = _nine(text, made + len(_PLACE)), _nine(text, made + len(_PLACE) + 10)
                yield step, _nine(text, text.rindex(_PLACE, 0, made) + len(_PLACE)), place, saver
            made = text.find(_PLACE, made + 1)
        fetched = text.find(_HOP, fetched + 1)


def _nine(text: str, at: int) -> str:
    """The nine digits that begin here."""
    return text[at:at + 9]


def stack_at(replay: Replay, position: int) -> Stack:
    """The calls that haven't returned after so many steps."""
    if position == 0:
        return Stack((), 0)
    size = SHORT
    while size < min(position, LONG):
        size *= _GROWTH
    first = max(0, (position - min(size, LONG)) // STEPS_A_TIME * STEPS_A_TIME)
    calls: list[Call] = []
    for step, before, after, saver in hops(replay.window(first, min(size, LONG))):
        if step < position:
            places = [place_of(int(it, 8), replay.simplex) for it in (before, after, saver)]
            _make(calls, step // STEPS_A_TIME, *places)
    return Stack(tuple(calls), first // STEPS_A_TIME)


def _make(calls: list[Call], time: int, caller: Place, entry: Place, back: Place) -> None:
    """A HOP returns from the innermost call whose way back it takes, or is a call itself."""
    for at in reversed(range(len(calls))):
        if calls[at].back == entry:
            del calls[at:]
            return
    calls.append(Call(time, caller, entry, back))
    del calls[:-_MOST_CALLS]


def came_by_hop(replay: Replay, position: int) -> bool:
    """Whether the instruction that was made last is a HOP."""
    return int(replay.state(position).latch(INSTR)) >> _BITS_OF_ADDRESS & _CODES == HOP


def returned(replay: Replay, time: int, simplex: Collection[int]) -> int | None:
    """Where the subroutine that an instruction calls has returned, as a position; None where it calls none, or that doesn't return.

    A HOP that isn't a return is a call, and a transfer is one where the instruction that it goes to keeps the way back."""
    made = list(made_between(replay, time, time + 2))
    if not made or not made[0].is_transfer:
        return None
    back = place_of(made[0].after.saver, simplex)
    if made[0].code == HOP:
        entry = place_of(made[0].after.place, simplex)
        is_call = all(it.back != entry for it in stack_at(replay, STEPS_A_TIME * time).calls)
    else:
        is_call = len(made) == 2 and made[1].code == STO and made[1].bits in OF_SAVER
    if not is_call:
        return None
    return onward_to(replay, STEPS_A_TIME * (time + 1), Arrivals.at(frozenset([back]), replay), lambda it: came_by_hop(replay, it))
