"""Where a run differs from the one without faults, and which lines of the script end it."""
from collections.abc import Iterator

from lvdc.ends import End, Inadmissible, Logic, Stopped
from lvdc.faults import Damage, Dead, Fault, Stick
from lvdc.lvdb.cells import cell_lines, twins_at
from lvdc.lvdb.errors import CommandError
from lvdc.lvdb.replays import LONG, Replay
from lvdc.lvdb.windows import Window
from lvdc.values import LATCHES, NAMES, STEPS_A_TIME, Address
from lvdc.workers import Asker

_OF_FAULTS = ("FAULT ", "COPY ", "REPAIR ")


def first_difference(replay: Replay, other: Replay, position: int) -> int | None:
    """The first step below a position that isn't the same in both runs, what is said of copies and repairs left out; None where all are."""
    at = 0
    while at < position:
        size = min(LONG, position - at)
        one, two = replay.window(at, size), other.window(at, size)
        for number, (this, that) in enumerate(zip(_told(one), _told(two)), at):
            if this != that:
                return number
        if one.past != two.past:
            return min(one.past, two.past)
        at = one.past
        if one.end is not None:
            return None
    return None


def _told(window: Window) -> Iterator[list[str]]:
    """What each step did, without what faults did to copies and cells."""
    for block in window.text.split("\nSTEP ")[1:]:
        yield [it for it in block.split("\n") if it and not it.startswith((*_OF_FAULTS, "END ", "MORE"))]


def difference_lines(replay: Replay, other: Replay, position: int) -> Iterator[str]:
    """The first difference in words."""
    if not replay.deck.faults:
        raise CommandError("the script has no fault, so there is nothing to compare: `hurt`, `damage` and `kill` put faults in")
    step = first_difference(replay, other, position)
    if step is None:
        yield f"no vote and no exchange of the first {position} steps differs from the run without faults"
        differing = _first_copy(replay, position)
        if differing is not None:
            yield f"the first copy that differed from its vote: step {differing[0]}, {differing[1]}"
        return
    yield f"first difference at step {step} (time {step // STEPS_A_TIME}, phase {'ABC'[step % STEPS_A_TIME]}), without faults behind `not`:"
    one, two = (it.next_step(step) for it in (replay, other))
    if one is None or two is None:
        yield f"  {'this run' if one is None else 'the run without faults'} ends before it"
        return
    if str(one.exchange) != str(two.exchange):
        yield f"  {one.exchange or 'no exchange'}, not {two.exchange or 'none'}"
    yield from _vote_lines(replay, other, step)


def _vote_lines(replay: Replay, other: Replay, step: int) -> Iterator[str]:
    """The latches whose votes aren't those of the other run after a step."""
    one, two = replay.state(step + 1).votes, other.state(step + 1).votes
    for module, latches in LATCHES.items():
        for index, name in enumerate(latches):
            if one[module][index] != two[module][index]:
                yield f"  module {module}, {NAMES[module]} {name}: {one[module][index]}, not {two[module][index]}"


def _first_copy(replay: Replay, position: int) -> tuple[int, str] | None:
    """The first step after which a copy differs from its vote, and which copy."""
    at = 0
    while at < position:
        window = replay.window(at, min(LONG, position - at))
        found = window.text.find("\nCOPY ")
        if found >= 0:
            step = int(window.text[window.text.rindex("\nSTEP ", 0, found) + 6:].split("\n", 1)[0])
            module, copy = window.text[found + 6:].split(" ", 2)[:2]
            return step, f"{NAMES[int(module)]} {copy}"
        at = window.past
        if window.end is not None:
            return None
    return None


def reason_lines(replay: Replay, end: End | None, position: int, name: str, asker: Asker) -> Iterator[str]:
    """Why a run has ended at what can't be withstood: the copies or the cell, and the lines of the script that did it."""
    cause = end.cause if isinstance(end, Inadmissible) else None
    address = end.address if isinstance(end, Stopped) else None if cause is None or isinstance(cause, Logic) else cause.address
    if isinstance(cause, Logic):
        lines = [it for it in replay.deck.faults if _hurts(it, cause.module, cause.step)]
        copies = sorted({it.copy for it in lines if not isinstance(it, Damage | Stick | Dead)})
        yield f"in step {cause.step} copies {' and '.join(map(str, copies))} of the {NAMES[cause.module]} are wrong, by these lines of the script:"
        yield from (f"  {it}" for it in lines)
        return
    if address is None:
        raise CommandError("the run hasn't ended at what can't be withstood; `judge` says whether it will")
    yield f"the word at {address}{f', {name},' if name else ''} can't be recovered, by these lines of the script:"
    yield from (f"  {it}" for it in replay.deck.faults if _touches(it, address, position))
    yield from cell_lines(twins_at(replay, position, asker), address, name)


def _hurts(fault: Fault, module: int, step: int) -> bool:
    """Whether a line makes a copy of a module wrong in a step."""
    return not isinstance(fault, Damage | Stick | Dead) and fault.module == module and fault.first <= step <= fault.last


def _touches(fault: Fault, address: Address, step: int) -> bool:
    """Whether a line has acted on a cell of a word up to a step."""
    if isinstance(fault, Dead):
        return fault.pair == address.bank % 4 and fault.first <= step <= fault.last
    if not isinstance(fault, Damage | Stick):
        return False
    is_there = (fault.pair, fault.sector, fault.location) == (address.bank % 4, address.sector, address.location)
    return is_there and (fault.step <= step if isinstance(fault, Damage) else fault.first <= step <= fault.last)
