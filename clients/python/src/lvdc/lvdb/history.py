"""Who wrote a word: all stores and reads of it that a run makes, and the instructions that a stored word came from. The same of a port, whose
stores are the words that it is given."""
from collections.abc import Iterator
from dataclasses import dataclass, replace

from lvdc.lvdb.made import CLA, PIO, Made, made_between
from lvdc.lvdb.replays import Replay
from lvdc.lvdb.searches import pieces_back, pieces_onward
from lvdc.lvdb.states import A, PQ, SAVER
from lvdc.lvdb.windows import Window
from lvdc.values import STEPS_A_TIME, Address, Place, Word

# how many instruction times before a store are looked at for where its word came from
_MOST_BEFORE = 200
_LATCHES = {"A": A, "PQ": PQ, "SAVER": SAVER}


@dataclass(frozen=True, slots=True)
class Access:
    """A store to a word, a read of it, or a change of a register: in which step, and which word it was before and then. Of a port, and of a
    read, none was before."""

    step: int
    before: Word | None
    word: Word

    @property
    def time(self) -> int:
        """Its instruction time."""
        return self.step // STEPS_A_TIME


@dataclass(frozen=True, slots=True)
class Port:
    """A port by its number."""

    number: int

    def __str__(self) -> str:
        return f"port {self.number:03o}"


Watched = Address | str | Port


def accesses(window: Window, at: Watched, is_read: bool) -> Iterator[Access]:
    """The stores to a word that a piece tells, or the operand reads of it; of a register its changes, of a port what went out or came in."""
    if isinstance(at, str):
        yield from _changes_of(window, at)
        return
    if isinstance(at, Port):
        beginning = f"{'IN' if is_read else 'OUT'} {at.number:03o} "
    else:
        beginning = f"{'OPERAND' if is_read else 'STORE'} {at} "
    for step, line, _ in window.told(beginning):
        yield Access(step, None, Word.read(line[:9]))


def _changes_of(window: Window, register: str) -> Iterator[Access]:
    """The changes of a register's vote."""
    module, index = _LATCHES[register]
    before: Word | None = None
    for step, line, _ in window.told(f"VOTE {module} "):
        word = Word.read(line[10 * index:10 * index + 9])
        if before is not None and word != before:
            yield Access(step, before, word)
        before = word


def all_accesses(replay: Replay, at: Watched, is_read: bool) -> list[Access]:
    """All of the whole run, in their order; each store with the word before it."""
    found: list[Access] = []
    for window in pieces_onward(replay, 0):
        found += [it for it in accesses(window, at, is_read) if not found or it.step > found[-1].step]
    if is_read or not isinstance(at, Address):
        return found
    words = [*replay.words(0, [at]), *(it.word for it in found)]
    return [Access(it.step, before, it.word) for it, before in zip(found, words)]


def last_access(replay: Replay, position: int, at: Watched, pieces: int | None = None) -> Access | None:
    """The last store to a word, or change of a register, that is made before a position; None where so many pieces of the trace, or all of
    them, have none."""
    for number, window in enumerate(pieces_back(replay, position)):
        if number == pieces:
            return None
        found = [it for it in accesses(window, at, False) if it.step < position]
        if found:
            before = replay.words(found[-1].step, [at])[0] if isinstance(at, Address) else found[-1].before
            return Access(found[-1].step, before, found[-1].word)
    return None


def place_at(replay: Replay, time: int) -> Place:
    """Where the instruction of an instruction time stands."""
    return replay.state(STEPS_A_TIME * time).place(replay.simplex)


def source_of(replay: Replay, time: int) -> list[Made]:
    """The instructions up to a time that A came from, the first of which takes nothing of an older A."""
    found: list[Made] = []
    made = list(made_between(replay, max(0, time - _MOST_BEFORE), time))
    for at, it in reversed(list(enumerate(made))):
        if it.makes_a:
            found.insert(0, _to_its_end(made, at))
        if it.makes_a and it.code in (CLA, PIO):
            break
    return found


def _to_its_end(made: list[Made], at: int) -> Made:
    """An instruction with what it left behind the times that were held for it, in which MPH waits for its product."""
    past = next((it for it in range(at + 1, len(made)) if not made[it].is_held), len(made))
    return replace(made[at], after=made[past - 1].after)
