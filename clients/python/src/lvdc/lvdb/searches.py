"""Where a run comes to a place, or a word is stored or read: looked for in traces, whose pieces grow, or by a debug session, which is
asked nothing in between."""
import heapq
from collections.abc import Callable, Iterator, Set
from dataclasses import dataclass, field

from lvdc.ends import Done
from lvdc.lvdb.mistakes import Mistake
from lvdc.lvdb.places import hop_of, place_of
from lvdc.lvdb.replays import BANKS_OF_SESSIONS, LONG, SHORT, Replay, steps_made
from lvdc.lvdb.states import A, HOLD, MOST_HELD, PLACE, PQ, SAVER
from lvdc.lvdb.windows import Window
from lvdc.sessions import At, Ended, Limit, Session
from lvdc.values import STEPS_A_TIME, Address, Hop, Place, Word

MOST_BREAKS = 16
LATCHES_WATCHED = {"A": A, "PQ": PQ, "SAVER": SAVER}
_MOST_BYTES = 1_048_576
_GROWTH = 8
_FEW_GOES = 2_000

Words = dict[Address, Word | None]


@dataclass(frozen=True, slots=True)
class Change:
    """That another word is stored at an address, or is in a register by its name."""

    at: Address | str


@dataclass(frozen=True, slots=True)
class Read:
    """That an instruction takes a word as its operand."""

    at: Address


What = Place | Change | Read | Mistake


@dataclass(frozen=True, slots=True)
class Found:
    """Where a search came to: so many steps are made. `what` is the place that comes next, or what a step did, with the word before and
    the word that it is then; None is the end of the run."""

    position: int
    what: What | None = None
    before: Word | None = None
    after: Word | None = None


Met = Callable[[Found, Words, Window], bool]


@dataclass(frozen=True)
class Wanted:
    """What is looked for: places of the next instruction, changes and reads, and mistakes, which were found before; and at which of them
    the search stops: without `is_met` at each. `asked` are the words that this depends on."""

    places: Set[Place] = frozenset()
    changes: Set[Change] = frozenset()
    reads: Set[Read] = frozenset()
    caught: tuple[Found, ...] = ()
    asked: Set[Address] = frozenset()
    is_met: Met | None = None

    @property
    def is_nothing(self) -> bool:
        """Whether only the end of the run is looked for."""
        return not (self.places or self.changes or self.reads or self.caught)

    @property
    def fits_a_session(self) -> bool:
        """Whether a debug session can look for it: some places, in the banks that it knows, each of which is a stop."""
        is_plain = not (self.changes or self.reads or self.caught or self.is_met)
        return is_plain and len(self.places) <= MOST_BREAKS and all(it.module < BANKS_OF_SESSIONS for it in self.places)

    @property
    def known(self) -> set[Address]:
        """The words that have to be known."""
        return {*self.asked, *(it.at for it in self.changes if isinstance(it.at, Address))}

    def stops(self, found: Found, words: Words, window: Window) -> bool:
        """Whether the search stops there."""
        return self.is_met is None or self.is_met(found, words, window)


@dataclass
class Arrivals:
    """Which digits of PLACE are looked for. Each is asked once."""

    is_due: Callable[[str], bool]
    known: dict[str, bool] = field(default_factory=dict)

    def __call__(self, digits: str) -> bool:
        """Whether these are."""
        if digits not in self.known:
            self.known[digits] = self.is_due(digits)
        return self.known[digits]

    @classmethod
    def at(cls, places: Set[Place], replay: Replay) -> "Arrivals":
        """Those of the places."""
        return cls(lambda digits: place_of(int(digits, 8), replay.simplex) in places)

    @classmethod
    def behind(cls, here: Hop) -> "Arrivals":
        """Those of places that stand behind one in its sector and its syllable."""
        def is_behind(digits: str) -> bool:
            hop = hop_of(int(digits, 8))
            return (hop.module, hop.sector, hop.syllable) == (here.module, here.sector, here.syllable) and hop.location > here.location
        return cls(is_behind)


# ---- what a piece of a trace tells

def arrivals_in(window: Window, arrivals: Arrivals) -> Iterator[int]:
    """The positions at which a piece shows a place that is looked for, and no hold is left."""
    for span in window.spans(arrivals):
        for step in range(span.start + (2 - span.start) % STEPS_A_TIME, span.stop, STEPS_A_TIME):
            if not _is_held(window, step):
                yield step + 1


def _is_held(window: Window, step: int) -> bool:
    """Whether a hold is left after a step."""
    return window.latch(step, *HOLD) % MOST_HELD != 0


def places_in(window: Window, places: Set[Place], replay: Replay) -> Iterator[Found]:
    """The places that the run comes to."""
    for position in arrivals_in(window, Arrivals.at(places, replay)) if places else ():
        yield Found(position, place_of(window.latch(position - 1, *PLACE), replay.simplex))


def stores_in(window: Window, address: Address) -> Iterator[Found]:
    """All stores at an address, whatever the word was before."""
    for step, line, _ in window.told(f"STORE {address} "):
        yield Found(step + 1, Change(address), None, Word.read(line[:9]))


def reads_in(window: Window, read: Read) -> Iterator[Found]:
    """The reads of a word, each at the end of its instruction time, or of the run where that comes first."""
    for step, line, _ in window.told(f"OPERAND {read.at} "):
        yield Found(min(window.past, (step // STEPS_A_TIME + 1) * STEPS_A_TIME), read, None, Word.read(line[:9]))


def latch_changes_in(window: Window, change: Change, before: Word | None) -> Iterator[Found]:
    """The changes of a register; `before` is what it is before the piece."""
    module, index = LATCHES_WATCHED[str(change.at)]
    for step, line, _ in window.told(f"VOTE {module} "):
        word = Word.read(line[10 * index:10 * index + 9])
        if before is not None and word != before:
            yield Found(step + 1, change, before, word)
        before = word


def events_in(replay: Replay, window: Window, wanted: Wanted, words: Words) -> Iterator[Found]:
    """All that is looked for, in the order of the positions. `words` are those before the piece, and go on with it."""
    stores = [stores_in(window, it) for it in sorted(words)]
    reads = [reads_in(window, it) for it in wanted.reads]
    latches = [latch_changes_in(window, it, _latch_before(replay, window, it)) for it in wanted.changes if isinstance(it.at, str)]
    caught = [it for it in wanted.caught if window.first < it.position <= window.past]
    for found in heapq.merge(*stores, *reads, *latches, caught, places_in(window, wanted.places, replay), key=lambda it: it.position):
        what = found.what
        if not isinstance(what, Change) or isinstance(what.at, str):
            yield found
            continue
        before, words[what.at] = words[what.at], found.after
        if what in wanted.changes and before != found.after:
            yield Found(found.position, what, before, found.after)


def _latch_before(replay: Replay, window: Window, change: Change) -> Word:
    """A register before the first step of a piece."""
    return replay.state(window.first).latch(LATCHES_WATCHED[str(change.at)])


# ---- pieces

def words_at(replay: Replay, position: int, addresses: Set[Address]) -> Words:
    """The words of some addresses."""
    rising = sorted(addresses)
    return dict(zip(rising, replay.words(position, rising))) if rising else {}


def pieces_onward(replay: Replay, position: int) -> Iterator[Window]:
    """Pieces of the trace from the next step on: first one that is there, then larger and larger ones."""
    window, size = replay.window_of(position), max(SHORT, position // 10)
    yield window
    while window.end is None:
        size = min(size * _GROWTH, LONG)
        window = replay.window(window.past, size)
        yield window


def pieces_back(replay: Replay, position: int) -> Iterator[Window]:
    """The same towards the beginning."""
    if position == 0:
        return
    window, size = replay.window_of(position - 1), max(SHORT, position // 10)
    yield window
    while window.first > 0:
        size = min(size * _GROWTH, LONG, window.first)
        window = replay.window(window.first - size, size)
        yield window


# ---- on and back

def onward(replay: Replay, position: int, wanted: Wanted) -> Found:
    """Goes on to the first place or step that is looked for, else to the end of the run."""
    if wanted.is_nothing:
        return Found(end_of(replay))
    for number, window in enumerate(pieces_onward(replay, position)):
        if number == 0:
            words = words_at(replay, window.first, wanted.known)
        for found in events_in(replay, window, wanted, words):
            if found.position > position and wanted.stops(found, words, window):
                return found
        if number == 1 and window.end is None and wanted.fits_a_session and not replay.is_through:
            return Found(_go(replay, window.past, wanted.places))
    return Found(end_of(replay))


def end_of(replay: Replay) -> int:
    """How many steps the whole run has."""
    return replay.reach(STEPS_A_TIME * replay.deck.count)


def onward_to(replay: Replay, position: int, arrivals: Arrivals, is_right: Callable[[int], bool] = lambda _: True) -> int | None:
    """Goes on to the first place that is looked for, at a position that is right too; None where the run ends before."""
    for window in pieces_onward(replay, position):
        for at in arrivals_in(window, arrivals):
            if at > position and is_right(at):
                return at
    return None


def back(replay: Replay, position: int, wanted: Wanted) -> Found | None:
    """Goes back to the last place that is looked for, or to the beginning of the last instruction time that changed or read a word; None
    where there is none down to the beginning of the run."""
    for number, window in enumerate(() if wanted.is_nothing else pieces_back(replay, position)):
        words = words_at(replay, window.first, wanted.known)
        found = [_before(it) for it in events_in(replay, window, wanted, words) if it.position <= position and wanted.stops(it, words, window)]
        made = [it for it in found if it.position < position]
        if made:
            return max(made, key=lambda it: it.position)
        if number == 1 and window.first > 0 and wanted.fits_a_session and not replay.is_through:
            return _come(replay, window.first, wanted.places)
    return _at_the_beginning(replay, position, wanted.places)


def _before(found: Found) -> Found:
    """Where one stops going back: at a place, or at the beginning of the instruction time that did it."""
    if isinstance(found.what, Place):
        return found
    return Found((found.position - 1) // STEPS_A_TIME * STEPS_A_TIME, found.what, found.before, found.after)


def _at_the_beginning(replay: Replay, position: int, places: Set[Place]) -> Found | None:
    """The beginning, where it is above no position that is asked for and stands at one of the places."""
    start = replay.start.place(replay.simplex)
    return Found(0, start) if position > 0 and start in places else None


def _breaks(places: Set[Place]) -> list[str]:
    """The commands of a session that set breakpoints at places."""
    return [f"BREAK {it}" for it in sorted(places)]


def _go(replay: Replay, position: int, places: Set[Place]) -> int:
    """Goes on to one of the places by a debug session that makes the whole instruction times up to a position first."""
    text = replay.session([*Replay.to_time(position // STEPS_A_TIME), *_breaks(places), "GO"])
    match Session.read(text).answers[-1]:
        case At(times=times):
            return STEPS_A_TIME * times
        case Limit(times=times):
            return steps_made(Done(), times)
        case Ended(end=end):
            return steps_made(end, replay.deck.count)
        case answer:
            raise AssertionError(f"GO was answered by {answer}")


def _come(replay: Replay, position: int, places: Set[Place]) -> Found | None:
    """Goes back to one of the places up to a position: a debug session that ends there goes on from place to place."""
    times, last, goes = position // STEPS_A_TIME, 0, _FEW_GOES
    most = (_MOST_BYTES - len(replay.text) - len(places) * 20 - 1_000) // len("GO\n")
    while True:
        text = replay.session([*Replay.to_time(last), *_breaks(places), *["GO"] * goes], times)
        at = text.rfind("\nAT ") + 1
        line = text[at:text.index("\n", at) + 1]
        if at and isinstance(answer := Session.read(f"LVDC DEBUG\n> GO\n{line}").answers[0], At):
            last = answer.times
        if not at or not text.endswith(line):
            return Found(STEPS_A_TIME * last) if last else _at_the_beginning(replay, position, places)
        goes = most
