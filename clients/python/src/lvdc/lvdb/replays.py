"""One deck in one mode: its run, asked piece by piece. Nothing is kept that can't be asked again."""
from collections import OrderedDict
from collections.abc import Sequence
from dataclasses import replace
from functools import cached_property

from lvdc import commands
from lvdc.decks import Deck
from lvdc.ends import Done, End, Stopped
from lvdc.images import Image
from lvdc.lvdb.states import State
from lvdc.lvdb.windows import Window
from lvdc.reports import Report
from lvdc.sessions import Answer, Copies, Instructions, Session, Words
from lvdc.steps import MemoryExchange, Step
from lvdc.values import MODULES, STEPS_A_TIME, Address, Word
from lvdc.workers import Asker

SHORT, LONG, OVERLAP = 3_000, commands.MOST_STEPS, 6
LAST_STEP = 3_000_000
BANKS_OF_SESSIONS = 4
_KEPT_BYTES, _KEPT_REPORTS = 64_000_000, 4


def steps_made(end: End, count: int) -> int:
    """How many steps a run that ended so has made."""
    if isinstance(end, Done):
        return STEPS_A_TIME * count
    return end.step + 1 if isinstance(end, Stopped) and end.address is None else end.step


class Replay:
    """A run as far as it was asked. `is_through` is the mode: through every fault, or guarded."""

    def __init__(self, deck: Deck, is_through: bool, asker: Asker, simplex: Sequence[int]) -> None:
        self.deck, self.is_through, self.simplex = replace(deck, commands=None), is_through, simplex
        self._asker = asker
        self.text = str(self.deck)
        self._windows: OrderedDict[tuple[int, int], Window] = OrderedDict()
        self._reports: OrderedDict[int, Report] = OrderedDict()
        self._time_of_words = 0
        self._words: dict[Address, Word | None] = {}

    # ---- steps

    def window(self, first: int, count: int) -> Window:
        """The trace of so many steps from the first on, as far as they are made."""
        key = first, count
        if key not in self._windows:
            words = ["trace", *["--through"] * self.is_through, str(first), str(count)]
            self._windows[key] = Window(first, commands.ask(words, self.text, worker=self._asker))
        self._windows.move_to_end(key)
        while len(self._windows) > 2 and sum(len(it.text) for it in self._windows.values()) > _KEPT_BYTES:
            self._windows.popitem(last=False)
        return self._windows[key]

    def window_of(self, step: int) -> Window:
        """A piece that tells this step, where it is made, and some steps before it: one that is there, else the one of its number."""
        for window in reversed(self._windows.values()):
            if window.first <= step < window.past:
                return window
        first = step // SHORT * SHORT
        return self.window(max(0, first - OVERLAP), SHORT + min(first, OVERLAP))

    def reach(self, position: int) -> int:
        """So many steps, or all that are made, where these are fewer."""
        if position <= 0:
            return 0
        window = self.window_of(min(position, LAST_STEP))
        if window.count and window.first <= position <= window.past:
            return position
        assert window.end is not None
        return window.past if window.count else steps_made(window.end, self.deck.count)

    def end_at(self, position: int) -> End | None:
        """How the run ended, where no step is made after so many; else None."""
        window = self.window_of(position)
        return None if window.first <= position < window.past else window.end

    def state(self, position: int) -> State:
        """The machine after so many steps, all of which are made."""
        if position == 0:
            return self.start
        window = self.window_of(position)
        if not window.first < position <= window.past:
            window = self.window_of(position - 1)
        return State(position, window.votes(position - 1), window.step(position - 1))

    @cached_property
    def start(self) -> State:
        """The machine before its first step, by a debug session; there no copy differs from its vote."""
        answers = self._answers([f"COPIES {it}" for it in MODULES])
        return State(0, {it.module: it.copies[1] for it in answers if isinstance(it, Copies)}, None)

    def next_step(self, position: int) -> Step | None:
        """The step that is made after so many; None where the run has ended."""
        window = self.window_of(position)
        return window.step(position) if window.first <= position < window.past else None

    def steps(self, first: int, past: int) -> list[Step]:
        """The steps from one on and below another, all of which are made."""
        return [self.window_of(it).step(it) for it in range(first, past)]

    # ---- memory, ports and verdicts

    def words(self, position: int, addresses: Sequence[Address]) -> list[Word | None]:
        """Words as they are after so many steps; None where one can't be recovered.

        They are those after the last whole instruction time, by a debug session; a report has them where the run goes through every fault
        or a bank is none of a session. Words that a later step of the trace stored stand in their place."""
        time, rest = divmod(position, STEPS_A_TIME)
        if self.is_through or any(it.bank >= BANKS_OF_SESSIONS for it in addresses):
            found = dict(self.report(time).words)
        else:
            found = self._words_of_session(time, addresses)
        for step in self.steps(position - rest, position):
            exchange = step.exchange
            if isinstance(exchange, MemoryExchange) and exchange.kind == "STORE":
                found[exchange.address] = exchange.word
        return [found.get(it, Word(0)) for it in addresses]

    def _words_of_session(self, time: int, addresses: Sequence[Address]) -> dict[Address, Word | None]:
        """Words after so many instruction times, by one debug session for all that aren't known."""
        if time != self._time_of_words:
            self._time_of_words, self._words = time, {}
        unknown = [it for it in dict.fromkeys(addresses) if it not in self._words]
        if unknown:
            for answer in self._answers([*self.to_time(time), *(f"MEM {it} 1" for it in unknown)]):
                self._words.update(answer.words if isinstance(answer, Words) else {})
        return dict(self._words)

    def _answers(self, lines: Sequence[str]) -> tuple[Answer, ...]:
        """What the commands of a debug session are answered."""
        return Session.read(self.session(lines)).answers

    @staticmethod
    def to_time(time: int) -> list[str]:
        """The command of a session that makes so many instruction times."""
        return [f"STEP {time}"] if time else []

    def session(self, lines: Sequence[str], count: int | None = None) -> str:
        """The text of a debug session; with a count it is the limit in place of the deck's."""
        text = self.text if count is None else str(replace(self.deck, count=count))
        return commands.ask(["debug"], text + "".join(f"{it}\n" for it in ["DEBUG", *lines]), worker=self._asker)

    def report(self, time: int) -> Report:
        """The report of the run that is cut after so many instruction times."""
        if time not in self._reports:
            self._reports[time] = commands.run(replace(self.deck, count=time), through=self.is_through, worker=self._asker)
        self._reports.move_to_end(time)
        while len(self._reports) > _KEPT_REPORTS:
            self._reports.popitem(last=False)
        return self._reports[time]


class Decoder:
    """What syllables are as instructions, as a session says of words that hold them."""

    def __init__(self, asker: Asker) -> None:
        self._asker = asker
        self._known: dict[int, str] = {}

    def instruction(self, syllable: int) -> str:
        """The instruction of a syllable, as `CLA 001`."""
        return self.instructions([syllable])[0]

    def instructions(self, syllables: Sequence[int]) -> list[str]:
        """The same of many, at most 256, which are asked at once."""
        unknown = [it for it in dict.fromkeys(syllables) if it not in self._known]
        if unknown:
            image = Image({Address(0, 0, at): it for at, it in enumerate(unknown)})
            answers = commands.debug(Deck(image, 0), [f"DIS 0 00 0 000 {len(unknown)}"], worker=self._asker).answers
            self._known.update(zip(unknown, _texts(answers[0])))
        return [self._known[it] for it in syllables]


def _texts(answer: Answer) -> list[str]:
    """The instructions of the rows of DIS."""
    assert isinstance(answer, Instructions)
    return [f"{it.mnemonic} {it.operand:03o}" for it in answer.rows]
