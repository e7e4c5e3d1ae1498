"""Traces: what happened in each step of a run, and whether a script masks by form."""
import itertools
import re
from collections.abc import Callable, Iterator, Mapping, Sequence
from dataclasses import dataclass, field
from typing import TYPE_CHECKING, Any, ClassVar, Self, overload

from lvdc.ends import END, End, read_end
from lvdc.frozen import Frozen
from lvdc.lazy import Read, made_of
from lvdc.lines import Lines, first_fault, is_all, pattern
from lvdc.steps import COLUMNS, STEP, STEP_FORM, Latches, MemoryExchange, Step, StepExchange, need_steps, record_of, step_of
from lvdc.tabled import html_table
from lvdc.tables import Record, dataframe_of
from lvdc.values import MODULES, NAMES, Address, Word

if TYPE_CHECKING:
    from pandas import DataFrame

_TITLE = pattern("LVDC", "TRACE( THROUGH)?")
_MORE = pattern("MORE")
_FORM = pattern("FORM", "(?:YES|NO ([1-4]))")
_MORE_OR_END = re.compile(f"MORE|{END.pattern}")


@dataclass(frozen=True, slots=True)
class Difference:
    """How a step of one trace differs from that of another: the exchanges of both, the modules whose votes after it differ, and the words
    that the runs have stored otherwise by then, each as this run and as the other has it; None where no step of the traces tells it."""

    number: int
    exchange: StepExchange | None
    other: StepExchange | None
    votes: tuple[int, ...]
    words: Mapping[Address, tuple[Word | None, Word | None]]

    def __str__(self) -> str:
        votes = ", ".join(NAMES[it] for it in self.votes) or "none"
        words = ", ".join(f"{at} is {word} for {due}" for at, (word, due) in self.words.items()) or "none"
        exchanges = f"{self.exchange or '-'}" + ("" if self.exchange == self.other else f" for {self.other or '-'}")
        return f"STEP {self.number}: {exchanges}; votes: {votes}; words: {words}"


@dataclass(frozen=True, slots=True, repr=False)
class Trace(Read, Sequence[Step]):
    """The steps that were asked for, as far as they were made. `end` is None where the run goes on after them. A trace is a sequence of its
    steps: it has a length, and `trace[0]` is the first one. A step is made when it is looked at; `steps` makes and keeps all of them.

    >>> import lvdc
    >>> deck = lvdc.Deck(lvdc.Image({lvdc.Address(0, 0, 0): 0o17000, lvdc.Address(0, 1, 0): 5}), count=1)
    >>> right = lvdc.trace(deck)
    >>> wrong = lvdc.trace(deck.with_faults(lvdc.Flip(5, 1, 1, 1, 1, 1), lvdc.Flip(5, 2, 1, 1, 1, 1)), through=True)
    >>> print(wrong.first_difference(right))
    STEP 1: OPERAND 0 01 000 000000005; votes: accumulator; words: none
    """

    is_through: bool
    steps: tuple[Step, ...]
    end: End | None
    text: str = field(repr=False, compare=False)
    _makers: ClassVar[Mapping[str, Callable[[Any], Any]]] = {"steps": lambda texts: made_of(step_of, texts)}

    @classmethod
    def read(cls, text: str) -> Self:
        """Reads a trace whole."""
        title, last = text.find("\n") + 1, text.rfind("\n", 0, -1) + 1
        found, steps, end = _TITLE.fullmatch(text, 0, title - 1), text[title:last], text[last:-1]
        texts = steps.split(STEP)[1:]
        if found is None or not (is_all(STEP_FORM, steps) and _follow(texts) and _MORE_OR_END.fullmatch(end) and text[-1] == "\n"):
            raise first_fault(text, _need_trace)
        return cls._of_text(text, texts, is_through=found[1] is not None, end=read_end(end))

    @classmethod
    def joined(cls, parts: Sequence[Self]) -> Self:
        """One trace of several that follow each other. The first step of each but the first tells all votes; here only those that change."""
        if len(parts) == 1:
            return parts[0]
        texts: list[str] = []
        for part in parts:
            more = part._texts()
            if texts and more:
                known = _last_votes(texts)
                more[0] = "".join(line for line in more[0].splitlines(keepends=True) if line not in known)
            texts += more
        end = "MORE" if parts[-1].end is None else parts[-1].end
        return cls.read(f"{_title(parts[0].is_through)}{''.join(STEP + it for it in texts)}{end}\n")

    def __len__(self) -> int:
        return len(self.steps if self._is_made_of_fields() else self._found)

    @overload
    def __getitem__(self, at: int) -> Step:
        """The one of this number, from 0."""

    @overload
    def __getitem__(self, at: slice) -> tuple[Step, ...]:
        """Those of these numbers."""

    def __getitem__(self, at: int | slice) -> Step | tuple[Step, ...]:
        if self._is_made_of_fields():
            return self.steps[at]
        return tuple(map(step_of, self._found[at])) if isinstance(at, slice) else step_of(self._found[at])

    def __iter__(self) -> Iterator[Step]:
        return iter(self.steps) if self._is_made_of_fields() else map(step_of, self._found)

    def votes(self) -> Iterator[tuple[Step, dict[int, Latches]]]:
        """Each step with the votes of all modules after it: those that it tells, and else those that were told last."""
        known: dict[int, Latches] = {}
        for step in self:
            known = {**known, **step.votes}
            yield step, known

    def diff(self, other: "Trace") -> Iterator[Difference]:
        """The steps that differ from those of another trace, as far as both go. Raises ValueError where they begin at different steps."""
        if len(self) and len(other) and self[0].number != other[0].number:
            raise ValueError(f"one trace begins at step {self[0].number}, the other at {other[0].number}")
        stored = _Stored()
        for (step, votes), (other_step, other_votes) in zip(self.votes(), other.votes()):
            stored.take(step.exchange, other_step.exchange)
            differing = tuple(module for module in MODULES if votes.get(module) != other_votes.get(module))
            if differing or step.exchange != other_step.exchange or stored.differing:
                yield Difference(step.number, step.exchange, other_step.exchange, differing, Frozen(dict(sorted(stored.differing.items()))))

    def first_difference(self, other: "Trace") -> Difference | None:
        """The first step that differs; None where none does, as far as both go."""
        return next(self.diff(other), None)

    def records(self) -> list[Record]:
        """A dict for each step: its number, time and phase, the exchange with its address or port and word, the repair, and the wrong and the
        differing copies."""
        return list(map(record_of, self._texts()))

    def to_dataframe(self) -> "DataFrame":
        """The records as a pandas.DataFrame. Raises ImportError where pandas isn't there."""
        return dataframe_of(self.records(), COLUMNS)

    def __repr__(self) -> str:
        steps = f"steps {self[0].number} to {self[-1].number}" if len(self) else "no steps"
        return f"<Trace of {steps}: {'more' if self.end is None else self.end}>"

    def _repr_html_(self) -> str:
        return html_table(COLUMNS if len(self) else (), [tuple(it.values()) for it in self.records()])

    def __str__(self) -> str:
        end = "MORE" if self.end is None else self.end
        return f"{_title(self.is_through)}{''.join(map(str, self.steps))}{end}\n"

    def _texts(self) -> list[str]:
        """The text of each step from its number on."""
        return [str(it).removeprefix(STEP) for it in self.steps] if self._is_made_of_fields() else list(self._found)


class _Stored:
    """What two runs have stored, and where it differs: each word as the one and as the other has it, None where no step tells it."""

    def __init__(self) -> None:
        self.differing: dict[Address, tuple[Word | None, Word | None]] = {}
        self._stored: tuple[dict[Address, Word], dict[Address, Word]] = {}, {}
        self._read: dict[Address, Word] = {}  # what either has read before it stored there

    def take(self, exchange: StepExchange | None, other: StepExchange | None) -> None:
        """Takes the exchanges of a step of both."""
        memory = [(stored, it) for stored, it in zip(self._stored, (exchange, other)) if isinstance(it, MemoryExchange)]
        for stored, it in memory:
            if it.kind == "STORE":
                stored[it.address] = it.word
            elif it.address not in stored:
                self._read.setdefault(it.address, it.word)
        for at in {it.address for _, it in memory}:
            one, two = (stored.get(at, self._read.get(at)) for stored in self._stored)
            if one == two or not any(at in stored for stored in self._stored):
                self.differing.pop(at, None)
            else:
                self.differing[at] = one, two


@dataclass(frozen=True, slots=True)
class Form:
    """Whether a script masks by form; else the least condition that fails: 1 a module has two wrong copies at a step, 2 a line on memory
    names no duplex pair, 3 two lines name a place, or parity can't see one, 4 a dead twin comes back, or its other twin is named."""

    failing: int | None
    text: str = field(repr=False, compare=False)

    @property
    def is_masking(self) -> bool:
        """Whether the script masks by form."""
        return self.failing is None

    @classmethod
    def read(cls, text: str) -> Self:
        """Reads the line."""
        lines = Lines(text)
        condition = lines.need(_FORM, "FORM")[1]
        lines.end()
        return cls(int(condition) if condition else None, text)

    def __str__(self) -> str:
        return f"FORM {'YES' if self.failing is None else f'NO {self.failing}'}\n"


def _title(is_through: bool) -> str:
    """The first line of a trace."""
    return f"LVDC TRACE{' THROUGH' * is_through}\n"


def _follow(texts: Sequence[str]) -> bool:
    """Whether the numbers with which these texts begin follow each other."""
    first = int(texts[0][:texts[0].index("\n")]) if texts else 0
    return all(map(str.startswith, texts, map("{}\n".format, itertools.count(first))))


def _last_votes(texts: Sequence[str]) -> set[str]:
    """The line VOTE of each module that steps told last."""
    found: dict[str, str] = {}
    for text in reversed(texts):
        for line in text.splitlines(keepends=True):
            if line.startswith("VOTE "):
                found.setdefault(line[:6], line)
        if len(found) == len(MODULES):
            break
    return set(found.values())


def _need_trace(lines: Lines) -> None:
    """Passes over the lines of a trace. Raises Unread at the first that isn't due."""
    lines.need(_TITLE, "LVDC TRACE")
    need_steps(lines)
    if lines.may(_MORE) is None:
        lines.need(END, "a line of a step, MORE or an END line")
