"""Every fault of a kind, counted: of those that are alike one is run.

Two faults of one bit are alike between whose steps it is neither read nor written; and nothing comes of a fault in a latch that no step
reads until it is written again. Which step reads and writes what is computed from a trace of the run without faults, by this package, which
isn't proved; each row that is asked for is the program's own."""
import bisect
import io
import os
from collections.abc import Callable, Iterator, Sequence
from dataclasses import dataclass, field, replace
from pathlib import Path
from typing import TYPE_CHECKING, overload

from lvdc.accesses import SHOWN, Latch, accesses, memory_accesses
from lvdc.commands import trace
from lvdc.decks import Deck
from lvdc.ends import ADMISSIBLE, Logic, Verdict
from lvdc.intervals import Share
from lvdc.populations import Population
from lvdc.rows import SAME, StudyRow
from lvdc.scripts import Damages, Flips, Script
from lvdc.studies import Findings, checked_deck, name_of, study_each
from lvdc.tabled import html_table
from lvdc.tables import Record, columns, dataframe_of, is_different, is_inadmissible, record, write_csv
from lvdc.traces import Trace
from lvdc.workers import Asker

if TYPE_CHECKING:
    from pandas import DataFrame

Kind = Flips | Damages


@dataclass(frozen=True, slots=True)
class Alike:
    """Scripts of one bit at the steps `first` to `last` of which the same becomes; `row` is that of one of them."""

    first: int
    last: int
    row: StudyRow


@dataclass(frozen=True, slots=True, repr=False)
class Census(Sequence[StudyRow]):
    """What becomes of every script of a kind: a sequence of the rows that a study of all of them has, in their order. `asked` is how many
    were run.

    >>> import lvdc
    >>> deck = lvdc.Deck(lvdc.Image({lvdc.Address(0, 0, 0): 0o17000, lvdc.Address(0, 0, 1): 0o10001, lvdc.Address(0, 1, 0): 5}), count=9)
    >>> pairs = lvdc.scripts.pairs(deck)
    >>> found = lvdc.census(deck, pairs)
    >>> print(found.share(lvdc.is_different), "by", found.asked, "runs")
    6708 of all 20412, 32.9% by 935 runs
    >>> list(found) == list(lvdc.study(deck, pairs))
    True
    """

    kind: Kind
    asked: int
    classes: tuple[tuple[Alike, ...], ...]
    _classes_of: tuple[int, ...] = field(compare=False)  # which of the classes those of a number at a step are in

    @property
    def population(self) -> Population:
        """All scripts of the kind."""
        return self.kind.population

    def __len__(self) -> int:
        return len(self.kind)

    def __iter__(self) -> Iterator[StudyRow]:
        return map(self._row, range(len(self)))

    @overload
    def __getitem__(self, at: int) -> StudyRow:
        """The one of this number, from 0."""

    @overload
    def __getitem__(self, at: slice) -> tuple[StudyRow, ...]:
        """Those of these numbers."""

    def __getitem__(self, at: int | slice) -> StudyRow | tuple[StudyRow, ...]:
        found = range(len(self))[at]
        return self._row(found) if isinstance(found, int) else tuple(map(self._row, found))

    def findings(self) -> Findings[StudyRow]:
        """The same as Findings, with an object for each row."""
        return Findings(tuple(self), (self.population,))

    def share(self, of: Callable[[StudyRow], bool]) -> Share:
        """The share of the scripts of which something holds; it is asked of one row of those that are alike."""
        count = sum(len(self._steps(alike)) * weight for alike, weight in self._weighted() if of(alike.row))
        return Share(count, len(self), is_census=True)

    def shares(self, by: str, of: Callable[[StudyRow], bool]) -> dict[int | str, Share]:
        """The same for each value of a column that the scripts were made from, as module or step; the values rise. Raises ValueError where
        there is no such column."""
        counts: dict[int | str, list[int]] = {}
        holds: dict[int, bool] = {}
        for step in self.kind.steps:
            for number in range(self.kind.each_step):
                alike = self._alike(step, number)
                if id(alike) not in holds:
                    holds[id(alike)] = of(alike.row)
                about = alike.row.script.about if by not in ("step", "copy") else self.kind.at(step, number).about
                if by not in about:
                    raise ValueError(f"there is no column {by!r}, but {', '.join(about)}")
                count = counts.setdefault(about[by], [0, 0])
                count[0] += holds[id(alike)]
                count[1] += 1
        return {value: Share(counts[value][0], counts[value][1], is_census=True)
                for value in sorted(counts, key=lambda it: (isinstance(it, str), it))}

    def counts(self, by: str) -> list[Record]:
        """A dict for each value of a column: how many scripts there are, and how many are inadmissible and different, with their shares."""
        inadmissible, different = self.shares(by, is_inadmissible), self.shares(by, is_different)
        return [{by: value, "scripts": share.total, "inadmissible": share.count, "inadmissible_share": share.share,
                 "different": different[value].count, "different_share": different[value].share} for value, share in inadmissible.items()]

    def csv(self) -> str:
        """The rows as a table with a line of headings, as RFC 4180 has it."""
        text = io.StringIO(newline="")
        write_csv(text, self._columns(), map(record, self))
        return text.getvalue()

    def to_csv(self, path: str | os.PathLike[str]) -> None:
        """Writes the same to a file."""
        Path(path).write_text(self.csv(), encoding="utf-8", newline="")

    def to_dataframe(self) -> "DataFrame":
        """The rows as a pandas.DataFrame. Raises ImportError where pandas isn't there."""
        return dataframe_of(list(map(record, self)), self._columns())

    def _columns(self) -> list[str]:
        """The columns of the table of all rows."""
        return columns(list(self[0].script.about) if len(self) else [], True, True)

    def _steps(self, alike: Alike) -> range:
        """The numbers among the kind's steps of those that are alike."""
        steps = self.kind.steps
        return range(bisect.bisect_left(steps, alike.first), bisect.bisect_right(steps, alike.last))

    def _weighted(self) -> Iterator[tuple[Alike, int]]:
        """Those that are alike, with how many there are at each step."""
        weights = [0] * len(self.classes)
        for at in self._classes_of:
            weights[at] += 1
        return ((alike, weight) for some, weight in zip(self.classes, weights) for alike in some)

    def _alike(self, step: int, number: int) -> Alike:
        """Those that the script of this number at a step is among."""
        some = self.classes[self._classes_of[number]]
        return some[bisect.bisect_left(some, step, key=lambda it: it.last)]

    def _row(self, index: int) -> StudyRow:
        """The row of the script of this number."""
        at, number = divmod(index, self.kind.each_step)
        step = self.kind.steps[at]
        row = self._alike(step, number).row
        return replace(row, name=name_of(index), verdict=_verdict(row.verdict, step), known_script=self.kind.at(step, number))

    def __repr__(self) -> str:
        return f"<Census: {self.asked} run of {self.population}>"

    def _repr_html_(self) -> str:
        counts = self.counts("module" if isinstance(self.kind, Flips) else "place")
        return html_table(list(counts[0]) if counts else (), [tuple(it.values()) for it in counts]) + f"<p>{self.asked} run of {self.population}</p>"


def census(deck: Deck, kind: Kind, *, worker: Asker | None = None, progress: bool | None = None) -> Census:
    """What becomes of every script of a kind: `scripts.flips`, `scripts.pairs` or `scripts.Damages` over steps of the deck. Of those that are
    alike one is run. Raises TypeError where it is another kind, ValueError where a step is outside of the run.

    >>> import lvdc
    >>> deck = lvdc.Deck(lvdc.Image({lvdc.Address(0, 0, 0): 0o17000}), count=5)
    >>> print(lvdc.census(deck, lvdc.scripts.flips(deck)).share(lvdc.is_different))
    0 of all 11340, 0.0%
    """
    if not isinstance(kind, (Flips, Damages)):
        raise TypeError(f"a census is of flips, pairs or Damages, not of {type(kind).__name__}: lvdc.study asks of any scripts")
    plain = replace(checked_deck(deck), faults=(), commands=None)
    told = trace(plain, worker=worker)
    if kind.steps and kind.steps[-1] >= len(told):
        raise ValueError(f"step {kind.steps[-1]} is outside of the run, which makes the steps 0 to {len(told) - 1}: take the kind over the deck, "
                         f"or range({len(told)})")
    spans, classes_of = (_spans_of_flips if isinstance(kind, Flips) else _spans_of_damages)(told, kind)  # type: ignore[operator]
    return _asked(plain, kind, spans, classes_of, worker, progress)


@dataclass(frozen=True, slots=True)
class _Span:
    """Steps `first` to `last` at which a fault of one bit is alike; the number at a step of its script; whether one is run, or nothing comes
    of it."""

    first: int
    last: int
    number: int
    is_run: bool


def _asked(deck: Deck, kind: Kind, spans: list[list[_Span]], classes_of: list[int], worker: Asker | None, progress: bool | None) -> Census:
    """Runs one script of each span."""
    scripts = [kind.at(_asked_step(kind, it), it.number) for some in spans for it in some if it.is_run]
    rows = study_each(deck, scripts, worker=worker, progress=progress)
    classes = tuple(tuple(Alike(it.first, it.last, next(rows) if it.is_run else _nothing(kind.at(_asked_step(kind, it), it.number)))
                          for it in some) for some in spans)
    return Census(kind, len(scripts), classes, tuple(classes_of))


def _asked_step(kind: Kind, span: _Span) -> int:
    """The last step of the kind in a span."""
    return kind.steps[bisect.bisect_right(kind.steps, span.last) - 1]


def _nothing(script: Script) -> StudyRow:
    """The row of a script of which nothing comes: flips of one latch in copies that the next step hears no more."""
    is_single = len(script.faults) == 1
    verdict: Verdict = ADMISSIBLE if is_single else Logic(int(script.about["step"]), int(script.about["module"]))
    return StudyRow("", verdict, SAME, 1, 0, None, is_single, script)


def _verdict(verdict: Verdict, step: int) -> Verdict:
    """The verdict of one that is alike and begins at this step: two wrong copies are wrong in it."""
    return Logic(step, verdict.module) if isinstance(verdict, Logic) else verdict


def _spans_of_flips(told: Trace, kind: Flips) -> tuple[list[list[_Span]], list[int]]:
    """The spans of each bit of each latch, and of which bit the scripts of a step are."""
    read: dict[tuple[int, int, int], list[tuple[int, bool]]] = {place: [] for place in kind.places}
    bits: dict[Latch, list[int]] = {}
    for module, latch, bit in kind.places:
        bits.setdefault((module, latch), []).append(bit)
    for step, access in accesses(told):
        for of, asked in bits.items():
            mask, is_written = access.reads.get(of, 0), of in access.writes
            for bit in asked:
                if mask >> bit & 1 or is_written:
                    read[(*of, bit)].append((step.number - 1, bool(mask >> bit & 1)))
    end = len(told) - 1
    places = {place: at for at, place in enumerate(kind.places)}
    numbers: dict[int, int] = {}
    classes_of = []
    for number, (module, latch, _, bit) in enumerate(kind.made):
        at = places[module, latch, bit]
        numbers.setdefault(at, number)
        classes_of.append(at)
    spans = [_spans([*read[place], (end, place[:2] in SHOWN)], end, numbers[at], kind.steps) for place, at in places.items()]
    return spans, classes_of


def _spans_of_damages(told: Trace, kind: Damages) -> tuple[list[list[_Span]], list[int]]:
    """The spans of each cell's bits: damage is done before its step, which may then read it."""
    found, end = memory_accesses(told), len(told) - 1
    spans = []
    for number in range(kind.each_step):
        place = kind.place_of(number)
        steps = [(step, True) for step, _ in found.get(place, [])]
        spans.append(_spans([*steps, (end, True)], end, number, kind.steps))
    return spans, list(range(kind.each_step))


def _spans(ends: list[tuple[int, bool]], last: int, number: int, steps: list[int]) -> list[_Span]:
    """Spans that end at these steps, each with whether one is run; those without a step of the kind are left out."""
    spans, first = [], 0
    for end, is_run in ends:
        if end >= first:
            if bisect.bisect_left(steps, first) < bisect.bisect_right(steps, end):
                spans.append(_Span(first, end, number, is_run))
            first = end + 1
    return spans
