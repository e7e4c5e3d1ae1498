"""Campaigns and studies of any number of scripts: asked in pieces that one request takes, side by side over a pool, with rows that know
their scripts."""
import contextlib
import io
import os
from collections.abc import Callable, Iterable, Iterator, Sequence, Sized
from dataclasses import dataclass, field, replace
from pathlib import Path
from typing import TYPE_CHECKING, Any, Generic, TypeVar, overload

from lvdc.commands import answer, asker, run
from lvdc.decks import Deck, campaign_text
from lvdc.ends import Done, End
from lvdc.intervals import Share
from lvdc.journals import Journal
from lvdc.lines import encode
from lvdc.pools import Pool, Request
from lvdc.populations import GIVEN, Population
from lvdc.progress import shown
from lvdc.rows import CampaignRow, CampaignRows, StudyRow, StudyRows
from lvdc.scripts import Drawn, Script, Scripts, Several
from lvdc.tabled import html_table
from lvdc.tables import Counts, Record, column, columns, dataframe_of, is_different, is_inadmissible, parameters, record, write_csv
from lvdc.values import check
from lvdc.workers import Asker, Reply

if TYPE_CHECKING:
    from pandas import DataFrame

AnyRow = TypeVar("AnyRow", CampaignRow, StudyRow)
Rows = CampaignRows | StudyRows
LETTERS = "FGHIJKLMNOPQRSTUVWXYZABCDE"
MOST_FAULTS, MOST_BYTES = 65_536, 1_048_576
MOST_TIMES_OF_STUDY = 100_000_000
SCRIPTS_OF_CAMPAIGN, SCRIPTS_OF_STUDY = 256, 65_536
AT_ONCE = 500  # scripts of a study in one request, so that a pool is busy to the end


@dataclass(frozen=True, slots=True, repr=False)
class Findings(Sequence[AnyRow], Generic[AnyRow]):
    """The rows of a campaign or a study, in the order of its scripts, and what the scripts stand for. It is a sequence of its rows: it has a
    length, `found[0]` is the first one, `found[:9]` has the first nine, and two are equal that have equal rows.

    >>> import lvdc
    >>> deck = lvdc.Deck(lvdc.Image({lvdc.Address(0, 0, 0): 0o17000, lvdc.Address(0, 1, 0): 5}), count=1)
    >>> found = lvdc.study(deck, lvdc.scripts.pairs(deck, modules=[5], bits=[0]))
    >>> print(found.share(lvdc.is_different))
    6 of all 18, 33.3%
    >>> print(found.populations[0])
    all 18: the same used bit of one latch turned over in two copies at one step
    """

    rows: tuple[AnyRow, ...]
    populations: tuple[Population, ...] = field(default=(GIVEN,), compare=False)

    def __iter__(self) -> Iterator[AnyRow]:
        return iter(self.rows)

    def __len__(self) -> int:
        return len(self.rows)

    @overload
    def __getitem__(self, at: int) -> AnyRow:
        """The one of this number, from 0."""

    @overload
    def __getitem__(self, at: slice) -> "Findings[AnyRow]":
        """Those of these numbers."""

    def __getitem__(self, at: int | slice) -> "AnyRow | Findings[AnyRow]":
        return Findings(self.rows[at], (GIVEN,)) if isinstance(at, slice) else self.rows[at]

    def __add__(self, other: "Findings[AnyRow]") -> "Findings[AnyRow]":
        return Findings(self.rows + other.rows, self.populations + other.populations)

    def where(self, of: Callable[[AnyRow], bool]) -> "Findings[AnyRow]":
        """The rows of which something holds, as rows of the same population."""
        return Findings(tuple(filter(of, self.rows)), self.populations)

    @property
    def is_census(self) -> bool:
        """Whether all scripts of each kind are there, so that shares have no intervals."""
        return all(it.is_census for it in self.populations)

    def share(self, of: Callable[[AnyRow], bool]) -> Share:
        """The share of the rows of which something holds."""
        return Share(sum(map(of, self.rows)), len(self.rows), self.is_census)

    def shares(self, by: str, of: Callable[[AnyRow], bool]) -> dict[int | str, Share]:
        """The same for each value of a column, as distance or module; the values rise. Raises ValueError where a row hasn't the column."""
        self._want(by)
        counts: dict[int | str, list[int]] = {}
        for row in self.rows:
            count = counts.setdefault(column(row, by), [0, 0])
            count[0] += of(row)
            count[1] += 1
        rising = sorted(counts, key=lambda it: (isinstance(it, str), it))
        return {value: Share(counts[value][0], counts[value][1], self.is_census) for value in rising}

    def counts(self, *by: str) -> list[Record]:
        """A dict for each choice of the values of these columns: how many rows there are, how many are inadmissible, different and, of a
        study, masking by form, and the shares of these, of a sample with their intervals. Raises ValueError where there is no such column."""
        self._want(*by)
        counts = Counts(by, self.is_census)
        for row in self.rows:
            counts.add(row)
        return list(counts.records())

    def columns(self) -> list[str]:
        """The columns of the table of all rows, in their order."""
        scripts = [row.known_script for row in self.rows if row.known_script is not None]
        return columns(parameters(it.about for it in scripts), bool(scripts), any(isinstance(row, StudyRow) for row in self.rows))

    def records(self) -> list[Record]:
        """A dict for each row: its name and faults, what its script was made from, and what became of it."""
        return [record(row) for row in self.rows]

    def csv(self) -> str:
        """The records as a table with a line of headings, as RFC 4180 has it. What a row hasn't is empty."""
        text = io.StringIO(newline="")
        write_csv(text, self.columns(), self.records())
        return text.getvalue()

    def to_csv(self, path: str | os.PathLike[str]) -> None:
        """Writes the same to a file."""
        Path(path).write_text(self.csv(), encoding="utf-8", newline="")

    def to_dataframe(self) -> "DataFrame":
        """The records as a pandas.DataFrame; whole numbers stay whole where a column has gaps. Raises ImportError where pandas isn't there."""
        return dataframe_of(self.records(), self.columns())

    def _want(self, *names: str) -> None:
        """Wants that there are these columns."""
        known = self.columns()
        for name in names:
            if self.rows and name not in known:
                raise ValueError(f"there is no column {name!r}, but {', '.join(known)}")

    def _summary(self) -> str:
        """How many rows there are, and what became of them."""
        return (f"{len(self)} scripts, {sum(map(is_inadmissible, self.rows))} inadmissible, {sum(map(is_different, self.rows))} different; "
                + "; ".join(map(str, self.populations)))

    def __repr__(self) -> str:
        return f"<Findings: {self._summary()}>"

    def _repr_html_(self) -> str:
        by = [name for name in ("kind", "module") if name in self.columns()]
        counts = self.counts(*by)
        return html_table(list(counts[0]) if counts else (), [tuple(it.values()) for it in counts]) + f"<p>{self._summary()}</p>"


def study(deck: Deck, scripts: Iterable[Script], *, worker: Asker | None = None, at_once: int = AT_ONCE, progress: bool | None = None,
          keep: str | os.PathLike[str] | None = None, outside: bool = False) -> Findings[StudyRow]:
    """What becomes of the deck's program, with its devices, under each script.

    The deck's own faults and commands are left out. `at_once` is how many scripts a request has at most. A bar is shown where standard
    error is a terminal; True and False say otherwise. With `keep` the rows are written to this file as they come: the same study goes on from
    it after a kill, and comes to the same bytes. Raises ValueError where a script acts at no step of the run, since it would count as
    withstood; `outside` takes these too.

    >>> import lvdc
    >>> deck = lvdc.Deck(lvdc.Image({lvdc.Address(0, 0, 0): 0o17000}), count=2)
    >>> lvdc.study(deck, lvdc.scripts.flips(deck).drawn(50, seed=1))
    <Findings: 50 scripts, 0 inadmissible, 0 different; 50 of 4536, drawn with seed 1: one used bit of one latch turned over in one copy at one step>
    """
    found = study_each(deck, scripts, worker=worker, at_once=at_once, progress=progress, keep=keep, outside=outside)
    return Findings(tuple(found), populations_of(scripts))


def study_each(deck: Deck, scripts: Iterable[Script], *, worker: Asker | None = None, at_once: int = AT_ONCE, progress: bool | None = None,
               keep: str | os.PathLike[str] | None = None, outside: bool = False) -> Iterator[StudyRow]:
    """The rows of a study, one after another as they come; parameters and errors are those of `study`.

    >>> import lvdc
    >>> deck = lvdc.Deck(lvdc.Image({lvdc.Address(0, 0, 0): 0o17000}), count=2)
    >>> sum(lvdc.is_admissible(row) for row in lvdc.study_each(deck, lvdc.scripts.flips(deck, modules=[3])))
    234
    """
    checked_deck(deck)
    by_count = MOST_TIMES_OF_STUDY // deck.count if deck.count else SCRIPTS_OF_STUDY
    asked = _Asked("study", deck, StudyRows.read, _most(at_once, min(SCRIPTS_OF_STUDY, by_count)), asker(worker), progress, keep, outside)
    return asked.rows(scripts)


def campaign(deck: Deck, scripts: Iterable[Script], *, worker: Asker | None = None, at_once: int = SCRIPTS_OF_CAMPAIGN,
             progress: bool | None = None, keep: str | os.PathLike[str] | None = None, outside: bool = False) -> Findings[CampaignRow]:
    """The same without devices, and without what a study tells beyond the verdict and whether the outcome is the same. Raises as study does.

    >>> import lvdc
    >>> deck = lvdc.Deck(lvdc.Image({lvdc.Address(0, 0, 0): 0o17000}), count=2)
    >>> print(lvdc.campaign(deck, lvdc.scripts.pairs(deck, modules=[3], bits=[0]))[0])
    SCRIPT F0000001 LOGIC 0 3 SAME
    """
    without = replace(checked_deck(deck), ports=())
    asked = _Asked("campaign", without, CampaignRows.read, _most(at_once, SCRIPTS_OF_CAMPAIGN), asker(worker), progress, keep, outside)
    return Findings(tuple(asked.rows(scripts)), populations_of(scripts))


def checked_deck(deck: Deck) -> Deck:
    """The deck. Raises TypeError where it is something else."""
    if not isinstance(deck, Deck):
        raise TypeError(f"a study is of a Deck, not {type(deck).__name__}: of a text, Deck.read(text)")
    return deck


def populations_of(scripts: object) -> tuple[Population, ...]:
    """What scripts stand for: kinds and what is drawn of them say it."""
    if isinstance(scripts, Several):
        return scripts.populations
    return (scripts.population,) if isinstance(scripts, (Scripts, Drawn)) else (GIVEN,)


def name_of(index: int) -> str:
    """The name of a script by its number from 0: F0000001, and so on."""
    letter, number = divmod(index + 1, 10_000_000)
    return f"{LETTERS[letter]}{number:07d}"


def _most(at_once: int, limit: int) -> int:
    """How many scripts a request has at most."""
    check("at_once", at_once, 1 << 31, 1)
    return max(1, min(at_once, limit))


@dataclass
class _Asked:
    """What is asked of a worker, of which deck, in pieces of at most so many scripts."""

    command: str
    deck: Deck
    read: Callable[[str, Sequence[Script]], Any]
    most: int
    worker: Asker
    progress: bool | None
    keep: str | os.PathLike[str] | None
    outside: bool

    def rows(self, scripts: Iterable[Script]) -> Iterator[Any]:
        """The rows of scripts."""
        if isinstance(scripts, (Script, str, bytes)) or not isinstance(scripts, Iterable):
            hint = ": of one script, [script]" if isinstance(scripts, Script) else ""
            raise TypeError(f"scripts are a kind of lvdc.scripts, what is drawn of one, or a list of Script, not {type(scripts).__name__}{hint}")
        total = len(scripts) if isinstance(scripts, Sized) else None
        checked = iter(scripts) if self.outside else self._inside(scripts)
        return self._each(checked, total)

    def _inside(self, scripts: Iterable[Script]) -> Iterator[Script]:
        """The scripts, of which each begins to act at a step that the run without faults makes."""
        end: End | None = None
        made = asked = len(self.deck.steps)
        for index, script in enumerate(scripts):
            if not isinstance(script, Script):
                raise TypeError(f"a script is a Script, as Script((fault,)), not {script!r:.60}")
            if end is None:
                end = run(replace(self.deck, faults=(), commands=None), plain=True, worker=self.worker).end
                made = asked if isinstance(end, Done) else end.step + 1
            steps = script.first_steps
            if steps and (min(steps) >= made or max(steps) >= asked):
                step = min(steps) if min(steps) >= made else max(steps)
                stops = "" if isinstance(end, Done) else f" and ends with {end}"
                raise ValueError(f"script {index + 1} acts at step {step}, which is outside of the run: it has the steps 0 to {made - 1}{stops}. "
                                 f"Take the kind over {'the deck' if isinstance(end, Done) else f'range({made})'}; with outside=True it is asked, "
                                 "and counts as withstood")
            yield script

    def _each(self, scripts: Iterator[Script], total: int | None) -> Iterator[Any]:
        """The rows: those that the journal has, and then those that are asked for."""
        if self.keep is None:
            yield from self._asked(None, scripts, total)
            return
        head = campaign_text(self.deck, [], ports=True)
        with contextlib.closing(Journal(self.keep, self.command, head)) as journal:
            yield from self._asked(journal, scripts, total)

    def _asked(self, journal: Journal | None, scripts: Iterator[Script], total: int | None) -> Iterator[Any]:
        """The same over a journal, or without one."""
        counts = [0, 0, 0, 0]
        done = 0
        if journal is not None:
            for rows in self._kept(journal, scripts):
                _add(counts, rows)
                done += len(rows)
                yield from rows
            if journal.is_whole:
                return
        asked: list[tuple[str, list[Script]]] = []

        def requests() -> Iterator[Request]:
            """The requests, one for each piece."""
            for text, piece in pieces(self.deck, scripts, self.most, begin=done):
                asked.append((text, piece))
                yield Request((self.command,), encode(text))

        answers = enumerate(_replies(requests(), self.worker))
        for at, reply in shown(answers, self.progress, self.command, total, lambda it: len(asked[it[0]][1])):
            text, piece = asked[at]
            told = self.read(answer([self.command], text, reply), piece)
            if journal is not None:
                journal.add(piece, "".join(f"{it}\n" for it in told.rows))
                _add(counts, told.rows)
            yield from told.rows
            asked[at] = "", []
        if journal is not None:
            form = f" FORM {counts[3]}" if self.command == "study" else ""
            journal.finish(f"{self.command.upper()} {counts[0]} ADMISSIBLE {counts[1]} SAME {counts[2]}{form}\n")

    def _kept(self, journal: Journal, scripts: Iterator[Script]) -> Iterator[list[Any]]:
        """The rows that a journal has, piece by piece, once its scripts were found to be these."""
        lines = journal.text().split("\n")[:-1]
        at = 0
        for mark in journal.marks:
            piece: list[Script] = []
            while at + len(piece) < mark.scripts:
                script = next(scripts, None)
                if script is None:
                    raise ValueError(f"{journal.path} has more rows than there are scripts: name a new file")
                piece.append(script)
                journal.told(script)
            form = " FORM 0" if self.command == "study" else ""
            text = "".join(f"{it}\n" for it in lines[at:mark.scripts])
            yield list(self.read(f"{text}{self.command.upper()} 0 ADMISSIBLE 0 SAME 0{form}\n", piece).rows)
            at = mark.scripts
        if journal.is_whole and next(scripts, None) is not None:
            raise ValueError(f"{journal.path} has fewer rows than there are scripts: name a new file")


def _add(counts: list[int], rows: Sequence[Any]) -> None:
    """Counts rows for their total."""
    for row in rows:
        for at, holds in enumerate((True, not is_inadmissible(row), not is_different(row), isinstance(row, StudyRow) and row.form)):
            counts[at] += holds


def _replies(requests: Iterator[Request], worker: Asker) -> Iterator[Reply]:
    """The replies, side by side where the worker is a pool."""
    if isinstance(worker, Pool):
        return worker.ask_each(requests)
    return (worker.ask(it.words, it.given) for it in requests)


def pieces(deck: Deck, scripts: Iterable[Script], most: int, begin: int = 0) -> Iterator[tuple[str, list[Script]]]:
    """The scripts in pieces that one request takes, of at most so many scripts, each with its text; names count on through all of them, from
    that of the number `begin` on."""
    head = campaign_text(deck, [], ports=True)
    room = MOST_BYTES - len(encode(head))
    parts: list[str] = []
    piece: list[Script] = []
    faults = size = 0
    for index, script in enumerate(scripts, begin):
        part = str(script)
        count = part.count("\n")
        part = f"SCRIPT {name_of(index)}\n{part}"
        if piece and (len(piece) == most or faults + count > MOST_FAULTS or size + len(part) > room):
            yield head + "".join(parts), piece
            faults, size, parts, piece = 0, 0, [], []
        parts.append(part)
        piece.append(script)
        faults += count
        size += len(part)
    if piece:
        yield head + "".join(parts), piece
