"""Tables of rows, for other programs: RFC 4180, with a line of headings and one column for each field."""
import csv
import importlib
from collections.abc import Iterable, Iterator, Mapping, Sequence
from typing import TYPE_CHECKING, Any, Protocol

from lvdc.ends import Admissible, Logic, Memory
from lvdc.intervals import Share
from lvdc.rows import Differs, Row, StudyRow

if TYPE_CHECKING:
    from pandas import DataFrame

NAMED = ["name", "faults"]
TOLD = ["verdict", "verdict_step", "verdict_module", "verdict_address", "is_same"]
TOLD_BY_STUDY = ["differs", "differs_time", "differs_address", "copies", "repairs", "first_repair", "masks_by_form"]

Record = dict[str, Any]


class Writable(Protocol):
    """A file that takes text and leaves the ends of lines as they are."""

    def write(self, text: str, /) -> Any:
        """Writes a text."""


def is_admissible(row: Row) -> bool:
    """Whether no step of a row's run is inadmissible."""
    return isinstance(row.verdict, Admissible)


def is_inadmissible(row: Row) -> bool:
    """Whether a step is."""
    return not is_admissible(row)


def is_different(row: Row) -> bool:
    """Whether the faults changed what the program comes to."""
    return isinstance(row.outcome, Differs)


def record(row: Row) -> Record:
    """A row as the columns of a table."""
    verdict, outcome, script = row.verdict, row.outcome, row.known_script
    found: Record = {"name": row.name}
    if script is not None:
        found["faults"] = "; ".join(map(str, script.faults))
        found.update(script.about)
    found |= {
        "verdict": str(verdict).split(" ")[0],
        "verdict_step": None if isinstance(verdict, Admissible) else verdict.step,
        "verdict_module": verdict.module if isinstance(verdict, Logic) else None,
        "verdict_address": str(verdict.address) if isinstance(verdict, Memory) else None,
        "is_same": not is_different(row)}
    if isinstance(row, StudyRow):
        found |= {
            "differs": outcome.what if isinstance(outcome, Differs) else None,
            "differs_time": outcome.time if isinstance(outcome, Differs) else None,
            "differs_address": str(outcome.address) if isinstance(outcome, Differs) and outcome.address else None,
            "copies": row.copies, "repairs": row.repairs, "first_repair": row.first_repair, "masks_by_form": row.form}
    return found


def column(row: Row, name: str) -> int | str:
    """The value of a column of a row. Raises KeyError where the row hasn't it."""
    if row.known_script is not None and name in row.known_script.about:
        return row.known_script.about[name]
    value = record(row).get(name)
    if isinstance(value, (int, str)):
        return value
    raise KeyError(f"{row.name} has no {name}")


def parameters(abouts: Iterable[Mapping[str, int | str]]) -> list[str]:
    """The columns that scripts were made from, each where it came first."""
    return list(dict.fromkeys(name for about in abouts for name in about))


def columns(made_from: Sequence[str], with_scripts: bool, of_study: bool) -> list[str]:
    """The columns of a table, in their order: the name, the faults, what the scripts were made from, and what became of them."""
    return [*(NAMED if with_scripts else NAMED[:1]), *made_from, *TOLD, *(TOLD_BY_STUDY if of_study else [])]


def write_csv(file: Writable, names: Sequence[str], records: Iterable[Mapping[str, Any]]) -> None:
    """Writes a table with these columns. What a record hasn't is empty, a share has six digits behind the point, and lines end in CR LF."""
    writer = csv.DictWriter(file, names)
    writer.writeheader()
    writer.writerows({name: f"{value:.6f}" if isinstance(value, float) else value for name, value in it.items()} for it in records)


def dataframe_of(records: Sequence[Record], names: Sequence[str]) -> "DataFrame":
    """A table as a pandas.DataFrame; a column of whole numbers with gaps stays one, of the type Int64. Raises ImportError where pandas isn't
    there."""
    try:
        pandas: Any = importlib.import_module("pandas")
    except ImportError as error:
        raise ImportError("a table wants pandas: pip install pandas, or apt install python3-pandas") from error
    frame: DataFrame = pandas.DataFrame(records, columns=list(names))
    for name in names:
        values = [it.get(name) for it in records]
        told = [it for it in values if it is not None]
        if len(told) < len(values) and told and all(type(it) is int for it in told):
            frame[name] = pandas.array(values, dtype="Int64")
    return frame


class Counts:
    """How many rows there are for each choice of the values of some columns, and of how many of them something holds. Of a census the shares
    have no interval."""

    def __init__(self, by: Sequence[str], is_census: bool = False) -> None:
        self.by, self.is_census = list(by), is_census
        self._told = ["inadmissible", "different"]
        self._counts: dict[tuple[int | str, ...], list[int]] = {}

    def add(self, row: Row) -> None:
        """Counts a row."""
        holds = [is_inadmissible(row), is_different(row)]
        if isinstance(row, StudyRow):
            self._told = ["inadmissible", "different", "masks_by_form"]
            holds.append(row.form)
        counts = self._counts.setdefault(tuple(_value(row, name) for name in self.by), [0] * (1 + len(holds)))
        for at, held in enumerate([True, *holds]):
            counts[at] += held

    @property
    def names(self) -> list[str]:
        """The columns of the table."""
        parts = ("", "_share") if self.is_census else ("", "_share", "_low", "_high")
        return [*self.by, "scripts", *(name + part for name in self._told for part in parts)]

    def records(self) -> Iterator[Record]:
        """A record for each choice, in the order of the values: counts, and beside them their shares, of a sample with Wilson's interval at
        95 %."""
        for values in sorted(self._counts, key=lambda it: [(isinstance(value, str), value) for value in it]):
            total, *counts = self._counts[values]
            found: Record = {**dict(zip(self.by, values)), "scripts": total}
            for name, count in zip(self._told, counts):
                share = Share(count, total)
                found |= {name: count, f"{name}_share": share.share}
                if not self.is_census:
                    found |= {f"{name}_low": share.low, f"{name}_high": share.high}
            yield found


def _value(row: Row, name: str) -> int | str:
    """The value of a column, which is empty where the row hasn't it."""
    try:
        return column(row, name)
    except KeyError:
        return ""
