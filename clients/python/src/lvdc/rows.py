"""The rows of campaigns and studies: what became of a program under each fault script."""
import functools
import itertools
import re
from collections.abc import Iterable, Iterator, Sequence
from dataclasses import dataclass, field, replace
from typing import Self, TypeAlias

from lvdc.ends import VERDICT, Verdict, verdict_of
from lvdc.lines import ADDRESS, NUMBER, Lines, pattern, rows_first, uncaptured
from lvdc.scripts import Script
from lvdc.values import Address

_NAME = "([A-Z][A-Z0-9]{0,7})"
_CAMPAIGN_ROW = re.compile(f"^SCRIPT {_NAME} ({VERDICT}) (SAME|DIFFERS)\n", re.MULTILINE)
_CAMPAIGN_TOTAL = pattern("CAMPAIGN", NUMBER, "ADMISSIBLE", NUMBER, "SAME", NUMBER)
_OUTCOME = uncaptured(f"SAME|DIFFERS (?:END|PORT {NUMBER}|REGISTERS|WORDS {ADDRESS})")
_STUDY_ROW = re.compile(
    f"^SCRIPT {_NAME} ({VERDICT}) ({_OUTCOME}) COPIES {NUMBER} REPAIRS {NUMBER} (-|{uncaptured(NUMBER)}) FORM (YES|NO)\n", re.MULTILINE)
_STUDY_TOTAL = pattern("STUDY", NUMBER, "ADMISSIBLE", NUMBER, "SAME", NUMBER, "FORM", NUMBER)


@dataclass(frozen=True, slots=True)
class Same:
    """The run through every fault comes to what the fault-free run comes to."""

    def __str__(self) -> str:
        return "SAME"


@dataclass(frozen=True, slots=True)
class Differs:
    """It doesn't. `what` is END, PORT (with the time of the first exchange that differs), REGISTERS, WORDS (with the least address), or
    None in a campaign, which doesn't tell it."""

    what: str | None = None
    time: int | None = None
    address: Address | None = None

    def __str__(self) -> str:
        at = self.time if self.address is None else self.address
        return " ".join(["DIFFERS", *([self.what] if self.what else []), *([] if at is None else [str(at)])])


Outcome: TypeAlias = Same | Differs
SAME, DIFFERS = Same(), Differs()


@dataclass(frozen=True, slots=True)
class CampaignRow:
    """What became of a script: its verdict, and whether the outcome is the same. `known_script` is there where it was asked for by objects,
    and `script` is it."""

    name: str
    verdict: Verdict
    outcome: Outcome
    known_script: Script | None = field(default=None, repr=False, compare=False)

    def __str__(self) -> str:
        return f"SCRIPT {self.name} {self.verdict} {self.outcome}"

    @property
    def script(self) -> Script:
        """The script. Raises LookupError where the row was read from a text alone."""
        return _known(self)

    def with_script(self, script: Script | None) -> Self:
        """The same row with its script."""
        return replace(self, known_script=script)


@dataclass(frozen=True, slots=True)
class StudyRow:
    """The same with, of the run through every fault, the sum over all copies of the steps in which they differed, the number of its
    repairs and the step of the first; and whether the script masks by form."""

    name: str
    verdict: Verdict
    outcome: Outcome
    copies: int
    repairs: int
    first_repair: int | None
    form: bool
    known_script: Script | None = field(default=None, repr=False, compare=False)

    def __str__(self) -> str:
        first = "-" if self.first_repair is None else self.first_repair
        return (f"SCRIPT {self.name} {self.verdict} {self.outcome} COPIES {self.copies} REPAIRS {self.repairs} {first} "
                f"FORM {'YES' if self.form else 'NO'}")

    @property
    def script(self) -> Script:
        """The script. Raises LookupError where the row was read from a text alone."""
        return _known(self)

    def with_script(self, script: Script | None) -> Self:
        """The same row with its script."""
        return replace(self, known_script=script)


Row: TypeAlias = CampaignRow | StudyRow


@dataclass(frozen=True, slots=True, repr=False)
class CampaignRows:
    """The text of a campaign: its rows, and the total of scripts, of admissible ones and of those with the same outcome."""

    rows: tuple[CampaignRow, ...]
    scripts: int
    admissible: int
    same: int
    text: str = field(repr=False, compare=False)

    @classmethod
    def read(cls, text: str, scripts: Sequence[Script] = ()) -> Self:
        """Reads the rows of a campaign, whose scripts may be given."""
        found, lines = rows_first(text, _CAMPAIGN_ROW)
        rows = tuple(map(_campaign_row, found, _known_scripts(len(found), scripts, lines)))
        total = lines.need(_CAMPAIGN_TOTAL, "a row or the total")
        lines.end()
        return cls(rows, int(total[1]), int(total[2]), int(total[3]), text)

    def __repr__(self) -> str:
        return f"<CampaignRows: {self.scripts} scripts, {self.admissible} admissible, {self.same} the same>"

    def __str__(self) -> str:
        return "".join(f"{it}\n" for it in self.rows) + f"CAMPAIGN {self.scripts} ADMISSIBLE {self.admissible} SAME {self.same}\n"


@dataclass(frozen=True, slots=True, repr=False)
class StudyRows:
    """The text of a study: its rows, and the total of scripts, of admissible ones, of those with the same outcome and of those that mask
    by form."""

    rows: tuple[StudyRow, ...]
    scripts: int
    admissible: int
    same: int
    form: int
    text: str = field(repr=False, compare=False)

    @classmethod
    def read(cls, text: str, scripts: Sequence[Script] = ()) -> Self:
        """Reads the rows of a study, whose scripts may be given."""
        found, lines = rows_first(text, _STUDY_ROW)
        rows = tuple(map(_study_row, found, _known_scripts(len(found), scripts, lines)))
        total = lines.need(_STUDY_TOTAL, "a row or the total")
        lines.end()
        return cls(rows, int(total[1]), int(total[2]), int(total[3]), int(total[4]), text)

    def __repr__(self) -> str:
        return f"<StudyRows: {self.scripts} scripts, {self.admissible} admissible, {self.same} the same, {self.form} masking by form>"

    def __str__(self) -> str:
        return ("".join(f"{it}\n" for it in self.rows)
                + f"STUDY {self.scripts} ADMISSIBLE {self.admissible} SAME {self.same} FORM {self.form}\n")


def _known(row: Row) -> Script:
    """The script of a row."""
    if row.known_script is None:
        raise LookupError(f"the script of {row.name} isn't known here: with_script says which it is")
    return row.known_script


def each_row(text: str) -> Iterator[Row]:
    """The rows of a campaign or of a study, one after another, for texts of any length; the last line is their total."""
    is_study = _STUDY_ROW.match(text) is not None
    form = _STUDY_ROW if is_study else _CAMPAIGN_ROW
    at = count = 0
    while (found := form.match(text, at)) is not None:
        yield _study_row(found.groups(), None) if is_study else _campaign_row(found.groups(), None)
        at, count = found.end(), count + 1
    lines = Lines(text[at:], count)
    if lines.may(_STUDY_TOTAL) is None:
        lines.need(_CAMPAIGN_TOTAL, "a row or the total")
    lines.end()


def _known_scripts(count: int, scripts: Sequence[Script], lines: Lines) -> Iterable[Script | None]:
    """The script of each row where scripts are given, which are then as many."""
    if scripts and len(scripts) != count:
        raise lines.unread(f"a row for each of {len(scripts)} scripts")
    return scripts or itertools.repeat(None, count)


def _campaign_row(parts: tuple[str, ...], script: Script | None) -> CampaignRow:
    """A row of a campaign."""
    name, verdict, outcome = parts
    return CampaignRow(name, verdict_of(verdict), SAME if outcome == "SAME" else DIFFERS, script)


def _study_row(parts: tuple[str, ...], script: Script | None) -> StudyRow:
    """A row of a study."""
    name, verdict, outcome, copies, repairs, first, form = parts
    return StudyRow(name, verdict_of(verdict), _outcome(outcome), int(copies), int(repairs), None if first == "-" else int(first), form == "YES",
                    script)


@functools.lru_cache(maxsize=1 << 12)
def _outcome(text: str) -> Outcome:
    """The outcome of a row of a study."""
    if text == "SAME":
        return SAME
    _, what, *at = text.split(" ", 2)
    if not at:
        return Differs(what)
    return Differs(what, int(at[0])) if what == "PORT" else Differs(what, None, Address.read(at[0]))
