"""Debug sessions: commands, and what each was answered."""
import re
from collections.abc import Mapping
from dataclasses import dataclass, field
from typing import Self, TypeAlias

from lvdc.ends import END, End, end_of
from lvdc.frozen import Frozen
from lvdc.lines import MODULE, NUMBER, WORD, Lines, pattern
from lvdc.reports import PLACE, Registers, mem_line, take_words
from lvdc.values import COPIES, LATCHES, Address, Place, Word

_TITLE = pattern("LVDC", "DEBUG")
_AT = pattern("AT", NUMBER, PLACE)
_LIMIT = pattern("LIMIT", NUMBER)
_BREAKS = pattern("BREAKS", r"(?:([1-9]|1[0-6])|FULL)")
_BAD = pattern("BAD", "COMMAND")
_DIS = pattern(PLACE, r"(?:([01][0-7]{4}) ([A-Z]{3}) ([0-7]{3})|\?)")
_COPY = pattern("COPY", MODULE, "1", ".*")


@dataclass(frozen=True, slots=True)
class At:
    """All that was asked for was made: the instruction times so far, and the place."""

    times: int
    place: Place

    def __str__(self) -> str:
        return f"AT {self.times} {self.place}\n"


@dataclass(frozen=True, slots=True)
class Limit:
    """The deck's count was reached first: so many instruction times were made."""

    times: int

    def __str__(self) -> str:
        return f"LIMIT {self.times}\n"


@dataclass(frozen=True, slots=True)
class Ended:
    """The machine has ended."""

    end: End

    def __str__(self) -> str:
        return f"{self.end}\n"


@dataclass(frozen=True, slots=True)
class Breaks:
    """So many breakpoints are set now; None where sixteen others are, and nothing changed."""

    count: int | None

    def __str__(self) -> str:
        return f"BREAKS {'FULL' if self.count is None else self.count}\n"


@dataclass(frozen=True, slots=True)
class Words:
    """Words by address, zeros too; None where a word can't be recovered."""

    words: Mapping[Address, Word | None]

    def __str__(self) -> str:
        return "".join(f"{mem_line(*it)}\n" for it in self.words.items())


@dataclass(frozen=True, slots=True)
class Disassembled:
    """The syllable at a place with its mnemonic and its nine address bits; None where its word can't be recovered."""

    place: Place
    syllable: int | None
    mnemonic: str = ""
    operand: int = 0

    def __str__(self) -> str:
        return f"{self.place} " + ("?" if self.syllable is None else f"{self.syllable:05o} {self.mnemonic} {self.operand:03o}")


@dataclass(frozen=True, slots=True)
class Instructions:
    """Instructions at rising locations."""

    rows: tuple[Disassembled, ...]

    def __str__(self) -> str:
        return "".join(f"{it}\n" for it in self.rows)


@dataclass(frozen=True, slots=True)
class Copies:
    """The latches of the three copies of a module, by copy and index."""

    module: int
    copies: Mapping[int, tuple[Word, ...]]

    def __str__(self) -> str:
        return "".join(" ".join([f"COPY {self.module} {copy}", *map(str, latches)]) + "\n" for copy, latches in self.copies.items())


@dataclass(frozen=True, slots=True)
class BadCommand:
    """The line is no command."""

    def __str__(self) -> str:
        return "BAD COMMAND\n"


Answer: TypeAlias = At | Limit | Ended | Breaks | Registers | Words | Instructions | Copies | BadCommand


@dataclass(frozen=True, slots=True)
class Turn:
    """A command, without its outer blanks, and its answer."""

    command: str
    answer: Answer

    def __str__(self) -> str:
        return f"> {self.command}\n{self.answer}"


@dataclass(frozen=True, slots=True, repr=False)
class Session:
    """The commands of a debug session with their answers."""

    turns: tuple[Turn, ...]
    text: str = field(repr=False, compare=False)

    @classmethod
    def read(cls, text: str) -> Self:
        """Reads a session whole."""
        lines = Lines(text)
        lines.need(_TITLE, "LVDC DEBUG")
        turns: list[Turn] = []
        while (line := lines.take()) is not None:
            if not line.startswith("> "):
                raise lines.fault("a command behind '> '")
            turns.append(Turn(line[2:], _take_answer(lines)))
        return cls(tuple(turns), text)

    @property
    def answers(self) -> tuple[Answer, ...]:
        """The answers, in the order of the commands."""
        return tuple(it.answer for it in self.turns)

    def __repr__(self) -> str:
        return f"<Session of {len(self.turns)} commands>"

    def __str__(self) -> str:
        return "LVDC DEBUG\n" + "".join(map(str, self.turns))


def _take_answer(lines: Lines) -> Answer:
    """Reads the answer of a command."""
    if (found := lines.may(_AT)) is not None:
        return At(int(found[1]), Place.read(found[2]))
    if (found := lines.may(_LIMIT)) is not None:
        return Limit(int(found[1]))
    if (found := lines.may(END)) is not None:
        return Ended(end_of(found))
    if (found := lines.may(_BREAKS)) is not None:
        return Breaks(int(found[1]) if found[1] else None)
    if lines.may(_BAD) is not None:
        return BadCommand()
    line = lines.peek() or ""
    if line.startswith("TIMES "):
        return Registers.take(lines)
    if line.startswith("MEM "):
        words = Frozen(dict(take_words(lines)))
        return Words(words) if words else _refuse(lines)
    if (found := _COPY.fullmatch(line)) is not None:
        return _take_copies(lines, int(found[1]))
    rows = tuple(map(_disassembled, lines.each(_DIS)))
    return Instructions(rows) if rows else _refuse(lines)


def _take_copies(lines: Lines, module: int) -> Copies:
    """The latches of a module's copies."""
    copies: dict[int, tuple[Word, ...]] = {}
    for copy in COPIES:
        form = pattern("COPY", str(module), str(copy), *[WORD] * len(LATCHES[module]))
        copies[copy] = tuple(map(Word.read, lines.need(form, f"COPY {module} {copy}").groups()))
    return Copies(module, Frozen(copies))


def _disassembled(found: re.Match[str]) -> Disassembled:
    """A row of DIS."""
    place = Place.read(found[1])
    return Disassembled(place, int(found[2], 8), found[3], int(found[4], 8)) if found[2] else Disassembled(place, None)


def _refuse(lines: Lines) -> Answer:
    """The next line is no answer."""
    raise lines.unread("an answer")
