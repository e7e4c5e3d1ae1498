"""Reading a text line by line, with nothing left over.

A text of the program is bytes. Here it is a str in which each byte that is no UTF-8 stands as a lone surrogate (`surrogateescape`),
so that no byte is lost either way. A line ends with LF and with nothing else."""
import operator
import re
from collections.abc import Callable, Iterator, Sequence
from typing import Any, Protocol, TypeVar

from lvdc.errors import Error

ENCODING, ERRORS = "utf-8", "surrogateescape"

# Parts of lines, as they are printed: each is one group of a pattern.
NUMBER = r"(0|[1-9][0-9]*)"
WORD = r"([0-3][0-7]{8})"
CELL = r"([01][0-7]{9})"
PORT = r"([0-3][0-7]{2})"
ADDRESS = r"([0-7] (?:0[0-7]|1[0-7]) [0-3][0-7]{2})"
MODULE = r"([1-7])"
COPY = r"([1-3])"
TWIN = r"([01])"


def decode(text: bytes) -> str:
    """The bytes of a text as a str, without a loss."""
    return text.decode(ENCODING, ERRORS)


def encode(text: str) -> bytes:
    """The bytes of a text that `decode` gave, or of one that was made here."""
    return text.encode(ENCODING, ERRORS)


def pattern(*parts: str) -> re.Pattern[str]:
    """A pattern for a whole line: its parts with single spaces between them."""
    return re.compile(" ".join(parts))


def uncaptured(form: str) -> str:
    """The same form without groups."""
    return re.sub(r"\((?!\?)", "(?:", form)


def is_all(form: re.Pattern[str], text: str) -> bool:
    """Whether a text is nothing but what has this form, one behind the other. The form has no groups."""
    return not text or sum(map(len, form.findall(text))) == len(text)


def rises(keys: Sequence[Any]) -> bool:
    """Whether each comes before the next."""
    return all(map(operator.lt, keys, keys[1:]))


def tokens(line: str) -> list[str]:
    """The words of a line of an input, between blanks: spaces and tabs, and nothing else."""
    return [it for it in re.split("[ \t]+", line) if it]


def sections(text: str) -> list[str]:
    """The lines of an input: a CR before an LF is dropped, and the last line may lack its LF."""
    *lines, last = text.split("\n")
    return [it.removesuffix("\r") for it in lines] + ([last] if last else [])


class Ordered(Protocol):
    """What stands in an order."""

    def __lt__(self, other: Any, /) -> bool:
        """Whether it comes before the other."""


Key = TypeVar("Key", bound=Ordered)


class Unread(Error, ValueError):
    """A text that isn't one of its kind: `number` is that of the line, from 1, where it shows, and `line` is that line."""

    def __init__(self, number: int, line: str, wanted: str) -> None:
        super().__init__(f"line {number} is {line[:120]!r}, where {wanted} is due")
        self.number, self.line, self.wanted = number, line, wanted


class Lines:
    """The lines of a text that the program wrote, taken one after another; so many lines stand before them."""

    def __init__(self, text: str, before: int = 0) -> None:
        self._lines = text.split("\n")
        self._next, self._before = 0, before
        last = self._lines.pop()
        if last:
            raise Unread(before + len(self._lines) + 1, last, "a line that ends with LF")

    @property
    def is_done(self) -> bool:
        """Whether no line is left."""
        return self._next == len(self._lines)

    def peek(self) -> str | None:
        """The next line, which stays; none where no line is left."""
        return None if self.is_done else self._lines[self._next]

    def take(self) -> str | None:
        """The next line, which is taken; none where no line is left."""
        line = self.peek()
        self._next += line is not None
        return line

    def may(self, form: re.Pattern[str]) -> re.Match[str] | None:
        """The next line, which is taken where it has this form."""
        line = self.peek()
        found = None if line is None else form.fullmatch(line)
        self._next += found is not None
        return found

    def need(self, form: re.Pattern[str], wanted: str) -> re.Match[str]:
        """The next line, which has this form."""
        found = self.may(form)
        if found is None:
            raise self.unread(wanted)
        return found

    def each(self, form: re.Pattern[str]) -> Iterator[re.Match[str]]:
        """The lines from the next one on that have this form."""
        while (found := self.may(form)) is not None:
            yield found

    def rising(self, form: re.Pattern[str], key: Callable[[re.Match[str]], Key]) -> Iterator[tuple[Key, re.Match[str]]]:
        """The same with their keys, which rise strictly."""
        last: Key | None = None
        for found in self.each(form):
            this = key(found)
            if last is not None and not last < this:
                raise self.fault("a line that comes after the one before it")
            yield this, found
            last = this

    def end(self) -> None:
        """Wants that no line is left."""
        if not self.is_done:
            raise self.unread("the end of the text")

    def unread(self, wanted: str) -> Unread:
        """The next line is at fault."""
        return Unread(self._before + self._next + 1, self.peek() or "", wanted)

    def fault(self, wanted: str) -> Unread:
        """The line that was taken last is at fault."""
        return Unread(self._before + self._next, self._lines[self._next - 1], wanted)


def rows_first(text: str, row: re.Pattern[str]) -> tuple[list[tuple[str, ...]], Lines]:
    """The parts of the rows of a text that begins with any number of them, and the lines behind these. The pattern has groups, and is that of
    a whole line with its LF; all lines but the last are read in one pass, where they are rows."""
    last = text.rfind("\n", 0, -1) + 1
    if row.match(text, last) is None:
        found = row.findall(text, 0, last)
        if len(found) == text.count("\n", 0, last):
            return found, Lines(text[last:], len(found))
    found, at = [], 0
    while (this := row.match(text, at)) is not None:
        found.append(this.groups())
        at = this.end()
    return found, Lines(text[at:], len(found))


def first_fault(text: str, need: Callable[[Lines], None]) -> Unread:
    """The line at fault of a text that isn't what `need` passes over, from its first line to its last."""
    try:
        lines = Lines(text)
        need(lines)
        lines.end()
    except Unread as fault:
        return fault
    raise AssertionError("no line of the text is at fault")
