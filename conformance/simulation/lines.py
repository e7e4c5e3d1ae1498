"""Lines, tokens, images and refusals (docs/FORMATS.md, "Bytes, lines and numbers" and "Image text")."""
import re
from collections.abc import Mapping, Set
from typing import NoReturn

from .words import Address, Hop, WORD, hop_of, word_of

LIMIT = 120
BLANKS = " \t"


class Refused(Exception):
    """A refusal: its cause, its line, its status."""

    def __init__(self, cause: str, line: int, status: int = 2) -> None:
        super().__init__(cause)
        self.cause, self.line, self.status = cause, line, status

    def text(self) -> str:
        """The text that is answered."""
        return "REFUSED %s %d\n" % (self.cause, self.line)


def lines_of(text: str) -> list[str]:
    """The lines: each ends with LF, and one CR just before it is dropped. What follows the last LF is a line unless it is empty."""
    pieces = text.split("\n")
    last = pieces.pop()
    lines = [piece[:-1] if piece.endswith("\r") else piece for piece in pieces]
    return lines + [last] if last else lines


def tokens_of(line: str) -> list[str]:
    """The pieces between blanks."""
    return re.findall(r"[^ \t]+", line)


def is_comment(line: str) -> bool:
    """Is a line blank, or does it begin with an asterisk?"""
    return line.startswith("*") or not line.strip(BLANKS)


def find_end(lines: list[str], after: int) -> int | None:
    """The index of the first line after this one that is END but for blanks around it, or None."""
    return next((k for k in range(after + 1, len(lines)) if lines[k].strip(BLANKS) == "END"), None)


# ---- images


class Image:
    """Words by address; of version 2 a start constant too, and the simplex pairs."""

    def __init__(self, words: Mapping[Address, int], start: Hop | None = None, simplex: Set[int] = frozenset()) -> None:
        self.words, self.start, self.simplex = words, start, simplex


def spot(at: Address) -> str:
    """An address as it is printed."""
    return "%o %02o %03o" % at


def print_image(image: Image) -> str:
    """The text of an image."""
    lines = ["LVDC 1"]
    if image.start is not None:
        lines = ["LVDC 2", "START %09o" % word_of(image.start)]
        if image.simplex:
            lines.append("SIMPLEX" + "".join(" %d" % pair for pair in sorted(image.simplex)))
    lines += ["%s %09o" % (spot(at), image.words[at]) for at in sorted(image.words)]
    return "\n".join(lines + ["END", ""])


def simplex_line(line: str) -> frozenset[int] | None:
    """The pairs of an image's SIMPLEX line, or None where the line hasn't that form."""
    found = re.fullmatch(r"SIMPLEX((?: [0-3])+)", line)
    pairs = found[1].split() if found else []
    return frozenset(int(pair) for pair in pairs) if pairs and pairs == sorted(set(pairs)) else None


def word_line(line: str, simplex: Set[int]) -> tuple[Address, int] | None:
    """The address and the number of a word line, or None."""
    found = re.fullmatch(r"([0-7]) ([0-7]{2}) ([0-7]{3}) ([0-7]{9})", line)
    if not found:
        return None
    bank, sector, loc, word = (int(field, 8) for field in found.groups())
    if sector > 15 or loc > 255 or (bank > 3 and bank - 4 not in simplex):
        return None
    return (bank, sector, loc), word


def read_image(lines: list[str], first: int) -> Image:
    """The image of these lines, the first of which has this number."""
    def refuse(cause: str, index: int) -> NoReturn:
        raise Refused(cause, first + index, 4)

    if not lines or lines[0] not in ("LVDC 1", "LVDC 2"):
        refuse("BadImageLine", 0)
    at, start = 1, None
    simplex: frozenset[int] = frozenset()
    words: dict[Address, int] = {}
    last: Address | None = None
    if lines[0] == "LVDC 2":
        if len(lines) < 2 or not re.fullmatch(r"START [0-7]{9}", lines[1]):
            refuse("BadImageLine", 1)
        number = int(lines[1][6:], 8)
        if number >= WORD or number % 2:
            refuse("BadWord", 1)
        start, at = hop_of(number), 2
        pairs = simplex_line(lines[2]) if len(lines) > 2 else None
        if pairs:
            simplex, at = pairs, 3
    while at < len(lines) and lines[at] != "END":
        read = word_line(lines[at], simplex)
        if read is None:
            refuse("BadImageLine", at)
        if last is not None and read[0] <= last:
            refuse("AddressOrder", at)
        if read[1] >= WORD:
            refuse("BadWord", at)
        last, words[read[0]] = read[0], read[1]
        at += 1
    if at == len(lines):
        refuse("BadImageLine", at)
    if at + 1 < len(lines):
        refuse("BadImageLine", at + 1)
    return Image(words, start, simplex)


DEFAULT_START = Hop(0, 0, 0, 0, 0, 1, 1, 1)
