"""Uplinks (docs/FORMATS.md, "Uplink")."""
import re
from collections.abc import Sequence
from typing import NamedTuple

from .faults import octal
from .lines import Image, LIMIT, Refused, find_end, is_comment, print_image, read_image, tokens_of
from .words import WORD, Address


def decimal(text: str, most: int) -> int | None:
    """One to six decimal digits with a value from 1 on, or None."""
    return int(text) if re.fullmatch("[0-9]{1,6}", text) and 1 <= int(text) <= most else None


def check_of(load: int, number: int, at: Address, words: Sequence[int]) -> int:
    """The check word of a frame."""
    return (load + number + 4096 * at[0] + 256 * at[1] + at[2] + sum(words)) % WORD


class Load(NamedTuple):
    """A load that is open: its id, its number of frames, and those that are staged, by their numbers."""
    load: int
    frames: int
    staged: dict[int, tuple[Address, list[int]]]


class Link:
    """The image, the load that is open, and the last one that was committed, with its check word."""

    def __init__(self, image: Image) -> None:
        self.words = dict(image.words)
        self.start, self.simplex = image.start, image.simplex
        self.open: Load | None = None
        self.last: tuple[int, int | None] = 0, None

    def answer(self, line: str) -> str:
        """What a message is answered."""
        if len(line) > LIMIT:
            return "NAK Form"
        tokens = tokens_of(line)
        answer = {"OPEN": self.opened, "FRAME": self.framed, "COMMIT": self.committed, "ABANDON": self.abandoned}
        told = answer[tokens[0]](tokens[1:]) if tokens and tokens[0] in answer else None
        return told or "NAK Form"

    def open_load(self, load: int) -> Load | None:
        """The open load, where this is its id."""
        return self.open if self.open is not None and self.open.load == load else None

    def opened(self, rest: list[str]) -> str | None:
        """OPEN."""
        load, count = (decimal(rest[0], 999_999), decimal(rest[1], 64)) if len(rest) == 2 else (None, None)
        if load is None or count is None:
            return None
        if self.open is not None:
            return "ACK OPEN %d" % load if self.open[:2] == (load, count) else "NAK Busy %d" % self.open.load
        if load <= self.last[0]:
            return "NAK Old %d" % self.last[0]
        self.open = Load(load, count, {})
        return "ACK OPEN %d" % load

    def framed(self, rest: list[str]) -> str | None:
        """FRAME."""
        if not 7 <= len(rest) <= 14:
            return None
        load, number = decimal(rest[0], 999_999), decimal(rest[1], 64)
        pair, sector, loc = octal(rest[2], 1, 4), octal(rest[3], 2, 16), octal(rest[4], 3, 256)
        words = [word for word in (octal(text, 9, WORD) for text in rest[5:]) if word is not None]
        if load is None or number is None or pair is None or sector is None or loc is None or len(words) < len(rest) - 5:
            return None
        return self.stage(load, number, (pair, sector, loc), words[:-1], words[-1])

    def stage(self, load: int, number: int, at: Address, words: list[int], check: int) -> str:
        """Stages a frame."""
        opened = self.open_load(load)
        if opened is None:
            return "NAK NoLoad"
        if number > opened.frames or at[2] + len(words) > 256:
            return "NAK Range"
        right = check_of(load, number, at, words)
        if check != right:
            return "NAK Check %09o" % right
        if opened.staged.get(number, (at, words)) != (at, words):
            return "NAK Differs %d" % number
        opened.staged[number] = at, words
        return "ACK FRAME %d %d" % (load, number)

    def committed(self, rest: list[str]) -> str | None:
        """COMMIT."""
        load, check = (decimal(rest[0], 999_999), octal(rest[1], 9, WORD)) if len(rest) == 2 else (None, None)
        if load is None or check is None:
            return None
        if self.last == (load, check):
            return "ACK COMMIT %d" % load
        opened = self.open_load(load)
        if opened is None:
            return "NAK NoLoad"
        _, count, staged = opened
        missing = next((number for number in range(1, count + 1) if number not in staged), None)
        if missing is not None:
            return "NAK Missing %d" % missing
        right = sum(check_of(load, number, *frame) for number, frame in staged.items()) % WORD
        if check != right:
            return "NAK Check %09o" % right
        for number in range(1, count + 1):
            at, words = staged[number]
            self.words.update({(at[0], at[1], at[2] + k): word for k, word in enumerate(words)})
        self.open, self.last = None, (load, check)
        return "ACK COMMIT %d" % load

    def abandoned(self, rest: list[str]) -> str | None:
        """ABANDON."""
        load = decimal(rest[0], 999_999) if len(rest) == 1 else None
        if load is None:
            return None
        if self.open_load(load) is None:
            return "NAK NoLoad"
        self.open = None
        return "ACK ABANDON %d" % load


def heading(lines: list[str], start: int, word: str, cause: str) -> int:
    """The index of the first line from here on that isn't skipped, which must be this word."""
    for k in range(start, len(lines)):
        if len(lines[k]) > LIMIT:
            raise Refused("BadLine", k + 1)
        if not is_comment(lines[k]):
            if tokens_of(lines[k]) != [word]:
                raise Refused(cause, k + 1)
            return k
    raise Refused(cause, len(lines) + 1)


def uplink(lines: list[str]) -> str:
    """The answers to the messages, and the patched image."""
    begin = heading(lines, 0, "IMAGE", "NoProgram")
    end = find_end(lines, begin)
    if end is None:
        raise Refused("BadSection", begin + 1)
    messages = heading(lines, end + 1, "UPLINK", "BadSection")
    link = Link(read_image(lines[begin + 1:end + 1], begin + 2))
    answers = [link.answer(line) for line in lines[messages + 1:]]
    return "".join(answer + "\n" for answer in answers) + print_image(Image(link.words, link.start, link.simplex))
