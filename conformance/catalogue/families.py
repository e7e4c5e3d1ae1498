"""Families of cases over the lines of one text: a line left out, a line twice, two lines in each other's places, and a line in other spellings."""
import re
from collections.abc import Iterator, Sequence


def slug(line: str) -> str:
    """What stands for a line in a name."""
    return "-".join(re.findall("[a-z0-9]+", line.lower()))


def text(lines: Sequence[str]) -> str:
    """The text of lines."""
    return "".join(line + "\n" for line in lines)


def index(lines: Sequence[str], start: str) -> int:
    """The index of the first line that begins so."""
    return next(k for k, line in enumerate(lines) if line.startswith(start))


def without(lines: Sequence[str], k: int) -> list[str]:
    """The lines without one."""
    return [*lines[:k], *lines[k + 1:]]


def twice(lines: Sequence[str], k: int) -> list[str]:
    """The lines with one of them twice."""
    return [*lines[:k + 1], *lines[k:]]


def swapped(lines: Sequence[str], one: int, other: int) -> list[str]:
    """The lines with two in each other's places."""
    changed = list(lines)
    changed[one], changed[other] = changed[other], changed[one]
    return changed


def pairs(lines: Sequence[str], kinds: Sequence[str]) -> Iterator[tuple[int, int]]:
    """The first lines of each two kinds, and neighbours that begin with one word."""
    firsts = [index(lines, kind) for kind in kinds]
    for k, one in enumerate(firsts):
        for other in firsts[k + 1:]:
            yield one, other
    for k, line in enumerate(lines[1:]):
        if line.split()[0] == lines[k].split()[0]:
            yield k, k + 1


def spellings(line: str) -> Iterator[tuple[str, str, int]]:
    """A line in other spellings: what is other, the new line, and the index of the word that it is about."""
    words = line.split()
    last = max(k for k, word in enumerate(words) if word.isdigit())

    def having(k: int, *instead: str) -> str:
        return " ".join([*words[:k], *instead, *words[k + 1:]])

    for k, word in enumerate(words):
        if word.isdigit():
            yield "a zero before number %d" % k, having(k, "0" + word), k
        if word.isdigit() and len(word) > 1:
            yield "a digit less in number %d" % k, having(k, word[1:]), k
    for what, first in (("a plus", "+"), ("a minus", "-"), ("a letter", "x")):
        yield what + " in the last number", having(last, first + words[last][len(words[last]) > 1:]), last
    if len(words[last]) > 1:
        yield "an 8 in the last number", having(last, words[last][:-1] + "8"), last
    yield "the last number missing", having(last), last
    yield "a number more", line + " 0", last
    yield "two blanks", having(last, " " + words[last]), last
    yield "a blank before it", " " + line, 0
    yield "a blank behind it", line + " ", last
    yield "a tab", line.replace(" ", "\t", 1), 0
    if line.lower() != line:
        yield "small letters", line.lower(), 0
