"""Decks line by line: each line missing, twice and in another's place, and each number spelled otherwise."""
import re
from collections.abc import Iterator

from simulator import answer

from . import Case, block
from .families import index, pairs, slug, spellings, swapped, text, twice, without

TITLE = "lines of decks"
SHOWS = """One deck that has every kind of line, and what `run` makes of it where one line is missing, stands twice or in another's place, or is
spelled otherwise. It stops in its first time, so what is taken ends at EXM."""

WHOLE = block("""
IMAGE
LVDC 2
START 000000016
SIMPLEX 1 3
0 00 000 000016600
7 17 377 000000001
END
START 16
SIMPLEX 0 2
PORTS
TAPE 13 5
UNPLUG 15 7
FAULTS
FLIP 2 3 9 9 0 4
FORCE 5 1 9 9 1 7 3
LAG 5 1 9 9
DEAF 6 2 9 9
DAMAGE 1 3 7 76 9 1
STICK 0 3 7 75 9 9 1 0
DEAD 0 2 9 9
ORDER
UTSRQPONMLKJIHGFEDCBA
ABCDEFGHIJKLMNOPQRSTU
RUN 1
DEBUG
GO
""").splitlines()
BEGIN, END = 1, index(WHOLE, "END")
KINDS = ["IMAGE", "LVDC 2", "START 0", "SIMPLEX 1", "0 00", "END", "START 16", "SIMPLEX 0", "PORTS", "TAPE", "UNPLUG", "FAULTS", "FLIP", "ORDER",
         "UTSR", "RUN", "DEBUG", "GO"]
DECIMALS = {"UNPLUG": (2,), "FLIP": (1, 2, 3, 4, 5), "FORCE": (1, 2, 3, 4, 5), "LAG": (1, 2, 3, 4), "DEAF": (1, 2, 3, 4), "DAMAGE": (1, 5),
            "STICK": (1, 5, 6), "DEAD": (1, 3, 4), "SIMPLEX": (1, 2)}
ONE_DIGIT = {"DAMAGE": (2,), "STICK": (2,), "DEAD": (2,)}  # octal numbers that have one digit
BLANKS = ("two blanks", "a blank before it", "a blank behind it", "a tab")


def stops(name: str, shows: str, lines: list[str]) -> Case:
    """A deck that is taken."""
    return Case(name, shows, "run", text(lines), 6, has="END STOPPED 2 EXM")


def asked(name: str, shows: str, lines: list[str]) -> Case:
    """A deck of which the simulator says whether it is taken."""
    return Case(name, shows, "run", text(lines), answer(["run"], text(lines))[0])


def each_missing() -> Iterator[Case]:
    """Each line left out."""
    for k, line in enumerate(WHOLE):
        yield asked("without-%s-%d" % (slug(line), k + 1), "`%s` is missing." % line, without(WHOLE, k))


def each_twice() -> Iterator[Case]:
    """Each line twice."""
    for k, line in enumerate(WHOLE):
        yield asked("twice-%s-%d" % (slug(line), k + 1), "`%s` stands twice." % line, twice(WHOLE, k))


def exchanged() -> Iterator[Case]:
    """Lines of each two kinds in each other's places, and neighbours that begin with one word."""
    for one, other in pairs(WHOLE, KINDS):
        yield asked("%s-and-%s" % (slug(WHOLE[one]), slug(WHOLE[other])), "`%s` and `%s` in each other's places." % (WHOLE[one], WHOLE[other]),
                    swapped(WHOLE, one, other))


def is_taken(words: list[str], what: str, k: int) -> bool:
    """Is a line behind the program taken in another spelling? `k` is the word that is spelled otherwise."""
    if what in BLANKS:
        return True
    if what.startswith("a zero"):
        return k not in DECIMALS.get(words[0], ()) and k not in ONE_DIGIT.get(words[0], ())
    return what == "a number more" and words[0] == "TAPE" or what.startswith("a digit less")


def spelled() -> Iterator[Case]:
    """Each number with a zero before it and with a digit less, and lines in other spellings: those of a program are refused, status 4; of the
    others some are taken."""
    for k, line in enumerate(WHOLE):
        if not re.search("[0-9]", line):
            continue
        for what, new, word in spellings(line):
            lines = [*WHOLE[:k], new, *WHOLE[k + 1:]]
            name, shows = "%s-in-%s" % (slug(what), slug(line)), "`%s` for `%s`: %s." % (new, line, what)
            if BEGIN < k < END and new not in ("SIMPLEX 1", "SIMPLEX 3"):
                yield Case(name, shows, "run", text(lines), 4, "REFUSED BadImageLine %d" % (k + 1))
            elif k > END and is_taken(line.split(), what, word):
                yield stops(name, shows, lines)
            elif k > END:
                yield asked(name, shows, lines)


CASES = [stops("all-lines", "The whole deck.", WHOLE), *each_missing(), *each_twice(), *exchanged(), *spelled()]
