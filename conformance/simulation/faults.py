"""The fault script (docs/MACHINE.md, "The fault script"; docs/FORMATS.md, "Fault lines" and "Order lines")."""
import re
from collections.abc import Callable, Sequence
from typing import NamedTuple

from .lines import tokens_of
from .modules import LATCHES
from .words import Address


class Event(NamedTuple):
    """Steps, modules from 1, copies from 1, latches from 0; a place is (pair, sector, location). What an event hasn't is 0."""
    word: str
    module: int
    copy: int
    twin: int
    place: Address
    first: int
    last: int
    latch: int
    mask: int
    value: int


LAST_STEP = 2_999_999
LOGIC = ("FLIP", "FORCE", "LAG", "DEAF")


def plain_decimal(text: str) -> int | None:
    """A decimal without a leading zero, or None."""
    return int(text) if re.fullmatch(r"0|[1-9][0-9]*", text) else None


def octal(text: str, digits: int, below: int) -> int | None:
    """One to so many octal digits with a value below a bound, or None."""
    if not re.fullmatch(r"[0-7]{1,%d}" % digits, text) or int(text, 8) >= below:
        return None
    return int(text, 8)


FORMS = {
    "FLIP": "m c f l i mask", "FORCE": "m c f l i mask value", "LAG": "m c f l", "DEAF": "m c f l",
    "DAMAGE": "w p ss lll t mask", "STICK": "w p ss lll f l mask value", "DEAD": "w p f l",
}
READ: dict[str, Callable[[str], int | None]] = {
    **{name: plain_decimal for name in "mcwflti"},
    "p": lambda text: octal(text, 1, 4), "ss": lambda text: octal(text, 2, 16), "lll": lambda text: octal(text, 3, 256),
}


def read_fault(text: str) -> Event | None:
    """The event of a fault line, or None."""
    tokens = tokens_of(text)
    if not tokens or tokens[0] not in FORMS:
        return None
    word, names = tokens[0], FORMS[tokens[0]].split()
    if len(tokens) != len(names) + 1:
        return None
    digits, below = (9, 2**26) if word in LOGIC else (10, 2**28)
    field = {}
    for name, token in zip(names, tokens[1:]):
        number = READ[name](token) if name in READ else octal(token, digits, below)
        if number is None:
            return None
        field[name] = number
    if not are_in_range(field):
        return None
    where = field.get("p", 0), field.get("ss", 0), field.get("lll", 0)
    return Event(word, field.get("m", 0), field.get("c", 0), field.get("w", 0), where, field.get("f", field.get("t", 0)),
                 field.get("l", field.get("t", 0)), field.get("i", 0), field.get("mask", 0), field.get("value", 0))


def are_in_range(field: dict[str, int]) -> bool:
    """Are steps, module, copy, latch and twin those of an event?"""
    first, last = field.get("f", field.get("t", 0)), field.get("l", field.get("t", 0))
    if first > last or last > LAST_STEP:
        return False
    if "m" in field and not (1 <= field["m"] <= 7 and 1 <= field["c"] <= 3):
        return False
    if "i" in field and field["i"] >= LATCHES[field["m"] - 1]:
        return False
    return field.get("w", 0) <= 1


def print_fault(event: Event) -> str:
    """The line of an event, in the one spelling of a saved text."""
    if event.word == "DAMAGE":
        return "DAMAGE %d %o %02o %03o %d %010o" % (event.twin, *event.place, event.first, event.mask)
    if event.word == "STICK":
        return "STICK %d %o %02o %03o %d %d %010o %010o" % (event.twin, *event.place, event.first, event.last, event.mask,
                                                           event.value)
    if event.word == "DEAD":
        return "DEAD %d %o %d %d" % (event.twin, event.place[0], event.first, event.last)
    line = "%s %d %d %d %d" % (event.word, event.module, event.copy, event.first, event.last)
    if event.word in ("FLIP", "FORCE"):
        line += " %d %09o" % (event.latch, event.mask)
    if event.word == "FORCE":
        line += " %09o" % event.value
    return line


class Script:
    """Which events are active at a step, in the order of the script."""

    def __init__(self, events: Sequence[Event]) -> None:
        self.events = events
        self.by_first = sorted(range(len(events)), key=lambda k: events[k].first)
        self.restart()

    def restart(self) -> None:
        """Begins before the first step."""
        self.step, self.next = -1, 0
        self.numbers: list[int] = []

    def active(self, step: int) -> list[Event]:
        """The events that are active at a step."""
        if step < self.step:
            self.restart()
        self.step = step
        self.numbers = [k for k in self.numbers if self.events[k].last >= step]
        begun = False
        while self.next < len(self.by_first) and self.events[self.by_first[self.next]].first <= step:
            if self.events[self.by_first[self.next]].last >= step:
                self.numbers.append(self.by_first[self.next])
                begun = True
            self.next += 1
        if begun:
            self.numbers.sort()
        return [self.events[k] for k in self.numbers]


def wrong_module(active: Sequence[Event]) -> int | None:
    """The lowest module with two wrong copies, or None."""
    wrong = {(event.module, event.copy) for event in active if event.word in LOGIC}
    return next((m for m in range(1, 8) if sum((m, c) in wrong for c in (1, 2, 3)) >= 2), None)


def read_order(text: str) -> str | None:
    """An order of latching as its 21 letters, or None."""
    tokens = tokens_of(text)
    if len(tokens) == 1 and sorted(tokens[0]) == list("ABCDEFGHIJKLMNOPQRSTU"):
        return tokens[0]
    return None
