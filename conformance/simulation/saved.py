"""Saved texts (docs/FORMATS.md, "Saved text")."""
import re
from collections.abc import Callable
from typing import NoReturn

from .decks import MOST_EVENTS, MOST_ORDERS, MOST_TIMES, Deck
from .devices import Device, at_port, unplug
from .ends import Opening
from .faults import Event, Script, plain_decimal, print_fault, read_fault, read_order
from .lines import DEFAULT_START, Refused, simplex_line, spot
from .modules import LATCHES, Latches, bus_of
from .report import log_lines, repair_lines, text_of
from .voted import Voted, voted
from .words import WORD, ZERO, Address

PLAIN_ORDER = "ABCDEFGHIJKLMNOPQRSTU"

# ---- what is printed


def print_saved(machine: Voted, deck: Deck) -> str:
    """The saved text of a machine that stands between two times of a deck."""
    lines = ["LVDC SAVE 1", "STEPS %d" % machine.steps, "COUNT %d" % deck.count]
    if machine.opening.simplex:
        lines.append("SIMPLEX" + "".join(" %d" % pair for pair in sorted(machine.opening.simplex)))
    for m, copies in enumerate(machine.copies):
        for c, state in enumerate(copies):
            lines.append("COPY %d %d %d %s" % (m + 1, c + 1, machine.differed[m][c], " ".join("%09o" % latch for latch in state)))
    lines.append("SELECT %d %d %d %d" % tuple(machine.twins.selected))
    lines += ["CELL %d %s %010o" % (twin, spot(where), cell) for (twin, where), cell in sorted(machine.twins.cells.items())
              if cell != ZERO]
    lines += ["WORD %s %09o" % (spot(at), word) for at, word in sorted(machine.words.items()) if word]
    lines += log_lines(machine.log) + repair_lines(machine.repairs)
    lines += ["STATE %03o %09o" % (device.port, word) for device in sorted(machine.devices, key=lambda device: device.port)
              for word in device.words]
    lines += ["UNPLUG %03o %d" % unplugged for unplugged in machine.opening.unplugs]
    lines += [print_fault(event) for event in machine.script.events]
    return text_of(lines + (deck.orders or [PLAIN_ORDER]) + ["END"])


# ---- what is read


def begins_saved(lines: list[str]) -> bool:
    """Whether the first line is the title of a saved text."""
    return lines[:1] == ["LVDC SAVE 1"]


CELL = re.compile(r"CELL ([01]) ([0-3]) ([0-7]{2}) ([0-7]{3}) ([0-7]{10})")
KEPT = re.compile(r"WORD ([0-7]) ([0-7]{2}) ([0-7]{3}) ([0-7]{9})")
LOGGED = re.compile(r"(IN|OUT) (\d+) ([0-7]{3}) ([0-7]{9})")
REPAIR = re.compile(r"REPAIR (\d+) ([0-7]) ([0-7]{2}) ([0-7]{3}) ([01])( SWITCH)?")
STATE = re.compile(r"STATE ([0-7]{3}) ([0-7]{9})")
UNPLUG = re.compile(r"UNPLUG ([0-7]{3}) (\d+)")


class Reader:
    """Reads a saved text into a voted machine, line by line; the first fault is the refusal."""

    def __init__(self, lines: list[str], devices: list[Device]) -> None:
        self.lines, self.devices, self.at = lines, devices, 0
        self.steps = self.count = 0
        self.simplex: frozenset[int] = frozenset()
        self.machine = Voted(Opening({}, frozenset(), DEFAULT_START, []), [], devices, True)
        self.states: list[tuple[int, int, int]] = []
        self.unplugs: list[tuple[int, int]] = []
        self.script: list[Event] = []
        self.orders: list[str] = []

    def refuse(self, cause: str = "BadSave") -> NoReturn:
        """Refuses the text at this line."""
        raise Refused(cause, self.at + 1)

    def line(self) -> str:
        """The line at hand."""
        if self.at == len(self.lines):
            self.refuse()
        return self.lines[self.at]

    def need(self, holds: bool, cause: str = "BadSave") -> None:
        """Refuses the text where something doesn't hold."""
        if not holds:
            self.refuse(cause)

    def number(self, word: str, most: int) -> int:
        """The decimal of a line of this word and one number."""
        found = re.fullmatch(word + " (\\S+)", self.line())
        number = plain_decimal(found[1]) if found else None
        if number is None or number > most:
            self.refuse()
        return number

    def read(self) -> Voted:
        """The machine that the text means."""
        self.need(self.line() == "LVDC SAVE 1")
        self.at += 1
        self.steps = self.number("STEPS", 3 * MOST_TIMES)
        self.need(self.steps % 3 == 0)
        self.at += 1
        self.count = self.number("COUNT", MOST_TIMES)
        self.need(self.steps <= 3 * self.count)
        self.at += 1
        self.simplex = simplex_line(self.line()) or frozenset()
        self.at += bool(self.simplex)
        self.machine = Voted(Opening({}, self.simplex, DEFAULT_START, self.unplugs), [], self.devices, True)
        self.machine.steps = self.steps
        self.read_copies()
        self.read_select()
        self.read_rising(CELL, self.cell)
        self.read_rising(KEPT, self.word)
        self.read_lists()
        return self.machine

    def read_copies(self) -> None:
        """The 21 lines COPY."""
        for m in range(7):
            states: list[Latches] = []
            for c in range(3):
                states.append(self.copy(m, c))
                if m in (0, 6):
                    self.need(self.is_whole(states))
                self.at += 1
            self.machine.copies[m] = states
        self.machine.votes = bus_of([voted(one, two, three) for one, two, three in self.machine.copies])

    def copy(self, m: int, c: int) -> Latches:
        """The latches of a line COPY."""
        found = re.fullmatch(r"COPY %d %d (\S+)((?: [0-7]{9}){%d})" % (m + 1, c + 1, LATCHES[m]), self.line())
        count = plain_decimal(found[1]) if found else None
        if found is None or count is None or count > self.steps:
            self.refuse()
        latches = tuple(int(text, 8) for text in found[2].split())
        self.need(all(latch < WORD for latch in latches))
        self.machine.differed[m][c] = count
        return latches

    @staticmethod
    def is_whole(states: list[Latches]) -> bool:
        """The copies read so far don't make latch 0 of the vote other than 0 modulo 4."""
        firsts = [state[0] % 4 for state in states]
        pairs = [(one, two) for k, one in enumerate(firsts) for two in firsts[:k]]
        return all(one & two == 0 for one, two in pairs)

    def read_select(self) -> None:
        """The line SELECT."""
        self.need(re.fullmatch("SELECT( [01]){4}", self.line()) is not None)
        self.machine.twins.selected = [int(text) for text in self.line().split()[1:]]
        self.at += 1

    def read_rising(self, form: re.Pattern[str], keep: Callable[[list[int]], tuple[int, ...]]) -> None:
        """Lines of this form, whose keys rise."""
        last: tuple[int, ...] = ()
        while found := form.fullmatch(self.line()):
            key = keep([int(text, 8) for text in found.groups()])
            self.need(last < key)
            last = key
            self.at += 1

    def is_place(self, at: Address) -> bool:
        """Is an address there?"""
        bank, sector, loc = at
        return sector < 16 and loc < 256 and (bank < 4 or bank - 4 in self.simplex)

    def cell(self, numbers: list[int]) -> tuple[int, ...]:
        """A line CELL."""
        twin, pair, sector, loc, cell = numbers
        self.need(sector < 16 and loc < 256 and cell < 2**28 and cell != ZERO)
        self.machine.twins.keep(twin, (pair, sector, loc), cell)
        return twin, pair, sector, loc

    def word(self, numbers: list[int]) -> tuple[int, ...]:
        """A line WORD."""
        bank, sector, loc, word = numbers
        self.need(self.is_place((bank, sector, loc)) and 0 < word < WORD)
        self.machine.words[bank, sector, loc] = word
        return bank, sector, loc

    def read_lists(self) -> None:
        """The log, the repairs, the states, the unplugged devices, the script, the orders, END."""
        for read in (self.logged, self.repair, self.state, self.unplug, self.fault, self.order):
            while read(self.line()):
                self.at += 1
        self.need(self.line() == "END" and bool(self.orders))
        self.at += 1
        self.need(self.at == len(self.lines))
        self.machine.script = Script(self.script)
        if self.steps:
            self.machine.twins.in_force = [event for event in self.machine.script.active(self.steps - 1)
                                           if event.word in ("STICK", "DEAD")]

    def logged(self, line: str) -> bool:
        """A line IN or OUT."""
        found = LOGGED.fullmatch(line)
        if not found:
            return False
        time, port, word = plain_decimal(found[2]), int(found[3], 8), int(found[4], 8)
        before = self.machine.log[-1][0] if self.machine.log else 0
        if time is None or not before <= time < self.steps // 3 or port > 255 or word >= WORD:
            self.refuse()
        self.machine.log.append((time, port, int(found[1] == "IN"), word))
        return True

    def repair(self, line: str) -> bool:
        """A line REPAIR."""
        found = REPAIR.fullmatch(line)
        if not found:
            return False
        step, at = plain_decimal(found[1]), (int(found[2], 8), int(found[3], 8), int(found[4], 8))
        before = self.machine.repairs[-1][0] if self.machine.repairs else -1
        if step is None or not before < step < self.steps or not self.is_place(at):
            self.refuse()
        self.machine.repairs.append((step, at, int(found[5]), found[6] is not None))
        return True

    def state(self, line: str) -> bool:
        """A line STATE."""
        found = STATE.fullmatch(line)
        if not found:
            return False
        port, word = (int(text, 8) for text in found.groups())
        self.need(port < 256 and word < WORD and (not self.states or self.states[-1][0] <= port))
        device = at_port(self.devices, port)
        twice = device is not None and device.kind == "Latch" and bool(self.states) and self.states[-1][0] == port
        self.need(not twice)
        self.need(device is not None and device.kind != "Ticker", "NoDevice")
        self.states.append((port, word, self.at))
        return True

    def unplug(self, line: str) -> bool:
        """A line UNPLUG."""
        found = UNPLUG.fullmatch(line)
        if not found:
            return False
        port, time = int(found[1], 8), plain_decimal(found[2])
        if port > 255 or time is None or time > MOST_TIMES:
            self.refuse()
        known = at_port(self.devices, port) is not None and all(port != other for other, _ in self.unplugs)
        self.need(known, "NoDevice")
        held = [at for other, _, at in self.states if other == port]
        if time < self.steps // 3 and held:
            raise Refused("NoDevice", held[0] + 1)
        self.unplugs.append((port, time))
        return True

    def fault(self, line: str) -> bool:
        """A fault line."""
        event = read_fault(line)
        if event is None or print_fault(event) != line:
            return False
        self.need(len(self.script) < MOST_EVENTS)
        self.script.append(event)
        return True

    def order(self, line: str) -> bool:
        """An order."""
        if read_order(line) != line:
            return False
        self.need(len(self.orders) < MOST_ORDERS)
        self.orders.append(line)
        return True


def read_saved(lines: list[str], devices: list[Device]) -> tuple[Voted, int]:
    """The machine that a saved text means, its devices with their words; and the deck's count."""
    reader = Reader(lines, devices)
    machine = reader.read()
    for port, time in reader.unplugs:
        if time < machine.times:
            unplug(devices, [(port, time)], time)
    for port, word, _ in reader.states:
        device = at_port(devices, port)
        if device is not None and device.kind == "Tape":
            device.supply(word)
        elif device is not None:
            device.write(word)
    return machine, reader.count
