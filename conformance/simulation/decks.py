"""Decks (docs/FORMATS.md, "Decks"), and the deck of a soak run."""
import re
from collections.abc import Sequence

from .assembler import NAME, Assembly, assemble
from .devices import Device, at_port
from .ends import Opening
from .faults import Event, octal, plain_decimal, read_fault, read_order
from .lines import DEFAULT_START, LIMIT, Refused, find_end, is_comment, read_image, tokens_of
from .words import WORD, Hop, hop_of

SECTIONS = ["START", "SIMPLEX", "PORTS", "FAULTS", "ORDER", "RUN", "DEBUG"]
MOST_TIMES, MOST_EVENTS, MOST_ORDERS = 1_000_000, 65_536, 16


class Deck:
    """What the sections of a deck have said."""

    def __init__(self) -> None:
        self.opening = Opening({}, frozenset(), DEFAULT_START, [])
        self.start: Hop | str | None = None
        self.simplex: frozenset[int] = frozenset()
        self.supplies: list[tuple[int, int]] = []
        self.unplugs: list[tuple[int, int]] = []
        self.script: list[Event] = []
        self.orders: list[str] = []
        self.count = 0
        self.commands: list[str] = []
        self.headings: dict[str, int] = {}


def program_of(lines: list[str]) -> tuple[int, int]:
    """The index of the line IMAGE or SOURCE, and that of the program's END."""
    for k, line in enumerate(lines):
        if len(line) > LIMIT:
            raise Refused("BadLine", k + 1)
        if not is_comment(line):
            break
    else:
        raise Refused("NoProgram", len(lines) + 1)
    if tokens_of(lines[k]) not in (["IMAGE"], ["SOURCE"]):
        raise Refused("NoProgram", k + 1)
    end = find_end(lines, k)
    if end is None:
        raise Refused("BadSection", k + 1)
    return k, end


def read_deck(lines: list[str], devices: Sequence[Device], debugging: bool = False) -> Deck:
    """The deck that lines mean."""
    begin, end = program_of(lines)
    is_source = tokens_of(lines[begin]) == ["SOURCE"]
    deck = Deck()
    section = -1
    for k in range(end + 1, len(lines)):
        section = read_line(deck, lines[k], k + 1, section, is_source, devices)
    if "RUN" not in deck.headings or (debugging and "DEBUG" not in deck.headings):
        raise Refused("BadSection", len(lines) + 1)
    finish(deck, lines[begin + 1:end + 1], begin + 2, is_source)
    return deck


def read_line(deck: Deck, line: str, number: int, section: int, is_source: bool, devices: Sequence[Device]) -> int:
    """Reads a line after the program. Answers the section in force after it."""
    if len(line) > LIMIT:
        raise Refused("BadLine", number)
    if is_comment(line):
        return section
    if section == SECTIONS.index("DEBUG"):
        deck.commands.append(line)
        return section
    tokens = tokens_of(line)
    if tokens[0] in SECTIONS:
        if SECTIONS.index(tokens[0]) <= section:
            raise Refused("BadSection", number)
        open_section(deck, tokens, number, is_source)
        return SECTIONS.index(tokens[0])
    in_force = SECTIONS[section] if section >= 0 else None
    if in_force == "PORTS":
        read_port_line(deck, tokens, number, devices)
    elif in_force == "FAULTS":
        read_fault_line(deck, line, number)
    elif in_force == "ORDER":
        read_order_line(deck, line, number)
    else:
        raise Refused("BadSection", number)
    return section


def open_section(deck: Deck, tokens: list[str], number: int, is_source: bool) -> None:
    """Reads a heading."""
    word, rest = tokens[0], tokens[1:]
    deck.headings[word] = number
    good = not rest
    if word == "START":
        deck.start = read_start(rest[0], is_source) if len(rest) == 1 else None
        good = deck.start is not None
    elif word == "SIMPLEX":
        good = 1 <= len(rest) <= 4 and all(re.fullmatch("[0-3]", pair) for pair in rest) and rest == sorted(set(rest))
        deck.simplex = frozenset(int(pair) for pair in rest) if good else frozenset()
    elif word == "RUN":
        good = len(rest) == 1 and re.fullmatch("[0-9]{1,9}", rest[0]) is not None
        if good and int(rest[0]) > MOST_TIMES:
            raise Refused("CountTooLarge", number)
        deck.count = int(rest[0]) if good else 0
    if not good:
        raise Refused("BadLine", number)


def read_start(text: str, is_source: bool) -> Hop | str | None:
    """A HOP constant, or of a source a name; None where it is neither."""
    if is_source and re.fullmatch(NAME, text):
        return text
    number = octal(text, 9, WORD)
    return None if number is None else hop_of(number)


def read_port_line(deck: Deck, tokens: list[str], number: int, devices: Sequence[Device]) -> None:
    """Reads a line of the section PORTS."""
    word, port = tokens[0], octal(tokens[1], 3, 256) if len(tokens) > 1 else None
    rest = tokens[2:]
    gone = any(port == unplugged for unplugged, _ in deck.unplugs)
    device = None if gone else at_port(devices, port)
    if word == "TAPE" and port is not None and rest and all(octal(text, 9, WORD) is not None for text in rest):
        if device is None or device.kind != "Tape":
            raise Refused("NoDevice", number)
        deck.supplies += [(port, int(text, 8)) for text in rest]
        return
    time = plain_decimal(rest[0]) if len(rest) == 1 else None
    if word != "UNPLUG" or port is None or time is None or time > MOST_TIMES:
        raise Refused("BadLine", number)
    if device is None:
        raise Refused("NoDevice", number)
    deck.unplugs.append((port, time))


def read_fault_line(deck: Deck, line: str, number: int) -> None:
    """Reads a line of the section FAULTS."""
    event = read_fault(line)
    if event is None:
        raise Refused("BadLine", number)
    if len(deck.script) == MOST_EVENTS:
        raise Refused("TooManyEvents", number)
    deck.script.append(event)


def read_order_line(deck: Deck, line: str, number: int) -> None:
    """Reads a line of the section ORDER."""
    order = read_order(line)
    if order is None or len(deck.orders) == MOST_ORDERS:
        raise Refused("BadLine", number)
    deck.orders.append(order)


def finish(deck: Deck, program: list[str], first: int, is_source: bool) -> None:
    """Reads the program, and sets the opening."""
    start = deck.start
    if is_source:
        assembly = assemble(program, first)
        image = assembly.image()
        if isinstance(start, str):
            start = named_start(start, deck.headings["START"], assembly)
    else:
        image = read_image(program, first)
    assert not isinstance(start, str)
    start = start or image.start or DEFAULT_START
    deck.opening = Opening(dict(image.words), image.simplex | deck.simplex, start, deck.unplugs)


def named_start(name: str, line: int, assembly: Assembly) -> Hop:
    """The start constant that a name means at this line."""
    if not assembly.defines(name):
        raise Refused("UndefinedName", line, 3)
    hop = assembly.hop_of(name)
    if hop is None:
        raise Refused("OutOfSector", line, 3)
    return hop


# ---- the deck of a number

LOOP = "17000 07001 13000 01002 11003 13003 12017 12416 06004 13005 17775 13006 10000"


def soak_deck(number: int) -> Deck:
    """The deck that a number draws."""
    x = number % 2**31

    def draw() -> int:
        nonlocal x
        x = (1103515245 * x + 12345) % 2**31
        return x // 16 % 2**26

    deck = Deck()
    words = {(0, 0, k): int(syllable, 8) for k, syllable in enumerate(LOOP.split())}
    words.update({(0, 1, k): draw() for k in range(5)})
    spots = [(0, 0, k) for k in range(13)] + [(0, 1, k) for k in range(7)]
    for k in range(2048):
        step = 292 * k
        deck.script.append(Event("FLIP", k % 7 + 1, k // 7 % 3 + 1, 0, (0, 0, 0), step, step, 0, 1 + draw() % (2**26 - 1), 0))
        step += 146
        deck.script.append(Event("DAMAGE", 0, 0, k // 20 % 2, spots[k % 20], step, step, 0, 2 ** (draw() % 28), 0))
    deck.count = 200_000
    deck.opening = Opening(words, frozenset(), DEFAULT_START, [])
    return deck
