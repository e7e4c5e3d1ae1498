"""Decks: what is run. A deck is made in code, or read from a text; `str` prints it in the one form that docs/FORMATS.md shows, without
comments. What a deck may say is the program's to judge: a deck that it refuses can be made here."""
import html
import re
from collections.abc import Iterable, Sequence
from dataclasses import dataclass, replace
from typing import Self, TypeAlias, TypeVar

from lvdc.faults import FAULTS, Fault, read_fault
from lvdc.images import Image
from lvdc.lines import Unread, sections, tokens
from lvdc.values import PAIRS, STEPS_A_TIME, Address, Hop, Port, Word, check

Part = TypeVar("Part")
LETTERS = "ABCDEFGHIJKLMNOPQRSTU"
SECTIONS = ["START", "SIMPLEX", "PORTS", "FAULTS", "ORDER", "RUN", "DEBUG"]
_WORD = re.compile("[0-7]{1,9}")
_PORT = re.compile("[0-7]{1,3}")
_TIME = re.compile("0|[1-9][0-9]{0,6}")
_COUNT = re.compile("[0-9]{1,9}")
_NAME = re.compile("[A-Z][A-Z0-9]{0,7}")


@dataclass(frozen=True, slots=True, repr=False)
class Source:
    """A source text, up to its line END, which ends with LF."""

    text: str

    def __post_init__(self) -> None:
        if not isinstance(self.text, str):
            raise TypeError(f"a Source is made of its text, not {_shown(self.text)}: of a file, Source(path.read_text())")
        if not self.text.endswith("\n"):
            object.__setattr__(self, "text", self.text + "\n")

    def __str__(self) -> str:
        return self.text

    def __repr__(self) -> str:
        return f"<Source of {self.text.count(chr(10))} lines>"


@dataclass(frozen=True, slots=True)
class Tape:
    """Words that are supplied to the tape at a port before the run."""

    port: int
    words: Sequence[int]

    def __post_init__(self) -> None:
        check("a port", self.port, 256)
        object.__setattr__(self, "port", Port(self.port))
        object.__setattr__(self, "words", tuple(map(Word, several("the words of a tape", self.words))))
        if not self.words:
            raise ValueError("a tape line has a word or more")

    def __str__(self) -> str:
        return " ".join([f"TAPE {self.port}", *map(str, self.words)])


@dataclass(frozen=True, slots=True)
class Unplug:
    """The device at a port is taken away before this instruction time."""

    port: int
    time: int

    def __post_init__(self) -> None:
        check("a port", self.port, 256)
        check("a time", self.time, 1_000_001)
        object.__setattr__(self, "port", Port(self.port))

    def __str__(self) -> str:
        return f"UNPLUG {self.port} {self.time}"


PortLine: TypeAlias = Tape | Unplug


@dataclass(frozen=True, slots=True, repr=False)
class Deck:
    """A program, the count of instruction times, and the sections of a deck.

    `start` is a HOP constant or, over a source, the name of a line of code. `orders` are tokens of the 21 letters A to U. `commands` are
    those of a debug session; none means that there is no section DEBUG. Raises TypeError where a part is of another kind.

    >>> from lvdc import Address, Deck, Image
    >>> deck = Deck(Image({Address(0, 0, 0): 0o17000}), count=2)
    >>> deck.steps
    range(0, 6)
    >>> print(deck, end="")
    IMAGE
    LVDC 1
    0 00 000 000017000
    END
    RUN 2
    """

    program: Image | Source
    count: int
    start: Hop | str | None = None
    simplex: Sequence[int] = ()
    ports: Sequence[PortLine] = ()
    faults: Sequence[Fault] = ()
    orders: Sequence[str] = ()
    commands: Sequence[str] | None = None

    def __post_init__(self) -> None:
        if not isinstance(self.program, (Image, Source)):
            raise TypeError(f"a program is an Image or a Source, not {_shown(self.program)}: of a text, Source(text) or Image.read(text)")
        check("a count of instruction times", self.count, 1_000_000_000)
        if self.start is not None and not isinstance(self.start, (Hop, str)):
            raise TypeError(f"a start is a Hop or a name, not {_shown(self.start)}: of a word, Hop.of(word)")
        kinds: dict[str, tuple[type, ...]] = {"simplex": (int,), "ports": (Tape, Unplug), "faults": FAULTS, "orders": (str,)}
        for name, kind in kinds.items():
            object.__setattr__(self, name, several(name, getattr(self, name), kind))
        if self.commands is not None:
            object.__setattr__(self, "commands", several("commands", self.commands, (str,)))

    @property
    def steps(self) -> range:
        """The steps of the run: three to each instruction time that is asked for."""
        return range(STEPS_A_TIME * self.count)

    @property
    def places(self) -> tuple[Address, ...]:
        """The places of the words of the image, where a twin can be hurt. Raises ValueError for a source, which is to be assembled first."""
        if not isinstance(self.program, Image):
            raise ValueError("the words of a source are known once it is assembled: places=lvdc.assemble_image(deck.program).words")
        return tuple(it for it in self.program.words if it.bank in PAIRS)

    @classmethod
    def read(cls, text: str) -> Self:
        """Reads a deck, with comments and blanks. Raises Unread at the line that it can't be."""
        if not isinstance(text, str):
            raise TypeError(f"a deck is read from its text, not {_shown(text)}: of a file, Deck.read(path.read_text())")
        reader = _Reader(text)
        program = reader.read_program()
        reader.read_sections()
        return cls(program, reader.count or 0, reader.start, reader.simplex, tuple(reader.ports), tuple(reader.faults),
                   tuple(reader.orders), None if reader.commands is None else tuple(reader.commands))

    def with_faults(self, *faults: Fault) -> Self:
        """The same deck with these faults in place of its own. Raises TypeError where one isn't a fault."""
        return replace(self, faults=faults)

    def with_commands(self, *commands: str) -> Self:
        """The same deck with these commands of a debug session."""
        return replace(self, commands=commands)

    def __repr__(self) -> str:
        return f"<Deck of {self.count} instruction times: {self.program!r}, {len(self.faults)} faults>"

    def _repr_html_(self) -> str:
        return f"<pre>{html.escape(str(self))}</pre>"

    def __str__(self) -> str:
        heading = "IMAGE" if isinstance(self.program, Image) else "SOURCE"
        lines = [] if self.start is None else [f"START {self.start}"]
        lines += [" ".join(["SIMPLEX", *map(str, self.simplex)])] if self.simplex else []
        for name, section in (("PORTS", self.ports), ("FAULTS", self.faults), ("ORDER", self.orders)):
            lines += [name, *map(str, section)] if section else []
        lines.append(f"RUN {self.count}")
        lines += [] if self.commands is None else ["DEBUG", *self.commands]
        return f"{heading}\n{self.program}" + "".join(f"{it}\n" for it in lines)


def several(what: str, given: Iterable[Part], kinds: tuple[type, ...] = (int,)) -> tuple[Part, ...]:
    """The parts that are given, each of one of these kinds. Raises TypeError else, as for a str, which is a row of letters."""
    names = " or ".join(it.__name__ for it in kinds)
    if isinstance(given, (str, bytes)) or not isinstance(given, Iterable):
        raise TypeError(f"{what} are a list of {names}, not {_shown(given)}")
    found = tuple(given)
    for it in found:
        if not isinstance(it, kinds):
            hint = ", give them one by one: *faults" if isinstance(it, (list, tuple)) else ""
            raise TypeError(f"{what} are a list of {names}: {_shown(it)} is none{hint}")
    return found


def _shown(given: object) -> str:
    """What was given, as a message has it."""
    shown = repr(given)
    return shown if len(shown) <= 60 else f"{shown[:57]}..."


def campaign_text(deck: Deck, scripts: Iterable[tuple[str, Iterable[Fault]]], ports: bool = False) -> str:
    """The input of `campaign`: the deck without PORTS, FAULTS and DEBUG, and these scripts by their names. With `ports` it is that of
    `study`, which keeps PORTS."""
    program = replace(deck, faults=(), commands=None, ports=deck.ports if ports else ())
    parts = [str(program), "CAMPAIGN\n"]
    for name, faults in scripts:
        parts.append(f"SCRIPT {name}\n")
        parts += [f"{it}\n" for it in faults]
    return "".join(parts)


def without_commands(text: str) -> str:
    """The text of a deck up to its section DEBUG, which is looked for after the program's END."""
    lines = sections(text)
    end = next((at for at, it in enumerate(lines) if tokens(it) == ["END"]), len(lines))
    debug = next((at for at in range(end, len(lines)) if tokens(lines[at]) == ["DEBUG"]), len(lines))
    return "".join(f"{it}\n" for it in lines[:debug])


class _Reader:
    """Reads the lines of a deck, section by section."""

    def __init__(self, text: str) -> None:
        self.lines = sections(text)
        self.at = 0
        self.section = ""
        self.start: Hop | str | None = None
        self.count: int | None = None
        self.simplex: tuple[int, ...] = ()
        self.ports: list[PortLine] = []
        self.faults: list[Fault] = []
        self.orders: list[str] = []
        self.commands: list[str] | None = None

    def unread(self, wanted: str) -> Unread:
        """The line at hand is at fault."""
        return Unread(self.at + 1, self.lines[self.at] if self.at < len(self.lines) else "", wanted)

    def skip(self) -> None:
        """Passes over blank lines and comments."""
        while self.at < len(self.lines) and (self.lines[self.at].startswith("*") or not tokens(self.lines[self.at])):
            self.at += 1

    def read_program(self) -> Image | Source:
        """The program's text, with its heading."""
        self.skip()
        heading = tokens(self.lines[self.at]) if self.at < len(self.lines) else []
        if heading not in (["IMAGE"], ["SOURCE"]):
            raise self.unread("IMAGE or SOURCE")
        first = self.at + 1
        end = next((it for it in range(first, len(self.lines)) if tokens(self.lines[it]) == ["END"]), None)
        if end is None:
            raise self.unread("a program with its END")
        text = "".join(f"{it}\n" for it in self.lines[first:end + 1])
        self.at = end + 1
        if heading == ["SOURCE"]:
            return Source(text)
        try:
            return Image.read(text)
        except Unread as fault:
            raise Unread(first + fault.number, fault.line, fault.wanted) from fault

    def read_sections(self) -> None:
        """The lines after the program."""
        rank = -1
        self.skip()
        while self.at < len(self.lines):
            words = tokens(self.lines[self.at])
            if self.commands is not None:
                self.commands.append(self.lines[self.at].strip(" \t"))
            elif words[0] in SECTIONS:
                if SECTIONS.index(words[0]) <= rank:
                    raise self.unread("a section after the one before")
                rank = SECTIONS.index(words[0])
                self.open(words)
            else:
                self.add(words)
            self.at += 1
            self.skip()
        if self.count is None:
            raise self.unread("RUN")

    def open(self, words: list[str]) -> None:
        """The line that opens a section."""
        self.section = words[0]
        match words:
            case ["START", value] if _WORD.fullmatch(value) and int(value, 8) < 1 << Word.BITS:
                self.start = Hop.of(int(value, 8))
            case ["START", name] if _NAME.fullmatch(name):
                self.start = name
            case ["SIMPLEX", *pairs] if pairs and pairs == sorted(set(pairs) & set("0123")):
                self.simplex = tuple(map(int, pairs))
            case ["RUN", count] if _COUNT.fullmatch(count):
                self.count = int(count)
            case ["DEBUG"]:
                self.commands = []
            case ["PORTS"] | ["FAULTS"] | ["ORDER"]:
                pass
            case _:
                raise self.unread(f"a line {words[0]}")

    def add(self, words: list[str]) -> None:
        """A line within a section."""
        try:
            match self.section, words:
                case "PORTS", ["TAPE", port, *values] if _PORT.fullmatch(port) and all(map(_WORD.fullmatch, values)):
                    self.ports.append(Tape(int(port, 8), tuple(int(it, 8) for it in values)))
                case "PORTS", ["UNPLUG", port, time] if _PORT.fullmatch(port) and _TIME.fullmatch(time):
                    self.ports.append(Unplug(int(port, 8), int(time)))
                case "FAULTS", _:
                    self.faults.append(read_fault(" ".join(words)))
                case "ORDER", [order] if sorted(order) == sorted(LETTERS):
                    self.orders.append(order)
                case _:
                    raise self.unread(f"a line of {self.section}" if self.section in ("PORTS", "FAULTS", "ORDER") else "a section")
        except Unread:
            raise
        except ValueError as fault:
            raise self.unread(f"a line of {self.section} ({fault})") from fault
