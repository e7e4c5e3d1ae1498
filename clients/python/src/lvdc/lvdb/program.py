"""What is debugged: a deck that is made of a file, and what its listing says of lines, names and literals."""
import bisect
import re
from collections.abc import Sequence
from dataclasses import dataclass, field, replace
from functools import cached_property
from pathlib import Path

from lvdc import commands
from lvdc.decks import Deck, PortLine, Source
from lvdc.images import Image
from lvdc.lines import ADDRESS, WORD, decode, pattern, sections, tokens
from lvdc.listings import Instruction, Listing, Room, Row
from lvdc.lvdb.errors import CommandError
from lvdc.lvdb.origins import written_out
from lvdc.lvdb.places import address_of, read_address, read_place
from lvdc.streams import read_file
from lvdc.parts import Parts
from lvdc.refusals import Refused
from lvdc.values import Address, Place
from lvdc.workers import Asker

MOST_TIMES = 1_000_000
_ASSEMBLY_REFUSED = 3
_NAMED = re.compile(r"([A-Z][A-Z0-9]{0,7})(?:\+([0-9]{1,3}))?")
_IMAGE_LINE = pattern(ADDRESS, WORD)
_LINE = re.compile("[1-9][0-9]{0,8}")


@dataclass(frozen=True)
class Options:
    """What the command line says beside the file: these stand in a deck's sections already."""

    times: int | None = None
    start: str | None = None
    ports: Sequence[PortLine] = ()

    @property
    def is_empty(self) -> bool:
        """Whether it says nothing."""
        return self.times is None and self.start is None and not self.ports


@dataclass(frozen=True)
class Program:
    """A deck with the lines of its file. `numbers` has for each row of the listing the number of its line there: of a source with macros
    that of the outermost call. `bodies` has then the number of the line of the definition, 0 where a row isn't written out."""

    path: str
    deck: Deck
    lines: tuple[str, ...]
    listing: Listing | None = None
    numbers: tuple[int, ...] = ()
    bodies: tuple[int, ...] = ()
    simplex: tuple[int, ...] = field(default=())
    options: Options = Options()

    # ---- from places to lines and names

    @cached_property
    def rows(self) -> dict[Place, Row]:
        """The rows of instructions by their places."""
        rows = () if self.listing is None else self.listing.rows
        return {it.field.place: it for it in rows if isinstance(it.field, Instruction)}

    @cached_property
    def names(self) -> dict[str, Place | Address]:
        """Where each name stands."""
        return {} if self.listing is None else dict(self.listing.names)

    @cached_property
    def _places(self) -> list[tuple[Place, str]]:
        """The names of code, in the order of places."""
        return sorted((at, name) for name, at in self.names.items() if isinstance(at, Place))

    @cached_property
    def _addresses(self) -> list[tuple[Address, str]]:
        """The names of words and of literals, in the order of addresses."""
        pool = () if self.listing is None else self.listing.pool
        named = [(at, name) for name, at in self.names.items() if isinstance(at, Address)]
        return sorted([*named, *((at, f"=O{word:o}") for at, word in pool)])

    @cached_property
    def image_lines(self) -> dict[Address, int]:
        """The numbers of the lines of an image by their addresses."""
        if self.listing is not None:
            return {}
        found = ((number, _IMAGE_LINE.fullmatch(line)) for number, line in enumerate(self.lines, 1))
        return {Address.read(it[1]): number for number, it in found if it is not None}

    @cached_property
    def has_macros(self) -> bool:
        """Whether its source was written out."""
        return any(self.bodies)

    def number_of(self, row: Row) -> int:
        """The number of the line that a row comes from."""
        return self.numbers[row.number - 1]

    def line_at(self, number: int) -> str:
        """A line by its number."""
        return self.lines[number - 1]

    def body_of(self, row: Row) -> int:
        """The number of the line of the definition that a row was written out of; 0 where it wasn't."""
        return self.bodies[row.number - 1] if self.bodies else 0

    def line_called(self, place: Place) -> str:
        """The line whose instruction stands at a place, in words; empty where there is none."""
        number, row = self.line_of(place), self.rows.get(place)
        body = 0 if row is None else self.body_of(row)
        return "" if number is None else f"line {number}" + (f", from line {body}" if body else "")

    def line_of(self, place: Place) -> int | None:
        """The number of the line whose instruction stands there; over an image that of the word."""
        if place in self.rows:
            return self.number_of(self.rows[place])
        return self.image_lines.get(address_of(place))

    def line_of_word(self, address: Address) -> int | None:
        """The number of the line that gives a word its place: of a constant, of room or of an instruction."""
        for row in () if self.listing is None else self.listing.rows:
            if isinstance(row.field, Room) and address in _addresses_of(row.field, row.line):
                return self.number_of(row)
        found = (self.line_of(Place(address.bank, address.sector, it, address.location)) for it in (0, 1))
        return next((it for it in found if it is not None), self.image_lines.get(address))

    @cached_property
    def uses(self) -> dict[Place, tuple[int, int]]:
        """The pair and the sector that are in use at each instruction, by the last USE line above it."""
        found: dict[Place, tuple[int, int]] = {}
        pair, sector = 0, 1
        for row in () if self.listing is None else self.listing.rows:
            parts = Parts.of(row.line)
            if isinstance(row.field, Instruction):
                found[row.field.place] = pair, sector
            elif parts.operation == "USE":
                pair, sector = (int(it, 8) for it in parts.operand.split(","))
        return found

    @cached_property
    def room(self) -> set[Address]:
        """The addresses at which the source has room and no word."""
        rows = () if self.listing is None else self.listing.rows
        return {at for it in rows if isinstance(it.field, Room) and it.field.word is None for at in _addresses_of(it.field, it.line)}

    @cached_property
    def taken(self) -> set[Address]:
        """The addresses that the source has something at: words, room, literals and instructions."""
        pool = () if self.listing is None else self.listing.pool
        return {*self._room, *(at for at, _ in pool), *map(address_of, self.rows)}

    def label(self, place: Place) -> str:
        """A place by the name at it or before it in its block, as PASS+2; empty where there is none."""
        at = bisect.bisect(self._places, (place, "~")) - 1
        if at < 0 or place not in self.rows:
            return ""
        named, name = self._places[at]
        same = (named.module, named.sector, named.syllable) == (place.module, place.sector, place.syllable)
        return _with_offset(name, place.location - named.location) if same else ""

    def name_of(self, address: Address) -> str:
        """A word by the name at it or before it in its block, else by that of an instruction in it; empty where there is none."""
        return self._name_of_word(address) or next(filter(None, (self.label(it) for it in _both_halves(address))), "")

    def _name_of_word(self, address: Address) -> str:
        """A word of data or of a literal by its name."""
        at = bisect.bisect(self._addresses, (address, "~")) - 1
        if at < 0:
            return ""
        named, name = self._addresses[at]
        if named == address:
            return name
        same = (named.bank, named.sector) == (address.bank, address.sector)
        return _with_offset(name, address.location - named.location) if same and address in self._room and name[0] != "=" else ""

    def code_at(self, address: Address) -> list[Row]:
        """The instructions that the source has in a word."""
        return [self.rows[it] for it in _both_halves(address) if it in self.rows]

    @cached_property
    def _room(self) -> set[Address]:
        """The addresses that lines of words take."""
        taken: set[Address] = set()
        for row in () if self.listing is None else self.listing.rows:
            if isinstance(row.field, Room):
                taken.update(_addresses_of(row.field, row.line))
        return taken

    @cached_property
    def tables(self) -> dict[str, list[Address]]:
        """The words of each name: that at it, and those behind it in its block up to the next name."""
        named = {at for at in self.names.values() if isinstance(at, Address)}
        found: dict[str, list[Address]] = {}
        for name, at in self.names.items():
            if isinstance(at, Address):
                found[name] = [at]
                for location in range(at.location + 1, 256):
                    behind = Address(at.bank, at.sector, location)
                    if behind not in self._room or behind in named:
                        break
                    found[name].append(behind)
        return found

    # ---- from what is typed to places

    def find_line(self, number: int) -> tuple[int, Place]:
        """The first line from one on that has an instruction, and its place; over an image the first word, and its syllable 0."""
        lines = [(self.number_of(row), row.number, place) for place, row in self.rows.items()]
        lines += [(line, 0, Place(at.bank, at.sector, 0, at.location)) for at, line in self.image_lines.items()]
        found = min((it for it in lines if it[0] >= number), default=None)
        if found is None:
            raise CommandError(f"no line from {number} on has an instruction; `list` shows the lines")
        return found[0], found[2]

    def find_place(self, words: Sequence[str]) -> Place:
        """The place of a name of code, of a line, or of the form `p,ss,s,lll`."""
        place = read_place(words)
        if place is not None:
            return place
        if len(words) == 1 and _LINE.fullmatch(words[0]):
            return self.find_line(int(words[0]))[1]
        if len(words) == 1 and (found := self._find_name(words[0])) is not None:
            at, offset = found
            if isinstance(at, Address):
                raise CommandError(f"{words[0]} is a word and no line of code; `watch {words[0]}` stops where it changes")
            if at.location + offset < 256:
                return replace(at, location=at.location + offset)
        raise CommandError(f"{' '.join(words)!r} is no place: give the name of a line of code, a line's number, or bank, sector, syllable and "
                           "location as 0,00,0,003")

    def find_address(self, words: Sequence[str]) -> Address:
        """The address of a name, or of the form `p,ss,lll`."""
        address = read_address(words)
        if address is not None:
            return address
        if len(words) == 1 and (found := self._find_name(words[0])) is not None:
            at, offset = found
            if at.location + offset < 256:
                bank = at.module if isinstance(at, Place) else at.bank
                return Address(bank, at.sector, at.location + offset)
        raise CommandError(f"{' '.join(words)!r} is no word: give a name, or bank, sector and location as 0,01,002")

    def _find_name(self, text: str) -> tuple[Place | Address, int] | None:
        """Where a name stands, and how many locations behind it are meant."""
        found = _NAMED.fullmatch(text)
        return None if found is None or found[1] not in self.names else (self.names[found[1]], int(found[2] or 0))


def _with_offset(name: str, offset: int) -> str:
    """A name, and how far behind it."""
    return f"{name}+{offset}" if offset else name


def _both_halves(address: Address) -> list[Place]:
    """The places of the two instructions of a word."""
    return [Place(address.bank, address.sector, it, address.location) for it in (0, 1)]


def _addresses_of(room: Room, line: str) -> list[Address]:
    """The words that a line takes: BSS says how many, every other takes one."""
    parts, at = Parts.of(line), room.address
    count = int(parts.operand) if parts.operation == "BSS" else 1
    return [Address(at.bank, at.sector, at.location + it) for it in range(count)]


# ---- from a file to a program

def load(path: Path, options: Options, asker: Asker) -> Program:
    """Reads a file: a deck, a source with macros or without, or an image."""
    text = decode(read_file(path))
    lines = sections(text)
    heading: list[str] = next((tokens(it) for it in lines if tokens(it) and not it.startswith("*")), [])
    if heading in (["IMAGE"], ["SOURCE"]):
        return _load_deck(path, text, options, asker)
    if heading[:1] == ["LVDC"] and heading != ["LVDC", "SAVE", "1"]:
        image = Image.read(text)
        return _checked(Program(str(path), _deck_of(image, options), tuple(lines), options=options), asker)
    if heading == ["LVDC", "SAVE", "1"]:
        raise CommandError(f"{path} is a saved run, which has no program: give the deck that it was saved of")
    return _of_source(path, text, _deck_of(Source(text), options), 0, options, asker)


def _deck_of(program: Image | Source, options: Options) -> Deck:
    """The deck of a program that comes without one."""
    return Deck(program, MOST_TIMES if options.times is None else options.times, options.start, ports=options.ports)


def _load_deck(path: Path, text: str, options: Options, asker: Asker) -> Program:
    """A deck; its source may have macros."""
    if not options.is_empty:
        raise CommandError(f"{path} is a deck: --times, --start and --tape stand in its sections RUN, START and PORTS")
    try:
        commands.form(text, worker=asker)
    except Refused as refused:
        if refused.status != _ASSEMBLY_REFUSED:
            raise
        deck = Deck.read(text)
        if not isinstance(deck.program, Source) or not _has_macros(deck.program.text, asker):
            raise
    deck, lines = Deck.read(text), sections(text)
    if isinstance(deck.program, Source):
        offset = next(at for at, it in enumerate(lines) if tokens(it) in (["IMAGE"], ["SOURCE"])) + 1
        return _of_source(path, text, deck, offset, options, asker)
    return _checked(Program(str(path), deck, tuple(lines)), asker)


def _has_macros(text: str, asker: Asker) -> bool:
    """Whether the expansion of a source is another text."""
    return commands.expand(text, worker=asker).lines != tuple(sections(text))


def _of_source(path: Path, text: str, deck: Deck, offset: int, options: Options, asker: Asker) -> Program:
    """The program of a deck whose source begins behind so many lines of a text; a source with macros is written out."""
    assert isinstance(deck.program, Source)
    source = deck.program.text
    if not _has_macros(source, asker):
        listing = commands.assemble(deck.program, worker=asker)
        numbers = [offset + it.number for it in listing.rows]
        return _checked(Program(str(path), deck, tuple(sections(text)), listing, tuple(numbers), options=options), asker)
    commands.assemble_image(source, macros=True, worker=asker)
    expansion, ours = commands.expand(source, worker=asker), written_out(sections(source))
    if expansion.lines != tuple(it.line for it in ours):
        raise CommandError(f"{path} has macros that are written out in another way here: debug what `lvdc macro` writes of it")
    deck = replace(deck, program=Source(expansion.text))
    numbers, bodies = [offset + it.number for it in ours], [offset + it.body if it.body else 0 for it in ours]
    listing = commands.assemble(expansion.text, worker=asker)
    return _checked(Program(str(path), deck, tuple(sections(text)), listing, tuple(numbers), tuple(bodies), options=options), asker)


def _checked(program: Program, asker: Asker) -> Program:
    """The program whose deck isn't refused, with the simplex pairs of its run."""
    commands.form(program.deck, worker=asker)
    image = program.deck.program
    pairs = {*program.deck.simplex, *(image.simplex if isinstance(image, Image) else ())}
    return replace(program, simplex=tuple(sorted(pairs)))
