"""Reports of runs: how a run ended, its registers, exchanges, words, wrong counts and repairs. Each object keeps the text that it was
read from, and `str` prints it again from what was read."""
import re
from collections.abc import Callable, Iterator, Mapping, Sequence
from dataclasses import dataclass, field
from enum import Enum
from typing import Any, ClassVar, NamedTuple, Self

from lvdc.ends import END, End, end_of, read_end
from lvdc.frozen import Frozen
from lvdc.lazy import Read
from lvdc.lines import ADDRESS, COPY, MODULE, NUMBER, PORT, TWIN, WORD, Lines, first_fault, is_all, pattern, rises, uncaptured
from lvdc.tabled import html_table
from lvdc.values import Address, Place, Port, Word

PLACE = r"([0-7] (?:0[0-7]|1[0-7]) [01] [0-3][0-7]{2})"
_REGISTERS = {"TIMES": pattern("TIMES", NUMBER), "PLACE": pattern("PLACE", PLACE), "DATA": pattern("DATA", "([0-7])", "(0[0-7]|1[0-7])"),
              "DUP": pattern("DUP", "([01])", "([01])"), **{name: pattern(name, WORD) for name in ("A", "PQ", "SAVER")}}
_ALL_REGISTERS = re.compile("".join(f"{it.pattern}\n" for it in _REGISTERS.values()))
EXCHANGE = pattern("(IN|OUT)", NUMBER, PORT, WORD)
MEM = pattern("MEM", ADDRESS, rf"(?:{WORD}|\?)")
_WRONG = pattern("WRONG", MODULE, COPY, "([1-9][0-9]*)")
REPAIR = pattern("REPAIR", NUMBER, ADDRESS, TWIN + "( SWITCH)?")
_SOAK = pattern("LVDC", "SOAK", NUMBER)
_COUNT = {name: pattern(name, NUMBER) for name in ("WRONG", "REPAIRS")}


class Kind(Enum):
    """Which run a report is of: judged at each step, of the plain machine, or through every fault."""

    RUN = "RUN"
    PLAIN = "PLAIN"
    THROUGH = "THROUGH"


_TITLE = pattern("LVDC", "(" + "|".join(it.value for it in Kind) + ")")


_HEAD = re.compile(rf"{_TITLE.pattern}\n(?P<end>{uncaptured(END.pattern)})\n(?P<registers>{uncaptured(_ALL_REGISTERS.pattern)})")
_EXCHANGES, _WORDS, _WRONGS, _REPAIRS = (re.compile(uncaptured(it.pattern) + "\n") for it in (EXCHANGE, MEM, _WRONG, REPAIR))
_ADDRESS_OF_MEM, _COPY_OF_WRONG = re.compile(f"MEM {ADDRESS}"), re.compile(f"WRONG {MODULE} {COPY}")


@dataclass(frozen=True, slots=True)
class Registers:
    """The registers: how many instruction times were made, the place, the data place, both DUP bits, and three words."""

    times: int
    place: Place
    data_module: int
    data_sector: int
    dupin: int
    dupdn: int
    a: Word
    pq: Word
    saver: Word

    @classmethod
    def take(cls, lines: Lines) -> Self:
        """Reads the seven lines."""
        return cls._of([it for name, form in _REGISTERS.items() for it in lines.need(form, name).groups()])

    @classmethod
    def read(cls, text: str) -> Self:
        """Reads the seven lines, which are there."""
        found = _ALL_REGISTERS.fullmatch(text)
        assert found is not None
        return cls._of(found.groups())

    @classmethod
    def _of(cls, parts: Sequence[str]) -> Self:
        """The registers of the parts of their lines."""
        times, place, module, sector, dupin, dupdn, a, pq, saver = parts
        return cls(int(times), Place.read(place), int(module, 8), int(sector, 8), int(dupin), int(dupdn), *map(Word.read, (a, pq, saver)))

    def __str__(self) -> str:
        return (f"TIMES {self.times}\nPLACE {self.place}\nDATA {self.data_module:o} {self.data_sector:02o}\nDUP {self.dupin} {self.dupdn}\n"
                f"A {self.a}\nPQ {self.pq}\nSAVER {self.saver}\n")


@dataclass(frozen=True, slots=True)
class Exchange:
    """A word that went through a port at an instruction time; `is_write` where the program wrote it."""

    time: int
    port: Port
    word: Word
    is_write: bool

    def __str__(self) -> str:
        return f"{'OUT' if self.is_write else 'IN'} {self.time} {self.port} {self.word}"


@dataclass(frozen=True, slots=True)
class Repair:
    """A cell of a twin that the read of a step found bad and rewrote; `is_switch` where the other twin was selected by it."""

    step: int
    address: Address
    twin: int
    is_switch: bool

    def __str__(self) -> str:
        return f"REPAIR {self.step} {self.address} {self.twin}" + " SWITCH" * self.is_switch


def take_exchanges(lines: Lines) -> Iterator[Exchange]:
    """Reads a port log."""
    for found in lines.each(EXCHANGE):
        yield Exchange(int(found[2]), Port.read(found[3]), Word.read(found[4]), found[1] == "OUT")


def take_repairs(lines: Lines) -> Iterator[Repair]:
    """Reads repairs."""
    for found in lines.each(REPAIR):
        yield Repair(int(found[1]), Address.read(found[2]), int(found[3]), found[4] is not None)


def take_words(lines: Lines) -> Iterator[tuple[Address, Word | None]]:
    """Reads lines MEM, whose addresses rise."""
    for address, found in lines.rising(MEM, lambda it: Address.read(it[1])):
        yield address, None if found[2] is None else Word.read(found[2])


def _take_wrong(lines: Lines) -> dict[tuple[int, int], int]:
    """Reads lines WRONG, whose copies rise."""
    return {copy: int(found[3]) for copy, found in lines.rising(_WRONG, lambda it: (int(it[1]), int(it[2])))}


def mem_line(address: Address, word: Word | None) -> str:
    """A line MEM."""
    return f"MEM {address} {'?' if word is None else word}"


@dataclass(frozen=True, slots=True, repr=False)
class Report(Read):
    """What a run comes to.

    `words` are those that aren't 0, by address, and None where the word can't be recovered. `wrong` has for each copy (module, copy)
    that differed from the vote in how many steps it did. A report of the plain machine has neither wrong counts nor repairs."""

    kind: Kind
    end: End
    registers: Registers
    exchanges: tuple[Exchange, ...]
    words: Mapping[Address, Word | None]
    wrong: Mapping[tuple[int, int], int]
    repairs: tuple[Repair, ...]
    text: str = field(repr=False, compare=False)
    _makers: ClassVar[Mapping[str, Callable[[Any], Any]]] = {
        "kind": lambda parts: Kind(parts.kind),
        "end": lambda parts: read_end(parts.end),
        "registers": lambda parts: Registers.read(parts.registers),
        "exchanges": lambda parts: tuple(take_exchanges(Lines(parts.exchanges))),
        "words": lambda parts: Frozen(dict(take_words(Lines(parts.words)))),
        "wrong": lambda parts: Frozen(_take_wrong(Lines(parts.wrong))),
        "repairs": lambda parts: tuple(take_repairs(Lines(parts.repairs)))}

    @classmethod
    def read(cls, text: str) -> Self:
        """Reads a report whole."""
        parts = _parts_of(text)
        if parts is None:
            raise first_fault(text, _need_report)
        return cls._of_text(text, parts)

    @property
    def reads(self) -> tuple[Exchange, ...]:
        """The exchanges in which the program read a word."""
        return tuple(it for it in self.exchanges if not it.is_write)

    @property
    def writes(self) -> tuple[Exchange, ...]:
        """The exchanges in which the program wrote a word."""
        return tuple(it for it in self.exchanges if it.is_write)

    @property
    def lost(self) -> tuple[Address, ...]:
        """The addresses whose words can't be recovered."""
        return tuple(address for address, word in self.words.items() if word is None)

    def word(self, address: Address) -> Word | None:
        """The word at an address: 0 where the report has no line of it, None where it can't be recovered. Raises TypeError where it is no
        Address."""
        if not isinstance(address, Address):
            raise TypeError(f"a word stands at an Address, as Address(0, 1, 0), not at {address!r}")
        return self.words.get(address, Word(0))

    def __repr__(self) -> str:
        return (f"<Report {self.kind.value}: {self.end}, {self.registers.times} times, {len(self.exchanges)} exchanges, {len(self.words)} words, "
                f"{sum(self.wrong.values())} differing copies, {len(self.repairs)} repairs>")

    def _repr_html_(self) -> str:
        registers = self.registers
        rows: list[tuple[object, ...]] = [("run", self.kind.value), ("end", self.end), ("times", registers.times), ("place", registers.place),
                                          ("A", registers.a), ("PQ", registers.pq), ("SAVER", registers.saver)]
        rows += [(f"{'OUT' if it.is_write else 'IN'} at {it.time}, port {it.port}", it.word) for it in self.exchanges]
        rows += [(f"word {address}", "can't be recovered" if word is None else word) for address, word in self.words.items()]
        rows += [(f"module {module}, copy {copy}", f"differed in {count} steps") for (module, copy), count in self.wrong.items()]
        rows += [("repair", it) for it in self.repairs]
        return html_table((), rows)

    def __str__(self) -> str:
        lines = [*map(str, self.exchanges), *(mem_line(*it) for it in self.words.items())]
        lines += [f"WRONG {module} {copy} {count}" for (module, copy), count in self.wrong.items()]
        lines += map(str, self.repairs)
        return f"LVDC {self.kind.value}\n{self.end}\n{self.registers}" + "".join(f"{it}\n" for it in lines)


@dataclass(frozen=True, slots=True)
class Soak:
    """What the run of `soak` comes to: its number, end, instruction times and accumulator, the steps in which copies differed, summed
    over all copies, and how many repairs there were."""

    number: int
    end: End
    times: int
    a: Word
    wrong: int
    repairs: int
    text: str = field(repr=False, compare=False)

    @classmethod
    def read(cls, text: str) -> Self:
        """Reads the six lines."""
        lines = Lines(text)
        number = int(lines.need(_SOAK, "LVDC SOAK and a number")[1])
        end = end_of(lines.need(END, "an END line"))
        times = int(lines.need(_REGISTERS["TIMES"], "TIMES")[1])
        a = Word.read(lines.need(_REGISTERS["A"], "A")[1])
        wrong, repairs = (int(lines.need(_COUNT[name], name)[1]) for name in ("WRONG", "REPAIRS"))
        lines.end()
        return cls(number, end, times, a, wrong, repairs, text)

    def __str__(self) -> str:
        return f"LVDC SOAK {self.number}\n{self.end}\nTIMES {self.times}\nA {self.a}\nWRONG {self.wrong}\nREPAIRS {self.repairs}\n"


class _Parts(NamedTuple):
    """The parts of a report, each as its text."""

    kind: str
    end: str
    registers: str
    exchanges: str
    words: str
    wrong: str
    repairs: str


def _parts_of(text: str) -> _Parts | None:
    """The parts of a text, where it is a report."""
    head = _HEAD.match(text)
    if head is None:
        return None
    ends = [len(text)]
    for word in ("REPAIR ", "WRONG ", "MEM "):
        at = text.find(word, head.end(), ends[-1])
        ends.append(ends[-1] if at < 0 else at)
    exchanges, words = text[head.end():ends[3]], text[ends[3]:ends[2]]
    wrong, repairs = text[ends[2]:ends[1]], text[ends[1]:]
    is_report = (is_all(_EXCHANGES, exchanges) and is_all(_WORDS, words) and rises(_ADDRESS_OF_MEM.findall(words))
                 and is_all(_WRONGS, wrong) and rises(_COPY_OF_WRONG.findall(wrong)) and is_all(_REPAIRS, repairs))
    return _Parts(head[1], head["end"], head["registers"], exchanges, words, wrong, repairs) if is_report else None


def _need_report(lines: Lines) -> None:
    """Passes over the lines of a report. Raises Unread at the first that isn't due."""
    lines.need(_TITLE, "the title of a report")
    lines.need(END, "an END line")
    Registers.take(lines)
    for _ in (*take_exchanges(lines), *take_words(lines), *_take_wrong(lines), *take_repairs(lines)):
        pass
