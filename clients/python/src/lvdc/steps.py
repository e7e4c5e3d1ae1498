"""The steps of a trace: what happened in each, and the form of its lines."""
import functools
import re
from collections.abc import Iterable, Mapping
from dataclasses import dataclass
from typing import Any, TypeAlias

from lvdc.frozen import Frozen
from lvdc.lines import ADDRESS, COPY, MODULE, NUMBER, PORT, TWIN, WORD, Lines, pattern, uncaptured
from lvdc.tables import Record
from lvdc.values import COPIES, LATCHES, MODULES, NAMES, STEPS_A_TIME, Address, Port, Word

STEP = "STEP "
_EXCHANGE = f"(?:(FETCH|OPERAND|STORE) {ADDRESS}|(IN|OUT) {PORT}) {WORD}"
_REPAIR = f"REPAIR {ADDRESS} {TWIN}( SWITCH)?"
# each copy that may be wrong, each vote that may change and each copy that may differ, in the order in which they are told
_FAULTS = [f"FAULT {module} {copy}" for module in MODULES for copy in COPIES]
_VOTES = [" ".join([f"VOTE {module}", *[WORD] * len(LATCHES[module])]) for module in MODULES]
_COPIES = [" ".join([f"COPY {module} {copy}", *[WORD] * len(LATCHES[module])]) for module in MODULES for copy in COPIES]
_STEP, _FAULT, _COPY = (pattern(*it) for it in (("STEP", NUMBER), ("FAULT", MODULE, COPY), ("COPY", MODULE, COPY)))
_LINES = [pattern(it) for it in (_EXCHANGE, _REPAIR, *_FAULTS, *_VOTES, *_COPIES)]


def _some(word: str, forms: Iterable[str]) -> str:
    """The form of some lines in their order, each of which is there or isn't; all begin with a word."""
    return f"(?:(?={word} )" + "".join(f"(?:{it}\n)?" for it in forms) + ")?"


# the lines of a step; and, of one that has this form, those at its beginning, from its number on
STEP_FORM = re.compile(uncaptured(f"{STEP}{NUMBER}\n(?:{_EXCHANGE}\n)?(?:{_REPAIR}\n)?"
                                  + "".join(_some(*it) for it in (("FAULT", _FAULTS), ("VOTE", _VOTES), ("COPY", _COPIES)))))
_BEGINNING = re.compile(f"{NUMBER}\n(?:{_EXCHANGE}\n)?(?:({uncaptured(_REPAIR)})\n)?")
_NONE: Frozen[tuple[int, int], "Latches"] = Frozen({})


@dataclass(frozen=True, slots=True)
class MemoryExchange:
    """What the votes did with memory: `kind` is FETCH, OPERAND or STORE."""

    kind: str
    address: Address
    word: Word

    def __str__(self) -> str:
        return f"{self.kind} {self.address} {self.word}"


@dataclass(frozen=True, slots=True)
class PortExchange:
    """What the votes did with a port: `kind` is IN or OUT."""

    kind: str
    port: Port
    word: Word

    def __str__(self) -> str:
        return f"{self.kind} {self.port} {self.word}"


@dataclass(frozen=True, slots=True)
class ReadRepair:
    """The cell of a twin that this step's read found bad and rewrote; `is_switch` where the other twin was selected by it."""

    address: Address
    twin: int
    is_switch: bool

    def __str__(self) -> str:
        return f"REPAIR {self.address} {self.twin}" + " SWITCH" * self.is_switch


StepExchange: TypeAlias = MemoryExchange | PortExchange
Latches: TypeAlias = tuple[Word, ...]


@dataclass(frozen=True, slots=True)
class Step:
    """What happened in a step.

    `wrong` are the copies, (module, copy), on which a fault of the script acts. `votes` has the latches of each module whose vote after
    the step differs from that before it, and of all in the first step of a trace. `differing` has those of each copy that differs from
    its vote after the step."""

    number: int
    exchange: StepExchange | None
    repair: ReadRepair | None
    wrong: tuple[tuple[int, int], ...]
    votes: Mapping[int, Latches]
    differing: Mapping[tuple[int, int], Latches]

    @property
    def time(self) -> int:
        """The instruction time of the step."""
        return self.number // STEPS_A_TIME

    @property
    def phase(self) -> str:
        """The phase of the step: A, B or C."""
        return _phase(self.number)

    def __str__(self) -> str:
        lines = [f"{STEP}{self.number}", *(str(it) for it in (self.exchange, self.repair) if it is not None)]
        lines += [f"FAULT {module} {copy}" for module, copy in self.wrong]
        lines += [" ".join([f"VOTE {module}", *map(str, it)]) for module, it in self.votes.items()]
        lines += [" ".join([f"COPY {module} {copy}", *map(str, it)]) for (module, copy), it in self.differing.items()]
        return "".join(f"{it}\n" for it in lines)


# the columns of a table of steps
COLUMNS = ("step", "time", "phase", "exchange", "address", "port", "word", "repair", "wrong", "differing")


def step_of(text: str) -> Step:
    """A step of its text from the number on, which has the form of one."""
    number, *lines = text[:-1].split("\n")
    exchange, repair = None, None
    wrong, votes, differing = [], {}, {}
    for word, told in map(_told, lines):
        if word == "VOTE":
            votes[told[0]] = told[1]
        elif word == "COPY":
            differing[told[0]] = told[1]
        elif word == "FAULT":
            wrong.append(told)
        elif word == "REPAIR":
            repair = told
        else:
            exchange = told
    return Step(int(number), exchange, repair, tuple(wrong), Frozen(votes), Frozen(differing) if differing else _NONE)


def record_of(text: str) -> Record:
    """The same as the columns of a table. Addresses, ports and words are octal digits."""
    found = _BEGINNING.match(text)
    assert found is not None
    number, memory, address, port_kind, port, word, repair = found.groups()
    step, rest = int(number), text[found.end():]
    return {"step": step, "time": step // STEPS_A_TIME, "phase": _phase(step), "exchange": memory or port_kind, "address": address, "port": port,
            "word": word, "repair": repair, "wrong": _named(_FAULT.findall(rest)), "differing": _named(_COPY.findall(rest))}


def need_steps(lines: Lines) -> None:
    """Passes over steps, whose numbers follow each other. Raises Unread at a step whose number doesn't."""
    last: int | None = None
    while (found := lines.may(_STEP)) is not None:
        if last is not None and int(found[1]) != last + 1:
            raise lines.fault("the next step")
        last = int(found[1])
        for form in _LINES:
            lines.may(form)


def _phase(step: int) -> str:
    """The phase of a step."""
    return "ABC"[step % STEPS_A_TIME]


def _named(copies: Iterable[tuple[str, str]]) -> str:
    """Copies, each a module and a number, by the names of their modules."""
    return ", ".join(f"{NAMES[int(module)]} {copy}" for module, copy in copies)


@functools.lru_cache(maxsize=1 << 14)
def _told(line: str) -> tuple[str, Any]:
    """The first word of a line of a step, and what the line tells; the same few are read again and again."""
    word, *rest = line.split(" ")
    match word:
        case "VOTE":
            return word, (int(rest[0]), tuple(map(Word.read, rest[1:])))
        case "COPY":
            return word, ((int(rest[0]), int(rest[1])), tuple(map(Word.read, rest[2:])))
        case "FAULT":
            return word, (int(rest[0]), int(rest[1]))
        case "REPAIR":
            return word, ReadRepair(Address.read(" ".join(rest[:3])), int(rest[3]), len(rest) > 4)
        case "IN" | "OUT":
            return word, PortExchange(word, Port.read(rest[0]), Word.read(rest[1]))
        case _:
            return word, MemoryExchange(word, Address.read(" ".join(rest[:3])), Word.read(rest[3]))
