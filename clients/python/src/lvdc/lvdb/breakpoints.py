"""Where a run is to stop: breakpoints at places, words and registers that are watched, and mistakes that are caught."""
from collections.abc import Callable, Iterable, Iterator
from dataclasses import dataclass, replace
from typing import Any

from lvdc.lvdb.errors import CommandError
from lvdc.lvdb.mistakes import Mistake
from lvdc.lvdb.program import Program
from lvdc.lvdb.searches import Change, Found, Read, What
from lvdc.values import Address, Place, Word

# of each kind, whether it stops at a change, and whether at a read
_WATCHES = {"watch": (True, False), "rwatch": (False, True), "awatch": (True, True)}
Instructions = Callable[[Address, tuple[Word | None, Word | None]], str]


@dataclass(frozen=True, slots=True)
class Breakpoint:
    """What is to stop a run. `kind` is break, tbreak, which is for one stop, watch, rwatch, awatch or catch; `text` names it, and `typed`
    is what was typed, so that it is found again after an edit. It stops where its condition isn't 0, after `left` hits that it passes over."""

    number: int
    kind: str
    at: Place | Address | str
    text: str
    typed: str = ""
    kinds: frozenset[str] = frozenset()
    condition: str = ""
    left: int = 0
    hits: int = 0

    @property
    def whats(self) -> list[What]:
        """What a search looks for."""
        if isinstance(self.at, Place):
            return [self.at]
        if self.kind == "catch":
            return []
        is_change, is_read = _WATCHES[self.kind]
        reads: list[What] = [Read(self.at)] if is_read and isinstance(self.at, Address) else []
        return [Change(self.at)] * is_change + reads

    def meets(self, what: What | None) -> bool:
        """Whether this is what it stops at."""
        return what.kind in self.kinds if isinstance(what, Mistake) else what in self.whats

    def reason(self, found: Found, instructions: Instructions) -> str:
        """Why it stops."""
        words = ["?" if it is None else str(it) for it in (found.before, found.after)]
        match found.what:
            case Mistake() as mistake:
                return f"catch {self.number}: {mistake.kind}: {mistake.text}"
            case Read():
                return f"{self.kind} {self.number}: {self.text} is read, {words[1]}"
            case Change(at=Address() as at):
                return f"{self.kind} {self.number}: {self.text} {words[0]} -> {words[1]}{instructions(at, (found.before, found.after))}"
        return f"{self.kind} {self.number}: {self.text} {words[0]} -> {words[1]}"

    def __str__(self) -> str:
        kind = "break for one stop" if self.kind == "tbreak" else self.kind
        more = [f"if {self.condition}"] * bool(self.condition) + [f"passes over {self.left} more"] * bool(self.left)
        more += [f"hit {self.hits} time{'s' * (self.hits != 1)}"] * bool(self.hits)
        return "  ".join([str(self.number), kind, self.text, *more])


class Breakpoints:
    """The breakpoints by their numbers."""

    def __init__(self, found: Iterable[Breakpoint] = (), last: int = 0) -> None:
        self._found = {it.number: it for it in found}
        self.last = last

    def __contains__(self, number: int) -> bool:
        return number in self._found

    def __len__(self) -> int:
        return len(self._found)

    def __iter__(self) -> Iterator[int]:
        return iter(list(self._found))

    def values(self) -> list[Breakpoint]:
        """All of them, in the order of their numbers."""
        return list(self._found.values())

    def copy(self) -> "Breakpoints":
        """The same, to be changed."""
        return Breakpoints(self.values(), self.last)

    def without_counts(self) -> "Breakpoints":
        """The same, where none passes over a hit."""
        return Breakpoints([replace(it, left=0) for it in self.values()], self.last)

    @property
    def are_counted(self) -> bool:
        """Whether one has a condition or passes over hits."""
        return any(it.condition or it.left for it in self.values())

    def at_place(self, place: Place) -> list[Breakpoint]:
        """Those at a place."""
        return [it for it in self.values() if it.at == place]

    def add(self, added: Breakpoint) -> Breakpoint:
        """Adds one; two of a kind can't be at one place."""
        if any((it.at, it.kind) == (added.at, added.kind) or isinstance(it.at, Place) and it.at == added.at for it in self.values()):
            raise CommandError(f"{added.text} has a breakpoint already; `info breakpoints` shows them")
        self._found[added.number] = added
        self.last = max(self.last, added.number)
        return added

    def remove(self, number: int) -> None:
        """Takes one away."""
        del self._found[number]

    def change(self, number: int, **changed: Any) -> Breakpoint:
        """Changes one, and gives it as it is then."""
        self._found[number] = replace(self._found[number], **changed)
        return self._found[number]

    def pass_over(self, met: list[Breakpoint]) -> bool:
        """Counts the hits of those that are met and pass over one more; whether one of the others is met."""
        for it in met:
            if it.left:
                self.change(it.number, left=it.left - 1, hits=it.hits + 1)
        return any(it.left == 0 for it in met)

    def hit(self, met: list[Breakpoint]) -> "Breakpoints":
        """The same with the hits of a stop counted, and without those for one stop that are met."""
        numbers = {it.number for it in met}
        kept = [replace(it, hits=it.hits + (it.number in numbers)) for it in self.values() if it.kind != "tbreak" or it.number not in numbers]
        return Breakpoints(kept, self.last)


def find_again(program: Program, old: Breakpoint) -> dict[str, Any]:
    """Where a breakpoint stands in a program that was edited."""
    if not old.typed or old.kind == "catch":
        return {}
    words = old.typed.split()
    if isinstance(old.at, Place):
        place = program.find_place(words)
        label = program.label(place)
        return {"at": place, "text": f"{label} ({place})" if label else str(place)}
    if isinstance(old.at, Address):
        address = program.find_address(words)
        name = program.name_of(address)
        return {"at": address, "text": f"{name} ({address})" if name else str(address)}
    return {}
