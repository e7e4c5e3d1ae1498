"""Studies (docs/FORMATS.md, "Studies")."""
from collections.abc import Sequence
from typing import NamedTuple

from .campaign import Script, find_campaign, read_scripts, verdict
from .decks import Deck, read_deck
from .devices import Device, of_the_program, supplied
from .ends import Exchanged
from .faults import Event
from .form import first_unmet
from .lines import Refused, spot
from .plain import Plain
from .report import text_of
from .voted import Voted

MOST_SCRIPTS, MOST_TIMES_OF_ALL = 65_536, 100_000_000


class Row(NamedTuple):
    """What a row tells, in its order: of the run through every fault the copies that differed, summed over its steps, the number of its
    repairs, and the step of the first or "-"."""
    verdict: str
    outcome: str
    copies: int
    repairs: int
    first: str
    form: str


def read_study(lines: list[str]) -> tuple[Deck, list[Script]]:
    """The deck before CAMPAIGN, which may have PORTS, and (name, script) of each script."""
    at = find_campaign(lines)
    deck = read_deck(lines[:at], of_the_program())
    barred = [deck.headings[word] for word in ("FAULTS", "DEBUG") if word in deck.headings]
    if barred:
        raise Refused("BadSection", min(barred))
    if at == len(lines):
        raise Refused("BadSection", len(lines) + 1)
    scripts = read_scripts(lines, at + 1, MOST_SCRIPTS)
    if deck.count * len(scripts) > MOST_TIMES_OF_ALL:
        raise Refused("CountTooLarge", deck.headings["RUN"])
    return deck, scripts


def first_time(one: Sequence[Exchanged], other: Sequence[Exchanged]) -> int | None:
    """The time of the first exchange that one of two logs lacks or has otherwise, of two times the lesser. None where they are alike."""
    at = next((k for k, (line, due) in enumerate(zip(one, other)) if line != due), min(len(one), len(other)))
    return min((log[at][0] for log in (one, other) if at < len(log)), default=None)


def outcome(voted: Voted, plain: Plain) -> str:
    """The first thing that the voted machine has come to otherwise than the plain one."""
    if voted.end != plain.end:
        return "DIFFERS END"
    time = first_time(voted.log, plain.log)
    if time is not None:
        return "DIFFERS PORT %d" % time
    if voted.registers() != plain.registers():
        return "DIFFERS REGISTERS"
    others = [at for at in {*voted.words, *plain.memory} if voted.intended(at) != plain.intended(at)]
    return "DIFFERS WORDS %s" % spot(min(others)) if others else "SAME"


class Study:
    """A program under scripts. Each run has devices of its own, with the words of the TAPE lines."""

    def __init__(self, deck: Deck) -> None:
        self.deck = deck
        self.plain = Plain(deck.opening, self.devices())
        self.plain.run(deck.count)

    def devices(self) -> list[Device]:
        """Devices in their first states."""
        return supplied(of_the_program(), self.deck.supplies)

    def voted(self, events: Sequence[Event], guarded: bool) -> Voted:
        """The voted machine after its run."""
        machine = Voted(self.deck.opening, events, self.devices(), guarded)
        machine.run(self.deck.count)
        return machine

    def row(self, events: Sequence[Event]) -> Row:
        """What became of a script."""
        through = self.voted(events, False)
        first = "%d" % through.repairs[0][0] if through.repairs else "-"
        masks = first_unmet(self.deck.opening, events, self.deck.count) is None
        copies = sum(sum(counts) for counts in through.differed)
        return Row(verdict(self.voted(events, True).end), outcome(through, self.plain), copies, len(through.repairs), first,
                   "YES" if masks else "NO")


def study(lines: list[str]) -> str:
    """The rows of a study and their total."""
    deck, scripts = read_study(lines)
    machines = Study(deck)
    rows = [machines.row(events) for _, events in scripts]
    told = ["SCRIPT %s %s %s COPIES %d REPAIRS %d %s FORM %s" % (name, *row) for (name, _), row in zip(scripts, rows)]
    admissible, same, masking = (sum(row[field] == word for row in rows) for field, word in ((0, "ADMISSIBLE"), (1, "SAME"), (5, "YES")))
    return text_of(told + ["STUDY %d ADMISSIBLE %d SAME %d FORM %d" % (len(rows), admissible, same, masking)])
