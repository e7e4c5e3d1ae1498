"""The voted machine: 21 copies, their votes and two twins (docs/MACHINE.md, "The voted machine")."""
from collections.abc import Sequence

from .devices import Device, read_port, unplug, write_port
from .ends import End, Exchanged, Opening, Repaired
from .faults import LOGIC, Event, Script, wrong_module
from .modules import (Accumulator, Bus, Decoder, Exchange, Latches, Locator, Multiplier, Selector, Timer, bus_of, data_fields, here,
                      hold, instruction, next_states, phase, place_fields)
from .twins import Twins
from .words import Address, Hop, PQ, TAKES_OPERAND, bank_of, fetch_address, operand_address, operand_kind


def voted(one: Latches, two: Latches, three: Latches) -> Latches:
    """Each bit is the value that at least two copies have."""
    if one == two or one == three:
        return one
    return tuple((a & b) | (a & c) | (b & c) for a, b, c in zip(one, two, three))


class Voted:
    """Three copies of each module, two twins and the devices, guarded or through every fault."""

    def __init__(self, opening: Opening, script: Sequence[Event], devices: list[Device], guarded: bool) -> None:
        self.opening, self.devices, self.guarded = opening, devices, guarded
        self.script = Script(script)
        self.votes = Bus(Timer(0, 0), Locator(place_fields(opening.start), 0), Decoder(0), Selector(data_fields(opening.start)),
                         Accumulator(0, 0), Multiplier(0, 0, 0, 0, 0), Exchange(0, 0))
        self.copies: list[list[Latches]] = [[state] * 3 for state in self.votes]
        self.twins = Twins(opening.image, opening.simplex)
        self.words = dict(opening.image)
        self.log: list[Exchanged] = []
        self.repairs: list[Repaired] = []
        self.differed = [[0, 0, 0] for _ in self.votes]
        self.steps = 0
        self.end: End | None = None
        self.exchange: tuple[str, Address | int, int] | None = None

    @property
    def times(self) -> int:
        """The instruction times that are made."""
        return self.steps // 3

    def run(self, count: int) -> None:
        """Goes on until so many times are made or an end comes."""
        while self.steps < 3 * count and self.end is None:
            self.step()

    def step(self) -> None:
        """One step."""
        step = self.steps
        if step % 3 == 0:
            unplug(self.devices, self.opening.unplugs, step // 3)
        active = self.script.active(step)
        self.twins.prepare(active)
        self.end = self.judged(active) if self.guarded else None
        if self.end:
            return
        memory, port = self.exchanged()
        if self.end:
            return
        self.latch([event for event in active if event.word in LOGIC], memory, port)
        self.steps += 1
        stop = self.votes.exchange.stop % 4
        if stop:
            self.end = End("STOPPED", step, "SHIFT" if stop == 1 else "EXM")

    # ---- the exchange of a phase

    def address_to_read(self) -> Address | None:
        """The address that the votes read in this phase, or None."""
        if hold(self.votes) or phase(self.votes) == 2:
            return None
        place, simplex = here(self.votes), self.opening.simplex
        if phase(self.votes) == 0:
            return fetch_address(place, simplex)
        name, address = instruction(self.votes)
        if name in TAKES_OPERAND and operand_kind(address) != PQ:
            return operand_address(place, address, simplex)
        return None

    def judged(self, active: Sequence[Event]) -> End | None:
        """The end that a step is which isn't admissible, or None."""
        module = wrong_module(active)
        if module is not None:
            return End("INADMISSIBLE", self.steps, "LOGIC", module=module)
        at = self.address_to_read()
        if at is not None and not self.twins.is_recoverable(at, self.intended(at)):
            return End("INADMISSIBLE", self.steps, "MEMORY", at=at)
        return None

    def exchanged(self) -> tuple[int, int]:
        """Makes the one exchange of the phase: the words read from memory and from a port, 0 where none is."""
        self.exchange = None
        if phase(self.votes) == 2:
            return 0, self.requested(self.votes.exchange.request)
        at = self.address_to_read()
        return (self.read(at) if at is not None else 0), 0

    def read(self, at: Address) -> int:
        """Reads an address; where no cell is good the run has ended."""
        word, repaired, switched = self.twins.read(at)
        if word is None:
            self.end = End("STOPPED", self.steps, "MEMORY", at=at)
            return 0
        if repaired is not None:
            self.repairs.append((self.steps, at, repaired, switched))
        self.exchange = "FETCH" if phase(self.votes) == 0 else "OPERAND", at, word
        return word

    def requested(self, request: int) -> int:
        """Does what REQUEST asks for; the word that a port answers, else 0."""
        kind, low = request & 7, request >> 3 & 255
        if kind in (1, 2):
            module = 2 * (request >> 15 & 3) + (request >> 17 & 1)
            at = bank_of(module, self.opening.simplex), request >> 11 & 15, low
            word = self.votes.accumulator.a if kind == 1 else self.votes.locator.saver
            self.twins.write(at, word)
            self.words[at] = word
            self.exchange = "STORE", at, word
        elif kind == 3:
            self.exchange = "OUT", low, self.votes.accumulator.a
            write_port(self.devices, low, self.votes.accumulator.a)
            self.log.append((self.times, low, 0, self.votes.accumulator.a))
        elif kind == 4:
            word = read_port(self.devices, low, self.times)
            self.log.append((self.times, low, 1, word))
            self.exchange = "IN", low, word
            return word
        return 0

    # ---- latching: all copies hear the state of before

    def latch(self, events: Sequence[Event], memory: int, port: int) -> None:
        """Lets all copies latch, and counts those that differ from the new votes."""
        common = next_states(self.votes, memory, port)
        shadows: list[list[Latches]] = [[state] * 3 for state in common]
        for m, c in sorted({(event.module - 1, event.copy - 1) for event in events}):
            own = [event for event in events if (event.module, event.copy) == (m + 1, c + 1)]
            shadows[m][c] = self.hurt(m, c, own, common[m], memory, port)
        self.copies = shadows
        self.votes = bus_of([voted(one, two, three) for one, two, three in shadows])
        for m, vote in enumerate(self.votes):
            for c in range(3):
                self.differed[m][c] += shadows[m][c] != vote

    def hurt(self, m: int, c: int, events: Sequence[Event], state: Latches, memory: int, port: int) -> Latches:
        """What a copy latches: DEAF chooses what it hears, LAG keeps the old latches, then FLIP and FORCE in their order."""
        if any(event.word == "DEAF" for event in events):
            state = next_states(bus_of([copies[c] for copies in self.copies]), memory, port)[m]
        if any(event.word == "LAG" for event in events):
            state = self.copies[m][c]
        latches = list(state)
        for event in events:
            if event.word == "FLIP":
                latches[event.latch] ^= event.mask
            elif event.word == "FORCE":
                latches[event.latch] = latches[event.latch] & ~event.mask | event.value & event.mask
        return tuple(latches)

    # ---- what a report asks

    def registers(self) -> tuple[Hop, int, int, int]:
        return here(self.votes), self.votes.accumulator.a, self.votes.multiplier.pq, self.votes.locator.saver

    def intended(self, at: Address) -> int:
        return self.words.get(at, 0)

    def is_known(self, at: Address) -> bool:
        return self.twins.is_recoverable(at, self.intended(at))
