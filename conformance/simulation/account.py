"""The same report as that of a guarded run, but for its last two parts, from the plain run and the script alone: no copy, no vote and
no selection occurs here (docs/MACHINE.md, "Stored cells, recoverable words, admissible steps")."""
from collections.abc import Sequence

from .devices import Device, unplug
from .ends import End, Exchanged, Opening
from .faults import Event, Script, wrong_module
from .plain import Plain
from .twins import Twins
from .words import (Address, Hop, PQ, SAVER, TAKES_OPERAND, code, decode, decoded, fetch_address, holders, operand_address, operand_kind, place,
                    syllable_at)


class Account:
    """The plain run, what the twins store by it and the script, and the verdict on each step."""

    def __init__(self, opening: Opening, script: Sequence[Event], devices: list[Device]) -> None:
        self.opening, self.script = opening, Script(script)
        self.plain = Plain(opening, devices)
        self.cells = Twins(opening.image, opening.simplex)
        self.end: End | None = None

    def run(self, count: int) -> None:
        """Goes on until so many times are made or an end comes."""
        while self.plain.times < count and self.end is None:
            self.time()

    def time(self) -> None:
        """Judges the three steps of the next time, and makes it where all are admissible."""
        step = 3 * self.plain.times
        fetched, operand, stored = self.accesses()
        for phase, at in enumerate((fetched, operand, None)):
            active = self.script.active(step + phase)
            self.cells.prepare(active)
            self.end = self.judged(step + phase, active, at)
            if self.end:
                unplug(self.plain.devices, self.opening.unplugs, self.plain.times)
                return
            if at is not None:
                self.mend(at)
        if stored is not None:
            self.cells.write(*stored)
        self.plain.time()
        self.end = self.plain.end

    def accesses(self) -> tuple[Address | None, Address | None, tuple[Address, int] | None]:
        """The addresses that the plain run fetches and reads in the next time, and the address and the word that it stores."""
        plain, simplex = self.plain, self.opening.simplex
        if plain.hold:
            return None, None, None
        fetched = fetch_address(plain.hop, simplex)
        name, address = decode(syllable_at(plain.hop, plain.intended(fetched)))
        if operand_kind(address) == PQ:
            return fetched, None, None
        at = operand_address(plain.hop, address, simplex)
        stored = (at, plain.saver if operand_kind(address) == SAVER else plain.a)
        return fetched, at if name in TAKES_OPERAND else None, stored if name == "STO" else None

    def judged(self, step: int, active: Sequence[Event], at: Address | None) -> End | None:
        """The end that a step is which isn't admissible."""
        module = wrong_module(active)
        if module is not None:
            return End("INADMISSIBLE", step, "LOGIC", module=module)
        if at is not None and not self.is_known(at):
            return End("INADMISSIBLE", step, "MEMORY", at=at)
        return None

    def mend(self, at: Address) -> None:
        """Where a duplex pair is read, each twin that isn't dead and shows a bad cell stores the code of the plain word."""
        held = holders(at, self.opening.simplex)
        for twin in held if len(held) == 2 else []:
            if not self.cells.is_dead(twin, place(at)[0]) and decoded(self.cells.shows(twin, place(at))) is None:
                self.cells.keep(twin, place(at), code(self.intended(at)))

    # ---- what a report asks

    @property
    def times(self) -> int:
        return self.plain.times

    @property
    def log(self) -> Sequence[Exchanged]:
        return self.plain.log

    def registers(self) -> tuple[Hop, int, int, int]:
        return self.plain.registers()

    def intended(self, at: Address) -> int:
        return self.plain.intended(at)

    def is_known(self, at: Address) -> bool:
        return self.cells.is_recoverable(at, self.intended(at))
