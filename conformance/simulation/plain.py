"""The plain machine: one copy of the logic, and a memory that never fails (docs/MACHINE.md, "One instruction time")."""
from typing import NamedTuple

from .devices import Device, read_port, unplug, write_port
from .ends import End, Exchanged, Opening
from .words import (Address, Hop, MEANINGLESS, MEMORY, PQ, TAKES_OPERAND, WORD, after, decode, fetch_address, hop_of, jumped, operand_address,
                    operand_kind, product, quotient, shifted, syllable_at, with_data, word_of)


class Pending(NamedTuple):
    """What the arithmetic unit works on: the times left, what it comes to, and whether A gets it too."""
    left: int
    result: int
    for_a: bool


class Plain:
    """The machine of one copy."""

    def __init__(self, opening: Opening, devices: list[Device]) -> None:
        self.opening = opening
        self.devices = devices
        self.hop = opening.start
        self.a = self.pq = self.saver = 0
        self.pending: Pending | None = None
        self.hold = 0
        self.memory = dict(opening.image)
        self.log: list[Exchanged] = []
        self.times = 0
        self.end: End | None = None

    def run(self, count: int) -> None:
        """Goes on until so many times are made or an end comes."""
        while self.times < count and self.end is None:
            self.time()

    def time(self) -> None:
        """One instruction time."""
        unplug(self.devices, self.opening.unplugs, self.times)
        old_a = self.a
        issued: Pending | None = None
        stores_pq = False
        if self.hold:
            self.hold -= 1
        else:
            word = self.memory.get(fetch_address(self.hop, self.opening.simplex), 0)
            issued, stores_pq = self.effect(*decode(syllable_at(self.hop, word)))
        self.land()
        if stores_pq:
            self.pq, self.pending = old_a, None
        if issued:
            self.pending = issued
        self.times += 1

    def land(self) -> None:
        """Counts a time, and lets a product or a quotient land."""
        if self.pending is None:
            return
        self.pending = self.pending._replace(left=self.pending.left - 1)
        if self.pending.left == 0:
            self.pq = self.pending.result
            if self.pending.for_a:
                self.a = self.pending.result
            self.pending = None

    def operand(self, address: int) -> int:
        """The word that nine address bits name."""
        if operand_kind(address) == PQ:
            return self.pq
        return self.memory.get(operand_address(self.hop, address, self.opening.simplex), 0)

    def effect(self, name: str, address: int) -> tuple[Pending | None, bool]:
        """The row of the instruction table. Answers what it issues, and whether it stores to PQ."""
        a, m, here, stores_pq = self.a, 0, self.hop, False
        issued: Pending | None = None
        if name in TAKES_OPERAND:
            m = self.operand(address)
        following = after(here)
        taken = name in ("HOP", "TRA") or (name == "TNZ" and a != 0) or (name == "TMI" and a >= WORD // 2)
        if name in (MEANINGLESS, "EXM"):
            self.end = End("STOPPED", 3 * self.times + 2, "SHIFT" if name == MEANINGLESS else "EXM")
            return None, False
        if taken:
            self.saver = word_of(following)
            self.hop = hop_of(m) if name == "HOP" else jumped(here, address)
        elif name == "CDS":
            self.hop = with_data(following, address)
        else:
            self.hop = following
        if name in ("MPY", "MPH"):
            issued = Pending(4, product(a, m), name == "MPH")
            self.hold = 4 if name == "MPH" else 0
        elif name == "DIV":
            issued = Pending(8, quotient(a, m), False)
        elif name == "PIO":
            self.exchange(address)
        elif name == "STO":
            stores_pq = self.store(here, address)
        elif name == "SHF":
            self.a = shifted(a, address & 0o177)
        else:
            self.a = {"SUB": (a - m) % WORD, "RSU": (m - a) % WORD, "ADD": (a + m) % WORD, "AND": a & m, "XOR": a ^ m,
                      "CLA": m}.get(name, a)
        return issued, stores_pq

    def exchange(self, address: int) -> None:
        """Reads or writes a port."""
        port = address & 255
        if address >> 8:
            self.a = read_port(self.devices, port, self.times)
        else:
            write_port(self.devices, port, self.a)
        self.log.append((self.times, port, address >> 8, self.a))

    def store(self, here: Hop, address: int) -> bool:
        """Stores A or the saver, or answers that PQ is to have A."""
        kind = operand_kind(address)
        if kind != PQ:
            self.memory[operand_address(here, address, self.opening.simplex)] = self.a if kind == MEMORY else self.saver
        return kind == PQ

    # ---- what a report asks

    def registers(self) -> tuple[Hop, int, int, int]:
        return self.hop, self.a, self.pq, self.saver

    def intended(self, at: Address) -> int:
        return self.memory.get(at, 0)

    def is_known(self, at: Address) -> bool:
        return True
