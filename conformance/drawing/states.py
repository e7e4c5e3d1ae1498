"""States of the machine at random, those included that no program comes to."""
from collections.abc import Sequence
from typing import NamedTuple

from simulation.faults import read_fault
from simulation.modules import LATCHES, Bus, Latches, Unit, bus_of, here, hold, instruction, issued, phase, worked
from simulation.voted import voted
from simulation.words import (NAMES, PQ, SHIFTS, TAKES_OPERAND, WORD, Address, Hop, decode, fetch_address, holders, hop_of, operand_address,
                              operand_kind, place, product, quotient, word_of)

from .numbers import Numbers

KINDS = "FLIP FORCE LAG DEAF DAMAGE STICK DEAD".split()
FIRST_STEP = 3  # the step of a vector: that after the first instruction time
PLACE_FIELDS, DATA_FIELDS = 0o377776004, 0o1772


class State(NamedTuple):
    """A whole state before a step, and what is in force in it: the simplex pairs, the twin selected in each pair, the latches of the three copies
    of each module, the words of memory, words of tapes by port, and fault lines of the step."""
    simplex: list[int]
    selected: list[int]
    copies: list[list[Latches]]
    words: dict[Address, int]
    tapes: dict[int, int]
    faults: list[str]

    @property
    def votes(self) -> Bus:
        """The votes."""
        return bus_of([voted(*copies) for copies in self.copies])


# ---- as texts


def latch_words(latches: Sequence[int]) -> str:
    """Latches as a line has them."""
    return " ".join("%09o" % latch for latch in latches)


def address_of(at: Address) -> str:
    """An address as a line has it."""
    return "%o %02o %03o" % at


def forces(copies: Sequence[Sequence[Latches]], step: int) -> list[str]:
    """Lines that make all copies have these latches after a step."""
    return ["FORCE %d %d %d %d %d 377777777 %09o" % (m, c, step, step, i, latch) for m, row in enumerate(copies, 1)
            for c, latches in enumerate(row, 1) for i, latch in enumerate(latches)]


def switching(state: State) -> tuple[Hop, dict[Address, int], list[str]]:
    """A start, words and damage by which the first two steps select twin 1 where the state has it: of one pair by a fetch, of another by an
    operand."""
    pairs = [pair for pair in range(4) if state.selected[pair] and pair not in state.simplex]
    fetched, read = (pairs + [0, 0])[0], (pairs[1:2] or pairs or [0])[0]
    sector = next(sector for sector in range(15) if all(at[1] != sector for at in state.words))
    start = Hop(2 * fetched, sector, 0, 0o123, 2 * read, sector, 0, 0)
    words = {(fetched, sector, 0o123): 0o17177, (read, sector, 0o177): 0o5}
    damage = ["DAMAGE 0 %s 0 0000000001" % address_of((fetched, sector, 0o123))] * (fetched in pairs)
    return start, words, damage + ["DAMAGE 0 %s 1 0000000001" % address_of((read, sector, 0o177))] * (read in pairs and read != fetched)


def deck_of(state: State, times: int, comment: str = "") -> str:
    """A deck whose run through every fault has this state before step 3: the first instruction time ends in it."""
    start, words, damage = switching(state)
    lines = ["IMAGE", "LVDC 2", "START %09o" % word_of(start)]
    lines += ["SIMPLEX" + "".join(" %d" % pair for pair in state.simplex)] if state.simplex else []
    lines += ["%s %09o" % (address_of(at), word) for at, word in sorted({**state.words, **words}.items())] + ["END"]
    lines += ["PORTS", *("TAPE %o %o" % tape for tape in sorted(state.tapes.items()))] if state.tapes else []
    lines += ["FAULTS", *damage, *forces(state.copies, FIRST_STEP - 1), *state.faults, "RUN %d" % times]
    return comment + "".join(line + "\n" for line in lines)


# ---- drawn


class States(Numbers):
    """Draws states."""

    def with_spare_bits(self, value: int, named: int) -> int:
        """A latch with this value; in some of them the bits that nothing reads are drawn."""
        return value & named | self.randrange(WORD) & ~named if self.chance(0.3) else value & named

    def syllable(self, name: str = "") -> int:
        """An instruction, of this name or any."""
        address = self.choice([self.randrange(512), self.randrange(512), self.randrange(512), 0o775, 0o776, 0o777])
        if name in ("", "any"):
            name = self.choice([*NAMES, "SHF", "EXM"])
        if name == "SHF":
            pattern = self.choice(SHIFTS) if self.chance(0.8) else self.randrange(128)
            return 14 << 9 | 0o200 | pattern
        if name == "EXM":
            return 14 << 9 | 0o600 | address & 0o177
        return NAMES.index(name) << 9 | (address & ~0o200 if name == "CDS" else address)

    def hop_word(self) -> int:
        """A HOP constant."""
        return self.choice([self.randrange(WORD), self.randrange(WORD), self.randrange(WORD) & 0o3772, 0o16]) & ~1

    def unit(self) -> list[int]:
        """CONTROL, M, H and Q: often as they stand in the middle of a product or a quotient, else any."""
        if self.chance(0.4):
            unit, _ = self.unit_in_work(self.choice(["MPY", "MPH", "DIV"]), self.randrange(24))
            return list(unit)
        left = self.choice([0, 1, 1, 2, 12, 23, 24, 24, 25, 31, self.randrange(32)])
        control = self.with_spare_bits(self.randrange(4) | left << 2 | self.randrange(4) << 7, 0o777)
        return [control, self.word(), self.word(), self.word()]

    def unit_in_work(self, name: str, phases: int) -> tuple[Unit, tuple[int, int]]:
        """The unit so many phases after an issue, but before its landing, and A and M of the issue."""
        a, m = self.word(), self.word()
        unit = issued(name, a, m)
        for _ in range(min(phases, 23 if name == "DIV" else 11)):
            unit, _ = worked(unit)
        return unit, (a, m)

    def request(self) -> int:
        """A REQUEST: none, one as instructions make, or any."""
        port = self.choice([0, 1, 0o13, 0o14, 0o15, 0o16, 0o17, self.randrange(256)])
        asked = [0, 1, 2, 3 | port << 3, 4 | port << 3, self.randrange(8)]
        kind = self.choice(asked)
        return self.with_spare_bits(kind if kind & 7 in (3, 4) else kind | self.randrange(2**15) << 3, 0o777777)

    def vote(self) -> list[list[int]]:
        """Latches of the seven modules, as the votes are to be."""
        return [[self.with_spare_bits(self.choice([0, 1, 2, 2, 2, 3]), 3), self.with_spare_bits(self.choice([0, 0, 0, self.randrange(8)]), 7)],
                [self.with_spare_bits(self.hop_word(), PLACE_FIELDS), self.hop_word() if self.chance(0.9) else self.randrange(WORD)],
                [self.with_spare_bits(self.syllable(), 0o17777)],
                [self.with_spare_bits(self.hop_word(), DATA_FIELDS)],
                [self.word(), self.word()],
                [self.word(), *self.unit()],
                [self.with_spare_bits(0, 3), self.request()]]

    def latches_beside(self, latches: Sequence[int]) -> Latches:
        """Latches that differ from these."""
        found = list(latches)
        at = self.randrange(len(found))
        found[at] = self.choice([found[at] ^ 1 << self.randrange(26), found[at] ^ self.randrange(1, WORD), self.randrange(WORD), found[at] ^ 1])
        return tuple(found)

    def copies_of(self, votes: Sequence[Sequence[int]]) -> list[list[Latches]]:
        """Three copies of each module by whose vote a run goes on: all like the vote, one that differs, or any."""
        copies: list[list[Latches]] = []
        for m, latches in enumerate(votes):
            row: list[Latches] = [tuple(latches)] * 3
            how = self.random()
            if how < 0.3:
                row[self.randrange(3)] = self.latches_beside(latches)
            elif how < 0.4:
                row = [self.latches_beside(latches) for _ in range(3)]
            if m == 6 and voted(*row)[0] % 4:
                row = [tuple(latches)] * 3
            copies.append(row)
        return copies

    def reads(self, votes: Bus, simplex: Sequence[int]) -> Address | None:
        """The address that the votes read in this step."""
        pairs = frozenset(simplex)
        if hold(votes) or phase(votes) == 2:
            return None
        if phase(votes) == 0:
            return fetch_address(here(votes), pairs)
        name, address = instruction(votes)
        if name in TAKES_OPERAND and operand_kind(address) != PQ:
            return operand_address(here(votes), address, pairs)
        return None

    def stores(self, votes: Bus, simplex: Sequence[int]) -> Address:
        """The place that REQUEST names, whatever it asks for."""
        request = votes.exchange.request
        pair, low = request >> 15 & 3, request >> 17 & 1
        return pair + (4 * low if pair in simplex else 0), request >> 11 & 15, request >> 3 & 255

    def words_around(self, at: Address | None, simplex: Sequence[int]) -> dict[Address, int]:
        """A word at an address, and others where one bit of it is another."""
        words: dict[Address, int] = {}
        if at is not None:
            bank, sector, location = at
            near = [(bank ^ 1 << self.randrange(2), sector, location), (bank, sector ^ 1 << self.randrange(4), location),
                    (bank, sector, location ^ 1 << self.randrange(8)), ((bank + 4) % 8, sector, location)]
            for other in [at, *near]:
                if other[0] < 4 or other[0] - 4 in simplex:
                    words[other] = self.randrange(1, WORD)
        return words

    def cell_fault(self, kind: str, at: Address, simplex: Sequence[int], step: int) -> str:
        """A fault on a cell of an address."""
        twin = self.choice(holders(at, frozenset(simplex))) if self.chance(0.85) else self.randrange(2)
        where = address_of(place(at))
        if kind == "DEAD":
            return "DEAD %d %o %d %d" % (twin, place(at)[0], step, step)
        if kind == "STICK":
            return "STICK %d %s %d %d %010o %010o" % (twin, where, step, step, self.mask(), self.choice([0, 2**28 - 1, self.randrange(2**28)]))
        return "DAMAGE %d %s %d %010o" % (twin, where, step, self.mask())

    def copy_fault(self, kind: str, module: int, copy: int, step: int) -> str:
        """A fault on a copy."""
        line = "%s %d %d %d %d" % (kind, module, copy, step, step)
        if kind in ("FLIP", "FORCE"):
            line += " %d %09o" % (self.randrange(LATCHES[module - 1]), self.choice([self.word(), 1 << self.randrange(26), WORD - 1, 1]))
        return line + " %09o" % self.word() * (kind == "FORCE")

    def fault_lines(self, kind: str, votes: Bus, simplex: Sequence[int], step: int) -> list[str]:
        """Fault lines of a kind, or of all where it is `mixed`; none where it is `none`."""
        at = self.reads(votes, simplex) or self.stores(votes, simplex)
        lines: list[str] = []
        module, copy = self.randrange(1, 8), self.randrange(1, 4)
        for _ in range(0 if kind == "none" else self.choice([1, 1, 2, 3, 5])):
            word = self.choice(KINDS) if kind == "mixed" or self.chance(0.15) else kind
            if self.chance(0.6):
                module, copy = self.choice([module, module, self.randrange(1, 8)]), self.randrange(1, 4)
            of_a_cell = word in ("DAMAGE", "STICK", "DEAD")
            lines.append(self.cell_fault(word, at, simplex, step) if of_a_cell else self.copy_fault(word, module, copy, step))
        assert all(read_fault(line) for line in lines)
        return lines

    def state(self, kind: str, step: int = FIRST_STEP) -> State:
        """A whole state, and faults of a kind that are in force in the step after it."""
        simplex = [pair for pair in range(4) if self.chance(0.2)]
        if kind in ("DAMAGE", "STICK", "DEAD") and self.chance(0.5):
            simplex = []
        copies = self.copies_of(self.aimed(kind, self.vote()))
        votes = bus_of([voted(*row) for row in copies])
        at = self.reads(votes, simplex)
        words = self.words_around(at, simplex)
        if phase(votes) == 2 and votes.exchange.request & 7 in (1, 2):
            words |= self.words_around(self.stores(votes, simplex), simplex)
        if at is not None and phase(votes) == 0:
            words[at] = self.syllable() | self.syllable() << 13 or 1
        port = votes.exchange.request >> 3 & 255
        tapes = {port: self.word()} if port < 0o14 else {}
        selected = [0] * 4
        if at is not None and self.chance(0.4) and at[0] < 4 and at[0] not in simplex:
            selected[at[0]] = 1
        return State(simplex, selected, copies, words, tapes, self.fault_lines(kind, votes, simplex, step))

    def aimed(self, kind: str, votes: list[list[int]]) -> list[list[int]]:
        """Votes that read, where the faults are to be of memory."""
        if kind in ("DAMAGE", "STICK", "DEAD") and self.chance(0.85):
            votes[0][1] &= ~7
            votes[0][0] = votes[0][0] & ~3 | self.choice([0, 0, 1, 1, 2])
            votes[2][0] = votes[2][0] & ~0o17777 | self.syllable(self.choice(sorted(TAKES_OPERAND)))
        if kind == "DEAF" and self.chance(0.4):
            votes[6][1] = 4 | self.choice([0, 1, 0o16]) << 3
            votes[0][0] = votes[0][0] | 2
        return votes

    # ---- of one copy: an instruction time of the plain machine

    def plain_state(self, name: str) -> tuple[State, tuple[int, int, bool] | None]:
        """A state before an instruction time of this operation in which all copies are alike, and what is pending: the times left, the result and
        whether A takes it."""
        simplex = [pair for pair in range(4) if self.chance(0.2)]
        held = self.randrange(1, 5) if self.chance(0.06) else 0
        start = hop_of(self.hop_word())
        pending, unit = self.pending()
        votes: list[Sequence[int]] = [[0, held], [word_of(start) & PLACE_FIELDS, self.hop_word()], [self.randrange(2**13)],
                                      [word_of(start) & DATA_FIELDS], [self.word(), self.word()], [self.word(), *unit], [0, 0]]
        pairs = frozenset(simplex)
        at = fetch_address(start, pairs)
        syllable = self.syllable(name)
        words = self.words_around(at, simplex)
        operation, address = decode(syllable)
        operand = operand_address(start, address, pairs)
        words |= self.words_around(operand, simplex)
        if operation in TAKES_OPERAND:
            words[operand] = self.word()
        other = words.get(at, 0)
        words[at] = syllable << 13 | other & 0o17777 if start.syl else other & ~0o17777 | syllable
        port = address & 255
        tapes = {port: self.word()} if name == "PIO" and port < 0o14 else {}
        copies: list[list[Latches]] = [[tuple(latches)] * 3 for latches in votes]
        return State(simplex, [0] * 4, copies, words, tapes, []), pending

    def pending(self) -> tuple[tuple[int, int, bool] | None, Sequence[int]]:
        """A result that is pending, with the unit's latches; or none."""
        if self.chance(0.4):
            return None, [0, self.word(), self.word(), self.word()]
        name = self.choice(["MPY", "MPH", "DIV"])
        times = 8 if name == "DIV" else 4
        gone = self.randrange(times)
        unit, (a, m) = self.unit_in_work(name, 3 * gone)
        return (times - gone, quotient(a, m) if name == "DIV" else product(a, m), name == "MPH"), unit
