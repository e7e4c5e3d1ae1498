"""Which latches and words of memory are read and which are written in each step of a run without faults, from its trace.

A latch that a step neither reads nor writes keeps what it has. What the rows of docs/MACHINE.md ("The seven modules") look at is told here
once more, for pruning alone, and never too little: where a row looks at less of a latch than is said here, nothing but time is lost.
`clients/python/tests/test_pruning.py` holds it against the simulator and against whole enumerations."""
from collections.abc import Iterator, Mapping
from dataclasses import dataclass
from typing import NamedTuple

from lvdc.steps import Latches, MemoryExchange, Step
from lvdc.traces import Trace
from lvdc.values import USED, Address

HOP, MPY, SUB, DIV, TNZ, MPH, AND, ADD, TRA, XOR, PIO, STO, TMI, RSU, OTHER, CLA = range(16)
TAKES_OPERAND = {HOP, MPY, SUB, DIV, MPH, AND, ADD, XOR, RSU, CLA}
READS_A = {MPY, SUB, DIV, TNZ, MPH, AND, ADD, XOR, TMI, RSU}
ISSUES = {MPY, DIV, MPH}
ADDRESS_OF_PQ, A8, A9, SIGN = 0o775, 0o200, 0o400, 1 << 25

# Latches by module and index, as in LATCHES.
PHASE, HOLD, PLACE, SAVER, INSTR, DATA, A, OPERAND = (1, 0), (1, 1), (2, 0), (2, 1), (3, 0), (4, 0), (5, 0), (5, 1)
PQ, CONTROL, M, H, Q, STOP, REQUEST = (6, 0), (6, 1), (6, 2), (6, 3), (6, 4), (7, 0), (7, 1)
# what the last step leaves is looked at after it: STOP ends the run, and a report shows the others
SHOWN = {PLACE, SAVER, DATA, A, PQ, STOP}
Latch = tuple[int, int]


@dataclass(frozen=True, slots=True)
class Access:
    """What a step does to the latches as they were before it: the bits of each that it reads, and those that it writes anew."""

    reads: Mapping[Latch, int]
    writes: frozenset[Latch]


class _Before(NamedTuple):
    """What a step finds, as far as what it reads and writes depends on it."""

    phase: int
    hold: int
    operation: int
    address: int
    control: int
    request: int
    a: int

    @property
    def is_executing(self) -> bool:
        """Whether an instruction is carried out."""
        return self.phase == 2 and self.hold == 0

    @property
    def is_operand_phase(self) -> bool:
        """Whether it is phase B of an instruction that isn't passed over."""
        return self.phase == 1 and self.hold == 0

    @property
    def is_pq(self) -> bool:
        """Whether the address names PQ."""
        return self.address == ADDRESS_OF_PQ

    @property
    def works(self) -> bool:
        """Whether the arithmetic unit works in this phase."""
        return bool(self.control & 3 and self.control >> 2 & 31)

    @property
    def lands(self) -> bool:
        """Whether its result lands in this phase."""
        return self.works and self.control >> 2 & 31 == 1

    @property
    def is_taken(self) -> bool:
        """Whether the instruction goes somewhere else, so that SAVER is loaded."""
        return (self.operation in (HOP, TRA) or (self.operation == TNZ and self.a != 0)
                or (self.operation == TMI and bool(self.a & SIGN)))


def accesses(trace: Trace) -> Iterator[tuple[Step, Access]]:
    """Each step but the first with what it reads and writes of the latches that the steps before have left."""
    before: dict[int, Latches] | None = None
    for step, votes in trace.votes():
        if before is not None:
            yield step, _access(before)
        before = votes


def memory_accesses(trace: Trace) -> dict[Address, list[tuple[int, bool]]]:
    """The steps in which each address is read or written, in their order, each with whether it is read."""
    found: dict[Address, list[tuple[int, bool]]] = {}
    for step in trace:
        if isinstance(step.exchange, MemoryExchange):
            found.setdefault(step.exchange.address, []).append((step.number, step.exchange.kind != "STORE"))
    return found


def _access(votes: Mapping[int, Latches]) -> Access:
    """What a step reads and writes of these latches."""
    instruction = votes[3][0] & 0o17777
    before = _Before(min(votes[1][0] & 3, 2), votes[1][1] & 7, instruction >> 9, instruction & 0o777, votes[6][1] & USED[6][1],
                     votes[7][1] & USED[7][1], votes[5][0])
    reads = {latch: USED[latch[0]][latch[1]] for latch, is_read in _reads(before).items() if is_read}
    if REQUEST in reads and before.request & 7 == 0:
        reads[REQUEST] = 7
    return Access(reads, frozenset(latch for latch, is_written in _writes(before).items() if is_written))


def _reads(at: _Before) -> dict[Latch, bool]:
    """Which latches a step reads. CONTROL that is 0 is idle, and stays so where one bit of it is turned over."""
    executing, operation = at.is_executing, at.operation
    return {
        PHASE: True, HOLD: True, STOP: True,
        PLACE: (at.phase == 0 and at.hold == 0) or executing,
        SAVER: at.phase == 2 and at.request & 7 == 2,
        INSTR: at.is_operand_phase or executing,
        DATA: (at.is_operand_phase and not at.is_pq and (operation in TAKES_OPERAND or operation == STO)) or (executing and at.is_taken),
        A: (executing and (operation in READS_A or operation == OTHER or (operation == STO and at.is_pq)))
        or (at.phase == 2 and at.request & 7 in (1, 3)),
        OPERAND: executing and operation in TAKES_OPERAND,
        PQ: at.is_operand_phase and operation in TAKES_OPERAND and at.is_pq,
        CONTROL: at.control & 0o177 != 0,
        M: at.works, H: at.works, Q: at.works,
        REQUEST: at.phase == 2}


def _writes(at: _Before) -> dict[Latch, bool]:
    """Which latches a step writes anew, so that nothing is left of what they had."""
    executing, operation = at.is_executing, at.operation
    stores_pq = executing and operation == STO and at.is_pq
    issues = executing and operation in ISSUES
    return {
        PHASE: True, REQUEST: True,
        SAVER: executing and at.is_taken,
        INSTR: at.phase == 0 and at.hold == 0,
        DATA: executing and (operation == HOP or (operation == OTHER and not at.address & A8)),
        A: (executing and (operation == CLA or (operation == PIO and bool(at.address & A9)))) or (at.lands and at.control & 3 == 2),
        OPERAND: at.is_operand_phase and operation in TAKES_OPERAND,
        PQ: at.lands or stores_pq,
        CONTROL: at.lands or stores_pq or issues,
        M: issues, H: issues, Q: issues}
