"""The seven modules and the arithmetic unit (docs/MACHINE.md, "The arithmetic unit" and "The seven modules")."""
from typing import NamedTuple

from .words import (Hop, MEANINGLESS, PQ, SAVER, TAKES_OPERAND, WORD, after, decode, hop_of, jumped, operand_kind,
                    operand_sector, right, shifted, signed, syllable_at, with_data, word_of)


class Timer(NamedTuple):
    """The latches of module 1."""
    phase: int
    hold: int


class Locator(NamedTuple):
    """The latches of module 2."""
    place: int
    saver: int


class Decoder(NamedTuple):
    """The latch of module 3."""
    instr: int


class Selector(NamedTuple):
    """The latch of module 4."""
    data: int


class Accumulator(NamedTuple):
    """The latches of module 5."""
    a: int
    operand: int


class Multiplier(NamedTuple):
    """The latches of module 6."""
    pq: int
    control: int
    m: int
    h: int
    q: int


class Exchange(NamedTuple):
    """The latches of module 7."""
    stop: int
    request: int


class Bus(NamedTuple):
    """What each copy hears of the seven modules."""
    timer: Timer
    locator: Locator
    decoder: Decoder
    selector: Selector
    accumulator: Accumulator
    multiplier: Multiplier
    exchange: Exchange


Latches = tuple[int, ...]
LATCHES = [len(fields) for fields in (Timer._fields, Locator._fields, Decoder._fields, Selector._fields, Accumulator._fields,
                                     Multiplier._fields, Exchange._fields)]


def bus_of(states: list[Latches]) -> Bus:
    """The bus of these latches, module by module."""
    timer, locator, decoder, selector, accumulator, multiplier, exchange = states
    return Bus(Timer(*timer), Locator(*locator), Decoder(*decoder), Selector(*selector), Accumulator(*accumulator),
               Multiplier(*multiplier), Exchange(*exchange))


# ---- what a module sees of a bus: the seven states


def phase(bus: Bus) -> int:
    """The phase of the votes: 0, 1 or 2."""
    return min(bus.timer.phase % 4, 2)


def hold(bus: Bus) -> int:
    """How many times are still to be passed over."""
    return bus.timer.hold % 8


def instruction(bus: Bus) -> tuple[str, int]:
    """The operation and the nine address bits."""
    return decode(bus.decoder.instr % 2**13)


def here(bus: Bus) -> Hop:
    """The instruction fields of PLACE with the data fields of DATA."""
    data = hop_of(bus.selector.data)
    return hop_of(bus.locator.place)._replace(dmod=data.dmod, dsec=data.dsec, dupdn=data.dupdn)


def is_executing(bus: Bus) -> bool:
    """Is an instruction carried out in this phase?"""
    return phase(bus) == 2 and hold(bus) == 0


def place_fields(hop: Hop) -> int:
    """PLACE: the word without the data fields."""
    return word_of(hop._replace(dmod=0, dsec=0, dupdn=0))


def data_fields(hop: Hop) -> int:
    """DATA: the word of the data fields alone."""
    return word_of(hop._replace(imod=0, isec=0, syl=0, loc=0, dupin=0))


def is_taken(bus: Bus, name: str) -> bool:
    """Does the instruction transfer?"""
    a = bus.accumulator.a
    return name in ("HOP", "TRA") or (name == "TNZ" and a != 0) or (name == "TMI" and a >= WORD // 2)


# ---- the arithmetic unit: CONTROL has the kind in bits 1-0, the phases left in bits 6-2, NEG in bit 7, SAT in bit 8


class Unit(NamedTuple):
    """The latches that the arithmetic unit works on."""
    control: int
    m: int
    h: int
    q: int


def issued(name: str, a: int, operand: int) -> Unit:
    """The unit as a multiply or a divide begins."""
    if name == "DIV":
        return Unit(3 | 24 << 2, right(operand, 2), right(a, 2), 0)
    return Unit((2 if name == "MPH" else 1) | 12 << 2, right(operand, 2), 0, a // 4)


def multiplied(unit: Unit, left: int) -> Unit:
    """A phase of a multiply."""
    digit = unit.q % 4
    if left == 1 and digit >= 2:
        digit -= 4
    total = (signed(unit.h) + digit * signed(unit.m)) % WORD
    return unit._replace(h=right(total, 2), q=(unit.q % 2**24) // 4 + (total % 4) * 2**22)


def divided(unit: Unit, left: int) -> Unit:
    """A phase of a divide."""
    if left == 24:
        h, m = signed(unit.h), signed(unit.m)
        negative, saturated = (h < 0) != (m < 0), abs(h) >= abs(m)
        control = unit.control & ~(3 << 7) | negative << 7 | saturated << 8
        return unit._replace(control=control, h=abs(h), m=abs(m))
    double = 2 * unit.h % WORD
    if double >= unit.m:
        return unit._replace(h=double - unit.m, q=(2 * unit.q + 1) % WORD)
    return unit._replace(h=double, q=2 * unit.q % WORD)


def result(unit: Unit, kind: int) -> int:
    """What lands."""
    if kind != 3:
        return (8 * unit.h + unit.q // 2**21) % WORD
    negative, saturated = unit.control >> 7 & 1, unit.control >> 8 & 1
    if saturated:
        return 0o200000000 if negative else 0o177777774
    return (-4 * unit.q if negative else 4 * unit.q) % WORD


def worked(unit: Unit) -> tuple[Unit, int | None]:
    """One phase of the unit: its latches after it, and what lands, or None."""
    kind, left = unit.control & 3, unit.control >> 2 & 31
    if kind == 0 or left == 0:
        return unit, None
    unit = divided(unit, left) if kind == 3 else multiplied(unit, left)
    unit = unit._replace(control=unit.control - 4)
    return unit, result(unit, kind) if left == 1 else None


# ---- the rows


def next_timer(bus: Bus) -> Timer:
    """The row of TIMER."""
    following = (1, 2, 0)[phase(bus)]
    if phase(bus) != 2:
        return Timer(following, bus.timer.hold)
    if hold(bus):
        return Timer(following, hold(bus) - 1)
    return Timer(following, 4 if instruction(bus)[0] == "MPH" else 0)


def next_locator(bus: Bus) -> Locator:
    """The row of LOCATOR."""
    name, address = instruction(bus)
    if not is_executing(bus) or name in (MEANINGLESS, "EXM"):
        return bus.locator
    following = after(here(bus))
    if not is_taken(bus, name):
        return bus.locator._replace(place=place_fields(following))
    to = hop_of(bus.accumulator.operand) if name == "HOP" else jumped(here(bus), address)
    return Locator(place_fields(to), word_of(following))


def next_decoder(bus: Bus, memory: int) -> Decoder:
    """The row of DECODER."""
    if phase(bus) == 0 and hold(bus) == 0:
        return Decoder(syllable_at(here(bus), memory))
    return bus.decoder


def next_selector(bus: Bus) -> Selector:
    """The row of SELECTOR."""
    name, address = instruction(bus)
    if is_executing(bus) and name == "HOP":
        return Selector(data_fields(hop_of(bus.accumulator.operand)))
    if is_executing(bus) and name == "CDS":
        return Selector(data_fields(with_data(here(bus), address)))
    return bus.selector


def accumulated(name: str, address: int, a: int, m: int, port: int) -> int:
    """What an instruction leaves in A."""
    if name == "PIO":
        return port if address >> 8 else a
    if name == "SHF":
        return shifted(a, address & 0o177)
    return {"SUB": (a - m) % WORD, "RSU": (m - a) % WORD, "ADD": (a + m) % WORD, "AND": a & m, "XOR": a ^ m, "CLA": m}.get(name, a)


def next_accumulator(bus: Bus, memory: int, port: int) -> Accumulator:
    """The row of ACCUMULATOR."""
    name, address = instruction(bus)
    a, operand = bus.accumulator
    if phase(bus) == 1 and hold(bus) == 0 and name in TAKES_OPERAND:
        operand = bus.multiplier.pq if operand_kind(address) == PQ else memory
    if is_executing(bus):
        a = accumulated(name, address, a, operand, port)
    landed = worked(Unit(*bus.multiplier[1:]))[1]
    if landed is not None and bus.multiplier.control & 3 == 2:
        a = landed
    return Accumulator(a, operand)


def next_multiplier(bus: Bus) -> Multiplier:
    """The row of MULTIPLIER."""
    name, address = instruction(bus)
    unit, landed = worked(Unit(*bus.multiplier[1:]))
    pq = bus.multiplier.pq
    if landed is not None:
        pq, unit = landed, unit._replace(control=0)
    if is_executing(bus) and name == "STO" and operand_kind(address) == PQ:
        pq, unit = bus.accumulator.a, unit._replace(control=0)
    if is_executing(bus) and name in ("MPY", "MPH", "DIV"):
        unit = issued(name, bus.accumulator.a, bus.accumulator.operand)
    return Multiplier(pq, *unit)


def request(bus: Bus) -> int:
    """What an instruction asks for, as a word: bits 2-0 the kind, 10-3 location or port, 14-11 the sector, 17-15 the module."""
    name, address = instruction(bus)
    if name == "PIO":
        return (4 if address >> 8 else 3) | (address & 255) << 3
    if name != "STO" or operand_kind(address) == PQ:
        return 0
    hop = here(bus)
    kind = 2 if operand_kind(address) == SAVER else 1
    return kind | (address & 255) << 3 | operand_sector(hop, address) << 11 | (hop.dmod >> 1) << 15 | (hop.dmod & 1) << 17


def next_exchange(bus: Bus) -> Exchange:
    """The row of EXCHANGE."""
    asked = request(bus) if phase(bus) == 1 and hold(bus) == 0 else 0
    stop, name = bus.exchange.stop, instruction(bus)[0]
    if is_executing(bus):
        stop = {MEANINGLESS: 1, "EXM": 2}.get(name, stop)
    return Exchange(stop, asked)


def next_states(bus: Bus, memory: int, port: int) -> Bus:
    """What each of the seven latches from this bus."""
    return Bus(next_timer(bus), next_locator(bus), next_decoder(bus, memory), next_selector(bus), next_accumulator(bus, memory, port),
               next_multiplier(bus), next_exchange(bus))
