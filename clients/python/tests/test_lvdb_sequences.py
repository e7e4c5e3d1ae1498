"""Random commands, each compared with what a trace that is read directly says: where it stops, the registers, the copies that differ, words
of memory and the calls. --sequences=1000 tries so many sequences."""
import random
from collections.abc import Sequence
from dataclasses import replace
from pathlib import Path

import pytest
from conftest import TOP
from lvdb_model import At, Model

from lvdc import Damage, Dead, Deaf, Deck, Fault, Flip, Force, Lag, Place, Worker
from lvdc.lvdb.commands import carry_out
from lvdc.lvdb.console import Console
from lvdc.lvdb.errors import CommandError
from lvdc.lvdb.program import Options, load
from lvdc.lvdb.session import Debugger
from lvdc.values import LATCHES

PROGRAMS = ["examples/programs/sort.deck", "examples/subroutine.deck", "examples/multiply.deck", "examples/devices.deck",
            "examples/written-while-it-runs.deck", "examples/wandering-faults.deck", "examples/residual-sector.deck", "examples/one-wrong-copy.deck"]
TIMES, COMMANDS = 90, 12


class Sitting:
    """lvdb and the model of the same run, which are told the same commands."""

    def __init__(self, path: Path, worker: Worker, draw: random.Random) -> None:
        program = load(path, Options(), worker)
        program = replace(program, deck=replace(program.deck, count=min(program.deck.count, TIMES)))
        self.console = Console(Debugger(program, worker))
        self.worker, self.draw = worker, draw
        self.deck: Deck = program.deck
        self.faults: list[Fault] = []
        self.is_through = False
        self.position = 0
        self.breaks: dict[int, At] = {}
        self.temporary: set[int] = set()
        self.number = 0
        self.model = Model(self.deck, False, worker)
        self.places = sorted({self.model.place(it) for it in range(0, self.model.end + 1)})
        self.addresses = sorted({at for words in self.model.words for at in words})

    # ---- what is typed, and what comes of it in the model

    def turn(self) -> str:
        """Types a command, and makes what it does in the model."""
        kinds = [self.moves, self.moves, self.moves, self.searches, self.searches, self.stops, self.hurts, self.modes]
        line, self.position = self.draw.choice(kinds)()
        return line

    def moves(self) -> tuple[str, int]:
        """Steps, phases and times."""
        count, here = self.draw.choice([1, 1, 2, 3, 7, 30]), self.position
        match self.draw.randrange(4):
            case 0:
                return f"step {count}", min(self.model.end, (here // 3 + count) * 3)
            case 1:
                return f"phase {count}", min(self.model.end, here + count)
            case 2:
                return f"back {count}", max(0, (-(-here // 3) - count) * 3)
        time, phase = self.draw.randrange(TIMES + 3), self.draw.randrange(3)
        return f"goto {time} {'ABC'[phase]}", min(self.model.end, 3 * time + phase)

    def searches(self) -> tuple[str, int]:
        """To breakpoints, changes and places."""
        wanted = set(self.breaks.values())
        match self.draw.randrange(7):
            case 5:
                starts = self.model.is_arrival(0, {it for it in wanted if isinstance(it, Place)})
                self.position = 0
                return "run", self.arrived(0 if starts else self.model.proceed(0, wanted), True)
            case 6 if not wanted:
                return "next", self.model.next(self.position) if self.position < self.model.end else self.position
            case 0 | 1 | 6:
                return "continue", self.arrived(self.model.proceed(self.position, wanted))
            case 2:
                return "reverse-continue", self.arrived(self.model.reverse(self.position, wanted)) if self.position else 0
            case 3:
                place = self.draw.choice(self.places)
                return f"until {place}", self.model.proceed(self.position, {place})
        return "until", self.model.behind(self.position)

    def arrived(self, position: int, is_run: bool = False) -> int:
        """Breakpoints for one stop that are met are gone."""
        if is_run or self.position < self.model.end or position < self.position:
            for number in [it for it in self.temporary if self.model.is_arrival(position, {p for p in [self.breaks[it]] if isinstance(p, Place)})]:
                self.temporary.discard(number)
                del self.breaks[number]
        return position

    def stops(self) -> tuple[str, int]:
        """Breakpoints and watches."""
        kind = self.draw.choice(["break", "tbreak", "watch", "delete"])
        if kind == "delete":
            number = self.draw.choice([*self.breaks, 99])
            self.breaks.pop(number, None)
            self.temporary.discard(number)
            return f"delete {number}", self.position
        at: At = self.draw.choice(self.addresses) if kind == "watch" else self.draw.choice(self.places)
        if at not in self.breaks.values():
            self.number += 1
            self.breaks[self.number] = at
            if kind == "tbreak":
                self.temporary.add(self.number)
        return f"{kind} {at}", self.position

    def hurts(self) -> tuple[str, int]:
        """Faults, and the last of them out again."""
        fault, line = self.drawn_fault()
        if line == "undo":
            if self.faults:
                self.faults.pop()
        elif self.position < self.model.end:
            self.faults.append(fault)
        return line, self.again()

    def drawn_fault(self) -> tuple[Fault, str]:
        """A fault from now on, and how it is typed."""
        module, copy, twin, bits, more = (self.draw.randrange(1, 8), self.draw.randrange(1, 4), self.draw.randrange(2),
                                          1 << self.draw.randrange(26), 1 << self.draw.randrange(26))
        latch, first, at = self.draw.randrange(len(LATCHES[module])), self.position, self.draw.choice(self.addresses)
        last, typed = self.draw.choice([(2_999_999, ""), (first, " for 1"), (first + 6, " for 7")])
        span, name = (module, copy, first, last), f"hurt {module} {copy}{typed}"
        drawn: list[tuple[Fault, str]] = [
            (Lag(*span), name), (Deaf(*span), f"{name} deaf"), (Flip(*span, latch, bits), f"{name} flip {LATCHES[module][latch]} {bits:o}"),
            (Force(*span, latch, bits, more), f"{name} force {LATCHES[module][latch]} {bits:o} {more:o}"),
            (Damage(twin, at.bank, at.sector, at.location, first, bits), f"damage {at} {twin} {bits:o}"),
            (Dead(twin, at.bank, first, 2_999_999), f"kill {twin} {at.bank}"), (Lag(*span), "undo"), (Lag(*span), "undo")]
        return self.draw.choice(drawn)

    def modes(self) -> tuple[str, int]:
        """Through every fault, or guarded."""
        self.is_through = not self.is_through
        return "through" if self.is_through else "guarded", self.again()

    def again(self) -> int:
        """The model of the deck as it is now, to the same step or to its end."""
        deck = self.deck.with_faults(*self.deck.faults, *self.faults)
        self.model = Model(deck, self.is_through, self.worker)
        return min(self.position, self.model.end)

    # ---- what is compared

    def compare(self, typed: Sequence[str]) -> None:
        """lvdb shows what the model has."""
        debugger, at = self.console.debugger, self.position
        assert debugger.position == at, typed
        assert dict(debugger.state.votes) == self.model.votes[at], typed
        assert dict(debugger.state.differing) == dict(self.model.differing(at)), typed
        assert {it.number: it.at for it in debugger.breakpoints.values()} == self.breaks, typed
        assert (debugger.end is not None) == (at == self.model.end), typed
        assert str(debugger.end) == (str(self.model.trace.end) if at == self.model.end else "None"), typed
        address = self.draw.choice(self.addresses)
        word = self.console.word(address)
        assert word is None or word == self.model.word(at, address), typed
        if not self.is_through:
            assert [it.caller for it in debugger.stack().calls] == self.model.calls(at)[-64:], typed


@pytest.fixture
def sequences(request: pytest.FixtureRequest) -> int:
    """How many sequences are tried."""
    return int(request.config.getoption("--sequences"))


def test_random_commands_stop_where_a_trace_says(worker: Worker, sequences: int) -> None:
    draw = random.Random(56)
    for number in range(sequences):
        sitting = Sitting(TOP / PROGRAMS[number % len(PROGRAMS)], worker, draw)
        typed: list[str] = [PROGRAMS[number % len(PROGRAMS)]]
        for _ in range(COMMANDS):
            typed.append(sitting.turn())
            try:
                carry_out(sitting.console, typed[-1])
            except CommandError as refused:
                typed.append(f"  refused: {refused}")
            sitting.compare(typed)


LOOP = """        CODE
BEGIN   CLA   N
        SUB   =D1
        STO   N
        TNZ   BEGIN
        CLA   =D7
        STO   FOUND
STOP    TRA   STOP
        WORDS 0,01
N       DEC   15000
FOUND   BSS   1
        END
"""


@pytest.mark.parametrize("mode", ["guarded", "through"])
def test_far_searches_stop_where_the_program_says(worker: Worker, tmp_path: Path, mode: str) -> None:
    path = tmp_path / "loop.source"
    path.write_text(LOOP)
    console = Console(Debugger(load(path, Options(times=90_000), worker), worker))
    debugger = console.debugger
    done = 4 * 15_000
    for line, time in [(mode, 0), ("break STOP", 0), ("continue", done + 2), ("reverse-continue", 0), ("goto 89000", 89_000), ("break 6", 89_000),
                       ("delete 1", 89_000), ("reverse-continue", done), ("watch FOUND", done), ("continue", done + 2), ("delete", done + 2),
                       ("watch N", done + 2), ("reverse-continue", done - 2), ("continue", done - 1), ("until STOP", done + 2), ("delete", done + 2),
                       ("break BEGIN", done + 2), ("goto 80000", 80_000), ("reverse-continue", done - 4), ("goto 7", 7), ("until", done)]:
        carry_out(console, line)
        assert debugger.position == 3 * time, line
