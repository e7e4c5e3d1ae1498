"""States that no program comes to, as FORCE and FLIP make them."""
from collections.abc import Sequence

from drawing.states import State, States, deck_of
from simulation.modules import LATCHES, Latches

from . import Case, comment

TITLE = "states"
SHOWS = """States of the latches that no program comes to: FORCE gives all copies their latches in the last step of the first time, and the run
goes on from there, through every fault. The first cases show one rule each; the others were drawn, with faults of every kind in the step after."""

A_STORE = 0o13002


def set_of(latches: dict[tuple[int, int], int]) -> list[list[Latches]]:
    """Copies that are alike, with these latches by module and index; the others are as at the start."""
    rows: list[list[Latches]] = []
    for module, count in enumerate(LATCHES, 1):
        start = {(2, 0): 0o4, (4, 0): 0o12}
        row = tuple(latches.get((module, index), start.get((module, index), 0)) for index in range(count))
        rows.append([row] * 3)
    return rows


def made(name: str, shows: str, latches: dict[tuple[int, int], int], times: int = 2, words: dict[tuple[int, int, int], int] | None = None,
         faults: Sequence[str] = (), copies: dict[tuple[int, int], Latches] | None = None, tapes: dict[int, int] | None = None) -> list[Case]:
    """A state that is made in step 2: the run through every fault, and the trace of what follows."""
    rows = set_of(latches)
    for (module, copy), own in (copies or {}).items():
        rows[module - 1][copy - 1] = own
    given = deck_of(State([], [0] * 4, rows, words or {}, tapes or {}, list(faults)), times, comment(shows))
    return [Case(name, shows, "run --through", given, given_status(name)),
            Case(name + "-step-by-step", shows, "trace --through 3 12", given, given_status(name))]


def given_status(name: str) -> int:
    """The status: that of a stop where the name says so."""
    return 6 if "stops" in name else 0


def control(kind: int, left: int, more: int = 0) -> int:
    """CONTROL of a kind with so many phases left."""
    return kind | left << 2 | more


FIRST_PHASE = {(6, 2): 0o20000000, (6, 3): 0o10000000, (6, 4): 0}
NAMED = [
    *made("sat-is-cleared-in-the-first-phase-of-a-divide", "The first phase of a divide sets NEG and SAT anew, where they were 1 too.",
          {(6, 1): control(3, 24, 0o600), **FIRST_PHASE}, 10),
    *made("neg-is-cleared-in-the-first-phase-of-a-divide", "The same of NEG alone, with both signs negative.",
          {(6, 1): control(3, 24, 0o200), (6, 2): 0o377777777, (6, 3): 0o370000000}, 10),
    *made("a-divide-with-25-phases-left", "The phase that takes signs is that with 24 left, no other one: with 25 left a bit is made first.",
          {(6, 1): control(3, 25), (6, 2): 0o20000000, (6, 3): 0o310000000, (6, 4): 5}, 10),
    *made("a-divide-with-31-phases-left", "With 31 phases left seven bits are made before the signs are taken.",
          {(6, 1): control(3, 31), (6, 2): 0o320000000, (6, 3): 0o10000001, (6, 4): 0o252525252}, 12),
    *made("the-last-digit-of-a-multiply-is-signed", "In the last phase of a multiply the digits 2 and 3 are -2 and -1.",
          {(6, 1): control(1, 1), (6, 2): 0o1234567, (6, 3): 0o1000, (6, 4): 3}),
    *made("the-last-digit-but-one-isnt-signed", "In every other phase of a multiply the digit is 0 to 3.",
          {(6, 1): control(1, 2), (6, 2): 0o1234567, (6, 3): 0o1000, (6, 4): 0o16}),
    *made("a-multiply-with-31-phases-left", "A multiply may have more phases left than an issue gives it.",
          {(6, 1): control(2, 31), (6, 2): 0o31234567, (6, 3): 0o307000, (6, 4): 0o277777777}, 12),
    *made("mph-lands-in-phase-a", "A product of MPH lands in whatever phase its count comes to an end; A takes it there.",
          {(6, 1): control(2, 1), (6, 2): 0o1234567, (6, 3): 0o1000, (6, 4): 1, (5, 0): 0o7}, 1),
    *made("mph-lands-in-phase-b", "The same in phase B.", {(6, 1): control(2, 2), (6, 2): 0o1234567, (6, 3): 0o1000, (6, 4): 0o35, (5, 0): 0o7}, 2),
    *made("mph-lands-in-phase-c-over-an-instruction", "In phase C the result wins over what the instruction makes of A.",
          {(6, 1): control(2, 3), (6, 2): 0o1234567, (6, 3): 0o1000, (6, 4): 0o35, (5, 0): 0o7}, 2, {(0, 0, 0): 0o17002, (0, 1, 2): 0o111}),
    *made("q-is-cut-to-24-bits", "A phase of a multiply takes the lowest 24 bits of Q.",
          {(6, 1): control(1, 5), (6, 2): 0o1234567, (6, 3): 0o1000, (6, 4): 0o377777777}, 3),
    *made("a-kind-without-phases-left", "Where no phase is left the unit does nothing, whatever its kind.",
          {(6, 1): control(3, 0, 0o600), (6, 2): 5, (6, 3): 6, (6, 4): 7}),
    *made("no-kind-with-phases-left", "Where the kind is 0 the unit does nothing, whatever is left.",
          {(6, 1): control(0, 9), (6, 2): 5, (6, 3): 6, (6, 4): 7}),
    *made("spare-bits-of-control-stay", "The bits 9 to 25 of CONTROL stay through phases, and go with the landing.",
          {(6, 1): control(1, 7, 0o123456000), (6, 2): 5, (6, 3): 6, (6, 4): 7}, 4),
    *made("spare-bits-of-control-give-a-quotient-no-sign", "A quotient is negative by bit 7 of CONTROL alone: the bits 9 to 25 say nothing of it.",
          {(6, 1): control(3, 2, 0o123457000), (6, 2): 0o1234567, (6, 3): 0o1000, (6, 4): 0o35}, 3),
    *made("a-request-in-phase-c-of-a-hold", "Phase C makes the exchange that REQUEST names in a held time too, and REQUEST is 0 after it.",
          {(1, 0): 2, (1, 1): 3, (7, 1): 1 | 2 << 3 | 1 << 11, (5, 0): 0o765}),
    *made("request-is-0-after-phase-b-of-a-hold", "In phase B of a hold REQUEST becomes 0.",
          {(1, 0): 1, (1, 1): 3, (7, 1): 1 | 2 << 3 | 1 << 11, (3, 0): A_STORE, (5, 0): 0o765}),
    *made("request-is-0-after-phase-a", "REQUEST is 0 after phase A, with a hold or without; no store comes of it.",
          {(7, 1): 1 | 2 << 3 | 1 << 11, (5, 0): 0o765}),
    *made("a-request-of-the-kinds-5-to-7", "A REQUEST of another kind than 1 to 4 asks for nothing.",
          {(1, 0): 2, (1, 1): 1, (7, 1): 5 | 2 << 3 | 1 << 11, (5, 0): 0o765}),
    *made("phase-3-is-phase-c", "PHASE 3 is phase C: what REQUEST asks for is made, and the instruction.",
          {(1, 0): 3, (7, 1): 1 | 2 << 3 | 1 << 11, (5, 0): 0o765, (3, 0): 0o07001, (5, 1): 0o12}),
    *made("phase-3-writes-a-port", "The same with a port.", {(1, 0): 3, (7, 1): 3 | 0o17 << 3, (5, 0): 0o765, (3, 0): 0o12017}),
    *made("spare-bits-of-phase-and-hold", "Only two bits of PHASE and three of HOLD are read.",
          {(1, 0): 0o123456704, (1, 1): 0o123456710}),
    *made("hold-is-three-bits", "A hold may be up to 7.", {(1, 1): 7}, 9, {(0, 0, 0): 0o17002, (0, 1, 2): 0o111}),
    *made("place-drops-its-spare-bits", "Where PLACE is made anew its spare bits are 0.",
          {(2, 0): 0o377777777, (1, 0): 2, (3, 0): 0o17001}),
    *made("place-keeps-its-spare-bits-where-it-stays", "Where PLACE isn't made anew its spare bits stay.",
          {(2, 0): 0o000001773, (1, 1): 1}, 1),
    *made("the-saver-keeps-its-spare-bit", "SAVER has all its bits until it is loaded.", {(2, 1): 0o377777777, (1, 0): 1, (3, 0): 0o13776}, 1),
    *made("data-drops-its-spare-bits", "Where DATA is made anew its spare bits are 0; the saver has none of them.",
          {(4, 0): 0o377777777, (1, 0): 2, (3, 0): 0o10002}),
    *made("stop-keeps-its-spare-bits", "The bits of STOP that aren't read stay, and stop nothing.", {(7, 0): 0o377777774}),
    *made("a-new-stop-has-no-spare-bits-and-stops", "EXM makes STOP 2, whatever its spare bits were.",
          {(7, 0): 0o377777774, (1, 0): 2, (3, 0): 0o16600}),
    *made("spare-bits-of-instr", "The bits 13 to 25 of INSTR aren't read.", {(1, 0): 2, (3, 0): 0o377760000 | 0o07001, (5, 1): 5, (5, 0): 6}),
    *made("a-fetch-checks-both-syllables-stops", "A cell whose other syllable is bad is bad: no cell is good, and the run ends.",
          {(5, 0): 1}, 2, {(0, 0, 0): 0o17002}, ["DAMAGE 0 0 00 000 3 0000040000", "DAMAGE 1 0 00 000 3 0000100000"]),
    *made("a-deaf-copy-hears-memory", "A deaf copy hears the word that was fetched.", {}, 2,
          {(0, 0, 0): 0o17002, (0, 1, 2): 0o111}, ["DEAF 3 2 3 3"]),
    *made("a-deaf-copy-hears-an-operand", "A deaf copy hears the operand from memory.", {(1, 0): 1, (3, 0): 0o17002}, 2, {(0, 1, 2): 0o111},
          ["DEAF 5 2 3 3"]),
    *made("a-deaf-copy-hears-a-port", "A deaf copy hears the word from a port.", {(1, 0): 2, (3, 0): 0o12400, (7, 1): 4}, 2, {}, ["DEAF 5 1 3 3"],
          tapes={0: 0o123}),
    *made("a-deaf-copy-follows-its-own-number", "A deaf copy of module 5 follows the copies 2 of all modules: its own latches and theirs.",
          {(1, 0): 2, (3, 0): 0o07001, (5, 0): 1, (5, 1): 2}, 2, {}, ["DEAF 5 2 3 3"],
          {(5, 2): (0o100, 0o200), (3, 2): (0o02001,), (6, 2): (1, 2, 3, 4, 5)}),
    *made("copies-that-differ-without-a-fault", "What a copy had is gone in the next step: all follow the votes.", {}, 2, {},
          [], {(2, 1): (0o123000004, 5), (5, 3): (1, 2), (6, 2): (1, 2, 3, 4, 5)}),
    *made("three-copies-that-all-differ", "The vote is made bit by bit: it may be a word that no copy has.", {}, 2, {},
          ["FORCE 5 1 3 3 0 377777777 000000003", "FORCE 5 2 3 3 0 377777777 000000005", "FORCE 5 3 3 3 0 377777777 000000006"]),
    *made("a-lag-keeps-a-differing-copy", "A copy with LAG keeps its own latches, not those of the vote.", {}, 2, {},
          ["LAG 5 2 3 4"], {(5, 2): (0o77, 0o66)}),
    *made("flip-of-a-lagging-deaf-copy", "LAG takes what the copy had; FLIP and FORCE act on that, in the script's order.",
          {}, 2, {}, ["FORCE 5 2 3 3 0 000000017 000000012", "FLIP 5 2 3 3 0 000000006", "LAG 5 2 3 3", "DEAF 5 2 3 3", "FLIP 5 2 3 3 1 000000001"],
          {(5, 2): (0o77, 0o66)}),
]


def drawn(number: int) -> Case:
    """A drawn state with faults of every kind, and some times more."""
    draw = States(number)
    state = draw.state(draw.choice(["none", "FLIP", "FORCE", "LAG", "DEAF", "DAMAGE", "STICK", "DEAD", "mixed", "mixed"]))
    return Case("drawn-%d" % number, "A drawn state of all copies, and faults.", "run --through", deck_of(state, 5), status_of(state))


def status_of(state: State) -> int:
    """The status by the simulator: the catalogue has none of its own for what was drawn."""
    from simulator import answer  # pylint: disable=import-outside-toplevel
    return answer(["run", "--through"], deck_of(state, 5))[0]


CASES = [*NAMED, *(drawn(number) for number in range(1, 81))]
