"""Inputs of each command and request, made from a few numbers: a recipe says how many lines of which kinds there are, and what is in them.

A recipe is a dict of numbers, each in a range of its own, so that one can be changed at random, and made smaller. What would be beyond a limit
of docs/FORMATS.md is left out, so every recipe makes an input that is taken."""
import pathlib
from collections.abc import Callable, Iterator
from itertools import islice, repeat
from typing import NamedTuple

MOST_BYTES, MOST_SAVED_BYTES = 1_048_576, 134_217_728
MOST_TIMES, MOST_OF_A_CAMPAIGN, MOST_EVENTS, STEPS = 1_000_000, 10_000, 65_536, 3_000_000
MOST_SCRIPTS, MOST_SCRIPTS_OF_A_STUDY, MOST_ASKED = 256, 65_536, 100_000_000
LATCHES = (2, 2, 1, 1, 2, 5, 2)
KINDS = ("FLIP", "FORCE", "LAG", "DEAF", "DAMAGE", "STICK", "DEAD")
OF_CELLS = KINDS[4:]
BLOCKS = 3
WORD = 1 << 26
ORDERS = ("ABCDEFGHIJKLMNOPQRSTU", "UTSRQPONMLKJIHGFEDCBA")
PATHS = ("", " --through", " --plain")
# the most of a small recipe, and the numbers that say where something is
FEW, FEW_SCRIPTS = 3_000, 4
WHERE = ("at", "first", "gap", "length", "number", "room")

Recipe = dict[str, int]
Ranges = dict[str, tuple[int, int]]


# ---- programs

# What runs: nothing that is set, the loop of a soak run, a loop with a delayed product and a port, a store and a port in turns, one word that
# stays where it is, loads of many words.
LOOPS: tuple[list[int], ...] = (
    [],
    [0o17000, 0o07001, 0o13000, 0o01002, 0o11003, 0o13003, 0o12017, 0o12416, 0o06004, 0o13005, 0o17775, 0o13006, 0o10000],
    [0o17000, 0o07001, 0o05002, 0o16201, 0o12015, 0o10000],
    [0o13000, 0o12017, 0o12400, 0o10000],
    [0o12017, 0o10000],
    [0o10000],
    [0o12017] * 255 + [0o10000],
    [0o05002] * 3 + [0o10000],
)


def image(numbers: Recipe) -> list[str]:
    """An image: a loop, and so many words besides, in duplex or in simplex pairs."""
    simplex, loop = numbers["simplex"], LOOPS[numbers["loop"]]
    words = {at: code for at, code in enumerate(loop)}
    for at in range(256, min(256 + numbers["words"], 32_768 if simplex else 16_384)):
        words[at] = 1 + at * 4099 % (WORD - 1)
    lines = ["LVDC 2", "START 000000016", "SIMPLEX 0 1 2 3"] if simplex else ["LVDC 1"]
    return [*lines, *("%o %02o %03o %09o" % (at >> 12, at >> 8 & 15, at & 255, word) for at, word in sorted(words.items())), "END"]


# ---- faults

def block_ranges(block: int | str) -> Ranges:
    """The numbers of a block of fault lines, each with the number of the block behind its name."""
    return {f"{name}{block}": limits for name, limits in {
        "kind": (0, len(KINDS) - 1), "count": (0, MOST_EVENTS), "from": (0, 20), "stride": (1, 20), "over": (1, 21), "latch": (0, 4), "twin": (0, 2),
        "places": (1, 4096), "at": (0, 16383), "first": (0, STEPS - 1), "gap": (0, STEPS - 1), "length": (0, STEPS - 1), "falls": (0, 1),
        "mask": (0, 3), "value": (0, 5)}.items()}


MASKS = (0, 1, 0o252525252, WORD - 1)
# the last two make a copy of the timer or of the exchange ask for a write to a port in each step
VALUES = (*MASKS, 2, 0o143)


def block_lines(numbers: Recipe, block: int, count: int) -> Iterator[str]:
    """So many lines of a block of fault lines."""
    of = {name: numbers[f"{name}{block}"] for name in block_ranges("")}
    kind, mask, value = KINDS[of["kind"]], MASKS[of["mask"]], VALUES[of["value"]]
    turns = range(of["count"] - 1, of["count"] - 1 - count, -1) if of["falls"] else range(count)
    steps = ((min(first, STEPS - 1), min(first + of["length"], STEPS - 1)) for first in (of["first"] + of["gap"] * turn for turn in turns))
    if kind in OF_CELLS:
        twins = [of["twin"]] if of["twin"] < 2 else [0, 1]
        places = [(of["at"] + at) % 16_384 for at in range(of["places"])]
        for at, (first, last) in enumerate(steps):
            twin, place = twins[at % len(twins)], places[at % len(places)]
            if kind == "DEAD":
                yield f"DEAD {twin} {place >> 12} {first} {last}"
            elif kind == "DAMAGE":
                yield f"DAMAGE {twin} {place >> 12} {place >> 8 & 15:o} {place & 255:o} {first} {mask:o}"
            else:
                yield f"STICK {twin} {place >> 12} {place >> 8 & 15:o} {place & 255:o} {first} {last} {mask:o} {value:o}"
        return
    copies = [(of["from"] + of["stride"] * at) % 21 for at in range(of["over"])]
    fronts = [f"{kind} {copy // 3 + 1} {copy % 3 + 1} " for copy in copies]
    behind = {"FLIP": f" {mask:o}", "FORCE": f" {mask:o} {value:o}"}.get(kind)
    ends = [f" {of['latch'] % LATCHES[copy // 3]}{behind}" if behind else "" for copy in copies]
    for at, (first, last) in enumerate(steps):
        yield f"{fronts[at % len(copies)]}{first} {last}{ends[at % len(copies)]}"


def fault_lines(numbers: Recipe) -> Iterator[str]:
    """The lines of all blocks, one behind the other."""
    rest = MOST_EVENTS
    for block in range(BLOCKS):
        count = min(numbers[f"count{block}"], rest)
        rest -= count
        yield from block_lines(numbers, block, count)


FAULTS: Ranges = {name: limits for block in range(BLOCKS) for name, limits in block_ranges(block).items()}


# ---- texts of lines

def fitting(lines: Iterator[str], room: int) -> Iterator[str]:
    """As many of the lines as there is room for."""
    for line in lines:
        room -= len(line) + 1
        if room < 0:
            return
        yield line


def text_of(front: list[str], lines: Iterator[str], behind: list[str], most: int = MOST_BYTES) -> bytes:
    """A text whose middle has as many lines as there is room for."""
    room = most - sum(len(line) + 1 for line in [*front, *behind])
    return "".join(line + "\n" for line in [*front, *fitting(lines, room), *behind]).encode()


def sections(numbers: Recipe) -> list[str]:
    """The lines PORTS of a deck."""
    tapes = ["TAPE %o%s" % (port, " 5" * 50) for port in range(min(numbers["tapes"], 12))]
    return ["PORTS", *tapes, *("UNPLUG %o %d" % (15 - port, numbers["times"] // 2) for port in range(min(numbers["unplugs"], 4)))]


def orders(numbers: Recipe) -> list[str]:
    """The lines ORDER."""
    return ["ORDER", *(ORDERS[at % 2] for at in range(numbers["orders"]))] if numbers["orders"] else []


PROGRAM: Ranges = {"loop": (0, len(LOOPS) - 1), "words": (0, 32_768), "simplex": (0, 1)}
DECK: Ranges = {**PROGRAM, "times": (0, MOST_TIMES), "tapes": (0, 12), "unplugs": (0, 4), "orders": (0, 16), **FAULTS}


def deck(numbers: Recipe, behind: list[str] | None = None) -> bytes:
    """A deck."""
    front = ["IMAGE", *image(numbers), *sections(numbers), "FAULTS"]
    return text_of(front, fault_lines(numbers), [*orders(numbers), f"RUN {numbers['times']}", *(behind or [])])


COMMANDS = ("STEP 1", "STEP 2", "GO", "REGS", "MEM 0 0 0 256", "MEM 0 1 0 1", "DIS 0 0 0 0 256", "COPIES 6", "BREAK 0 0 0 14", "HALT", "STEP 1000")
SESSION: Ranges = {**DECK, "even": (0, len(COMMANDS) - 1), "odd": (0, len(COMMANDS) - 1), "commands": (0, 600_000), "room": (0, MOST_BYTES)}


def session(numbers: Recipe) -> bytes:
    """A deck with commands, which take as much room as they have."""
    front = ["IMAGE", *image(numbers), *sections(numbers), "FAULTS"]
    faults = list(fitting(fault_lines(numbers), max(0, numbers["room"] - 700_000)))
    commands = (COMMANDS[numbers["odd" if at % 2 else "even"]] for at in range(numbers["commands"]))
    return text_of([*front, *faults, *orders(numbers), f"RUN {numbers['times']}", "DEBUG"], commands, [])


# ---- saved texts

SAVED: Ranges = {"steps": (0, MOST_TIMES), "times": (0, MOST_TIMES), "cells": (0, 32_768), "words": (0, 32_768), "log": (0, 4_000_000),
                 "repairs": (0, MOST_TIMES), "states": (0, 4_000_000), "port": (0, 15), "orders": (1, 16), "loop": (0, len(LOOPS) - 1), **FAULTS}


def cell_of(word: int) -> int:
    """The cell of a word: each half with its parity bit."""
    high, low = (half | (half.bit_count() + 1) % 2 << 13 for half in (word >> 13, word & 0o17777))
    return high << 14 | low


def exact(line: str) -> str:
    """A fault line as it is printed."""
    words = line.split()
    at = {"FLIP": [6], "FORCE": [6, 7], "DAMAGE": [6], "STICK": [7, 8]}.get(words[0], [])
    for number in at:
        words[number] = words[number].zfill(10 if words[0] in ("DAMAGE", "STICK") else 9)
    if words[0] in ("DAMAGE", "STICK"):
        words[3:5] = [words[3].zfill(2), words[4].zfill(3)]
    return " ".join(words)


def saved(numbers: Recipe) -> bytes:
    """A saved text."""
    times = max(numbers["times"], numbers["steps"])
    steps = 3 * numbers["steps"]
    front = ["LVDC SAVE 1", f"STEPS {steps}", f"COUNT {times}"]
    front += [f"COPY {m + 1} {c} 0" + " 000000000" * LATCHES[m] for m in range(7) for c in (1, 2, 3)]
    front += ["SELECT 0 0 0 0"]

    def lines() -> Iterator[str]:
        loop = LOOPS[numbers["loop"]]
        words = [*loop, *[5] * (16_384 - len(loop))]
        for at in range(max(len(loop), min(numbers["cells"], 32_768))):
            yield "CELL %d %o %02o %03o %010o" % (at >> 14, at >> 12 & 3, at >> 8 & 15, at & 255, cell_of(words[at % 16_384]))
        for at in range(max(len(loop), min(numbers["words"], 16_384))):
            yield "WORD %o %02o %03o %09o" % (at >> 12, at >> 8 & 15, at & 255, words[at])
        for at in range(numbers["log"] if steps else 0):
            yield "OUT %d 000 000000005" % (at * (steps // 3) // numbers["log"])
        for at in range(min(numbers["repairs"], steps)):
            yield "REPAIR %d 0 00 000 0" % at
        for at in range(0 if numbers["port"] == 14 else min(numbers["states"], 1 if numbers["port"] in (12, 13) else 4_000_000)):
            yield "STATE %03o 000000005" % numbers["port"]
        yield from map(exact, fault_lines(numbers))
    return text_of(front, lines(), [*islice(repeat(ORDERS[0]), numbers["orders"]), "END"], MOST_SAVED_BYTES)


# ---- campaigns and studies

def scripts(numbers: Recipe, count: int) -> Iterator[str]:
    """So many scripts, each with the lines of all blocks."""
    rest, lines = MOST_EVENTS, list(fault_lines(numbers))
    for number in range(count):
        yield f"SCRIPT S{number}"
        yield from lines[:rest]
        rest -= min(rest, len(lines))


def campaign(numbers: Recipe) -> bytes:
    """A campaign."""
    front = ["IMAGE", *image(numbers), *orders(numbers), f"RUN {min(numbers['times'], MOST_OF_A_CAMPAIGN)}", "CAMPAIGN"]
    return text_of(front, scripts(numbers, min(numbers["scripts"], MOST_SCRIPTS)), [])


def study(numbers: Recipe) -> bytes:
    """A study."""
    times = numbers["times"]
    count = min(numbers["scripts"], MOST_ASKED // max(times, 1), MOST_SCRIPTS_OF_A_STUDY)
    front = ["IMAGE", *image(numbers), *sections(numbers), *orders(numbers), f"RUN {times}", "CAMPAIGN"]
    return text_of(front, scripts(numbers, count), [])


CAMPAIGN: Ranges = {**PROGRAM, "times": (0, MOST_OF_A_CAMPAIGN), "scripts": (0, MOST_SCRIPTS), "orders": (0, 16), **FAULTS}
STUDY: Ranges = {**DECK, "scripts": (0, MOST_SCRIPTS_OF_A_STUDY)}


# ---- sources

SOURCE: Ranges = {"instructions": (0, 70_000), "literals": (0, 2), "block": (1, 256), "fixed": (0, 1), "labels": (0, 3), "comment": (0, 90),
                  "words": (0, 20_000), "reserved": (1, 256), "empty": (0, 60_000), "names": (0, 60_000), "use": (0, 2), "references": (0, 2),
                  "longer": (0, 40_000)}


def label(numbers: Recipe, at: int) -> str:
    """The label of a line, by its form."""
    return (" ", "N%07d" % at, "N%d" % at, "%s%07d" % (chr(65 + at % 26), at // 26))[numbers["labels"]]


def source_lines(numbers: Recipe) -> Iterator[str]:
    """The lines of a source."""
    block, comment = numbers["block"], " " * (numbers["comment"] > 0) + "*" * numbers["comment"]
    for at in range(numbers["instructions"]):
        number, within = divmod(at, block)
        if within == 0:
            yield " ORG %o,%02o,%o,000" % (number // 32 % 4, number // 2 % 16, number % 2) if numbers["fixed"] else " CODE"
            if numbers["use"]:
                yield " USE %o,%02o" % ((2 + number // 32) % 4, number // 2 % 15)
        literal = ("0", "=O%o" % at, "=D%d" % (at % 200))[numbers["literals"]]
        operand = (literal, label(numbers, at), label(numbers, at - within))[numbers["references"]]
        operation = "TRA" if numbers["references"] and numbers["labels"] else "CLA"
        yield f"{label(numbers, at)} {operation} {operand if operation == 'TRA' or not numbers['references'] else '0'}{comment}"
    for at in range(numbers["words"]):
        if at % numbers["reserved"] == 0:
            yield " WORDS %o,%02o" % (at // 4096 % 4, at // 256 % 16)
        yield f"W{at:06d} BSS {numbers['reserved']}" if numbers["reserved"] > 1 else f"W{at:06d} OCT {at:o}"
    for at in range(numbers["empty"]):
        yield " CODE"
    for at in range(numbers["names"]):
        yield f"M{at:06d} CLA 0" if at % 250 else " CODE"
    for at in range(numbers["longer"]):
        yield "*" * 119


def source(numbers: Recipe) -> bytes:
    """A source."""
    return text_of([], source_lines(numbers), [" END"])


MACROS: Ranges = {"definitions": (0, 40_000), "body": (0, 2_000), "width": (1, 110), "calls": (0, 999), "levels": (1, 16), "arguments": (0, 9),
                  "argument": (0, 100), "signs": (0, 3), "others": (0, 60_000), "inner": (0, 62)}


def macro_lines(numbers: Recipe) -> Iterator[str]:
    """The lines of a source with macros: a chain of them, each with so many calls of the one before, and many that nothing calls."""
    given = ",".join(["A" * numbers["argument"]] * numbers["arguments"])
    yield "M1 MACRO"
    for at in range(numbers["body"]):
        yield "*" + "&%d" % (1 + at % 9) * numbers["signs"] + "*" * numbers["width"]
    yield " MEND"
    for level in range(2, numbers["levels"] + 1):
        yield f"M{level} MACRO"
        for _ in range(numbers["inner"]):
            yield f" M{level - 1} {given}"
        yield " MEND"
    for at in range(numbers["definitions"]):
        yield f"D{at} MACRO"
        yield " MEND"
    for at in range(numbers["others"]):
        yield f" X{at % 1000} Y"
    for _ in range(numbers["calls"]):
        yield f" M{numbers['levels']} {given}"


def macros(numbers: Recipe) -> bytes:
    """A source with macros."""
    return text_of([], macro_lines(numbers), [" END"])


UPLINK: Ranges = {**PROGRAM, "loads": (0, 40_000), "frames": (1, 64), "per": (1, 8), "again": (0, 8), "commits": (0, 8), "odd": (0, 2)}


def message_lines(numbers: Recipe) -> Iterator[str]:
    """The messages: loads of frames, each sent and committed so often."""
    frames, per = numbers["frames"], numbers["per"]
    for load in range(1, numbers["loads"] + 1):
        yield f"OPEN {load} {frames}"
        total = 0
        for frame in range(1, frames + 1):
            check = (load + frame + frame * 3 % 248 + per * 7) % WORD
            total = (total + check) % WORD
            for _ in range(1 + numbers["again"]):
                yield f"FRAME {load} {frame} 0 0 {frame * 3 % 248:o}{' 7' * per} {check:o}"
        for _ in range(numbers["commits"]):
            yield f"COMMIT {load} {total:o}"
        if numbers["odd"] == 1:
            yield f"ABANDON {load}"
        if numbers["odd"] == 2:
            yield ""


def uplink(numbers: Recipe) -> bytes:
    """An image with messages."""
    return text_of(["IMAGE", *image(numbers), "UPLINK"], message_lines(numbers), [])


# ---- commands and requests

def words_of(name: str, numbers: Recipe) -> str:
    """The words of a command or a request."""
    if name == "save":
        return f"save {min(numbers['saved'], numbers['times'])}"
    if name.startswith("trace"):
        return f"{name} {numbers['begin']} {numbers['shown']}"
    return f"soak {numbers['number']}" if name == "soak" else name


def no_input(_: Recipe) -> bytes:
    """What a command reads that reads nothing."""
    return b""


TRACE: Ranges = {**DECK, "begin": (0, STEPS), "shown": (1, 100_000)}
# of each command and request the ranges of its numbers, and what makes its input; the requests are those of the worker alone
ASKED: dict[str, tuple[Ranges, Callable[[Recipe], bytes]]] = {
    **{"run" + path: (DECK, deck) for path in PATHS}, "debug": (SESSION, session), "save": ({**DECK, "saved": (0, MOST_TIMES)}, deck),
    "resume": (SAVED, saved), "campaign": (CAMPAIGN, campaign), "asm": (SOURCE, source), "asm --image": (SOURCE, source), "macro": (MACROS, macros),
    "macro --image": (MACROS, macros), "uplink": (UPLINK, uplink), "soak": ({"number": (0, 2**32 - 1)}, no_input),
    "trace": (TRACE, deck), "trace --through": (TRACE, deck), "form": (DECK, deck), "study": (STUDY, study)}
REQUESTS = ("trace", "trace --through", "form", "study")


def whole(name: str, numbers: Recipe) -> Recipe:
    """All numbers of a recipe: those that it doesn't say are the least."""
    return {number: numbers.get(number, low) for number, (low, _) in ASKED[name][0].items()}


def small(numbers: Recipe) -> Recipe:
    """A recipe of the same kind that asks for little, so that its instructions can be counted: places and steps stay as they are."""
    most = {name: FEW_SCRIPTS if name == "scripts" else FEW for name in numbers if name.rstrip("012") not in WHERE}
    return {name: min(number, most.get(name, number)) for name, number in numbers.items()}


def told(name: str, numbers: Recipe) -> str:
    """The numbers of a recipe that aren't the least, as text."""
    return " ".join(f"{number}={numbers[number]}" for number, (low, _) in ASKED[name][0].items() if numbers[number] != low)


def read(name: str, text: str) -> Recipe:
    """The recipe of such a text."""
    return whole(name, {number: int(value) for number, _, value in (it.partition("=") for it in text.split())})


def given(name: str, numbers: Recipe) -> bytes:
    """What is read: an input, or the frame of a request."""
    made = ASKED[name][1](numbers)
    return b"REQUEST %d %s\n" % (len(made), words_of(name, numbers).encode()) + made if name in REQUESTS else made


class Dear(NamedTuple):
    """A row of dear.table: a name, the command or request, the most seconds and megabytes that it may take, the most millions of
    instructions that its small form may take, and the recipe."""

    name: str
    asked: str
    seconds: float
    megabytes: int
    instructions: float
    numbers: Recipe


def rows() -> list[Dear]:
    """The rows of dear.table."""
    lines = (pathlib.Path(__file__).resolve().parent / "dear.table").read_text().splitlines()
    cells = [line.split(" | ") for line in lines if line and not line.startswith("#")]
    return [Dear(name, asked, float(seconds), int(megabytes), float(millions), read(asked, text))
            for name, asked, seconds, megabytes, millions, text in cells]
