"""Saved texts line by line: each line missing, twice and in another's place, and each number spelled otherwise.

A text is refused at the first line that shows a fault, whatever stands behind it. So the texts that are refused end there."""
import re
from collections.abc import Iterator, Sequence

from simulator import answer

from . import Case, block, state
from .families import index, pairs, slug, spellings, swapped, text, twice, without

TITLE = "lines of saved texts"
SHOWS = """One saved text that has every kind of line, and what `resume` makes of it where one line is missing, stands twice or in another's place,
where a number is spelled otherwise, and where two faults meet: the first line that shows one is named."""

HEAD = """
LVDC SAVE 1
STEPS 6
COUNT 3
SIMPLEX 1 3
"""
COPIES = """
COPY 1 1 0 000000000 000000000
COPY 1 2 1 000000004 000000000
COPY 1 3 2 000000003 000000007
COPY 2 1 0 000004004 000000000
COPY 2 2 3 000004004 000000000
COPY 2 3 4 377777777 377777777
COPY 3 1 0 000017001
COPY 3 2 5 000017001
COPY 3 3 6 000000001
COPY 4 1 0 000000012
COPY 4 2 0 000000012
COPY 4 3 0 000000012
COPY 5 1 0 000000005 000000005
COPY 5 2 0 000000006 000000005
COPY 5 3 0 000000007 000000005
COPY 6 1 0 000000001 000000000 000000004 000000000 000000020
COPY 6 2 0 000000001 000000000 000000004 000000000 000000020
COPY 6 3 0 000000001 000000000 000000004 000000000 000000020
COPY 7 1 0 000000000 000000000
COPY 7 2 0 000000003 000000000
COPY 7 3 0 000000004 000000000
"""
STATE = """
SELECT 0 1 0 1
CELL 0 0 00 002 1000033002
CELL 0 3 17 377 1000020001
CELL 1 0 00 002 1000033002
CELL 1 0 01 000 0000000001
WORD 0 00 002 000013002
WORD 3 17 377 000000001
"""
LISTS = """
IN 0 000 000000005
OUT 1 377 000000006
REPAIR 1 0 00 001 0 SWITCH
REPAIR 4 7 17 377 1
STATE 000 000000001
STATE 000 000000002
STATE 014 000000003
STATE 017 000000004
UNPLUG 001 6
UNPLUG 013 1
FLIP 2 3 9 9 0 000000004
FORCE 5 1 9 9 1 000000007 000000003
LAG 5 1 9 9
DEAF 6 2 9 9
DAMAGE 1 3 17 376 9 0000000001
STICK 0 3 17 375 9 10 0000000001 0000000000
DEAD 0 2 9 9
UTSRQPONMLKJIHGFEDCBA
ABCDEFGHIJKLMNOPQRSTU
END
"""
WHOLE = (block(HEAD) + block(COPIES) + block(STATE) + block(LISTS)).splitlines()
KINDS = "LVDC STEPS COUNT SIMPLEX COPY SELECT CELL WORD IN REPAIR STATE UNPLUG FLIP UTSRQPONMLKJIHGFEDCBA END".split()
NEEDED = ("LVDC", "STEPS", "COUNT", "COPY", "SELECT", "END")
TAKEN_TWICE = ("IN", "OUT", "FLIP", "FORCE", "LAG", "DEAF", "DAMAGE", "STICK", "DEAD", "STATE 000", "STATE 017", *WHOLE[-3:-1])
SPELLED = [line for line in WHOLE[1:] if re.match("STEPS|COUNT|SIMPLEX|COPY 6 2|SELECT|CELL 1 0 01|WORD 3|IN|OUT|REPAIR|STATE 014|UNPLUG 001|"
                                                  "FLIP|FORCE|LAG|DEAF|DAMAGE|STICK|DEAD", line)]


def resumed(name: str, shows: str, lines: list[str], end: str = "DONE") -> Case:
    """A text that is taken."""
    return Case(name, shows, "resume", text(lines), 0 if end == "DONE" else 5, has="END " + end)


def refused(name: str, shows: str, lines: list[str], number: int, cause: str = "BadSave") -> Case:
    """A text that is refused at a line, and ends there."""
    return Case(name, shows, "resume", text(lines[:number]), 2, "REFUSED %s %d" % (cause, number))


def each_missing() -> Iterator[Case]:
    """Each line left out."""
    for k, line in enumerate(WHOLE):
        name, shows, rest = "without-" + slug(line), "`%s` is missing." % line, without(WHOLE, k)
        if line.split()[0] in NEEDED:
            yield refused(name, shows, rest, k + 1)
        elif line.startswith("SIMPLEX"):
            yield refused(name, shows + " A repair in bank 7 is refused.", rest, index(rest, "REPAIR 4") + 1)
        else:
            yield resumed(name, shows, rest, "INADMISSIBLE 6 MEMORY 0 00 002" if "0 00 002" in line else "DONE")


def each_twice() -> Iterator[Case]:
    """Each line twice."""
    for k, line in enumerate(WHOLE):
        name, shows, lines = "twice-" + slug(line), "`%s` stands twice." % line, twice(WHOLE, k)
        if line.startswith(TAKEN_TWICE):
            yield resumed(name, shows, lines)
        else:
            yield refused(name, shows, lines, k + 2, "NoDevice" if line.startswith("UNPLUG") else "BadSave")


def exchanged() -> Iterator[Case]:
    """Lines of each two kinds in each other's places, and neighbours of one kind. What is refused ends at the line that is named."""
    for one, other in pairs(WHOLE, KINDS):
        lines = swapped(WHOLE, one, other)
        status, told = answer(["resume"], text(lines))
        yield Case("%s-and-%s" % (slug(WHOLE[one]), slug(WHOLE[other])), "`%s` and `%s` in each other's places." % (WHOLE[one], WHOLE[other]),
                   "resume", text(lines[:int(told.split()[2])] if status else lines), status)


def spelled() -> Iterator[Case]:
    """Each number with a zero before it and with a digit less, and lines in other spellings: all are refused."""
    for line in SPELLED:
        k = WHOLE.index(line)
        for what, new, _ in spellings(line):
            if new != "SIMPLEX 1":
                yield refused("%s-in-%s" % (slug(what), slug(line)), "`%s` for `%s`: %s." % (new, line, what), [*WHOLE[:k], new], k + 1)


# ---- devices and copies

START = text(WHOLE[:index(WHOLE, "STATE")])


def ends_with(name: str, shows: str, lines: str, number: int, cause: str) -> Case:
    """A text that is refused at one of the lines behind the repairs."""
    return Case(name, shows, "resume", START + block(lines), 2, "REFUSED %s %d" % (cause, index(WHOLE, "STATE") + number))


def devices() -> Iterator[Case]:
    """STATE and UNPLUG lines of every port that the program has, and of those behind it."""
    for port in (0o16, 0o20, 0o21, 0o177, 0o200, 0o376, 0o377):
        yield ends_with("state-of-port-%03o" % port, "Port %03o has no device that holds words." % port, "STATE %03o 000000001" % port, 1, "NoDevice")
    for port in (0o20, 0o21, 0o177, 0o200, 0o376, 0o377):
        yield ends_with("unplug-of-port-%03o" % port, "Port %03o has no device." % port, "UNPLUG %03o 1" % port, 1, "NoDevice")
    for port in (0o400, 0o777):
        yield ends_with("state-of-port-%03o" % port, "Port %03o is out of range." % port, "STATE %03o 000000001" % port, 1, "BadSave")
        yield ends_with("unplug-of-port-%03o" % port, "Port %03o is out of range." % port, "UNPLUG %03o 1" % port, 1, "BadSave")
    tail = text(WHOLE[-3:])
    ports = [port for port in range(0o20) if port != 0o16]
    yield Case("every-device-holds-a-word", "All tapes, latches and the recorder have STATE lines, the tapes and the recorder two.", "resume",
               START + "".join("STATE %03o %09o\n" % (port, port + 1) * (1 if port in (0o14, 0o15) else 2) for port in ports) + tail, has="END DONE")
    yield Case("every-device-is-taken-away", "All sixteen have UNPLUG lines, in no order.", "resume",
               START + "".join("UNPLUG %03o %d\n" % (port * 7 % 16, port) for port in range(0o20)) + tail, has="END DONE")


MEETINGS = [
    ("a-latch-twice-beyond-its-range", "A latch's second line, whose word is out of range: BadSave.",
     "STATE 014 000000001\nSTATE 014 400000000", 2, "BadSave"),
    ("a-ticker-before-a-tape", "The ticker's line comes first.", "STATE 016 000000001\nSTATE 000 000000001", 1, "NoDevice"),
    ("a-ticker-behind-a-recorder", "A ticker's port that falls: BadSave comes first.", "STATE 017 000000001\nSTATE 016 000000001", 2, "BadSave"),
    ("a-ticker-with-a-word-out-of-range", "BadSave comes before NoDevice.", "STATE 016 400000000", 1, "BadSave"),
    ("no-device-and-a-word-out-of-range", "BadSave comes before NoDevice.", "STATE 020 400000000", 1, "BadSave"),
    ("a-port-out-of-range-that-falls", "Both are BadSave.", "STATE 000 000000001\nSTATE 400 000000001", 2, "BadSave"),
    ("no-device-and-a-time-out-of-range", "BadSave comes before NoDevice.", "UNPLUG 020 1000001", 1, "BadSave"),
    ("unplugged-twice-and-a-time-out-of-range", "BadSave comes before NoDevice.", "UNPLUG 000 9\nUNPLUG 000 1000001", 2, "BadSave"),
    ("unplugged-twice-once-before-the-state", "The second line is named.", "UNPLUG 000 9\nUNPLUG 000 1", 2, "NoDevice"),
    ("the-first-word-of-a-tape-taken-away", "The first of its STATE lines is named.",
     "STATE 000 000000001\nSTATE 001 000000001\nSTATE 001 000000002\nSTATE 001 000000003\nUNPLUG 001 1", 2, "NoDevice"),
    ("a-tape-taken-away-twice", "Its UNPLUG lines name it twice, the second at a time before the state: that line is named.",
     "STATE 000 000000001\nSTATE 001 000000001\nUNPLUG 001 9\nUNPLUG 001 1", 4, "NoDevice"),
    ("a-tape-taken-away-behind-another-unplug", "A STATE line is named when the UNPLUG line of its port is read.",
     "STATE 000 000000001\nSTATE 001 000000001\nUNPLUG 000 2\nUNPLUG 001 1\nUNPLUG 020 1", 2, "NoDevice"),
    ("a-tape-taken-away-behind-no-device", "The UNPLUG line of no device comes first.",
     "STATE 000 000000001\nUNPLUG 020 1\nUNPLUG 000 1", 2, "NoDevice"),
    ("a-latch-taken-away", "The same of a latch.", "STATE 014 000000000\nUNPLUG 014 0", 1, "NoDevice"),
    ("a-recorder-taken-away", "The same of a recorder.", "STATE 000 000000001\nSTATE 017 000000000\nUNPLUG 017 1", 2, "NoDevice"),
    ("a-tape-of-a-time-out-of-range", "The UNPLUG line is out of form first.", "STATE 000 000000001\nUNPLUG 000 01", 2, "BadSave"),
]


def votes() -> Iterator[Case]:
    """PHASE and STOP of two copies of the three."""
    for m in (1, 7):
        for one, two in ((1, 2), (1, 3), (2, 3)):
            for first, second in ((1, 1), (2, 2), (3, 1), (2, 3), (0o377777771, 1), (1, 2), (2, 0o377777775), (4, 4)):
                yield voted(m, one, two, first, second)


def voted(m: int, one: int, two: int, first: int, second: int) -> Case:
    """Two copies of module 1 or 7 with these latches 0: where they share one of the two lowest bits the second of them is named."""
    lines, at = list(WHOLE), index(WHOLE, "COPY %d 1" % m)
    for c, word in ((1, 0), (2, 0), (3, 0), (one, first), (two, second)):
        lines[at + c - 1] = "COPY %d %d 0 %09o 000000000" % (m, c, word)
    name = "%s-%o-and-%o-in-copies-%d-and-%d" % ("phase" if m == 1 else "stop", first, second, one, two)
    shows = "Latch 0 of module %d is %o in copy %d and %o in copy %d." % (m, first, one, second, two)
    if first & second & 3:
        return refused(name, shows + " By vote it isn't 0 modulo 4.", lines, at + two)
    return resumed(name, shows + " By vote it is 0 modulo 4.", lines)


# ---- what is read goes on

READS = ["%o 00 %03o %09o" % (0, k, 0o12400 | port) for k, port in enumerate((0o14, 0o15, 0, 1, 0o13, 0o17, 0, 0o14, 0o15))]


def heard(name: str, shows: str, lines: str, words: Sequence[int]) -> Case:
    """A run that reads ports 014, 015, 000, 001, 013, 017, 000, 014 and 015, from time 1 on."""
    ports = (0o14, 0o15, 0, 1, 0o13, 0o17, 0, 0o14, 0o15)
    return Case(name, shows, "resume", state({}, READS, 1 + len(READS), block(lines)),
                has=["IN %d %03o %09o" % (k + 1, port, word) for k, (port, word) in enumerate(zip(ports, words))])


ALL_HOLD = """
STATE 000 000000001
STATE 000 000000002
STATE 001 377777777
STATE 013 000000004
STATE 014 000000005
STATE 015 000000006
STATE 017 000000007
"""


def goes_on() -> Iterator[Case]:
    """What devices hold is read."""
    yield heard("what-devices-hold-is-read", "Tapes have their words in order, latches theirs; a recorder answers 0.", ALL_HOLD,
                (5, 6, 1, 0o377777777, 4, 0, 2, 5, 6))
    yield heard("a-latch-without-a-line", "The latch at 014 stands in its first state.", "STATE 015 000000006", (0, 6, 0, 0, 0, 0, 0, 0, 6))
    yield heard("a-tape-without-a-line", "A tape without a line is empty.", "STATE 001 000000003", (0, 0, 0, 3, 0, 0, 0, 0, 0))
    yield heard("a-latch-taken-away-later", "A latch is there till its time.",
                "STATE 014 000000005\nSTATE 015 000000006\nUNPLUG 014 8\nUNPLUG 015 10", (5, 6, 0, 0, 0, 0, 0, 0, 6))
    yield heard("a-latch-taken-away-at-once", "A latch is taken away at the time of the state.", "STATE 014 000000005\nUNPLUG 014 1",
                (0, 0, 0, 0, 0, 0, 0, 0, 0))
    yield heard("a-latch-taken-away-before", "A latch that was taken away before the state has no line.", "STATE 015 000000006\nUNPLUG 014 0",
                (0, 6, 0, 0, 0, 0, 0, 0, 6))
    yield Case("a-latch-is-written-and-read", "A write takes the place of the word that a latch held.", "resume",
               state({5: "000000123 000000000"}, ["0 00 000 000012014", "0 00 001 000012414"], 3, "STATE 014 000000005\n"),
               has="OUT 1 014 000000123\nIN 2 014 000000123")


CASES = [*each_missing(), *each_twice(), *exchanged(), *spelled(), *devices(), *votes(), *goes_on(),
         *(ends_with("two-faults-" + name, shows, lines, number, cause) for name, shows, lines, number, cause in MEETINGS)]
