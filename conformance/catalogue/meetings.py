"""Faults that meet: one begins or ends while another one is in force."""
from collections.abc import Sequence

from . import Case, deck

TITLE = "meetings"
SHOWS = """Two or three faults of one copy or one cell, of which one begins or ends while another is in force, in both orders of the script. What
is in force is what the lines that are left come to, in their order."""

# A is 5 all along, the word of 0 01 000; time k reads it in step 3k + 1.
CODE, WORDS, TIMES = "17000 10000", "000000005", 8


def meeting(name: str, shows: str, faults: Sequence[str], has: str = "") -> list[Case]:
    """The faults on a loop that reads one word, as a run and as a trace."""
    given = deck(shows, CODE, WORDS, TIMES, faults="\n".join(faults))
    return [Case(name, shows, "run", given, has=has), Case(name + "-step-by-step", shows, "trace 0 24", given)]


def pairs(name: str, shows: str, outer: str, inner: str, has: Sequence[str] = ("", "")) -> list[Case]:
    """Two faults in both orders of the script; in the lines {} stands for the first and the last step."""
    lines = outer.format("2 20"), inner.format("6 14")
    return [*meeting(name, shows + " The line of the longer one comes first.", lines, has[0]),
            *meeting(name + "-behind", shows + " The line of the longer one comes second.", lines[::-1], has[1])]


FORCE_0 = "FORCE 5 1 {} 0 000000001 000000000"
CASES = [
    *pairs("a-flip-within-a-force", "A FLIP of the bit that a FORCE holds, for some of its steps.", FORCE_0, "FLIP 5 1 {} 0 000000001",
           ("WRONG 5 1 10", "WRONG 5 1 19")),
    *pairs("a-flip-within-a-force-of-its-value", "The same where the FORCE holds what the bit is.", "FORCE 5 1 {} 0 000000001 000000001",
           "FLIP 5 1 {} 0 000000001", ("WRONG 5 1 9", "END DONE")),
    *pairs("a-force-within-a-flip", "A FORCE of the bit that a FLIP turns, for some of its steps.", "FLIP 5 1 {} 0 000000001", FORCE_0),
    *pairs("a-force-within-a-force", "Two FORCE lines of different bits of one latch.", FORCE_0, "FORCE 5 1 {} 0 000000004 000000000",
           ("WRONG 5 1 19", "WRONG 5 1 19")),
    *pairs("a-force-within-a-force-of-the-same-bit", "Two FORCE lines of one bit, with other values.", FORCE_0,
           "FORCE 5 1 {} 0 000000001 000000001", ("WRONG 5 1 10", "WRONG 5 1 19")),
    *pairs("a-force-within-a-force-of-another-latch", "Two FORCE lines of two latches of a copy.", FORCE_0, "FORCE 5 1 {} 1 000000777 000000123"),
    *pairs("a-flip-within-a-flip", "Two FLIP lines of one bit: in between they undo each other.", "FLIP 5 1 {} 0 000000001",
           "FLIP 5 1 {} 0 000000001", ("WRONG 5 1 10", "WRONG 5 1 10")),
    *pairs("a-lag-within-a-force", "A copy that lags keeps what it was forced to.", FORCE_0, "LAG 5 1 {}"),
    *pairs("a-lag-within-a-lag", "Two LAG lines of one copy.", "LAG 3 1 {}", "LAG 3 1 {}"),
    *pairs("a-deaf-copy-within-a-deaf-copy", "Two DEAF lines of one copy.", "DEAF 5 1 {}", "DEAF 5 1 {}"),
    *pairs("a-stuck-bit-within-a-stuck-bit", "Two STICK lines of different bits of one cell.", "STICK 0 0 01 000 {} 0000000100 0000000100",
           "STICK 0 0 01 000 {} 0004000000 0004000000"),
    *pairs("a-stuck-bit-within-a-stuck-bit-of-the-same-bit", "Two STICK lines of one bit, with other values.",
           "STICK 0 0 01 000 {} 0000000100 0000000100", "STICK 0 0 01 000 {} 0000000100 0000000000"),
    *pairs("a-death-within-a-death", "Two DEAD lines of one twin.", "DEAD 1 0 {}", "DEAD 1 0 {}"),
    *pairs("a-stuck-bit-within-a-death", "A STICK line of a cell of a twin that is dead.", "DEAD 1 0 {}",
           "STICK 1 0 01 000 {} 0000000100 0000000100"),
    *pairs("a-death-within-a-stuck-bit", "A twin that is dead while a bit of it is stuck.", "STICK 1 0 01 000 {} 0000000100 0000000100",
           "DEAD 1 0 {}"),
    *meeting("three-forces-of-which-the-middle-one-ends", "Three FORCE lines of which the second ends first.",
             ["FORCE 5 1 0 23 0 000000001 000000000", "FORCE 5 1 2 9 0 000000004 000000000", "FORCE 5 1 4 20 0 000000010 000000010"]),
    *meeting("three-stuck-bits-of-which-the-middle-one-ends", "Three STICK lines of which the second ends first.",
             ["STICK 0 0 01 000 0 23 0000000100 0000000100", "STICK 0 0 01 000 2 9 0010000000 0010000000",
              "STICK 0 0 01 000 4 20 0004000000 0004000000"]),
]
