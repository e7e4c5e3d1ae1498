"""Runs whose numbers have six and seven digits."""
from . import Case, deck, state
from .programs import drawn_words

TITLE = "long runs"
SHOWS = """Counts, steps and times of more than sixteen and of more than twenty bits: a million instruction times of the plain machine, a
million steps of the voted one, which take a quick program a second; and a saved text that stands near the last step, which takes none. A tape of
three hundred words."""

# A rises from the word at 0 01 000; where it comes to 0 it is written and the tape is read.
LOOP = "17000 07001 13000 04000 12017 12400 17002 13000 10000"
SPARE = "0 01 003 000000005"


def loop_deck(note: str, rounds: int, run: int, faults: str = "", ports: str = "") -> str:
    """The loop, which writes and reads after so many rounds."""
    first = 2**26 - rounds
    return deck(note, LOOP, "%o 1 %o" % (first, first), run, SPARE, faults=faults, ports=ports)


MILLION = loop_deck("Four times a round, and nine once in 27,000 rounds.", 27_000, 1_000_000, "", "TAPE 0 1 2 3 4 5\nUNPLUG 17 700000")
STEPS = loop_deck("Four times a round, and nine once in 27,000 rounds. The cell of the constant 1 is damaged three times, and repaired. Copy 2 of "
                  "module 5 differs from step 0 to the last one, copy 1 of module 1 from 65,536 on.", 27_000, 340_000,
                  "FLIP 5 2 0 2999999 1 000000001\nFLIP 1 1 65536 1000003 1 000000010\nDAMAGE 0 0 01 001 131072 0000000001\n"
                  "DAMAGE 1 0 01 001 1000001 0000000001\nDAMAGE 0 0 01 001 1019900 0000000001", "TAPE 0 1 2 3 4 5\nUNPLUG 17 300000")
SIXTEEN_BITS = loop_deck("Four times a round, and nine once in 8,000 rounds. All numbers pass 65,536.", 8_000, 70_000,
                         "LAG 3 1 0 2999999\nDEAF 5 3 100 200000\nDAMAGE 0 0 01 001 65530 0000000001\nDAMAGE 1 0 01 001 131080 0000000001",
                         "TAPE 0 1 2\nUNPLUG 0 66000")

NEAR_THE_END = """IN 999980 000 000000001
OUT 999985 017 377777777
REPAIR 1048576 0 01 000 0 SWITCH
REPAIR 2999969 0 01 001 1
STATE 000 000000044
FLIP 1 1 2999970 2999999 1 000000020
FLIP 6 3 2999980 2999999 4 000000001
DAMAGE 1 0 01 001 2999972 0000000002
DAMAGE 0 0 01 001 2999985 0000000002
"""


def near_the_end() -> str:
    """A saved text ten times before the last one that there is."""
    words = ["0 00 %03o %09o" % (k, int(syllable, 8)) for k, syllable in enumerate("17000 07001 13000 12400 12017 10000".split())]
    words += ["0 01 000 000000005", "0 01 001 000000007"]
    text = state({}, words, 1_000_000, NEAR_THE_END, 2_999_970)
    for copy, count in (("1 1", 1_048_577), ("1 2", 65_536), ("5 3", 2_999_970), ("7 1", 16_777)):
        text = text.replace("COPY %s 0 " % copy, "COPY %s %d " % (copy, count))
    return text


def tape_deck(run: int) -> str:
    """A tape of three hundred words, summed up."""
    words = drawn_words(300, 300)
    lines = ["TAPE 5 " + " ".join("%o" % word for word in words[k:k + 10]) for k in range(0, 300, 10)]
    return deck("PIO 405 reads the tape at port 005; the sum is kept at 0 01 000.", "12405 07000 13000 10000", "0", run, ports="\n".join(lines))


CASES = [
    Case("a-million-steps", "Counts and the steps of repairs have seven digits, times of the log six.", "run --through", STEPS,
         has="TIMES 340000\nWRONG 5 2 1020000\nWRONG 1 1 934468", is_long=True),
    Case("a-million-times-on-the-plain-machine", "Times of the log have six digits.", "run --plain", MILLION, has="TIMES 1000000",
         is_long=True),
    Case("the-last-of-a-million-steps", "Numbers of steps have seven digits.", "trace --through 1019990 100", STEPS, is_long=True),
    Case("seventy-thousand-times", "All numbers pass sixteen bits, through every fault.", "run --through", SIXTEEN_BITS, has="TIMES 70000",
         is_long=True),
    Case("saved-near-the-last-step", "A saved text with seven digits in steps, counts and repairs goes on to the last step.", "resume",
         near_the_end(),
         has="END DONE\nTIMES 1000000\nIN 999980 000 000000001\nREPAIR 2999969 0 01 001 1"),
    Case("a-tape-of-three-hundred-words", "Words are read in their order, and 0 after the last one.", "run", tape_deck(1_210), has="TIMES 1210"),
    Case("a-tape-of-three-hundred-words-on-the-plain-machine", "The same on the plain machine.", "run --plain", tape_deck(1_210), has="TIMES 1210"),
]
