"""Words that are no command line, and the command that reads nothing."""
from . import Case

TITLE = "usage"
SHOWS = """Words that are no command line: the usage text and status 1. And `soak`, which makes its own deck from a number and
reads nothing: 200,000 times of a loop under 4,096 faults."""

USAGE = """
usage: lvdc run [--plain | --through]
       lvdc asm [--image]
       lvdc debug
       lvdc soak NUMBER
       lvdc save NUMBER
       lvdc resume
       lvdc campaign
       lvdc uplink
       lvdc macro [--image]
"""
SOAK = "LVDC SOAK %d\nEND DONE\nTIMES 200000\nA 000606477\nWRONG 2048\nREPAIRS 1816"


def usage(name: str, shows: str, words: str | list[str], worked: bool = False) -> Case:
    case = Case(name, shows, words, "IMAGE\nLVDC 1\nEND\nRUN 0\n", 1, worked=worked)
    case.text = USAGE.lstrip("\n")
    return case


CASES = [
    usage("no-words", "No word at all.", "", True),
    usage("run-fast", "A word that isn't there.", "run fast", True),
    usage("help", "--help is no command line.", "--help"),
    usage("two-flags", "At most one flag.", "run --plain --through"),
    usage("capitals", "Words are small letters.", "RUN"),
    usage("save-without-a-number", "save wants a number.", "save"),
    usage("save-with-eight-digits", "The number of save has one to seven digits.", "save 00000001"),
    usage("soak-of-2-32", "The number of soak is below 2^32.", "soak 4294967296"),
    usage("soak-with-a-sign", "A number has no sign.", "soak -1"),
    usage("an-empty-word", "A word may be empty; it is no command.", [""]),
    Case("soak-1", "The deck of the number 1. The three counts were counted on the deck's rules.", "soak 1", "", text=SOAK % 1,
         worked=True),
    Case("soak-2", "Another number draws other words and bits, and comes to the same counts.", "soak 2", "", text=SOAK % 2,
         worked=True),
    Case("soak-0001", "Leading zeros are allowed, and aren't printed.", "soak 0001", "", text=SOAK % 1),
    usage("soak-with-eleven-digits", "The number of soak has one to ten digits.", "soak 00000000001"),
    usage("asm-plain", "--plain and --through go with run alone.", "asm --plain"),
    usage("resume-and-a-word", "No word follows resume.", "resume X"),
]
