"""Forms: a request of the worker, which the program itself doesn't know."""
from . import Case, deck
from .traces import USAGE

TITLE = "forms"
SHOWS = """Whether a script masks by form, by the request `form` of the worker: it is told from the lines, the simplex pairs and the count
alone, and nothing is run. Only a worker has it: `conformance/run --worker`. A run of two times has the
steps 0 to 5."""

FIRST_ROW = """
FLIP 5 1 0 9 0 000000001
LAG 5 1 2 3
LAG 4 2 0 5
DEAD 0 1 3 5
DAMAGE 0 1 01 000 4 0000000001
DAMAGE 0 0 01 000 2 0000040001
STICK 1 0 01 001 0 2 0000040001 0000000000
DAMAGE 1 0 01 000 6 0000000003
"""
DAMAGE = "DAMAGE 0 0 01 000 0 1"


def asked(name: str, shows: str, faults: str = "", unmet: int = 0, worked: bool = False, **more: str) -> Case:
    """A script over an empty image, and the condition that it doesn't meet, or 0."""
    return Case(name, shows, "form", deck(shows, run=more.pop("run", "2"), faults=faults, **more),
                text="FORM NO %d" % unmet if unmet else "FORM YES", worked=worked)


def pairs_of_copies() -> list[Case]:
    """Each two copies of each module, in both orders: in step 2 both are wrong."""
    return [asked("copies-%d-and-%d-of-module-%d" % (one, two, m), "Copies %d and %d of module %d are wrong in step 2." % (one, two, m),
                  "LAG %d %d 0 2\nLAG %d %d 2 5" % (m, one, m, two), 1)
            for m in range(1, 8) for one in (1, 2, 3) for two in (1, 2, 3) if one != two]


ONE_BY_ONE = "\n".join("LAG %d %d %d %d" % (m, (m + k) % 3 + 1, k, k) for k in range(6) for m in range(1, 8))


CASES = [
    asked("what-masks", "One copy of a module may have two lines; a dead twin may be damaged; a bit in each half is seen; the last "
          "line begins after the run.", FIRST_ROW, worked=True),
    asked("two-copies-of-a-module", "In step 3 two copies of module 5 are wrong.", "FLIP 5 1 0 3 0 1\nLAG 5 2 3 9", 1, worked=True),
    asked("the-least-is-told", "A line names a simplex pair, and a twin comes back: the lesser condition is told.",
          "DAMAGE 0 0 01 000 0 1\nDEAD 0 1 0 1", 2, simplex="0", worked=True),
    asked("two-lines-at-a-place", "Two lines name a place.", DAMAGE + "\nSTICK 1 0 01 000 5 5 0 0", 3, worked=True),
    asked("two-bits-of-a-half", "Two bits of one half make a good half with another value.", "DAMAGE 0 0 01 000 0 3", 3, worked=True),
    asked("three-stuck-bits", "Of stuck bits a half may have one.", "STICK 0 0 01 000 0 5 7 0", 3, worked=True),
    asked("a-twin-comes-back", "The twin comes back in the last step.", "DEAD 0 1 3 4", 4, worked=True),
    asked("the-other-twin-is-named", "The other twin of the pair is named, here before the death.", "DEAD 0 1 3 5\nDAMAGE 1 1 00 000 0 1", 4,
          worked=True),
    asked("no-script", "A deck without a script."),
    asked("one-copy-after-another", "Copy 2 is wrong from the step after the last one of copy 1.", "LAG 3 1 0 2\nDEAF 3 2 3 5"),
    asked("the-copies-meet-after-the-run", "In a run of one time two copies meet in step 3: it isn't made.", "LAG 3 1 0 5\nLAG 3 2 3 9",
          run="1"),
    asked("the-copies-meet-in-the-last-step", "In a run of one time step 2 is the last.", "LAG 3 1 0 5\nLAG 3 2 2 9", 1, run="1"),
    asked("the-later-line-stands-first", "Which line stands first doesn't matter.", "LAG 5 2 3 9\nFLIP 5 1 0 3 0 1", 1),
    asked("a-line-that-is-over-stands-last", "Nor where they don't meet.", "LAG 3 2 3 5\nLAG 3 1 0 2"),
    asked("a-short-line-after-a-long-one", "A copy is wrong to the end of its longest line, not of its last.",
          "LAG 5 1 0 5\nLAG 5 1 1 1\nLAG 5 3 3 3", 1),
    asked("two-modules", "Copies of two modules may be wrong in one step.", "LAG 5 1 0 5\nLAG 6 2 0 5"),
    asked("masks-of-no-bit", "A copy is wrong in a step in which a fault acts on it, whatever its mask.", "FLIP 5 1 0 0 0 0\nFLIP 5 2 0 0 0 0", 1),
    asked("a-force-and-a-deaf-copy", "Each of the four kinds makes a copy wrong.", "FORCE 5 1 0 0 0 1 1\nDEAF 5 2 0 0", 1),
    asked("copies-come-first", "Two wrong copies and a simplex pair: 1 is told.", "LAG 5 1 0 0\nLAG 5 2 0 0\n" + DAMAGE, 1, simplex="0"),
    asked("another-pair-is-simplex", "A line may name a duplex pair beside a simplex one.", DAMAGE, simplex="1"),
    asked("a-simplex-pair-of-the-image", "The simplex pairs of the run are those of the image too.", DAMAGE, 2,
          version="START 000000016\nSIMPLEX 0"),
    asked("a-dead-twin-of-a-simplex-pair", "A DEAD line is a line on memory.", "DEAD 0 2 0 5", 2, simplex="2"),
    asked("stuck-in-a-simplex-pair", "And so is a STICK line.", "STICK 1 2 00 000 0 5 1 1", 2, simplex="2"),
    asked("a-simplex-pair-after-the-run", "A line that begins after the run isn't asked.", "DAMAGE 0 0 01 000 6 1", simplex="0"),
    asked("a-bit-in-each-half", "Odd is asked of a half: a bit in each is seen, though the cell has two.", "DAMAGE 0 0 01 000 0 1000000001"),
    asked("three-bits-of-the-upper-half", "Three bits of the upper half are an odd number.", "DAMAGE 0 0 01 000 0 0000340000"),
    asked("two-bits-and-one", "An even number in one half is seen where the other half has an odd one.", "DAMAGE 0 0 01 000 0 0000040003"),
    asked("a-bit-and-its-parity-bit", "The parity bit is a bit of its half: with one more they are two.", "DAMAGE 0 0 01 000 0 0000020001", 3),
    asked("one-line-that-is-seen", "Each line is asked.", DAMAGE + "\nDAMAGE 0 0 01 001 0 3", 3),
    asked("damage-of-no-bit", "Damage of no bit turns over an even number.", "DAMAGE 0 0 01 000 0 0", 3),
    asked("nothing-sticks", "A STICK line may have no bit.", "STICK 0 0 01 000 0 5 0 0"),
    asked("a-stuck-bit-in-each-half", "A STICK line may have a bit in each half.", "STICK 0 0 01 000 0 5 1000000001 0"),
    asked("two-stuck-bits-of-the-upper-half", "Two in the upper half are too many.", "STICK 0 0 01 000 0 5 1400000000 0", 3),
    asked("a-place-by-both-twins", "A place is the same in both twins.", DAMAGE + "\nDAMAGE 1 0 01 000 3 1", 3),
    asked("a-place-twice-in-one-twin", "Two lines of one twin at one place.", DAMAGE + "\nDAMAGE 0 0 01 000 3 1", 3),
    asked("places-side-by-side", "The next location, the next sector and the next pair are other places.",
          "DAMAGE 0 0 01 000 0 1\nDAMAGE 1 0 01 001 0 1\nDAMAGE 1 0 02 000 0 1\nDAMAGE 1 1 01 000 0 1"),
    asked("the-second-line-after-the-run", "The second line at a place begins after the run.", DAMAGE + "\nDAMAGE 1 0 01 000 6 1"),
    asked("dead-to-the-last-step", "Dead up to the last step, step 5.", "DEAD 0 1 3 5"),
    asked("a-dead-line-longer-than-the-run", "A DEAD line may end after the run.", "DEAD 0 1 3 2999999"),
    asked("dead-by-two-lines", "Each DEAD line is asked by itself, though the two make one death.", "DEAD 0 1 0 2\nDEAD 0 1 3 5", 4),
    asked("both-twins-die", "The other twin is named by its own DEAD line.", "DEAD 0 1 0 5\nDEAD 1 1 0 5", 4),
    asked("twin-0-is-named-and-twin-1-dies", "The other twin of twin 1 is twin 0.", "DEAD 1 1 0 5\nDAMAGE 0 1 00 000 0 1", 4),
    asked("a-stuck-bit-of-the-other-twin", "The other twin is named by a STICK line.", "DEAD 0 1 0 5\nSTICK 1 1 00 000 0 0 1 1", 4),
    asked("the-other-twin-after-the-run", "A line on the other twin that begins after the run isn't asked.",
          "DEAD 0 1 0 5\nDAMAGE 1 1 00 000 6 1"),
    asked("the-other-twin-of-another-pair", "Another pair's twin may be named.", "DEAD 0 1 0 5\nDAMAGE 1 0 00 000 0 1"),
    asked("dead-after-the-run", "A death after the run.", "DEAD 0 1 6 6"),
    asked("a-run-of-no-times", "A run of no times has no steps, so no line is in it.", "LAG 5 1 0 0\nLAG 5 2 0 0\nDEAD 0 0 0 0", run="0"),
    Case("a-run-that-would-stop", "Nothing is run: a run that stops in time 0 is asked to its count.", "form",
         deck("EXM stops in step 2. The twin comes back in step 5, which isn't made.", "16600", run=2, faults="DEAD 0 1 3 4"), text="FORM NO 4"),
    Case("a-form-of-a-source", "A deck may begin with a source.", "form",
         "SOURCE\n        CODE\n        CLA   0\n        END\nFAULTS\nLAG 1 1 0 0\nRUN 1\n", text="FORM YES"),
    Case("a-form-with-ports-and-orders", "The sections that say nothing of it are read.", "form",
         deck("Tapes, an order and a session.", ports="TAPE 000 5\nUNPLUG 001 0", faults="LAG 1 1 0 0", order="UTSRQPONMLKJIHGFEDCBA",
              debug="FLY"), text="FORM YES"),
    Case("a-form-of-no-deck", "The refusals are those of run.", "form", "", 2, text="REFUSED NoProgram 1", worked=True),
    Case("a-form-of-an-image-fault", "So are their statuses.", "form", "IMAGE\nLVDC 1\n0 00 000 400000000\nEND\nRUN 1\n", 4,
         text="REFUSED BadWord 3"),
    Case("a-form-of-a-source-fault", "A source that isn't assembled.", "form", "SOURCE\n        FLY\n        END\nRUN 1\n", 3,
         text="REFUSED UnknownOperation 2"),
    Case("a-word-after-form", "form takes no word.", "form 1", deck("Other words."), 1, text=USAGE),
    Case("a-flag-after-form", "Nor a flag.", "form --through", deck("Other words."), 1, text=USAGE),
    asked("one-copy-in-each-step", "In each step another copy of each module is wrong.", ONE_BY_ONE),
    *pairs_of_copies(),
]
