"""Cells, twins and banks: what is repaired, what is lost, what simplex pairs do."""
import itertools

from simulation.words import Hop, word_of

from . import Case, deck, sum_deck

TITLE = "memory"
SHOWS = """The two memories that repair each other: damage, stuck bits and dead twins, under `run` and under `run --through`; and
simplex pairs, whose modules hold words of their own. Steps count from 0, three to a time: the fetch of time k is step 3k, the
read of an operand 3k + 1, a store 3k + 2."""

READ = "17000 10000"
STORE = "17000 13002 17002 10003"
BOTH = "DAMAGE 0 0 01 000 0 0000000001\nDAMAGE 1 0 01 000 0 0000000001"


def read(note: str, faults: str, run: int = 1, **more: str) -> str:
    """CLA 000 of a word 5, and TRA 000."""
    return deck(note, READ, "000000005", run, faults=faults, **more)


def store(note: str, faults: str, run: int = 3, **more: str) -> str:
    """CLA 000, STO 002, CLA 002, TRA 003."""
    return deck(note, STORE, "000000005", run, faults=faults, **more)


CASES = [
    Case("a-damaged-cell-is-read-from-its-twin",
         "A bad cell: the word comes from the other twin, the cell is rewritten, and the other twin is selected.", "run",
         read("Twin 0 first, and two times later twin 1, which is then the one selected.",
         "DAMAGE 0 0 01 000 0 0000000001\nDAMAGE 1 0 01 000 4 0000000001", 3),
         has="PLACE 0 00 0 001\nA 000000005\nSAVER 000004016\nREPAIR 1 0 01 000 0 SWITCH\nREPAIR 7 0 01 000 1 SWITCH", worked=True),
    Case("a-bad-cell-of-the-other-twin",
         "Where the selected twin is good and the other bad, that one is rewritten and nothing switches.", "run",
         read("Twin 1 is damaged, twin 0 is selected.", "DAMAGE 1 0 01 000 0 0000000001"), has="A 000000005\nREPAIR 1 0 01 000 1"),
    Case("a-repair-at-a-fetch", "An instruction whose cell is damaged is fetched from the twin.", "run",
         read("The cell of CLA itself.", "DAMAGE 0 0 00 000 0 0000000001"), has="A 000000005\nREPAIR 0 0 00 000 0 SWITCH"),
    Case("selection-is-one-for-each-pair", "A switch of pair 0 leaves pair 1 as it is.", "run",
         deck("CLA 000 of pair 0 switches. CDS 041 goes to pair 1, where CLA 000 finds its twin 1 bad, and twin 0 selected.",
         "17000 16041 17000", "000000005", 3, "1 01 000 000000006",
         faults="DAMAGE 0 0 01 000 0 0000000001\nDAMAGE 1 1 01 000 0 0000000001"),
         has="A 000000006\nREPAIR 1 0 01 000 0 SWITCH\nREPAIR 7 1 01 000 1"),
    Case("a-damage-that-shows-good-parity",
         "Two bits of one syllable turned over have good parity: two good cells that differ can't be judged.", "run",
         read("Twin 0 shows 6, twin 1 shows 5.", "DAMAGE 0 0 01 000 0 0000000003"), 5,
         has="END INADMISSIBLE 1 MEMORY 0 01 000\nTIMES 0\nMEM 0 01 000 ?", worked=True),
    Case("the-same-where-nobody-reads", "The same damage on a word that isn't read ends no run; the report shows a question mark.",
         "run", read("The word 0 01 007 is 0 in both twins before.", "DAMAGE 0 0 01 007 0 0000000003"),
         has="END DONE\nMEM 0 01 007 ?", worked=True),
    Case("a-bit-of-each-syllable", "One bit of each syllable turned over: both halves are bad, so the cell is.", "run",
         read("Bits 0 and 14 of the cell.", "DAMAGE 0 0 01 000 0 0000040001"), has="A 000000005\nREPAIR 1 0 01 000 0 SWITCH",
         worked=True),
    Case("through-a-good-cell-that-is-wrong",
         "Under --through the selected twin's good cell is taken, wrong as it is, and nothing is repaired.", "run --through",
         read("Twin 0 shows 6, twin 1 shows 5.", "DAMAGE 0 0 01 000 0 0000000003"),
         has="TIMES 1\nPLACE 0 00 0 001\nA 000000006\nMEM 0 01 000 ?", lacks=["REPAIR"], worked=True),
    Case("both-twins-bad", "A word that is bad in both twins and is to be read ends the run.", "run",
         read("The same bit of both twins.", BOTH), 5, has="END INADMISSIBLE 1 MEMORY 0 01 000\nTIMES 0\nMEM 0 01 000 ?"),
    Case("through-both-twins-bad", "Under --through the machine stops at it as MEMORY, status 6.", "run --through",
         read("The same bit of both twins.", BOTH), 6, has="LVDC THROUGH\nEND STOPPED 1 MEMORY 0 01 000\nTIMES 0", worked=True),
    Case("plain-knows-no-damage", "run --plain knows no damage and no repair.", "run --plain",
         read("Twin 0 is damaged.", "DAMAGE 0 0 01 000 0 0000000001", 3),
         has="LVDC PLAIN\nPLACE 0 00 0 001\nA 000000005\nSAVER 000004016", lacks=["REPAIR"], worked=True),
    Case("a-lost-word-that-nobody-reads", "Both twins bad before a store: at the end of the run the word can't be told.", "run",
         store("One time is made, which doesn't reach the store.",
         "DAMAGE 0 0 01 002 0 0000000001\nDAMAGE 1 0 01 002 0 0000000001", 1), has="END DONE\nMEM 0 01 002 ?", worked=True),
    Case("a-store-mends-a-lost-word", "A store writes both twins: what was lost is replaced, and no line tells of it.", "run",
         store("STO 002 in time 1 overwrites the damage.", "DAMAGE 0 0 01 002 0 0000000001\nDAMAGE 1 0 01 002 0 0000000001"),
         has="A 000000005\nMEM 0 01 002 000000005", lacks=["REPAIR"], worked=True),
    Case("a-dead-twin-misses-a-store",
         "A twin that is dead in the step of a store keeps its old word, with good parity: it can't be judged later.", "run",
         store("Twin 0 is dead in step 5, phase C of time 1.", "DEAD 0 0 5 5"), 5,
         has="END INADMISSIBLE 7 MEMORY 0 01 002\nTIMES 2\nPLACE 0 00 0 002\nA 000000005\nMEM 0 01 002 ?", worked=True),
    Case("a-dead-twin-is-noted-in-repairs", "Of a dead twin each read notes a repair, though nothing is stored.", "run",
         read("Twin 0 is dead all along. The first read switches to twin 1.", "DEAD 0 0 0 2999999", 2),
         has="REPAIR 0 0 00 000 0 SWITCH\nREPAIR 1 0 01 000 0\nREPAIR 3 0 00 001 0\nA 000000005"),
    Case("damage-reaches-a-dead-twin",
         "Damage turns the stored bits over also while the twin is dead; it shows when the twin lives again.", "run",
         read("Twin 0 is dead in steps 0 to 2 and damaged in step 1. Step 7 reads it again.",
         "DEAD 0 0 0 2\nDAMAGE 0 0 01 000 1 0000000001", 3), has="A 000000005\nREPAIR 7 0 01 000 0"),
    Case("both-twins-dead",
         "Two dead twins show bad cells everywhere: the fetch of step 0 can't be made, and no word of the pair is told.", "run",
         read("Both twins of pair 0.", "DEAD 0 0 0 9\nDEAD 1 0 0 9"), 5,
         has="END INADMISSIBLE 0 MEMORY 0 00 000\nMEM 0 00 000 ?\nMEM 0 17 377 ?", lacks=["MEM 1"]),
    Case("dead-in-another-pair", "DEAD names one pair; the others live.", "run",
         read("Twin 0 of pair 1.", "DEAD 0 1 0 9"), has="A 000000005", lacks=["REPAIR", "MEM 1"]),
    Case("a-stuck-bit-is-read-around",
         "A stuck bit makes the shown cell bad. Each read notes a repair, and the bit sticks all the same.", "run",
         read("Bit 0 of the cell of 5 is stuck at 0 in twin 0.", "STICK 0 0 01 000 0 2999999 0000000001 0000000000", 3),
         has="A 000000005\nREPAIR 1 0 01 000 0 SWITCH\nREPAIR 7 0 01 000 0"),
    Case("a-bit-stuck-at-what-it-is", "A bit that is stuck at its own value is no fault to be seen.", "run",
         read("Bit 0 of the cell of 5 is 1.", "STICK 0 0 01 000 0 2999999 0000000001 0000000001", 3), has="A 000000005",
         lacks=["REPAIR"]),
    Case("stuck-bits-add-up", "Where STICK lines meet on a bit, the later line counts; on other bits both do.", "run",
         read("Bits 0 and 2 of 5 by the first line; bit 0 by the second, which is its own value: bit 2 alone is wrong.",
         "STICK 0 0 01 000 0 9 0000000005 0000000000\nSTICK 0 0 01 000 0 9 0000000001 0000000001"),
         has="A 000000005\nREPAIR 1 0 01 000 0 SWITCH"),
    Case("two-stuck-bits-show-good-parity", "Two stuck bits of a syllable have good parity: inadmissible where it is read.", "run",
         read("Bits 0 and 2 of 5 are stuck at 0: twin 0 shows the good cell of 0.", "STICK 0 0 01 000 1 1 0000000005 0000000000"),
         5, has="END INADMISSIBLE 1 MEMORY 0 01 000"),
    Case("a-stick-that-ends", "What was stuck shows the stored cell again when the event ends.", "run",
         read("Stuck in step 1 alone; step 7 reads the word without a repair.", "STICK 0 0 01 000 1 1 0000000001 0000000000", 3),
         has="A 000000005\nREPAIR 1 0 01 000 0 SWITCH", lacks=["REPAIR 7"]),
    Case("an-operand-that-was-read", "In phase C the operand is read no more: a step isn't judged by it.", "run",
         sum_deck("Both twins of 0 01 000 are damaged in step 2, behind the one read of it.",
                  faults="DAMAGE 0 0 01 000 2 0000000001\nDAMAGE 1 0 01 000 2 0000000001"), has="END DONE\nTIMES 3\nMEM 0 01 000 ?"),
    Case("the-end-sees-the-last-step-begun",
         "Whether a word is told at the end is judged by what is stuck or dead in the last step begun.", "run",
         read("Both twins of 0 01 003 are stuck in step 2, the last one of the run.",
         "STICK 0 0 01 003 2 2 0000000001 0000000001\nSTICK 1 0 01 003 2 2 0000000001 0000000001"), has="MEM 0 01 003 ?"),
    Case("stuck-no-more-at-the-end", "The same one step earlier leaves no trace.", "run",
         read("Both twins of 0 01 003 are stuck in step 1, not in the last one.",
         "STICK 0 0 01 003 1 1 0000000001 0000000001\nSTICK 1 0 01 003 1 1 0000000001 0000000001"), has="END DONE",
         lacks=["MEM 0 01 003"]),
    Case("where-no-step-is-begun-nothing-is-lost", "With RUN 0 no step is begun, so nothing is damaged, stuck or dead.", "run",
         read("Everything at step 0.", "DAMAGE 0 0 01 000 0 3\nDEAD 0 0 0 9\nDEAD 1 0 0 9", 0), has="MEM 0 01 000 000000005",
         lacks=["MEM 0 00 002"]),
    Case("damage-twice-is-none", "Two events of damage in one step act one after another: the same bit twice is as before.", "run",
         read("The same bit.", "DAMAGE 0 0 01 000 0 1\nDAMAGE 0 0 01 000 0 1"), has="A 000000005", lacks=["REPAIR"]),
    Case("scrubbing-by-reading", "A loop that reads its words repairs each cell before the second one is hurt.", "run",
         deck("CLA 000, CLA 001, TRA 000: nine steps a round. Both twins of both words are hurt, a round apart.",
         "17000 17001 10000", "000000005 000000006", 12,
         faults="DAMAGE 0 0 01 000 0 1\nDAMAGE 1 0 01 000 9 1\nDAMAGE 1 0 01 001 0 1\nDAMAGE 0 0 01 001 9 1"),
         has="END DONE\nREPAIR 1 0 01 000 0 SWITCH\nREPAIR 4 0 01 001 1 SWITCH"),
    Case("a-simplex-store-stays-in-its-module",
         "Where pair 0 is simplex, CDS by the low bit of the module reaches words of its own.", "run",
         deck("CLA 000, CDS 021, STO 001, CDS 001, CLA 001.", "17000 16021 13001 16001 17001", "000000005", 5, simplex="0"),
         has="A 000000000\nDUP 1 0\nPLACE 0 00 0 005\nMEM 4 01 001 000000005", lacks=["MEM 0 01 001"], worked=True),
    Case("a-duplex-store-ignores-the-low-bit", "Where pair 0 is duplex the low bit of the module is carried and ignored.", "run",
         deck("CLA 000, CDS 021, STO 001, CDS 001, CLA 001.", "17000 16021 13001 16001 17001", "000000005", 5),
         has="A 000000005\nMEM 0 01 001 000000005", worked=True),
    Case("a-bad-cell-of-a-simplex-pair", "A simplex pair has one cell for a word: a bad one that is read ends the run.", "run",
         read("Twin 0 holds bank 0.", "DAMAGE 0 0 01 000 0 0000000001", simplex="0"), 5,
         has="END INADMISSIBLE 1 MEMORY 0 01 000\nMEM 0 01 000 ?", worked=True),
    Case("the-odd-module-of-a-simplex-pair",
         "Damage of twin 1 hurts bank 4 alone; nothing is repaired, and its word can't be told.", "run",
         read("Twin 1 holds bank 4.", "DAMAGE 1 0 01 000 0 0000000001", simplex="0"), has="END DONE\nA 000000005\nMEM 4 01 000 ?",
         lacks=["REPAIR"], worked=True),
    Case("a-dead-module-of-a-simplex-pair", "DEAD of twin 1 of a simplex pair loses bank 7 and no other.", "run",
         read("Pair 3 is simplex. Its twin 1 is dead in step 1 alone.", "DEAD 1 3 1 1", simplex="3"), has="END DONE\nA 000000005",
         lacks=["MEM 7", "MEM 3"]),
    Case("code-in-an-odd-module", "HOP goes to an odd module of a simplex pair, whose code is its own.", "run",
         deck("HOP 000 goes to module 5 (bank 6), data module 4 (bank 2).", "00000", "240001016", 3,
         "2 01 003 000000044\n6 00 000 000017003\n6 00 001 000013004", version="START 000000016\nSIMPLEX 2"),
         has="PLACE 5 00 0 002\nDATA 4 01\nA 000000044\nMEM 2 01 004 000000044"),
    Case("damage-in-the-upper-half", "Each half of a cell has its own parity: damage in the upper one is found too.", "run",
         read("A bit of syllable 1 is turned over.", "DAMAGE 0 0 01 000 0 0000040000"),
         has="A 000000005\nREPAIR 1 0 01 000 0 SWITCH"),
    Case("damage-of-a-cell-whose-bits-are-stuck", "Damage turns over bits of the stored cell, not of the one that is shown.", "run",
         read("A bit of twin 0 is stuck up to step 5, another one is turned over in step 3; the read of step 7 finds one bad bit.",
         "STICK 0 0 01 000 0 5 0000000001 0000000000\nDAMAGE 0 0 01 000 3 0000000002", 3),
         has="END DONE\nA 000000005\nREPAIR 1 0 01 000 0 SWITCH\nREPAIR 7 0 01 000 0"),
    Case("stuck-bits-arent-stored", "What is stuck goes with its last step: the cell below is as it was.", "run --through",
         read("Twin 1 shows 6 up to step 2, with good parity; then it is the only one that is alive.",
         "STICK 1 0 01 000 0 2 0000000003 0000000002\nDEAD 0 0 6 8", 3), has="END DONE\nA 000000005"),
    Case("nothing-is-read-in-a-hold", "While a hold is left nothing is fetched, so nothing is repaired.", "run",
         deck("MPH in time 0; the next instruction's cell is damaged in the hold.", "05000 17000", "100000000", 4,
              faults="DAMAGE 0 0 00 001 3 0000000001"), has="END DONE\nPLACE 0 00 0 001", lacks=["REPAIR"]),
    Case("reading-775-reads-no-memory", "An operand of 775 is PQ: location 375 of sector 17 isn't read, nor judged.", "run",
         deck("CLA 775. That location is damaged in both twins.", "17775", "", 1,
              faults="DAMAGE 0 0 17 375 0 0000000001\nDAMAGE 1 0 17 375 0 0000000001"),
         has="END DONE\nMEM 0 17 375 ?", lacks=["REPAIR"]),
]


# ---- places whose pair, sector and location are three different numbers


def at_place(note: str, pair: int, sector: int, location: int, faults: str) -> str:
    """CLA 010, STO, CLA of a location, CLA 010 and CLA of the location again, in the sector of the pair."""
    start = "%09o" % word_of(Hop(0, 0, 0, 0, 2 * pair, sector, 1, 1))
    code = "17010 %05o %05o 17010 %05o" % (0o13000 + location, 0o17000 + location, 0o17000 + location)
    return deck(note, code, "", 5, "%o %02o 010 000000005" % (pair, sector), start=start, faults=faults)


def of_place(twin: int, pair: int, sector: int, location: int) -> list[Case]:
    """A twin of the pair that is dead while the word is stored and read, and one whose cell is damaged while it is dead in two other pairs."""
    at, name = "%o %02o %03o" % (pair, sector, location), "twin-%d-of-%d-%d-%d" % (twin, pair, sector, location)
    read = "REPAIR 7 %s %d%s" % (at, twin, "" if twin else " SWITCH")
    read_while_dead = read if pair else read.removesuffix(" SWITCH")  # in pair 0 the fetch before it has switched
    return [
        Case("a-dead-" + name, "A read stores nothing in a dead twin: when it is there again, it shows what it had before the store.", "run",
             at_place("Twin %d of pair %o is dead in the steps 4 to 8." % (twin, pair), pair, sector, location, "DEAD %d %o 4 8" % (twin, pair)), 5,
             has=["END INADMISSIBLE 13 MEMORY " + at, "TIMES 4", read_while_dead]),
        Case("a-repaired-" + name, "A twin that is dead in other pairs is rewritten in this one.", "run",
             at_place("A bit of twin %d at %s." % (twin, at), pair, sector, location,
                      "DAMAGE %d %s 6 1\nDEAD %d %o 0 14\nDEAD %d %o 0 14" % (twin, at, twin, sector, twin, location)),
             has=["END DONE", "A 000000005", read], lacks=["REPAIR 13"]),
    ]


CASES += [case for place in itertools.permutations(range(4), 3) for twin in (0, 1) for case in of_place(twin, *place)]
