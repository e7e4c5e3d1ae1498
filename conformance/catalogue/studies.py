"""Studies: a request of the worker, which the program itself doesn't know."""
from . import SUM_CODE, SUM_WORDS, Case, deck
from .campaigns import MEMORY, THREE
from .refusals import PLAIN
from .traces import USAGE

TITLE = "studies"
SHOWS = """One program with devices under many scripts, by the request `study` of the worker: of each script the verdict, what differs first,
what the redundancy did, and whether it masks by form. Only a worker has it: `conformance/run --worker`."""

# Reads a word from port 000, stores it, writes it to port 017 and waits.
TAPE_CODE = "12400 13002 12017 10003"
TAPE = "TAPE 000 000000005"
EMPTY = "IMAGE\nLVDC 1\nEND\n"
STOPS = "IMAGE\nLVDC 1\n0 00 000 000016600\nEND\n"
WORKED = """
SCRIPT OUTPUT
FLIP 5 1 5 5 0 000000001
FLIP 5 2 5 5 0 000000001
SCRIPT HALT
FORCE 7 1 2 2 0 000000003 000000001
FORCE 7 2 2 2 0 000000003 000000001
SCRIPT SKIP
FLIP 2 1 5 5 0 000002000
FLIP 2 3 5 5 0 000002000
SCRIPT SLOW
FLIP 2 1 5 5 0 000006000
FLIP 2 2 5 5 0 000006000
SCRIPT TWICE
FLIP 2 2 2 2 0 000002000
FLIP 2 3 2 2 0 000002000
SCRIPT LATE
FLIP 5 2 11 11 0 000000001
FLIP 5 3 11 11 0 000000001
SCRIPT STORED
FLIP 5 1 3 3 0 000000001
FLIP 5 2 3 3 0 000000001
FLIP 5 1 5 5 0 000000001
FLIP 5 2 5 5 0 000000001
SCRIPT BOTH
DAMAGE 0 0 00 002 6 0000000001
DAMAGE 1 0 00 002 6 0000000001
SCRIPT ONE
DAMAGE 0 0 00 001 3 0000000001
SCRIPT AWAY
DEAD 0 0 0 3
"""


def outvoting(name: str, line: str) -> str:
    """A script of one line for copy 1, and the same for copy 2."""
    return "SCRIPT %s\n%s\n%s\n" % (name, line % 1, line % 2)


def asked(name: str, shows: str, program: str, scripts: str, text: str, worked: bool = False) -> Case:
    """A program up to its line RUN, scripts, and the rows that are due with their total."""
    return Case(name, shows, "study", program + "CAMPAIGN\n" + scripts.lstrip("\n"), text=text, worked=worked)


def refused(name: str, shows: str, given: str, cause: str, status: int = 2, worked: bool = False) -> Case:
    return Case(name, shows, "study", given, status, "REFUSED %s" % cause, worked=worked)


def scripts_to(last: int) -> str:
    """Scripts without lines, from S1 on."""
    return "".join("SCRIPT S%d\n" % k for k in range(1, last + 1))


CASES = [
    Case("three-scripts-of-a-study", "The campaign of three scripts: what differs, the copies, the repairs and the form are told too.",
         "study", PLAIN + "RUN 3\n" + THREE, text="""
         SCRIPT A ADMISSIBLE SAME COPIES 1 REPAIRS 0 - FORM YES
         SCRIPT B LOGIC 4 3 DIFFERS REGISTERS COPIES 1 REPAIRS 0 - FORM NO
         SCRIPT C LOGIC 0 5 SAME COPIES 0 REPAIRS 0 - FORM NO
         STUDY 3 ADMISSIBLE 1 SAME 2 FORM 1
         """, worked=True),
    asked("outcomes-over-a-tape", "Each outcome, over a program that reads a word, stores it, writes it and waits.",
          deck("Of two lines that differ the lesser time is told.", TAPE_CODE, ports=TAPE, run=4), WORKED, """
          SCRIPT OUTPUT LOGIC 5 5 DIFFERS PORT 2 COPIES 1 REPAIRS 0 - FORM NO
          SCRIPT HALT LOGIC 2 7 DIFFERS END COPIES 1 REPAIRS 0 - FORM NO
          SCRIPT SKIP LOGIC 5 2 DIFFERS PORT 2 COPIES 1 REPAIRS 0 - FORM NO
          SCRIPT SLOW LOGIC 5 2 DIFFERS PORT 2 COPIES 1 REPAIRS 0 - FORM NO
          SCRIPT TWICE LOGIC 2 2 DIFFERS PORT 1 COPIES 1 REPAIRS 0 - FORM NO
          SCRIPT LATE LOGIC 11 5 DIFFERS REGISTERS COPIES 1 REPAIRS 0 - FORM NO
          SCRIPT STORED LOGIC 3 5 DIFFERS WORDS 0 01 002 COPIES 2 REPAIRS 0 - FORM NO
          SCRIPT BOTH MEMORY 6 0 00 002 DIFFERS END COPIES 0 REPAIRS 0 - FORM NO
          SCRIPT ONE ADMISSIBLE SAME COPIES 0 REPAIRS 1 3 FORM YES
          SCRIPT AWAY ADMISSIBLE SAME COPIES 0 REPAIRS 2 0 FORM NO
          STUDY 10 ADMISSIBLE 2 SAME 2 FORM 1
          """, worked=True),
    asked("no-script-of-a-study", "A study may have no script, and blanks around CAMPAIGN.", PLAIN + "RUN 3\n* A comment.\n", "",
          "STUDY 0 ADMISSIBLE 0 SAME 0 FORM 0"),
    asked("damage-in-a-study", "Damage that is repaired, that is lost, that has good parity in the selected twin and in the other.",
          deck("The sum that wraps.", SUM_CODE, SUM_WORDS, 3), MEMORY.replace("CAMPAIGN\n", "", 1), """
          SCRIPT NONE ADMISSIBLE SAME COPIES 0 REPAIRS 0 - FORM YES
          SCRIPT TWIN ADMISSIBLE SAME COPIES 0 REPAIRS 1 1 FORM YES
          SCRIPT BOTH MEMORY 1 0 01 000 DIFFERS END COPIES 0 REPAIRS 0 - FORM NO
          SCRIPT PARITY MEMORY 1 0 01 000 DIFFERS REGISTERS COPIES 0 REPAIRS 0 - FORM NO
          SCRIPT PARITY1 MEMORY 1 0 01 000 SAME COPIES 0 REPAIRS 0 - FORM NO
          SCRIPT UNREAD ADMISSIBLE SAME COPIES 0 REPAIRS 0 - FORM NO
          SCRIPT DEAD ADMISSIBLE SAME COPIES 0 REPAIRS 5 0 FORM YES
          SCRIPT STOP LOGIC 3 3 DIFFERS END COPIES 1 REPAIRS 0 - FORM NO
          STUDY 8 ADMISSIBLE 4 SAME 5 FORM 3
          """),

    # ---- devices
    asked("each-script-has-the-tape", "The words of the TAPE lines are there for each run of each script, and the next one finds them again.",
          deck("The copies of A differ in step 2 or 5, so that each script has both its runs.", TAPE_CODE,
               ports="TAPE 000 5 6\nTAPE 000 7", run=4),
          "SCRIPT A\nFLIP 5 1 2 2 0 1\n" + outvoting("B", "FLIP 5 %d 2 2 0 1") + "SCRIPT C\n", """
          SCRIPT A ADMISSIBLE SAME COPIES 1 REPAIRS 0 - FORM YES
          SCRIPT B LOGIC 2 5 DIFFERS PORT 2 COPIES 1 REPAIRS 0 - FORM NO
          SCRIPT C ADMISSIBLE SAME COPIES 0 REPAIRS 0 - FORM YES
          STUDY 3 ADMISSIBLE 2 SAME 2 FORM 2
          """),
    asked("what-the-tape-holds", "The plain run and the voted one find the words of the TAPE lines: by 5 the program goes on to write.",
          deck("PIO 400, TNZ 003, and two places to wait.", "12400 04003 10002 12017 10004", ports=TAPE, run=5),
          outvoting("ZERO", "FORCE 5 %d 2 2 0 377777777 0"), """
          SCRIPT ZERO LOGIC 2 5 DIFFERS PORT 2 COPIES 1 REPAIRS 0 - FORM NO
          STUDY 1 ADMISSIBLE 0 SAME 0 FORM 0
          """),
    asked("each-script-has-the-latch", "A latch is in its first state, 0, in each run: what another run wrote isn't read.",
          deck("PIO 414 reads, CLA 000 and PIO 014 write 5.", "12414 17000 12014 10003", "5", 4),
          "SCRIPT A\n" + outvoting("B", "FLIP 5 %d 5 5 0 1") + "SCRIPT C\n", """
          SCRIPT A ADMISSIBLE SAME COPIES 0 REPAIRS 0 - FORM YES
          SCRIPT B LOGIC 5 5 DIFFERS PORT 2 COPIES 1 REPAIRS 0 - FORM NO
          SCRIPT C ADMISSIBLE SAME COPIES 0 REPAIRS 0 - FORM YES
          STUDY 3 ADMISSIBLE 2 SAME 2 FORM 2
          """),
    asked("a-ticker-in-a-study", "The ticker answers the time: a read that comes a time later differs by its word, in the log of a campaign "
          "by its time alone.", deck("TRA 000 and a read.", "10001 12416 10002", run=4), outvoting("SLOW", "FLIP 2 %d 2 2 0 2000"), """
          SCRIPT SLOW LOGIC 2 2 DIFFERS PORT 1 COPIES 1 REPAIRS 0 - FORM NO
          STUDY 1 ADMISSIBLE 0 SAME 0 FORM 0
          """),
    asked("an-unplugged-tape", "From time 1 on the tape is gone, in all runs: the second read is 0.",
          deck("Both words would be read; only 5 is.", "12400 12400 13002 10003", ports="TAPE 000 5 6\nUNPLUG 000 1", run=4),
          "SCRIPT NONE\n" + outvoting("EARLY", "FLIP 5 %d 5 5 0 6"), """
          SCRIPT NONE ADMISSIBLE SAME COPIES 0 REPAIRS 0 - FORM YES
          SCRIPT EARLY LOGIC 5 5 DIFFERS REGISTERS COPIES 1 REPAIRS 0 - FORM NO
          STUDY 2 ADMISSIBLE 1 SAME 1 FORM 1
          """),
    asked("a-tape-that-is-read-once", "A read that is made twice takes the next word of the tape.",
          deck("PIO 400, STO 002, PIO 017.", TAPE_CODE, ports="TAPE 000 5 6", run=4),
          "SCRIPT TWICE\nFLIP 2 2 2 2 0 2000\nFLIP 2 3 2 2 0 2000\n", """
          SCRIPT TWICE LOGIC 2 2 DIFFERS PORT 1 COPIES 1 REPAIRS 0 - FORM NO
          STUDY 1 ADMISSIBLE 0 SAME 0 FORM 0
          """),

    # ---- outcomes
    asked("ends-that-differ", "A stop that doesn't come, that comes elsewhere, that has another cause; and a read without a good cell.",
          deck("CLA 000, then EXM in time 1.", "17000 16600 10002", "5", 9),
          outvoting("ONWARD", "FORCE 3 %d 3 3 0 17777 17000") + outvoting("LATER", "FORCE 2 %d 2 2 0 2000 0")
          + outvoting("CAUSE", "FORCE 3 %d 3 3 0 17777 16203")
          + "SCRIPT CELL\nDAMAGE 0 0 00 001 3 1\nDAMAGE 1 0 00 001 3 1\nSCRIPT AFTER\nLAG 1 1 6 6\nLAG 1 2 6 6\n", """
          SCRIPT ONWARD LOGIC 3 3 DIFFERS END COPIES 1 REPAIRS 0 - FORM NO
          SCRIPT LATER LOGIC 2 2 DIFFERS END COPIES 1 REPAIRS 0 - FORM NO
          SCRIPT CAUSE LOGIC 3 3 DIFFERS END COPIES 1 REPAIRS 0 - FORM NO
          SCRIPT CELL MEMORY 3 0 00 001 DIFFERS END COPIES 0 REPAIRS 0 - FORM NO
          SCRIPT AFTER ADMISSIBLE SAME COPIES 0 REPAIRS 0 - FORM NO
          STUDY 5 ADMISSIBLE 1 SAME 1 FORM 0
          """),
    asked("ports-that-differ", "A write that is left out, one too many, another port, another word, and a read that should be a write.",
          deck("CLA 000 and PIO 017 in time 1; then two places to wait.", "17000 12017 10002", "5", 4),
          outvoting("LEFTOUT", "LAG 7 %d 4 4") + outvoting("MORE", "FORCE 7 %d 7 7 1 377777777 173")
          + outvoting("OTHER", "FLIP 7 %d 4 4 1 10") + outvoting("WORD", "FLIP 5 %d 4 4 0 1") + outvoting("READ", "FORCE 7 %d 4 4 1 7 4"), """
          SCRIPT LEFTOUT LOGIC 4 7 DIFFERS PORT 1 COPIES 1 REPAIRS 0 - FORM NO
          SCRIPT MORE LOGIC 7 7 DIFFERS PORT 2 COPIES 1 REPAIRS 0 - FORM NO
          SCRIPT OTHER LOGIC 4 7 DIFFERS PORT 1 COPIES 1 REPAIRS 0 - FORM NO
          SCRIPT WORD LOGIC 4 5 DIFFERS PORT 1 COPIES 1 REPAIRS 0 - FORM NO
          SCRIPT READ LOGIC 4 7 DIFFERS PORT 1 COPIES 1 REPAIRS 0 - FORM NO
          STUDY 5 ADMISSIBLE 0 SAME 0 FORM 0
          """),
    asked("two-lines-of-a-log", "The second line of the log differs alone; both do; the first one is left out, and the second is there.",
          deck("Two writes, in times 1 and 3.", "17000 12017 17001 12017 10004", "5 6", 5), outvoting("SECOND", "FLIP 5 %d 8 8 0 1")
          + "SCRIPT BOTH\nFLIP 5 1 2 2 0 1\nFLIP 5 2 2 2 0 1\nFLIP 5 1 8 8 0 1\nFLIP 5 2 8 8 0 1\n" + outvoting("LEFTOUT", "LAG 7 %d 4 4"), """
          SCRIPT SECOND LOGIC 8 5 DIFFERS PORT 3 COPIES 1 REPAIRS 0 - FORM NO
          SCRIPT BOTH LOGIC 2 5 DIFFERS PORT 1 COPIES 2 REPAIRS 0 - FORM NO
          SCRIPT LEFTOUT LOGIC 4 7 DIFFERS PORT 1 COPIES 1 REPAIRS 0 - FORM NO
          STUDY 3 ADMISSIBLE 0 SAME 0 FORM 0
          """),
    asked("registers-that-differ", "One register alone: PLACE, DATA, A, PQ, SAVER; and a latch that is none of them.",
          deck("The sum that wraps, and a transfer to itself.", SUM_CODE, SUM_WORDS, 4),
          outvoting("PLACE", "FLIP 2 %d 11 11 0 2000") + outvoting("DATA", "FLIP 4 %d 11 11 0 10") + outvoting("A", "FLIP 5 %d 11 11 0 1")
          + outvoting("PQ", "FLIP 6 %d 11 11 0 1") + outvoting("SAVER", "FLIP 2 %d 11 11 1 2") + outvoting("OPERAND", "FLIP 5 %d 11 11 1 1"), """
          SCRIPT PLACE LOGIC 11 2 DIFFERS REGISTERS COPIES 1 REPAIRS 0 - FORM NO
          SCRIPT DATA LOGIC 11 4 DIFFERS REGISTERS COPIES 1 REPAIRS 0 - FORM NO
          SCRIPT A LOGIC 11 5 DIFFERS REGISTERS COPIES 1 REPAIRS 0 - FORM NO
          SCRIPT PQ LOGIC 11 6 DIFFERS REGISTERS COPIES 1 REPAIRS 0 - FORM NO
          SCRIPT SAVER LOGIC 11 2 DIFFERS REGISTERS COPIES 1 REPAIRS 0 - FORM NO
          SCRIPT OPERAND LOGIC 11 5 SAME COPIES 1 REPAIRS 0 - FORM NO
          STUDY 6 ADMISSIBLE 0 SAME 1 FORM 0
          """),
    asked("words-that-differ", "The least address is told, of a word that was due there, that was due elsewhere, or that is one too many.",
          deck("The sum that wraps is stored at 0 01 002.", SUM_CODE, SUM_WORDS, 3),
          outvoting("LESS", "FORCE 7 %d 7 7 1 377777777 4011") + outvoting("MORE", "FORCE 7 %d 7 7 1 377777777 4031")
          + outvoting("PAIR", "FORCE 7 %d 7 7 1 377777777 104021") + outvoting("SECTOR", "FORCE 7 %d 7 7 1 377777777 21")
          + outvoting("TWICE", "FORCE 7 %d 4 4 1 377777777 4071"), """
          SCRIPT LESS LOGIC 7 7 DIFFERS WORDS 0 01 001 COPIES 1 REPAIRS 0 - FORM NO
          SCRIPT MORE LOGIC 7 7 DIFFERS WORDS 0 01 002 COPIES 1 REPAIRS 0 - FORM NO
          SCRIPT PAIR LOGIC 7 7 DIFFERS WORDS 0 01 002 COPIES 1 REPAIRS 0 - FORM NO
          SCRIPT SECTOR LOGIC 7 7 DIFFERS WORDS 0 00 002 COPIES 1 REPAIRS 0 - FORM NO
          SCRIPT TWICE LOGIC 4 7 DIFFERS WORDS 0 01 007 COPIES 1 REPAIRS 0 - FORM NO
          STUDY 5 ADMISSIBLE 0 SAME 0 FORM 0
          """),
    asked("a-bank-of-a-simplex-pair", "In a simplex pair the banks are told apart: p is the bank.",
          deck("CDS 1,01 by module 1: bank 4, where the sum is stored.", "16021 17000 13002 10003", "",
               3, more="4 01 000 000000005", version="START 000000016\nSIMPLEX 0"), outvoting("WORD", "FLIP 7 %d 7 7 1 10"), """
          SCRIPT WORD LOGIC 7 7 DIFFERS WORDS 4 01 002 COPIES 1 REPAIRS 0 - FORM NO
          STUDY 1 ADMISSIBLE 0 SAME 0 FORM 0
          """),
    asked("the-end-comes-first", "Where end, log, registers and words differ it is the end that is told; of log and registers the log.",
          deck("A word from the tape is stored, written and halved.", "12400 13002 12017 16201 10004", ports="TAPE 000 6", run=5),
          outvoting("ALL", "FLIP 5 %d 2 2 0 1") + outvoting("STOPPED", "FLIP 5 %d 2 2 0 1") + "FORCE 7 1 14 14 0 3 2\nFORCE 7 3 14 14 0 3 2\n", """
          SCRIPT ALL LOGIC 2 5 DIFFERS PORT 2 COPIES 1 REPAIRS 0 - FORM NO
          SCRIPT STOPPED LOGIC 2 5 DIFFERS END COPIES 2 REPAIRS 0 - FORM NO
          STUDY 2 ADMISSIBLE 0 SAME 0 FORM 0
          """),

    # ---- copies, repairs, the form
    asked("copies-are-summed", "The copies that differ are counted step by step, and summed over all modules.",
          deck("The sum that wraps.", SUM_CODE, SUM_WORDS, 3), """
SCRIPT MODULES
FORCE 1 1 0 8 1 7 7
FORCE 6 2 3 4 2 1 1
FLIP 6 3 8 8 4 1
SCRIPT UNSEEN
FORCE 6 1 0 8 0 1 0
""", """
          SCRIPT MODULES ADMISSIBLE SAME COPIES 12 REPAIRS 0 - FORM YES
          SCRIPT UNSEEN ADMISSIBLE SAME COPIES 0 REPAIRS 0 - FORM YES
          STUDY 2 ADMISSIBLE 2 SAME 2 FORM 2
          """),
    asked("after-an-inadmissible-step", "Copies and repairs are those of the run through every fault: of what comes after the first "
          "inadmissible step too.", deck("The sum that wraps.", SUM_CODE, SUM_WORDS, 3), """
SCRIPT ON
LAG 5 1 0 0
LAG 5 2 0 0
FLIP 5 1 6 6 1 1
DAMAGE 0 0 00 002 3 1
""", """
          SCRIPT ON LOGIC 0 5 SAME COPIES 1 REPAIRS 1 6 FORM NO
          STUDY 1 ADMISSIBLE 0 SAME 1 FORM 0
          """),
    asked("the-first-repair", "The first of several repairs is told, and how many there are.",
          deck("A loop of CLA and TRA.", "17000 10000", "5", 4), """
SCRIPT TWO
DAMAGE 0 0 01 000 0 1
DAMAGE 1 0 01 000 4 1
SCRIPT LATER
DAMAGE 1 0 00 001 9 1
""", """
          SCRIPT TWO ADMISSIBLE SAME COPIES 0 REPAIRS 2 1 FORM NO
          SCRIPT LATER ADMISSIBLE SAME COPIES 0 REPAIRS 1 9 FORM YES
          STUDY 2 ADMISSIBLE 2 SAME 2 FORM 1
          """),
    asked("forms-in-a-study", "A script masks by form in the study's own run: lines after it aren't asked, its simplex pairs are.",
          deck("Pair 2 is simplex.", SUM_CODE, SUM_WORDS, 3, simplex="2"), """
SCRIPT AFTER
LAG 1 1 9 9
LAG 1 2 9 9
SCRIPT LAST
LAG 1 1 8 8
LAG 1 2 8 8
SCRIPT SIMPLEX
DAMAGE 0 2 00 000 0 1
SCRIPT DEAD
DEAD 1 1 0 8
SCRIPT BACK
DEAD 1 1 0 7
""", """
          SCRIPT AFTER ADMISSIBLE SAME COPIES 0 REPAIRS 0 - FORM YES
          SCRIPT LAST LOGIC 8 1 SAME COPIES 1 REPAIRS 0 - FORM NO
          SCRIPT SIMPLEX ADMISSIBLE SAME COPIES 0 REPAIRS 0 - FORM NO
          SCRIPT DEAD ADMISSIBLE SAME COPIES 0 REPAIRS 0 - FORM YES
          SCRIPT BACK ADMISSIBLE SAME COPIES 0 REPAIRS 0 - FORM NO
          STUDY 5 ADMISSIBLE 4 SAME 5 FORM 2
          """),
    asked("a-source-in-a-study", "The program may be a source, with a start by name.",
          "SOURCE\n        CODE\nREAD    PIO   400\n        PIO   017\nWAIT    TRA   WAIT\n        END\nSTART READ\nPORTS\n" + TAPE + "\nRUN 3\n",
          outvoting("WORD", "FLIP 5 %d 2 2 0 2"), """
          SCRIPT WORD LOGIC 2 5 DIFFERS PORT 1 COPIES 1 REPAIRS 0 - FORM NO
          STUDY 1 ADMISSIBLE 0 SAME 0 FORM 0
          """),
    asked("orders-in-a-study", "The deck may have orders: no row depends on them.", deck("In the order U to A.", SUM_CODE, SUM_WORDS, 3,
          order="UTSRQPONMLKJIHGFEDCBA"), THREE.replace("CAMPAIGN\n", "", 1), """
          SCRIPT A ADMISSIBLE SAME COPIES 1 REPAIRS 0 - FORM YES
          SCRIPT B LOGIC 4 3 DIFFERS REGISTERS COPIES 1 REPAIRS 0 - FORM NO
          SCRIPT C LOGIC 0 5 SAME COPIES 0 REPAIRS 0 - FORM NO
          STUDY 3 ADMISSIBLE 1 SAME 2 FORM 1
          """),
    asked("a-run-of-no-times-in-a-study", "A run of no times has no step.", EMPTY + "RUN 0\n", outvoting("A", "LAG 1 %d 0 0"), """
          SCRIPT A ADMISSIBLE SAME COPIES 0 REPAIRS 0 - FORM YES
          STUDY 1 ADMISSIBLE 1 SAME 1 FORM 1
          """),

    # ---- limits
    asked("a-million-times", "A study may have a million times.", STOPS + "RUN 1000000\n", "SCRIPT A\n", """
          SCRIPT A ADMISSIBLE SAME COPIES 0 REPAIRS 0 - FORM YES
          STUDY 1 ADMISSIBLE 1 SAME 1 FORM 1
          """),
    asked("a-hundred-million-times", "Count times scripts may be 100,000,000. The program stops at once.", STOPS + "RUN 1000000\n",
          scripts_to(100), "".join("SCRIPT S%d ADMISSIBLE SAME COPIES 0 REPAIRS 0 - FORM YES\n" % k for k in range(1, 101))
          + "STUDY 100 ADMISSIBLE 100 SAME 100 FORM 100\n"),
    asked("257-scripts-of-a-study", "A study may have more than 256 scripts.", EMPTY + "RUN 0\n", scripts_to(257),
          "".join("SCRIPT S%d ADMISSIBLE SAME COPIES 0 REPAIRS 0 - FORM YES\n" % k for k in range(1, 258))
          + "STUDY 257 ADMISSIBLE 257 SAME 257 FORM 257\n"),

    # ---- refusals
    refused("faults-in-a-study", "FAULTS before CAMPAIGN.", EMPTY + "FAULTS\nLAG 1 1 0 0\nRUN 3\nCAMPAIGN\nSCRIPT A\n", "BadSection 4", worked=True),
    refused("debug-in-a-study", "PORTS may stand there, DEBUG may not.",
            EMPTY + "PORTS\nTAPE 000 5\nRUN 3\nDEBUG\nGO\nCAMPAIGN\nSCRIPT A\n", "BadSection 7", worked=True),
    refused("faults-and-debug-in-a-study", "The first of the two is named.", EMPTY + "FAULTS\nRUN 3\nDEBUG\nCAMPAIGN\n", "BadSection 4"),
    refused("a-command-fault-in-a-study", "What a session would say of FAULTS is a command, not a section.",
            EMPTY + "RUN 3\nDEBUG\nFAULTS\nCAMPAIGN\n", "BadSection 5"),
    refused("a-study-without-campaign", "CAMPAIGN is missing: one more than the last line.", EMPTY + "RUN 3\n", "BadSection 5", worked=True),
    refused("debug-before-a-missing-campaign", "A section that may not be there comes before a missing CAMPAIGN.",
            EMPTY + "RUN 3\nDEBUG\nGO\n", "BadSection 5"),
    refused("a-missing-run-in-a-study", "The deck ends at CAMPAIGN, and a missing RUN is named there.", EMPTY + "CAMPAIGN\nSCRIPT A\n",
            "BadSection 4"),
    refused("a-count-above-a-million", "The deck's own bound comes first.", EMPTY + "RUN 1000001\nCAMPAIGN\nFLY\n", "CountTooLarge 4", worked=True),
    refused("a-name-twice-in-a-study", "A count above 10,000 is none of a study's refusals; a repeated name is BadLine.",
            EMPTY + "RUN 10001\nCAMPAIGN\nSCRIPT A\nLAG 1 1 0 0\nSCRIPT A\n", "BadLine 8", worked=True),
    refused("above-a-hundred-million-times", "Count times scripts is 101,000,000.", EMPTY + "RUN 1000000\nCAMPAIGN\n" + scripts_to(101),
            "CountTooLarge 4", worked=True),
    refused("the-product-comes-last", "A name twice comes before count times scripts.",
            EMPTY + "RUN 1000000\nCAMPAIGN\n" + scripts_to(101) + "SCRIPT S1\n", "BadLine 107", worked=True),
    refused("too-many-scripts-of-a-study", "The 65,537th script.", EMPTY + "RUN 0\nCAMPAIGN\n" + scripts_to(65537), "TooManyScripts 65542",
            worked=True),
    refused("too-many-events-of-a-study", "The 65,537th fault line, of all scripts together.",
            EMPTY + "RUN 0\nCAMPAIGN\nSCRIPT A\nLAG 1 1 0 0\nSCRIPT B\n" + 65536 * "LAG 1 1 0 0\n", "TooManyEvents 65544"),
    refused("a-fault-before-a-script", "A fault line stands in a script.", EMPTY + "RUN 3\nCAMPAIGN\nLAG 1 1 0 0\n", "BadLine 6"),
    refused("a-line-that-is-none-in-a-study", "A line that is neither a script's nor a fault line.", EMPTY + "RUN 3\nCAMPAIGN\nSCRIPT A\nRUN 3\n",
            "BadLine 7"),
    refused("a-long-comment-in-a-study", "A line above 120 bytes is BadLine, a comment too.", EMPTY + "RUN 3\nCAMPAIGN\n*" + 120 * "X" + "\n",
            "BadLine 6"),
    refused("no-tape-in-a-study", "The ports are judged over the devices of the program: 014 has no tape.",
            EMPTY + "PORTS\nTAPE 014 5\nRUN 3\nCAMPAIGN\n", "NoDevice 5"),
    refused("a-port-line-in-a-study", "A line of PORTS without a form.", EMPTY + "PORTS\nTAPE 000\nRUN 3\nCAMPAIGN\n", "BadLine 5"),
    refused("an-image-fault-in-a-study", "The program's refusals keep their status.", PLAIN.replace("LVDC 1", "LVDC 3") + "RUN 3\n" + THREE,
            "BadImageLine 2", 4),
    refused("a-source-fault-in-a-study", "A source that isn't assembled.", "SOURCE\n        FLY\n        END\nRUN 1\nCAMPAIGN\n",
            "UnknownOperation 2", 3),
    refused("a-study-of-no-deck", "An empty input.", "", "NoProgram 1"),
    Case("a-word-after-study", "study takes no word.", "study 1", PLAIN + "RUN 3\n" + THREE, 1, text=USAGE),
]
