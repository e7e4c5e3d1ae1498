"""Traces: requests of the worker, which the program itself doesn't know."""
from collections.abc import Sequence

from . import Case, deck, sum_deck
from .faults import DEAF_CODE, EVERY_STEP_C

TITLE = "traces"
SHOWS = """What happened in each step of a run, by the request `trace`, which only a worker has."""

USAGE = """
usage: lvdc-worker
requests: the commands of lvdc
          trace [--through] FIRST COUNT
          form
          study
"""
AND_FOR_ADD = "FLIP 3 1 4 4 0 000001000\nFLIP 3 2 4 4 0 000001000"

CASES = [
    Case("a-sum-step-by-step", "A module has a line VOTE where its vote changes, in the first step that is told each has one.", "trace 0 9",
         sum_deck("In step 8 the store goes out that REQUEST named in step 7."), text="""
         LVDC TRACE
         STEP 0
         FETCH 0 00 000 000017000
         VOTE 1 000000001 000000000
         VOTE 2 000000004 000000000
         VOTE 3 000017000
         VOTE 4 000000012
         VOTE 5 000000000 000000000
         VOTE 6 000000000 000000000 000000000 000000000 000000000
         VOTE 7 000000000 000000000
         STEP 1
         OPERAND 0 01 000 177777777
         VOTE 1 000000002 000000000
         VOTE 5 000000000 177777777
         STEP 2
         VOTE 1 000000000 000000000
         VOTE 2 000002004 000000000
         VOTE 5 177777777 177777777
         STEP 3
         FETCH 0 00 001 000007001
         VOTE 1 000000001 000000000
         VOTE 3 000007001
         STEP 4
         OPERAND 0 01 001 000000001
         VOTE 1 000000002 000000000
         VOTE 5 177777777 000000001
         STEP 5
         VOTE 1 000000000 000000000
         VOTE 2 000004004 000000000
         VOTE 5 200000000 000000001
         STEP 6
         FETCH 0 00 002 000013002
         VOTE 1 000000001 000000000
         VOTE 3 000013002
         STEP 7
         VOTE 1 000000002 000000000
         VOTE 7 000000000 000004021
         STEP 8
         STORE 0 01 002 200000000
         VOTE 1 000000000 000000000
         VOTE 2 000006004 000000000
         VOTE 7 000000000 000000000
         END DONE
         """, worked=True),
    Case("one-wrong-copy-in-each-step", "A copy that was wrong computes from the votes, and is right again in the next step.", "trace 3 3",
         sum_deck("Another copy of the accumulator is wrong in each step.", faults="FLIP 5 1 3 3 0 1\nFLIP 5 2 4 4 0 1\nFLIP 5 3 5 5 0 1"),
         text="""
         LVDC TRACE
         STEP 3
         FETCH 0 00 001 000007001
         FAULT 5 1
         VOTE 1 000000001 000000000
         VOTE 2 000002004 000000000
         VOTE 3 000007001
         VOTE 4 000000012
         VOTE 5 177777777 177777777
         VOTE 6 000000000 000000000 000000000 000000000 000000000
         VOTE 7 000000000 000000000
         COPY 5 1 177777776 177777777
         STEP 4
         OPERAND 0 01 001 000000001
         FAULT 5 2
         VOTE 1 000000002 000000000
         VOTE 5 177777777 000000001
         COPY 5 2 177777776 000000001
         STEP 5
         FAULT 5 3
         VOTE 1 000000000 000000000
         VOTE 2 000004004 000000000
         VOTE 5 200000000 000000001
         COPY 5 3 200000001 000000001
         MORE
         """, worked=True),
    Case("repairs-of-both-twins", "Damage is no line of a trace, the repair is.", "trace 0 8",
         deck("Twin 0 is damaged before step 0 and twin 1 before step 4; the word is read in steps 1 and 7.", "17000 10000", "5", 3,
              faults="DAMAGE 0 0 01 000 0 1\nDAMAGE 1 0 01 000 4 1"), text="""
         LVDC TRACE
         STEP 0
         FETCH 0 00 000 000017000
         VOTE 1 000000001 000000000
         VOTE 2 000000004 000000000
         VOTE 3 000017000
         VOTE 4 000000012
         VOTE 5 000000000 000000000
         VOTE 6 000000000 000000000 000000000 000000000 000000000
         VOTE 7 000000000 000000000
         STEP 1
         OPERAND 0 01 000 000000005
         REPAIR 0 01 000 0 SWITCH
         VOTE 1 000000002 000000000
         VOTE 5 000000000 000000005
         STEP 2
         VOTE 1 000000000 000000000
         VOTE 2 000002004 000000000
         VOTE 5 000000005 000000005
         STEP 3
         FETCH 0 00 001 000010000
         VOTE 1 000000001 000000000
         VOTE 3 000010000
         STEP 4
         VOTE 1 000000002 000000000
         STEP 5
         VOTE 1 000000000 000000000
         VOTE 2 000000004 000004016
         STEP 6
         FETCH 0 00 000 000017000
         VOTE 1 000000001 000000000
         VOTE 3 000017000
         STEP 7
         OPERAND 0 01 000 000000005
         REPAIR 0 01 000 1 SWITCH
         VOTE 1 000000002 000000000
         MORE
         """, worked=True),
    Case("two-copies-outvote-the-third", "The copy that is right differs from the vote.", "trace --through 3 6",
         sum_deck("In step 4 two copies of the decoder turn ADD into AND.", faults=AND_FOR_ADD), text="""
         LVDC TRACE THROUGH
         STEP 3
         FETCH 0 00 001 000007001
         VOTE 1 000000001 000000000
         VOTE 2 000002004 000000000
         VOTE 3 000007001
         VOTE 4 000000012
         VOTE 5 177777777 177777777
         VOTE 6 000000000 000000000 000000000 000000000 000000000
         VOTE 7 000000000 000000000
         STEP 4
         OPERAND 0 01 001 000000001
         FAULT 3 1
         FAULT 3 2
         VOTE 1 000000002 000000000
         VOTE 3 000006001
         VOTE 5 177777777 000000001
         COPY 3 3 000007001
         STEP 5
         VOTE 1 000000000 000000000
         VOTE 2 000004004 000000000
         VOTE 5 000000001 000000001
         STEP 6
         FETCH 0 00 002 000013002
         VOTE 1 000000001 000000000
         VOTE 3 000013002
         STEP 7
         VOTE 1 000000002 000000000
         VOTE 7 000000000 000004021
         STEP 8
         STORE 0 01 002 000000001
         VOTE 1 000000000 000000000
         VOTE 2 000006004 000000000
         VOTE 7 000000000 000000000
         END DONE
         """, worked=True),
    Case("an-inadmissible-step", "A step that was begun and isn't made has no lines.", "trace 3 6",
         sum_deck("Step 4 has two wrong copies of the decoder.", faults=AND_FOR_ADD), 5, text="""
         LVDC TRACE
         STEP 3
         FETCH 0 00 001 000007001
         VOTE 1 000000001 000000000
         VOTE 2 000002004 000000000
         VOTE 3 000007001
         VOTE 4 000000012
         VOTE 5 177777777 177777777
         VOTE 6 000000000 000000000 000000000 000000000 000000000
         VOTE 7 000000000 000000000
         END INADMISSIBLE 4 LOGIC 3
         """, worked=True),
    Case("the-step-before-it", "A window that ends before the inadmissible step knows nothing of it.", "trace 2 2",
         sum_deck("Step 4 has two wrong copies of the decoder.", faults=AND_FOR_ADD), has="STEP 2\nSTEP 3\nMORE", lacks=["END", "FAULT", "COPY"],
         worked=True),
    Case("the-inadmissible-step-alone", "A window of that step alone.", "trace 4 1",
         sum_deck("Step 4 has two wrong copies of the decoder.", faults=AND_FOR_ADD), 5, text="""
         LVDC TRACE
         END INADMISSIBLE 4 LOGIC 3
         """, worked=True),
    Case("a-word-in-and-out", "IN has the word that the port answered, OUT the one that went out.", "trace 0 6",
         deck("A word from a tape goes to the recorder.", "12400 12017 10000", "", 2, ports="TAPE 000 5"), text="""
         LVDC TRACE
         STEP 0
         FETCH 0 00 000 000012400
         VOTE 1 000000001 000000000
         VOTE 2 000000004 000000000
         VOTE 3 000012400
         VOTE 4 000000012
         VOTE 5 000000000 000000000
         VOTE 6 000000000 000000000 000000000 000000000 000000000
         VOTE 7 000000000 000000000
         STEP 1
         VOTE 1 000000002 000000000
         VOTE 7 000000000 000000004
         STEP 2
         IN 000 000000005
         VOTE 1 000000000 000000000
         VOTE 2 000002004 000000000
         VOTE 5 000000005 000000000
         VOTE 7 000000000 000000000
         STEP 3
         FETCH 0 00 001 000012017
         VOTE 1 000000001 000000000
         VOTE 3 000012017
         STEP 4
         VOTE 1 000000002 000000000
         VOTE 7 000000000 000000173
         STEP 5
         OUT 017 000000005
         VOTE 1 000000000 000000000
         VOTE 2 000004004 000000000
         VOTE 7 000000000 000000000
         END DONE
         """, worked=True),
    Case("more-is-left", "The window ends before the run.", "trace 0 1", sum_deck("One step of nine."), text="""
         LVDC TRACE
         STEP 0
         FETCH 0 00 000 000017000
         VOTE 1 000000001 000000000
         VOTE 2 000000004 000000000
         VOTE 3 000017000
         VOTE 4 000000012
         VOTE 5 000000000 000000000
         VOTE 6 000000000 000000000 000000000 000000000 000000000
         VOTE 7 000000000 000000000
         MORE
         """, worked=True),
    Case("the-last-step", "The window begins at the last step and goes past it.", "trace 8 5", sum_deck("Step 8 is the last."), text="""
         LVDC TRACE
         STEP 8
         STORE 0 01 002 200000000
         VOTE 1 000000000 000000000
         VOTE 2 000006004 000000000
         VOTE 3 000013002
         VOTE 4 000000012
         VOTE 5 200000000 000000001
         VOTE 6 000000000 000000000 000000000 000000000 000000000
         VOTE 7 000000000 000000000
         END DONE
         """, worked=True),
    Case("after-the-last-step", "The window begins after the last step.", "trace 9 1", sum_deck("Step 8 is the last."),
         text="LVDC TRACE\nEND DONE", worked=True),
    Case("after-an-end", "The window begins after a run that ended early.", "trace 3000000 100000",
         sum_deck("Step 4 has two wrong copies of the decoder.", faults=AND_FOR_ADD), 5, text="""
         LVDC TRACE
         END INADMISSIBLE 4 LOGIC 3
         """, worked=True),
    Case("the-step-of-a-stop", "A stop: its step is made, and is told.", "trace 2 1", deck("A shift that is none.", "16203", "", 5), 6, text="""
         LVDC TRACE
         STEP 2
         VOTE 1 000000000 000000000
         VOTE 2 000000004 000000000
         VOTE 3 000016203
         VOTE 4 000000012
         VOTE 5 000000000 000000000
         VOTE 6 000000000 000000000 000000000 000000000 000000000
         VOTE 7 000000001 000000000
         END STOPPED 2 SHIFT
         """, worked=True),
    Case("a-trace-of-no-times", "A run of no times has no step and is done.", "trace 0 1", deck("Nothing is run.", run=0),
         text="LVDC TRACE\nEND DONE", worked=True),
    Case("the-commands-of-a-session", "A section DEBUG is read, and its commands aren't carried out.", "trace 9 1",
         sum_deck("FLY is no command.", debug="GO\nFLY"), text="LVDC TRACE\nEND DONE", worked=True),
    Case("a-read-without-a-good-cell", "Through every fault such a read stops the run, and its step isn't made.", "trace --through 0 6",
         sum_deck("Both twins of the first operand are damaged before step 1.", faults="DAMAGE 0 0 01 000 1 1\nDAMAGE 1 0 01 000 1 1"), 6,
         has="STEP 0\nEND STOPPED 1 MEMORY 0 01 000", lacks=["STEP 1", "OPERAND", "MORE"]),
    Case("a-copy-that-lags", "LAG keeps the latches of before, and the copy differs where the vote changed.", "trace 2 1",
         sum_deck("Copy 2 of the accumulator lags in step 2.", faults="LAG 5 2 2 2"),
         has="STEP 2\nFAULT 5 2\nVOTE 5 177777777 177777777\nCOPY 5 2 000000000 177777777\nMORE"),
    Case("a-fault-without-effect", "A copy is wrong by the script, whatever comes of it.", "trace 0 1",
         sum_deck("The forced bits are 0 already.", faults="FORCE 7 3 0 0 1 1 0"), has="FAULT 7 3", lacks=["COPY"]),
    Case("a-dead-twin-is-noted", "A read of a dead twin is noted as a repair each time, without SWITCH where it isn't selected.", "trace 0 5",
         sum_deck("Twin 1 of pair 0 is dead.", faults="DEAD 0 0 0 1\nDEAD 1 0 3 4"),
         has="REPAIR 0 00 000 0 SWITCH\nREPAIR 0 00 001 1 SWITCH\nREPAIR 0 01 001 1"),
    Case("a-held-time", "While an MPH holds the machine nothing is exchanged.", "trace 3 12",
         deck("MPH 000, then a STO.", "05000 13001 10002", "3", 6), lacks=["FETCH 0 00 001", "OPERAND"]),
    Case("a-trace-of-a-source", "A deck may begin with a source.", "trace 0 2",
         "SOURCE\n        CODE\n        CLA   X\n        WORDS 0,01\nX       OCT   5\n        END\nRUN 1\n",
         has="FETCH 0 00 000 000017000\nOPERAND 0 01 000 000000005\nMORE"),
    Case("a-trace-of-no-deck", "The refusals are those of run.", "trace 0 1", "", 2, text="REFUSED NoProgram 1", worked=True),
    Case("a-trace-of-an-image-fault", "So are their statuses.", "trace 0 1", "IMAGE\nLVDC 1\n0 00 000 400000000\nEND\nRUN 1\n", 4,
         text="REFUSED BadWord 3"),
    Case("a-needless-zero", "FIRST has no needless zero.", "trace 00 1", sum_deck("Other words."), 1, text=USAGE, worked=True),
    Case("no-step-is-asked-for", "COUNT is at least 1.", "trace 0 0", sum_deck("Other words."), 1, text=USAGE),
    Case("too-many-steps", "COUNT is at most 100,000.", "trace 0 100001", sum_deck("Other words."), 1, text=USAGE),
    Case("a-first-step-too-late", "FIRST is at most 3,000,000.", "trace 3000001 1", sum_deck("Other words."), 1, text=USAGE),
    Case("another-flag", "--through alone is a flag.", "trace --plain 0 1", sum_deck("Other words."), 1, text=USAGE),
    Case("a-trace-without-a-count", "Both numbers are there.", "trace 0", sum_deck("Other words."), 1, text=USAGE),
]

UNIT = "VOTE 6 000000000 000000000 000000000 000000000 000000000"


def block(step: int, votes: dict[int, str], *lines: str, after: Sequence[str] = ()) -> str:
    """A step in which all votes are told: those of a start, or those that are given. Lines stand before them and after them."""
    latches = {1: "000000000 000000000", 2: "000000004 000000000", 3: "000000000", 4: "000000012", 5: "000000000 000000000",
               6: UNIT[7:], 7: "000000000 000000000", **votes}
    return "\n".join(["STEP %d" % step, *lines, *("VOTE %d %s" % (m, latches[m]) for m in sorted(latches)), *after, ""])


BY_HAND = [
    Case("a-copy-that-stays-wrong", "A copy with a fault in each step has a line FAULT in each, and a line COPY where it differs.",
         "trace 4 3", sum_deck("Bit 0 of A is 1 in copy 3; after step 4 the vote has 1 there too.",
                               faults="FORCE 5 3 0 2999999 0 000000001 000000001"),
         text="LVDC TRACE\n" + block(4, {1: "000000002 000000000", 2: "000002004 000000000", 3: "000007001", 5: "177777777 000000001"},
                                     "OPERAND 0 01 001 000000001", "FAULT 5 3")
         + "STEP 5\nFAULT 5 3\nVOTE 1 000000000 000000000\nVOTE 2 000004004 000000000\nVOTE 5 200000000 000000001\n"
         "COPY 5 3 200000001 000000001\nSTEP 6\nFETCH 0 00 002 000013002\nFAULT 5 3\nVOTE 1 000000001 000000000\nVOTE 3 000013002\n"
         "COPY 5 3 200000001 000000001\nMORE"),
    Case("a-stuck-bit", "A stuck bit is repaired at each read, and makes the selection switch at the first alone.", "trace 1 4",
         deck("Bit 0 of the word is 0 in twin 0.", "17000 17000", "1", 2, faults="STICK 0 0 01 000 0 8 0000000001 0000000000"),
         text="LVDC TRACE\n" + block(1, {1: "000000002 000000000", 3: "000017000", 5: "000000000 000000001"},
                                     "OPERAND 0 01 000 000000001", "REPAIR 0 01 000 0 SWITCH")
         + "STEP 2\nVOTE 1 000000000 000000000\nVOTE 2 000002004 000000000\nVOTE 5 000000001 000000001\n"
         "STEP 3\nFETCH 0 00 001 000017000\nVOTE 1 000000001 000000000\n"
         "STEP 4\nOPERAND 0 01 000 000000001\nREPAIR 0 01 000 0\nVOTE 1 000000002 000000000\nMORE"),
    Case("a-repair-without-a-switch", "The twin that isn't selected is repaired too.", "trace 1 1",
         sum_deck("Twin 1 is damaged.", faults="DAMAGE 1 0 01 000 0 0000000001"), text="LVDC TRACE\n"
         + block(1, {1: "000000002 000000000", 3: "000017000", 5: "000000000 177777777"}, "OPERAND 0 01 000 177777777", "REPAIR 0 01 000 1")
         + "MORE"),
    Case("a-repair-as-a-word-is-fetched", "Damage of the step itself is there when the word is read.", "trace 3 1",
         sum_deck("The word is fetched in step 3.", faults="DAMAGE 0 0 00 001 3 0000000001"),
         has="FETCH 0 00 001 000007001\nREPAIR 0 00 001 0 SWITCH\nMORE"),
    Case("no-repair-in-the-step-before", "A repair is told in the step of its read, and in no other one.", "trace 2 1",
         sum_deck("The word is read in step 1.", faults="DAMAGE 0 0 01 000 0 0000000001"), text="LVDC TRACE\n"
         + block(2, {2: "000002004 000000000", 3: "000017000", 5: "177777777 177777777"}) + "MORE"),
    Case("the-hold-of-mph", "MPH holds four times, in which nothing is exchanged; then it lands in PQ and A.", "trace 5 16",
         deck("CLA 000, MPH 000, STO 001. The half of 1/2 is 1/4.", "17000 05000 13001", "100000000", 7),
         has="VOTE 1 000000000 000000004\nVOTE 1 000000001 000000004\nVOTE 1 000000000 000000003\nVOTE 1 000000000 000000002\n"
         "VOTE 1 000000000 000000001\nVOTE 5 040000000 100000000\nFETCH 0 00 002 000013001\nSTORE 0 01 001 040000000\nEND DONE",
         lacks=["FETCH 0 00 001", "FETCH 0 00 003", "OPERAND"]),
    Case("a-divide-as-it-is-issued", "CONTROL has kind 3 and 24 phases; M has the divisor, H the dividend, without their low bits.",
         "trace 5 1", deck("CLA 000, DIV 001.", "17000 03001 10002", "4 10", 12), text="LVDC TRACE\n"
         + block(5, {2: "000004004 000000000", 3: "000003001", 5: "000000004 000000010",
                     6: "000000000 000000143 000000002 000000001 000000000"}) + "MORE"),
    Case("a-divide-as-it-lands", "24 phases after step 5 PQ has the quotient, and CONTROL is 0.", "trace 28 3",
         deck("CLA 000, DIV 001, and TRA 002 again and again. 1 by 2 is 1/2.", "17000 03001 10002", "4 10", 12),
         has="VOTE 6 000000000 000000007 000000002 000000000 010000000\nVOTE 6 100000000 000000000 000000002 000000000 020000000\nSTEP 30"),
    Case("the-step-of-an-exm", "EXM stops as SHIFT does, and leaves 2 in STOP.", "trace 2 1", deck("EXM 000.", "16600", "", 5), 6,
         text="LVDC TRACE\n" + block(2, {3: "000016600", 7: "000000002 000000000"}) + "END STOPPED 2 EXM"),
    Case("after-a-stop", "The window begins after the step of a stop.", "trace 3 1", deck("A shift that is none.", "16203", "", 5), 6,
         text="LVDC TRACE\nEND STOPPED 2 SHIFT"),
    Case("before-a-stop", "The window ends before the step of a stop: the status is 0.", "trace 1 1",
         deck("A shift that is none.", "16203", "", 5), text="LVDC TRACE\n"
         + block(1, {1: "000000002 000000000", 3: "000016203"}) + "MORE"),
    Case("a-stop-in-the-last-step", "A run that stops in its last step isn't done.", "trace 3 1", deck("A shift that is none.", "16203", "", 1),
         6, text="LVDC TRACE\nEND STOPPED 2 SHIFT"),
    Case("two-copies-that-stop-in-phase-a", "Two wrong copies of STOP: the step is made, and is told.", "trace --through 3 9",
         sum_deck("STOP is 1 in two copies after step 3.", faults="FORCE 7 1 3 3 0 3 1\nFORCE 7 2 3 3 0 3 1"), 6,
         text="LVDC TRACE THROUGH\n" + block(3, {1: "000000001 000000000", 2: "000002004 000000000", 3: "000007001",
                                                 5: "177777777 177777777", 7: "000000001 000000000"},
                                             "FETCH 0 00 001 000007001", "FAULT 7 1", "FAULT 7 2",
                                             after=["COPY 7 3 000000000 000000000"]) + "END STOPPED 3 SHIFT"),
    Case("an-inadmissible-read", "A word that can't be recovered: the step is begun and isn't made.", "trace 0 2",
         sum_deck("Both twins of the first operand are damaged before step 1.", faults="DAMAGE 0 0 01 000 1 1\nDAMAGE 1 0 01 000 1 1"), 5,
         text="LVDC TRACE\n" + block(0, {1: "000000001 000000000", 3: "000017000"}, "FETCH 0 00 000 000017000")
         + "END INADMISSIBLE 1 MEMORY 0 01 000"),
    Case("inadmissible-after-the-run", "A step after the run isn't begun.", "trace 9 1",
         sum_deck("The run has the steps 0 to 8.", faults="LAG 3 1 9 9\nLAG 3 2 9 9"), text="LVDC TRACE\nEND DONE"),
    Case("up-to-the-last-step", "A window that ends with the last step ends the run.", "trace 8 1", sum_deck("Step 8 is the last."),
         has="STEP 8\nEND DONE", lacks=["MORE"]),
    Case("up-to-the-step-before-the-last", "A window that ends a step before it doesn't.", "trace 7 1", sum_deck("Step 8 is the last."),
         has="STEP 7\nMORE", lacks=["STEP 6", "STEP 8", "END"]),
    Case("pq-is-no-exchange", "A store to PQ and an operand from PQ go by no memory.", "trace 3 6",
         deck("CLA 000, STO 775, CLA 775.", "17000 13775 17775", "5", 3), text="LVDC TRACE\n"
         + block(3, {1: "000000001 000000000", 2: "000002004 000000000", 3: "000013775", 5: "000000005 000000005"},
                 "FETCH 0 00 001 000013775")
         + "STEP 4\nVOTE 1 000000002 000000000\n"
         "STEP 5\nVOTE 1 000000000 000000000\nVOTE 2 000004004 000000000\nVOTE 6 000000005 000000000 000000000 000000000 000000000\n"
         "STEP 6\nFETCH 0 00 002 000017775\nVOTE 1 000000001 000000000\nVOTE 3 000017775\n"
         "STEP 7\nVOTE 1 000000002 000000000\nSTEP 8\nVOTE 1 000000000 000000000\nVOTE 2 000006004 000000000\nEND DONE"),
    Case("the-saver-is-stored", "STO 776 stores the saver: the line has its word, not that of A.", "trace 4 2",
         deck("TRA 001 loads the saver.", "10001 13776", "", 2), text="LVDC TRACE\n"
         + block(4, {1: "000000002 000000000", 2: "000002004 000002016", 3: "000013776", 7: "000000000 000077762"})
         + "STEP 5\nSTORE 0 17 376 000002016\nVOTE 1 000000000 000000000\nVOTE 2 000004004 000002016\nVOTE 7 000000000 000000000\nEND DONE"),
    Case("cla-776-reads-memory", "An operand at 776 comes from memory.", "trace 1 1",
         deck("CLA 776.", "17776", "", 1, more="0 17 376 000000007"), has="OPERAND 0 17 376 000000007\nVOTE 5 000000000 000000007\nMORE"),
    Case("a-word-of-two-syllables", "A fetch tells the whole word, though one syllable of it is latched.", "trace 0 1",
         deck("CLA 000 in syllable 0, TRA 000 in syllable 1.", "17000", "", 1, upper="10000"),
         has="FETCH 0 00 000 200017000\nVOTE 3 000017000"),
    Case("the-bank-of-a-simplex-pair", "Module 1 of a simplex pair is bank 4.", "trace 0 2",
         deck("The run starts in module 1; the data are those of module 0.", "", "5", 1, more="4 00 000 000017000",
              version="START 040000016\nSIMPLEX 0"), text="LVDC TRACE\n"
         + block(0, {1: "000000001 000000000", 2: "040000004 000000000", 3: "000017000"}, "FETCH 4 00 000 000017000")
         + "STEP 1\nOPERAND 0 01 000 000000005\nVOTE 1 000000002 000000000\nVOTE 5 000000000 000000005\nMORE"),
    Case("a-word-that-is-wrong-and-good", "A read tells the word that it used: here the damage shows a good cell of another word.",
         "trace --through 1 1", deck("Two bits of one half are turned over.", "17000", "5", 1, faults="DAMAGE 0 0 01 000 0 3"),
         has="OPERAND 0 01 000 000000006\nVOTE 5 000000000 000000006", lacks=["REPAIR"]),
    Case("ports-without-a-device", "An exchange with a port at which nothing is, is told too.", "trace 2 4",
         deck("A read of port 377 and a write to it.", "12777 12377", "", 2), has="IN 377 000000000\nOUT 377 000000000\nEND DONE"),
    Case("a-tape-that-is-taken-away", "After UNPLUG a read brings 0.", "trace 2 4",
         deck("The tape goes before time 1.", "12400 12400", "", 2, ports="TAPE 000 5 6\nUNPLUG 000 1"),
         has="IN 000 000000005\nIN 000 000000000", lacks=["IN 000 000000006"]),
    Case("exchanges-of-another-phase", "Through every fault the voted phase counts, not the step's number: here each step is a phase C.",
         "trace --through 0 3", sum_deck("PHASE is 2 and REQUEST a write to port 014, both by two copies.", faults=EVERY_STEP_C),
         text="LVDC TRACE THROUGH\n"
         + block(0, {1: "000000002 000000000", 3: "000017000", 7: "000000000 000000143"}, "FETCH 0 00 000 000017000", "FAULT 1 1", "FAULT 1 2",
                 "FAULT 7 1", "FAULT 7 2", after=["COPY 1 3 000000001 000000000", "COPY 7 3 000000000 000000000"])
         + "".join("STEP %d\nOUT 014 000000000\nFAULT 1 1\nFAULT 1 2\nFAULT 7 1\nFAULT 7 2\nVOTE 2 00000%d004 000000000\n"
                   "COPY 1 3 000000000 000000000\nCOPY 7 3 000000000 000000000\n" % (step, 2 * step) for step in (1, 2)) + "MORE"),
    Case("a-phase-that-comes-twice", "Two copies of TIMER lag: the vote stays, so it has no line, and the operand is read again. Step 4 fetches.",
         "trace --through 0 5", sum_deck("TIMER stays in phase B after step 1.", faults="LAG 1 1 1 1\nLAG 1 2 1 1"),
         text="LVDC TRACE THROUGH\n" + block(0, {1: "000000001 000000000", 3: "000017000"}, "FETCH 0 00 000 000017000")
         + "STEP 1\nOPERAND 0 01 000 177777777\nFAULT 1 1\nFAULT 1 2\nVOTE 5 000000000 177777777\nCOPY 1 3 000000002 000000000\n"
         "STEP 2\nOPERAND 0 01 000 177777777\nVOTE 1 000000002 000000000\n"
         "STEP 3\nVOTE 1 000000000 000000000\nVOTE 2 000002004 000000000\nVOTE 5 177777777 177777777\n"
         "STEP 4\nFETCH 0 00 001 000007001\nVOTE 1 000000001 000000000\nVOTE 3 000007001\nMORE"),
    Case("a-fault-of-no-bit", "A mask of 0 changes nothing, and the copy is wrong.", "trace 4 1",
         sum_deck("Mask 0.", faults="FLIP 5 1 4 4 0 0"), has="FAULT 5 1", lacks=["COPY"]),
    Case("two-flips-that-undo-each-other", "Two lines on one copy are one line FAULT.", "trace 4 1",
         sum_deck("A bit is turned over twice.", faults="FLIP 5 2 4 4 0 1\nFLIP 5 2 4 4 0 1"), text="LVDC TRACE\n"
         + block(4, {1: "000000002 000000000", 2: "000002004 000000000", 3: "000007001", 5: "177777777 000000001"},
                 "OPERAND 0 01 001 000000001", "FAULT 5 2") + "MORE"),
    Case("a-deaf-copy", "A deaf copy hears a wrong copy of another module, and executes CDS in place of CLA.", "trace 1 2",
         sum_deck("The decoder's copy 1 is wrong after step 1, the accumulator's copy 1 is deaf in step 2.", faults=DEAF_CODE),
         text="LVDC TRACE\n" + block(1, {1: "000000002 000000000", 3: "000017000", 5: "000000000 177777777"},
                                     "OPERAND 0 01 000 177777777", "FAULT 3 1", after=["COPY 3 1 000016000"])
         + "STEP 2\nFAULT 5 1\nVOTE 1 000000000 000000000\nVOTE 2 000002004 000000000\nVOTE 5 177777777 177777777\n"
         "COPY 5 1 000000000 177777777\nMORE"),
    Case("by-module-and-copy", "The lines FAULT and COPY stand by module and copy, not in the script's order.", "trace 0 1",
         sum_deck("Five lines on four copies.",
                  faults="FLIP 6 2 0 0 0 1\nFORCE 6 2 0 0 4 7 5\nLAG 2 1 0 0\nFLIP 1 3 0 0 1 1\nFLIP 5 1 0 0 1 4"),
         text="LVDC TRACE\n" + block(0, {1: "000000001 000000000", 3: "000017000"}, "FETCH 0 00 000 000017000", "FAULT 1 3", "FAULT 2 1",
                                     "FAULT 5 1", "FAULT 6 2", after=[
                                         "COPY 1 3 000000001 000000001", "COPY 5 1 000000000 000000004",
                                         "COPY 6 2 000000001 000000000 000000000 000000000 000000005"]) + "MORE"),
    Case("three-copies-that-differ", "Where each copy has another wrong bit, all three differ from their vote.", "trace --through 5 1",
         sum_deck("Each bit is voted by itself.", faults="FLIP 5 3 5 5 0 4\nFLIP 5 2 5 5 0 2\nFLIP 5 1 5 5 0 1"),
         text="LVDC TRACE THROUGH\n" + block(5, {2: "000004004 000000000", 3: "000007001", 5: "200000000 000000001"}, "FAULT 5 1", "FAULT 5 2",
                                             "FAULT 5 3", after=["COPY 5 1 200000001 000000001", "COPY 5 2 200000002 000000001",
                                                                 "COPY 5 3 200000004 000000001"]) + "MORE"),
    Case("a-trace-of-a-source-fault", "A source that isn't assembled.", "trace 0 1", "SOURCE\n        FLY\n        END\nRUN 1\n", 3,
         text="REFUSED UnknownOperation 2"),
    Case("a-trace-of-too-much", "An input above 1,048,576 bytes.", "trace 0 1", 1_048_577 * " ", 11, text="REFUSED TooLong"),
    Case("a-needless-zero-in-a-count", "COUNT has no needless zero.", "trace 0 01", sum_deck("Other words."), 1, text=USAGE),
    Case("a-step-below-0", "A step has no sign.", "trace -1 1", sum_deck("Other words."), 1, text=USAGE),
    Case("a-flag-behind", "--through stands before the numbers.", "trace 0 1 --through", sum_deck("Other words."), 1, text=USAGE),
    Case("a-flag-twice", "--through stands once.", "trace --through --through 0 1", sum_deck("Other words."), 1, text=USAGE),
    Case("three-numbers", "FIRST and COUNT, and no more.", "trace 0 1 1", sum_deck("Other words."), 1, text=USAGE),
    Case("a-trace-without-numbers", "Nor fewer.", "trace", sum_deck("Other words."), 1, text=USAGE),
]
CASES += BY_HAND
