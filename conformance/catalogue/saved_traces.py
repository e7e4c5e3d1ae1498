"""Traces of saved texts."""
from . import Case, sum_deck
from .saved_runs import DEVICES_SAVED, STRAY, SUM_SAVED, TWO_SAVED, saved
from .traces import AND_FOR_ADD

TITLE = "traces of saved texts"
SHOWS = """What the request `trace`, which only a worker has, makes of a saved text: the steps of the run that goes on, by their numbers in the
whole run. An input whose first line is `LVDC SAVE 1` is a saved text, and every other one a deck."""

ONE_AFTER_ANOTHER = saved(sum_deck("Another copy of the accumulator is wrong in each step.",
                                   faults="FLIP 5 1 3 3 0 1\nFLIP 5 2 4 4 0 1\nFLIP 5 3 5 5 0 1"), 1)
TWO_WRONG_LATER = saved(sum_deck("Step 4 has two wrong copies of the decoder.", faults=AND_FOR_ADD), 1)
STEPS_3_TO_5 = """
LVDC TRACE
STEP 3
FETCH 0 00 001 000007001
FAULT 5 1
VOTE 1 000000001 000000000
VOTE 2 000002004 000000000
VOTE 3 000007001
VOTE 4 000000012
VOTE 5 177777777 177777777
VOTE 6 000000000 000000000 000000000 000000000 000000000
VOTE 7 000000000 000000000
COPY 5 1 177777776 177777777
STEP 4
OPERAND 0 01 001 000000001
FAULT 5 2
VOTE 1 000000002 000000000
VOTE 5 177777777 000000001
COPY 5 2 177777776 000000001
STEP 5
FAULT 5 3
VOTE 1 000000000 000000000
VOTE 2 000004004 000000000
VOTE 5 200000000 000000001
COPY 5 3 200000001 000000001
MORE
"""
LAST_STEP = """
LVDC TRACE
STEP 8
STORE 0 01 002 200000000
VOTE 1 000000000 000000000
VOTE 2 000006004 000000000
VOTE 3 000013002
VOTE 4 000000012
VOTE 5 200000000 000000001
VOTE 6 000000000 000000000 000000000 000000000 000000000
VOTE 7 000000000 000000000
END DONE
"""

CASES = [
    Case("the-steps-that-are-left", "Steps keep their numbers; the first that is told has all votes, as in a trace of the deck.", "trace 3 3",
         ONE_AFTER_ANOTHER, text=STEPS_3_TO_5, worked=True),
    Case("from-before-the-state", "Where the window begins before the state, the told steps begin with it, and are as many.", "trace 0 3",
         ONE_AFTER_ANOTHER, text=STEPS_3_TO_5),
    Case("from-after-the-state", "The window may begin later: the steps before it are made and not told.", "trace 8 5", SUM_SAVED, text=LAST_STEP),
    Case("after-the-last-step", "Behind the last step nothing is told.", "trace 9 1", SUM_SAVED, text="LVDC TRACE\nEND DONE"),
    Case("no-step-is-left", "A run that was saved at its very end.", "trace 0 9", saved(sum_deck("The sum."), 3), text="LVDC TRACE\nEND DONE"),
    Case("lines-that-end-with-cr", "A CR before the LF of the first line is dropped, as of every line.", "trace 8 5",
         SUM_SAVED.replace("\n", "\r\n"), text=LAST_STEP),
    Case("an-inadmissible-step", "The status is that of the run up to the last step asked for.", "trace 3 2", TWO_WRONG_LATER, 5,
         has="STEP 3\nEND INADMISSIBLE 4 LOGIC 3", lacks=["STEP 4", "FAULT"]),
    Case("before-an-inadmissible-step", "The same text, cut before that step.", "trace 3 1", TWO_WRONG_LATER, has="STEP 3\nMORE", lacks=["END"]),
    Case("a-repair-after-the-state", "Repairs that the text names have no line; those of the steps that are told have.", "trace 3 6",
         TWO_SAVED, has="STEP 7\nREPAIR 0 01 000 1 SWITCH", lacks=["REPAIR 0 01 000 0"]),
    Case("devices-go-on", "The devices have the words of the text, and one is taken away at its time.", "trace 15 12", DEVICES_SAVED,
         has="STEP 17\nIN 000 000000002\nSTEP 26\nIN 001 000000000"),
    Case("a-state-that-no-run-comes-to", "The text may have any whole state: here the first step reads a cell that is bad in it.", "trace 0 3",
         STRAY.lstrip("\n"), has="STEP 3\nREPAIR 0 00 001 1 SWITCH\nEND DONE"),
    Case("a-saved-text-that-is-refused", "Refusals are those of resume.", "trace 0 9", SUM_SAVED.replace("STEPS 3", "STEPS 4"), 2,
         "REFUSED BadSave 2"),
    Case("a-saved-text-without-a-device", "Also those of a line that wants a device.", "trace 0 9",
         SUM_SAVED.replace("ABCDEFGHIJKLMNOPQRSTU", "UNPLUG 020 2\nABCDEFGHIJKLMNOPQRSTU"), 2,
         "REFUSED NoDevice %d" % (SUM_SAVED[:SUM_SAVED.index("ABC")].count("\n") + 1)),
    Case("a-title-alone", "The title alone is a saved text, which lacks the rest.", "trace 0 9", "LVDC SAVE 1", 2, "REFUSED BadSave 2"),
    Case("another-title", "With a blank behind it the title is none: the input is a deck, which begins otherwise.", "trace 0 9",
         SUM_SAVED.replace("LVDC SAVE 1", "LVDC SAVE 1 "), 2, "REFUSED NoProgram 1"),
    Case("a-title-behind-a-comment", "It is the first line that says so.", "trace 0 9", "* saved\n" + SUM_SAVED, 2, "REFUSED NoProgram 2"),
    Case("through-every-fault", "A trace through every fault takes decks alone.", "trace --through 0 9", SUM_SAVED, 2, "REFUSED NoProgram 1"),
]
