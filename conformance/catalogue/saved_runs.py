"""Runs that are saved, and runs that go on."""
from simulator import answer

from . import SUM_REPORT, Case, deck, state, sum_deck
from .faults import TWO_WRONG
from .memory import READ

TITLE = "saved runs"
SHOWS = """What `save N` writes after N times, what `resume` makes of such a text, and its refusals. The texts that `resume` is
given here come from simulator.py, some of them changed by hand. A text may also be any whole state that no run comes to."""

TWO_DAMAGED = deck("Twin 0 first, and two times later twin 1.", READ, "000000005", 3,
                   faults="DAMAGE 0 0 01 000 0 0000000001\nDAMAGE 1 0 01 000 4 0000000001")
DEVICES = deck("A tape, a latch, the recorder; another tape is unplugged. A twin is dead while the run is saved.",
               "12400 12014 12017 12401 10000", "", 12,
               ports="TAPE 000 1 2 3\nTAPE 001 4 5\nUNPLUG 001 6\nUNPLUG 013 9",
               faults="DEAD 0 2 0 40\nFLIP 2 3 7 8 0 000000004\nLAG 5 1 11 13\nSTICK 1 0 01 000 10 30 0000000001 0000000001",
               order="UTSRQPONMLKJIHGFEDCBA\nABCDEFGHIJKLMNOPQRSTU")


LATER = """
FLIP 2 3 7 8 0 000000004
FORCE 5 1 7 8 0 000000007 000000003
LAG 5 1 6 6
DEAF 6 2 8 8
DAMAGE 1 3 17 377 8 0000000001
STICK 0 3 17 376 8 8 0000000001 0000000000
DEAD 0 2 8 8
"""


def saved(given: str, times: int) -> str:
    return answer(["save", str(times)], given)[1]


def changed(text: str, old: str, new: str) -> str:
    assert text.count(old) == 1, (text, old)
    return text.replace(old, new)


SUM_SAVED = saved(sum_deck("The sum."), 1)
TWO_SAVED = saved(TWO_DAMAGED, 1)
DEVICES_SAVED = saved(DEVICES, 5)
WITH_DEBUG = sum_deck("RUN stands before DEBUG.", debug="GO")
NUMBER = {line: k + 1 for k, line in reversed(list(enumerate(DEVICES_SAVED.splitlines())))}


def refused(name: str, shows: str, text: str, line: int, cause: str = "BadSave") -> Case:
    return Case(name, shows, "resume", text, 2, "REFUSED %s %d" % (cause, line))


def number(text: str, start: str) -> int:
    """The first line of a text that begins so."""
    return next(k + 1 for k, line in enumerate(text.splitlines()) if line.startswith(start))


STRAY = """
LVDC SAVE 1
STEPS 3
COUNT 2
COPY 1 1 0 000000000 000000000
COPY 1 2 0 000000004 000000010
COPY 1 3 0 000000000 000000000
COPY 2 1 0 000002004 000000000
COPY 2 2 0 000002004 000000000
COPY 2 3 0 377777777 377777777
COPY 3 1 0 000017000
COPY 3 2 0 000017000
COPY 3 3 0 000000000
COPY 4 1 0 000000012
COPY 4 2 0 000000012
COPY 4 3 0 000000012
COPY 5 1 3 000000005 000000005
COPY 5 2 0 000000006 000000005
COPY 5 3 0 000000007 000000005
COPY 6 1 0 000000001 000000005 000000004 000000000 000000020
COPY 6 2 0 000000001 000000005 000000004 000000000 000000020
COPY 6 3 0 000000001 000000005 000000004 000000000 000000020
COPY 7 1 0 000000000 000000000
COPY 7 2 0 000000000 000000000
COPY 7 3 0 000000000 000000000
SELECT 1 0 1 1
CELL 0 0 00 001 1000033002
CELL 1 0 00 001 0000000000
WORD 0 00 001 000013002
IN 0 377 000000001
REPAIR 1 3 17 377 1 SWITCH
ABCDEFGHIJKLMNOPQRSTU
END
"""

CASES = [
    Case("the-sum-after-one-time",
         "A saved text: steps, count, 21 copies, selections, cells and words that aren't 0, devices, orders.", "save 1",
         sum_deck("One time of three."),
         has="STEPS 3\nCOUNT 3\nCOPY 2 1 0 000002004 000000000\nCOPY 4 1 0 000000012\nCOPY 5 1 0 177777777 177777777", worked=True),
    Case("the-sum-goes-on", "resume goes on with that text to the report of the whole run.", "resume", SUM_SAVED, text=SUM_REPORT,
         worked=True),
    Case("the-sum-at-its-start", "save 0: the start is saved, no step is made.", "save 0", sum_deck("No time."),
         has="STEPS 0\nCOPY 2 1 0 000000004 000000000\nCOPY 4 3 0 000000012\nSELECT 0 0 0 0\nABCDEFGHIJKLMNOPQRSTU\nEND"),
    Case("simplex-pairs-are-saved", "The simplex pairs are saved.", "save 1", sum_deck("Pairs 0 and 2.", simplex="0 2"),
         has="COUNT 3\nSIMPLEX 0 2"),
    Case("a-repaired-cell-is-saved", "The twin selected and the repairs are saved with the state.", "save 1", TWO_DAMAGED,
         has="SELECT 1 0 0 0\nREPAIR 1 0 01 000 0 SWITCH\nDAMAGE 1 0 01 000 4 0000000001", worked=True),
    Case("a-repair-before-and-one-after", "The saved repairs stand in the report before the new ones.", "resume", TWO_SAVED,
         has="A 000000005\nSAVER 000004016\nREPAIR 1 0 01 000 0 SWITCH\nREPAIR 7 0 01 000 1 SWITCH", worked=True),
    Case("a-repair-that-switched-nothing", "The report says of a saved repair what its line says.", "resume",
         state({}, ["0 00 000 000017001"], 1, "REPAIR 0 0 00 000 1\n"), has="END DONE\nREPAIR 0 0 00 000 1"),
    Case("a-repair-in-the-last-bank", "Bank 7 is there in a saved text whose pair 3 is simplex.", "resume",
         changed(state({}, ["0 00 000 000017001"], 1, "WORD 7 17 377 000000001\nREPAIR 0 7 17 377 1\n"), "COUNT 1\n", "COUNT 1\nSIMPLEX 3\n"),
         has="END DONE\nMEM 7 17 377 ?\nREPAIR 0 7 17 377 1"),
    Case("devices-and-wrong-copies-are-saved",
         "What devices hold, UNPLUG lines, the script, the orders; copies that differ, with their counts.", "save 5", DEVICES,
         has="STATE 000 000000002\nSTATE 001 000000005\nSTATE 014 000000001\nSTATE 017 000000001\nUNPLUG 001 6\nUNPLUG 013 "
         "9\nDEAD 0 2 0 40"),
    Case("a-device-before-and-behind-its-end", "A device is there until its UNPLUG line's time, though the state is of an earlier one.", "resume",
         saved(deck("The tape at port 001 is read at even times.", "12401 10000", "", 10, ports="TAPE 001 1 2 3 4 5\nUNPLUG 001 6"), 3),
         has="IN 2 001 000000002\nIN 4 001 000000003\nIN 6 001 000000000\nIN 8 001 000000000"),
    Case("each-kind-of-fault-is-saved", "A saved script has the spelling of a saved text.", "save 1", sum_deck("All of steps to come.", faults=LATER),
         has=LATER),
    Case("devices-go-on", "A run goes on with its devices, its script and its orders; the device of time 6 is taken away then.",
         "resume", DEVICES_SAVED, has="IN 0 000 000000001\nIN 5 000 000000002\nIN 8 001 000000000\nIN 10 000 000000003"),
    Case("devices-in-one-run", "The same deck in one run: the report that resume comes to.", "run", DEVICES,
         has="IN 0 000 000000001\nIN 5 000 000000002\nIN 8 001 000000000\nIN 10 000 000000003"),
    Case("after-the-last-time", "A run may be saved at its very end; resume then makes no step.", "save 3",
         sum_deck("Three of three."), has="STEPS 9\nCOUNT 3"),
    Case("the-end-comes-first", "Where the run ends in these times save writes the report, with the status of run.", "save 2",
         sum_deck("Two copies of the decoder in step 4.", faults=TWO_WRONG), 5,
         has="LVDC RUN\nEND INADMISSIBLE 4 LOGIC 3\nTIMES 1"),
    Case("an-end-just-after", "The same deck, saved before the step that ends it.", "save 1",
         sum_deck("Two copies of the decoder in step 4.", faults=TWO_WRONG), has="STEPS 3\nFLIP 3 1 4 4 0 000001000"),
    Case("more-times-than-the-deck-has", "A number above the deck's count is named at RUN's line.", "save 4", sum_deck("RUN 3."), 2,
         "REFUSED CountTooLarge %d" % (sum_deck("RUN 3.").count("\n"))),
    Case("a-state-that-no-run-comes-to",
         "resume takes any whole state: three copies of A that all differ, PHASE 4 in one, an idle unit's stray latches.",
         "resume", STRAY.lstrip("\n"),
         has="END DONE\nTIMES 2\nA 000000007\nIN 0 377 000000001\nMEM 0 01 002 000000007\nREPAIR 1 3 17 377 1 SWITCH\nREPAIR 3 0 "
         "00 001 1 SWITCH"),
    Case("a-word-of-the-state-is-lost",
         "resume judges by the cells and words of the text: here the next instruction can't be recovered.", "resume",
         STRAY.lstrip("\n").replace("CELL 0 0 00 001 1000033002\n", "CELL 0 0 00 001 0000000000\n"), 5,
         has="END INADMISSIBLE 3 MEMORY 0 00 001\nTIMES 1"),
    refused("a-deck-in-place-of-a-saved-text", "A deck is no saved text.", sum_deck("The sum."), 1),
    refused("steps-that-are-no-times", "Steps are a multiple of 3.", changed(TWO_SAVED, "STEPS 3", "STEPS 4"), 2),
    refused("more-steps-than-the-count", "At most three times the count, named at COUNT.", changed(TWO_SAVED, "STEPS 3",
            "STEPS 12"), 3),
    refused("a-word-of-a-copy-too-few", "Each copy has the latches of its module.", changed(TWO_SAVED, "COPY 3 1 0 000017000\n",
            "COPY 3 1 0\n"), number(TWO_SAVED, "COPY 3 1")),
    refused("a-difference-count-too-large", "No copy differs in more steps than were made.", changed(TWO_SAVED, "COPY 3 1 0 ",
            "COPY 3 1 4 "), number(TWO_SAVED, "COPY 3 1")),
    *(refused("phase-%d-in-two-copies" % phase, "A PHASE of %d modulo 4 in two copies is named at the second of them." % (phase % 4),
              TWO_SAVED.replace("COPY 1 1 0 000000000", "COPY 1 1 0 00000000%d" % phase)
              .replace("COPY 1 2 0 000000000", "COPY 1 2 0 00000000%d" % phase),
              number(TWO_SAVED, "COPY 1 2")) for phase in (3, 5)),
    refused("a-vote-of-phase", "PHASE is voted 0 modulo 4 between times: 1 in two copies is named at the second of them.",
            TWO_SAVED.replace("COPY 1 1 0 000000000", "COPY 1 1 0 000000001").replace("COPY 1 2 0 000000000",
            "COPY 1 2 0 000000001"), number(TWO_SAVED, "COPY 1 2")),
    refused("a-vote-of-stop-by-the-third", "The same of STOP, where the third copy makes the majority.",
            TWO_SAVED.replace("COPY 7 1 0 000000000", "COPY 7 1 0 000000002").replace("COPY 7 3 0 000000000",
            "COPY 7 3 0 000000002"), number(TWO_SAVED, "COPY 7 3")),
    refused("a-leading-zero", "Each line has exactly the spelling that is printed.", changed(TWO_SAVED, "COUNT 3", "COUNT 03"), 3),
    refused("two-blanks", "The words of a line are parted by single spaces.", changed(TWO_SAVED, "COUNT 3", "COUNT  3"), 3),
    refused("a-cell-of-the-word-0", "A cell of the word 0 has no line.", changed(TWO_SAVED, "SELECT 1 0 0 0\n",
            "SELECT 1 0 0 0\nCELL 0 0 00 000 1000020000\n"), number(TWO_SAVED, "SELECT") + 1),
    refused("words-that-dont-rise", "Words rise by address.", changed(TWO_SAVED, "WORD 0 00 001 000010000\n",
            "WORD 0 00 000 000010000\n"), number(TWO_SAVED, "WORD 0 00 001")),
    refused("a-log-line-of-a-time-to-come", "Exchanges are of times that were made.", changed(DEVICES_SAVED, "IN 3 001 000000004",
            "IN 5 001 000000004"), NUMBER["IN 3 001 000000004"]),
    refused("a-second-word-of-a-latch", "A latch has one line at most.", changed(DEVICES_SAVED, "STATE 014 000000001\n",
            2 * "STATE 014 000000001\n"), NUMBER["STATE 014 000000001"] + 1),
    refused("a-state-of-a-ticker", "A ticker holds nothing.", changed(DEVICES_SAVED, "STATE 017 000000001", "STATE 016 000000001"),
            NUMBER["STATE 017 000000001"], "NoDevice"),
    refused("a-state-of-a-device-taken-away",
            "A device whose UNPLUG line lies before the state has none: the first STATE line of its port is named.",
            changed(DEVICES_SAVED, "UNPLUG 001 6", "UNPLUG 001 4"), NUMBER["STATE 001 000000005"], "NoDevice"),
    refused("a-fault-line-as-in-a-deck", "Fault lines have the printed spelling too.", changed(DEVICES_SAVED, "LAG 5 1 11 13",
            "LAG 5 1 11  13"), NUMBER["LAG 5 1 11 13"]),
    refused("no-order", "There is at least one order.", changed(TWO_SAVED, "ABCDEFGHIJKLMNOPQRSTU\n", ""), number(TWO_SAVED,
            "ABC")),
    refused("no-end", "A text that ends before END is named at one more than its last line.", changed(TWO_SAVED, "\nEND\n", "\n"),
            number(TWO_SAVED, "END")),
    refused("a-line-after-end", "END is the last line.", TWO_SAVED + "\n", number(TWO_SAVED, "END") + 1),
    Case("words-0-and-bad-cells-of-0", "What memory stores of the word 0 has no line, neither a CELL nor a WORD; the cell 0 has one.",
         "save 1", sum_deck("0 02 000 is 0 in the image. The cell of 0 02 001 is turned over to 0.", more="0 02 000 000000000",
                            faults="DAMAGE 0 0 02 001 0 1000020000"),
         has="CELL 0 0 02 001 0000000000", lacks=["CELL 0 0 02 000", "CELL 1 0 02 00", "WORD 0 02"]),
    Case("intended-words-by-address", "WORD lines come by address, also those of words that were stored later than others.", "save 3",
         sum_deck("The sum is stored at 0 01 002, and the image has a word at 0 02 000.", more="0 02 000 000000001"),
         has=["WORD 0 01 002 200000000", "WORD 0 02 000 000000001"]),
    Case("unplug-lines-in-the-order-of-the-deck", "UNPLUG lines are saved in the order of the deck.", "save 1",
         sum_deck("Port 013 stands first.", ports="UNPLUG 013 9\nUNPLUG 001 6"), has="UNPLUG 013 9\nUNPLUG 001 6"),
    Case("stuck-at-the-end-of-a-saved-run", "What was stuck in the last step is so still where resume makes no step.", "resume",
         saved(sum_deck("0 01 000 is stuck in both twins in step 8, the last one.",
                        faults="STICK 0 0 01 000 8 8 1 1\nSTICK 1 0 01 000 8 8 1 0\nSTICK 0 0 01 001 8 8 1 0\nSTICK 1 0 01 001 8 8 1 0"),
               3), has="END DONE\nTIMES 3\nMEM 0 01 001 ?"),
    Case("a-device-taken-away-at-the-time-of-the-state", "An UNPLUG line of the very time of the state is still to come.", "resume",
         changed(DEVICES_SAVED, "UNPLUG 001 6", "UNPLUG 001 5"), has="END DONE\nTIMES 12\nIN 8 001 000000000"),
    Case("exchanges-of-one-time", "One time may have several exchanges.", "resume",
         state({}, ["0 00 000 000017001"], 1, "IN 0 377 000000001\nIN 0 376 000000002\nOUT 0 377 000000003\n"),
         has="IN 0 377 000000001\nIN 0 376 000000002\nOUT 0 377 000000003"),
    refused("more-steps-than-a-run-has", "STEPS is at most 3,000,000.", changed(TWO_SAVED, "STEPS 3", "STEPS 3000003"), 2),
    refused("more-times-than-a-run-has", "COUNT is at most 1,000,000.", changed(TWO_SAVED, "COUNT 3", "COUNT 1000001"), 3),
    refused("a-latch-of-27-bits", "Latches are below 2^26.", changed(TWO_SAVED, "COPY 5 1 0 0", "COPY 5 1 0 4"),
            number(TWO_SAVED, "COPY 5 1")),
    refused("a-selection-of-twin-2", "A selection is 0 or 1.", changed(TWO_SAVED, "SELECT 1 0 0 0", "SELECT 1 0 0 2"),
            number(TWO_SAVED, "SELECT")),
    refused("a-cell-of-29-bits", "Cells are below 2^28.", changed(TWO_SAVED, "SELECT 1 0 0 0\n",
            "SELECT 1 0 0 0\nCELL 0 0 00 000 2000020000\n"), number(TWO_SAVED, "SELECT") + 1),
    refused("a-cell-of-sector-20", "Sectors are at most 17.", changed(TWO_SAVED, "SELECT 1 0 0 0\n",
            "SELECT 1 0 0 0\nCELL 0 0 20 000 0000000000\n"), number(TWO_SAVED, "SELECT") + 1),
    refused("a-word-line-of-0", "A WORD line isn't of 0.", changed(TWO_SAVED, "WORD 0 00 001 000010000", "WORD 0 00 001 000000000"),
            number(TWO_SAVED, "WORD 0 00 001")),
    refused("a-word-line-of-27-bits", "Words are below 2^26.", changed(TWO_SAVED, "WORD 0 00 001 0", "WORD 0 00 001 4"),
            number(TWO_SAVED, "WORD 0 00 001")),
    refused("a-word-line-of-a-bank-that-isnt-there", "Bank 4 is there only where pair 0 is simplex.",
            TWO_SAVED.replace("REPAIR", "WORD 4 00 000 000000001\nREPAIR", 1), number(TWO_SAVED, "REPAIR")),
    refused("exchanges-that-fall-in-time", "Exchanges don't fall in time.", state({}, [], 3, "IN 1 000 000000001\nIN 0 000 000000001\n", 6),
            number(state({}, [], 3, "IN\n"), "IN") + 1),
    refused("an-exchange-before-the-last-one", "Each exchange is compared with the one before it.",
            state({}, [], 3, "IN 0 000 000000001\nIN 2 000 000000001\nIN 1 000 000000001\n", 9), number(state({}, [], 3, "IN\n"), "IN") + 2),
    refused("two-repairs-in-one-step", "The steps of repairs rise.", state({}, [], 3, 2 * "REPAIR 1 0 00 000 1\n"),
            number(state({}, [], 3, "REPAIR\n"), "REPAIR") + 1),
    refused("a-repair-before-the-last-one", "Each repair is of a later step than the one before it.",
            state({}, [], 3, "REPAIR 0 0 00 000 1\nREPAIR 2 0 00 000 1\nREPAIR 1 0 00 000 1\n"), number(state({}, [], 3, "REPAIR\n"), "REPAIR") + 2),
    refused("a-repair-of-a-step-to-come", "Repairs are of steps that were made.", state({}, [], 3, "REPAIR 3 0 00 000 1\n"),
            number(state({}, [], 3, "REPAIR\n"), "REPAIR")),
    refused("a-repair-in-a-bank-that-isnt-there", "Repairs are at addresses that are there.", state({}, [], 3, "REPAIR 1 4 00 000 1\n"),
            number(state({}, [], 3, "REPAIR\n"), "REPAIR")),
    refused("state-lines-that-fall-by-port", "STATE lines don't fall by port.", state({}, [], 3, "STATE 001 000000001\nSTATE 000 000000001\n"),
            number(state({}, [], 3, "STATE\n"), "STATE") + 1),
    refused("a-state-line-before-the-last-one", "Each STATE line's port is compared with that of the line before it.",
            state({}, [], 3, "STATE 000 000000001\nSTATE 014 000000001\nSTATE 001 000000001\n"), number(state({}, [], 3, "STATE\n"), "STATE") + 2),
    refused("unplugged-twice-in-a-saved-text", "After an UNPLUG line a port has no device.", state({}, [], 3, 2 * "UNPLUG 000 5\n"),
            number(state({}, [], 3, "UNPLUG\n"), "UNPLUG") + 1, "NoDevice"),
    refused("unplug-where-nothing-is-in-a-saved-text", "UNPLUG wants a device.", state({}, [], 3, "UNPLUG 020 5\n"),
            number(state({}, [], 3, "UNPLUG\n"), "UNPLUG"), "NoDevice"),
    refused("too-many-events-in-a-saved-text", "The 65,537th event.", state({}, [], 3, 65537 * "LAG 1 1 0 0\n"),
            number(state({}, [], 3, "LAG\n"), "LAG") + 65536),
    refused("an-order-with-a-blank", "Orders have the printed spelling.", changed(TWO_SAVED, "\nABC", "\n ABC"),
            number(TWO_SAVED, "ABC")),
    refused("seventeen-orders-in-a-saved-text", "There are at most sixteen orders.",
            state({}, [], 3, 16 * "ABCDEFGHIJKLMNOPQRSTU\n"), number(state({}, [], 3), "ABC") + 16),
    Case("above-a-deck's-length", "A saved text may have more than 1,048,576 bytes.", "resume",
         state({}, ["0 00 000 000017001"], 1, 22000 * "FORCE 5 1 2999999 2999999 0 377777777 000000000\n"), has="END DONE\nTIMES 1"),
    Case("more-times-than-a-deck-with-debug-has", "It is RUN's line that is named, wherever the deck ends.", "save 4", WITH_DEBUG, 2,
         "REFUSED CountTooLarge %d" % number(WITH_DEBUG, "RUN")),
    Case("the-end-is-the-last-time", "A run that ends in the last time before the save is told by its report.", "save 1",
         deck("EXM stops in time 0.", "16600", "", 5), 6, has="LVDC RUN\nEND STOPPED 2 EXM\nTIMES 1"),
    Case("save-with-leading-zeros", "The number of save may begin with zeros.", "save 0000001", sum_deck("The sum."), text=SUM_SAVED),
]
