"""Campaigns."""
from . import SUM_CODE, SUM_WORDS, Case, deck
from .refusals import PLAIN

TITLE = "campaigns"
SHOWS = """One program under many scripts, by `campaign`: of each the verdict, and whether the run through every fault comes to
what the fault-free program comes to."""

THREE = """CAMPAIGN
SCRIPT A
FLIP 5 1 3 3 0 000000001
SCRIPT B
FLIP 3 1 4 4 0 000001000
FLIP 3 2 4 4 0 000001000
SCRIPT C
LAG 5 1 0 0
LAG 5 2 0 0
"""
TOLD = "SCRIPT A ADMISSIBLE SAME\nSCRIPT B LOGIC 4 3 DIFFERS\nSCRIPT C LOGIC 0 5 SAME\nCAMPAIGN 3 ADMISSIBLE 1 SAME 2"
MEMORY = """CAMPAIGN
* Damage of every kind.
SCRIPT NONE
SCRIPT TWIN
DAMAGE 0 0 01 000 0 0000000001
SCRIPT BOTH
DAMAGE 0 0 01 000 0 0000000001
DAMAGE 1 0 01 000 0 0000000001
SCRIPT PARITY
DAMAGE 0 0 01 000 0 0000000003
SCRIPT PARITY1
DAMAGE 1 0 01 000 0 0000000003
SCRIPT UNREAD
DAMAGE 0 0 01 007 0 0000000003
SCRIPT DEAD
DEAD 0 0 0 2999999
SCRIPT STOP
FORCE 3 1 3 3 0 000017777 000016600
FORCE 3 3 3 3 0 000017777 000016600
"""


def refused(name: str, shows: str, given: str, cause: str, status: int = 2, worked: bool = False) -> Case:
    return Case(name, shows, "campaign", given, status, "REFUSED %s" % cause, worked=worked)


CASES = [
    Case("three-scripts", "An admissible script, one that isn't and differs, and one that isn't and comes to the same.",
         "campaign", PLAIN + "RUN 3\n" + THREE, text=TOLD, worked=True),
    Case("scripts-of-damage",
         "An empty script, damage that is repaired, that is lost, that is good parity in the selected twin and in the other.",
         "campaign",
         deck("The sum that wraps.", SUM_CODE, SUM_WORDS, 3) + MEMORY, text="""
         SCRIPT NONE ADMISSIBLE SAME
         SCRIPT TWIN ADMISSIBLE SAME
         SCRIPT BOTH MEMORY 1 0 01 000 DIFFERS
         SCRIPT PARITY MEMORY 1 0 01 000 DIFFERS
         SCRIPT PARITY1 MEMORY 1 0 01 000 SAME
         SCRIPT UNREAD ADMISSIBLE SAME
         SCRIPT DEAD ADMISSIBLE SAME
         SCRIPT STOP LOGIC 3 3 DIFFERS
         CAMPAIGN 8 ADMISSIBLE 4 SAME 5
         """),
    Case("no-script", "A campaign may have no script.", "campaign", PLAIN + "RUN 3\n  CAMPAIGN \n",
         text="CAMPAIGN 0 ADMISSIBLE 0 SAME 0"),
    Case("a-stop-is-an-end-too", "A program that stops: the same stop in the same step is the same.", "campaign",
         deck("CLA 000, then EXM.", "17000 16600", "000000005",
         9) + "CAMPAIGN\nSCRIPT LATER\nLAG 1 1 6 6\nLAG 1 2 6 6\nSCRIPT STOPSTEP\nLAG 6 1 5 5\nLAG 6 2 5 5\n",
         text="SCRIPT LATER ADMISSIBLE SAME\nSCRIPT STOPSTEP LOGIC 5 6 SAME\nCAMPAIGN 2 ADMISSIBLE 2 SAME "
         "2".replace("ADMISSIBLE 2 SAME 2", "ADMISSIBLE 1 SAME 2")),
    Case("no-run-has-a-device", "Devices aren't there: a read answers 0. The log is compared.", "campaign",
         deck("PIO 416 would read the ticker.", "17000 12416 13001", "000000005",
         3) + "CAMPAIGN\nSCRIPT PORT\nFLIP 7 1 4 4 1 000000010\nFLIP 7 2 4 4 1 000000010\n",
         text="SCRIPT PORT LOGIC 4 7 DIFFERS\nCAMPAIGN 1 ADMISSIBLE 0 SAME 0"),
    refused("no-campaign", "The line CAMPAIGN is missing: one more than the last line is named.", PLAIN + "RUN 3\n",
            "BadSection 11", worked=True),
    refused("no-run-before-campaign", "The deck ends at CAMPAIGN, and a missing RUN is named there.", PLAIN + THREE,
            "BadSection 10"),
    refused("ports-in-a-campaign", "A campaign has no PORTS, FAULTS and DEBUG before CAMPAIGN.", PLAIN + "FAULTS\nRUN 3\n" + THREE,
            "BadSection 10"),
    refused("more-than-ten-thousand-times", "A campaign makes at most 10,000 times.", PLAIN + "RUN 10001\n" + THREE,
            "CountTooLarge 10"),
    refused("an-image-fault-in-a-campaign", "The program's refusals keep their status.", PLAIN.replace("LVDC 1",
            "LVDC 3") + "RUN 10001\n" + THREE, "BadImageLine 2", 4),
    refused("a-fault-before-the-first-script", "A fault line stands in a script.", PLAIN + "RUN 3\nCAMPAIGN\nLAG 1 1 0 0\n",
            "BadLine 12"),
    refused("two-scripts-of-one-name", "No two scripts have one name.", PLAIN + "RUN 3\nCAMPAIGN\nSCRIPT A\nSCRIPT A\n",
            "BadLine 13"),
    refused("a-name-of-nine-characters", "A name has one to eight.", PLAIN + "RUN 3\nCAMPAIGN\nSCRIPT ABCDEFGHI\n", "BadLine 12"),
    refused("257-scripts", "At most 256 scripts.", PLAIN + "RUN 3\nCAMPAIGN\n" + "".join("SCRIPT S%d\n" % k for k in range(257)),
            "TooManyScripts 268"),
    Case("ten-thousand-times", "A campaign may make 10,000 times.", "campaign",
         "IMAGE\nLVDC 1\n0 00 000 000016600\nEND\nRUN 10000\nCAMPAIGN\n", text="CAMPAIGN 0 ADMISSIBLE 0 SAME 0"),
    refused("a-campaign-line-too-long", "A line CAMPAIGN above 120 bytes isn't one: it is a line of the deck.",
            PLAIN + "RUN 3\nCAMPAIGN" + 113 * " " + "\n", "BadLine 11"),
    refused("the-deck-first", "The refusals of the deck come before a missing CAMPAIGN.", PLAIN + "RUN 3x\n", "BadLine 10"),
    refused("ports-alone-in-a-campaign", "A campaign has no PORTS.", PLAIN + "PORTS\nRUN 3\n" + THREE, "BadSection 10"),
    refused("debug-in-a-campaign", "A campaign has no DEBUG.", PLAIN + "RUN 3\nDEBUG\n" + THREE, "BadSection 11"),
    refused("ports-and-faults-in-a-campaign", "Of the sections that may not be there the first is named.",
            PLAIN + "PORTS\nFAULTS\nRUN 3\n" + THREE, "BadSection 10"),
    refused("faults-before-the-count", "A section that may not be there comes before a count too large.",
            PLAIN + "FAULTS\nRUN 10001\n" + THREE, "BadSection 10"),
    refused("the-count-before-campaign", "A count too large comes before a missing CAMPAIGN.", PLAIN + "RUN 10001\n",
            "CountTooLarge 10"),
    refused("a-long-comment-in-a-campaign", "A line above 120 bytes is BadLine, a comment too.",
            PLAIN + "RUN 3\nCAMPAIGN\n*" + 120 * "X" + "\n", "BadLine 12"),
    refused("too-many-events-in-two-scripts", "The events of all scripts are counted together.",
            PLAIN + "RUN 3\nCAMPAIGN\nSCRIPT A\nLAG 1 1 0 0\nSCRIPT B\n" + 65536 * "LAG 1 1 0 0\n", "TooManyEvents 65550"),
    refused("a-script-of-two-names", "SCRIPT has one name.", PLAIN + "RUN 3\nCAMPAIGN\nSCRIPT A B\n", "BadLine 12"),
    refused("the-form-before-the-number-of-scripts", "The 257th script without a form is BadLine.",
            PLAIN + "RUN 3\nCAMPAIGN\n" + "".join("SCRIPT S%d\n" % k for k in range(256)) + "SCRIPT\n", "BadLine 268"),
    Case("what-differs", "One thing alone that differs: the end, the place, a word, a word that no fault-free run has stored.", "campaign",
         PLAIN + "RUN 3\nCAMPAIGN\nSCRIPT END\n* STOP of the last step.\nFORCE 7 1 8 8 0 3 1\nFORCE 7 2 8 8 0 3 1\n"
         "SCRIPT PLACE\nFLIP 2 1 8 8 0 2000\nFLIP 2 2 8 8 0 2000\n"
         "SCRIPT STORED\n* The sum is stored at 003 in place of 002.\nFLIP 7 1 7 7 1 10\nFLIP 7 2 7 7 1 10\n"
         "SCRIPT MORE\n* A is stored at 0 01 007 in time 1.\nFORCE 7 1 4 4 1 377777777 4071\nFORCE 7 2 4 4 1 377777777 4071\n",
         text="SCRIPT END LOGIC 8 7 DIFFERS\nSCRIPT PLACE LOGIC 8 2 DIFFERS\nSCRIPT STORED LOGIC 7 7 DIFFERS\n"
         "SCRIPT MORE LOGIC 4 7 DIFFERS\nCAMPAIGN 4 ADMISSIBLE 0 SAME 0"),
    Case("no-ticker-in-a-campaign", "Devices aren't there in any of its runs: the port of the ticker answers 0.", "campaign",
         deck("PIO 416 in times 0 and 1.", "12416 12416", "", 2) + "CAMPAIGN\nSCRIPT NONE\n",
         text="SCRIPT NONE ADMISSIBLE SAME\nCAMPAIGN 1 ADMISSIBLE 1 SAME 1"),
]
