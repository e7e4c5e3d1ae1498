"""Debug sessions."""
from . import Case, deck, sum_deck
from .faults import TWO_WRONG

TITLE = "debugger"
SHOWS = """Debug sessions: each command, what it answers when the run has ended or reached its count, and what it answers when it
has no form. The command COPIES stands under [modules](#modules) and [faults](#faults) too."""

ENDED = """
LVDC DEBUG
> GO
END STOPPED 2 EXM
> STEP 1
END STOPPED 2 EXM
"""

CASES = [
    Case("a-stopped-machine", "Where the machine has ended, GO and STEP answer its END line, as often as they are asked.", "debug",
         deck("EXM.", "16600", "", 5, debug="GO\nSTEP 1"), 6, ENDED, worked=True),
    Case("sixteen-breakpoints", "A seventeenth different breakpoint is refused; one that is there changes nothing.", "debug",
         sum_deck("No time is asked for.",
         debug="\n".join("BREAK 0 00 0 %o" % k for k in range(16)) + "\nBREAK 0 00 0 20\nBREAK 0 00 0 017\nGO"),
         has="BREAKS 1\nBREAKS 16\nBREAKS FULL\n> BREAK 0 00 0 017\nAT 1 0 00 0 001"),
    Case("bad-commands", "A line without the form of a command is answered BAD COMMAND, and the session goes on.", "debug",
         sum_deck("Nothing here is a command but REGS.",
         debug="FLY\nSTEP 0\nSTEP 01\nSTEP 1000001\nMEM 0 01 377 2\nMEM 4 00 000 1\nDIS 0 00 2 000 1\nCOPIES 8\n"
         "BREAK 0 00 0\nGO 1\nstep 1\nRUN 3\n* NO COMMAND\n\n  REGS  "), has="> FLY\nBAD COMMAND\n> RUN 3\n> REGS\nTIMES 0",
         lacks=["AT", "> *"]),
    Case("registers", "REGS has the seven lines of a report.", "debug", sum_deck("After two times.", debug="STEP 2\nREGS"),
         has="AT 2 0 00 0 002\nTIMES 2\nPLACE 0 00 0 002\nDATA 0 01\nDUP 1 1\nA 200000000\nPQ 000000000\nSAVER 000000000"),
    Case("words-of-memory", "MEM shows words, zeros too, and a question mark where a word can't be recovered.", "debug",
         sum_deck("0 01 001 is lost in step 0, which isn't begun before the first STEP.", faults="DAMAGE 0 0 01 003 0 3",
                  debug="MEM 0 01 000 4\nSTEP 1\nMEM 0 01 000 4\nMEM 0 01 377 1"), text="""
         LVDC DEBUG
         > MEM 0 01 000 4
         MEM 0 01 000 177777777
         MEM 0 01 001 000000001
         MEM 0 01 002 000000000
         MEM 0 01 003 000000000
         > STEP 1
         AT 1 0 00 0 001
         > MEM 0 01 000 4
         MEM 0 01 000 177777777
         MEM 0 01 001 000000001
         MEM 0 01 002 000000000
         MEM 0 01 003 ?
         > MEM 0 01 377 1
         MEM 0 01 377 000000000
         """),
    Case("instructions-of-memory", "DIS shows what stands in memory at that moment, in either syllable, as instructions.", "debug",
         sum_deck("STO 002 puts 200000000 at 0 01 002 in time 2.", faults="DAMAGE 1 0 00 003 8 3",
                  debug="DIS 0 00 0 000 4\nSTEP 3\nDIS 0 01 1 000 3\nDIS 0 00 0 003 1"), text="""
         LVDC DEBUG
         > DIS 0 00 0 000 4
         0 00 0 000 17000 CLA 000
         0 00 0 001 07001 ADD 001
         0 00 0 002 13002 STO 002
         0 00 0 003 10003 TRA 003
         > STEP 3
         AT 3 0 00 0 003
         > DIS 0 01 1 000 3
         0 01 1 000 07777 ADD 777
         0 01 1 001 00000 HOP 000
         0 01 1 002 10000 TRA 000
         > DIS 0 00 0 003 1
         0 00 0 003 ?
         """),
    Case("names-of-code-14", "DIS writes code 14 as CDS, SHF or EXM; a shift without meaning is SHF.", "debug",
         deck("Four words of code 14.", "16175 16240 16303 16601", "", 1, debug="DIS 0 00 0 000 4"),
         has="0 00 0 000 16175 CDS 175\n0 00 0 001 16240 SHF 240\n0 00 0 002 16303 SHF 303\n0 00 0 003 16601 EXM 601"),
    Case("a-breakpoint-in-a-hold", "While MPH holds the machine the place isn't looked at: GO stops after the last held time.",
         "debug", deck("MPH at 001; the place is 002 from time 2 on.", "17000 05000 10002", "100000000", 9,
         debug="BREAK 0 00 0 002\nGO\nREGS\nGO"), has="AT 6 0 00 0 002\nTIMES 6\nA 040000000\nAT 7 0 00 0 002"),
    Case("a-breakpoint-of-the-other-syllable", "A breakpoint is an address and a syllable.", "debug",
         sum_deck("The breakpoint is in syllable 1, where the program doesn't come.", 4, debug="BREAK 0 00 1 001\nGO"),
         has="BREAKS 1\nLIMIT 4"),
    Case("the-place-where-go-begins", "The place where GO begins isn't looked at.", "debug", deck("TRA 000 at 000 goes to itself.",
         "10000", "", 4, debug="BREAK 0 00 0 000\nGO\nGO"), has="AT 1 0 00 0 000\nAT 2 0 00 0 000"),
    Case("the-count-is-the-limit", "RUN's count is the limit of the session: STEP and GO answer LIMIT where they couldn't do all.",
         "debug", sum_deck("RUN 3.", debug="STEP 2\nSTEP 2\nSTEP 1\nGO"), has="AT 2 0 00 0 002\nLIMIT 3"),
    Case("an-inadmissible-step", "A session ends at the first inadmissible step; what was asked before it stands.", "debug",
         sum_deck("Two copies of the decoder in step 4.", faults=TWO_WRONG, debug="STEP 1\nSTEP 1\nREGS\nSTEP 1"), 5,
         has="AT 1 0 00 0 001\nEND INADMISSIBLE 4 LOGIC 3\nTIMES 1\nA 177777777"),
    Case("a-step-that-nobody-asked-for", "A session that asks for no time up to the inadmissible step has status 0.", "debug",
         sum_deck("Two copies of the decoder in step 4.", faults=TWO_WRONG, debug="STEP 1\nREGS"), has="AT 1 0 00 0 001\nTIMES 1"),
    Case("no-command", "A session without a command.", "debug", sum_deck("DEBUG is the last line.", debug="\n"), text="LVDC DEBUG"),
    Case("inner-blanks-of-a-command", "A command is shown with the blanks between its words, and without those around it.", "debug",
         sum_deck("Two blanks and a tab.", debug="STEP  \t1"), has="> STEP  \t1\nAT 1 0 00 0 001"),
    Case("more-bad-commands", "REGS and COPIES out of form; sectors above 17, locations above 377, a count of 0.", "debug",
         sum_deck("Nothing here is a command.", debug="REGS 1\nCOPIES 01\nBREAK 0 20 0 000\nBREAK 0 00 0 400\nMEM 0 20 000 1\n"
                  "DIS 0 00 0 400 1\nMEM 0 01 000 0"),
         text="LVDC DEBUG\n" + "".join("> %s\nBAD COMMAND\n" % command for command in (
             "REGS 1", "COPIES 01", "BREAK 0 20 0 000", "BREAK 0 00 0 400", "MEM 0 20 000 1", "DIS 0 00 0 400 1", "MEM 0 01 000 0"))),
    Case("a-breakpoint-of-another-pair", "A breakpoint is of its pair.", "debug",
         sum_deck("The machine doesn't leave pair 0.", debug="BREAK 1 00 0 001\nGO"), text="LVDC DEBUG\n> BREAK 1 00 0 001\nBREAKS 1\n> GO\nLIMIT 3"),
    Case("the-step-that-ends", "A step that comes to the end is answered its END line.", "debug",
         deck("EXM.", "16600", "", 5, debug="STEP 1"), 6, "LVDC DEBUG\n> STEP 1\nEND STOPPED 2 EXM"),
]
