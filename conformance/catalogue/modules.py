"""The latches of the seven modules, as a debug session shows them between two times."""
from collections.abc import Sequence

from . import SUM_REPORT, SUM_WORDS, SUM_CODE, Case, deck, state, sum_deck

TITLE = "modules"
SHOWS = """The latches of the seven modules between two instruction times, each with its exact bits, by the debugger's command
COPIES. No copy is wrong here but where a case says so, so all three copies of a module have the same latches."""

COPIES_5 = """
LVDC DEBUG
> BREAK 0 00 0 002
BREAKS 1
> GO
AT 2 0 00 0 002
> STEP 1
AT 3 0 00 0 003
> DIS 0 01 1 002 1
0 01 1 002 10000 TRA 000
> COPIES 5
COPY 5 1 200000000 000000001
COPY 5 2 200000001 000000001
COPY 5 3 200000000 000000001
> GO
LIMIT 8
"""


def three(module: int, latches: str) -> str:
    return "".join("COPY %d %d %s\n" % (module, copy, latches) for copy in (1, 2, 3))


def latches(name: str, shows: str, note: str, module: int, code: str, words: str, run: int, commands: str,
            has: str | Sequence[str] = (), more: str = "", **other: str) -> Case:
    return Case(name, shows, "debug", deck(note, code, words, run, more, debug=commands, **other), has=has)


CASES = [
    latches("at-the-start", "All latches are 0 but PLACE and DATA, which have the fields of the start constant.",
            "The start constant is 147002652: instruction module 3, sector 03, syllable 1, location 001, data module 3, data "
            "sector 05, " "DUPIN 0, DUPDN 1.", 1, "", "", 1,
            "COPIES 1\nCOPIES 2\nCOPIES 3\nCOPIES 4\nCOPIES 5\nCOPIES 6\nCOPIES 7", three(1, "000000000 000000000") + three(2,
            "147002000 000000000") + three(3, "000000000") + three(4, "000000652") + three(5, "000000000 000000000") + three(6,
            "000000000 000000000 000000000 000000000 000000000") + three(7, "000000000 000000000"), start="147002652"),
    latches("timer-counts-a-hold", "TIMER: PHASE is 0 between two times. MPH puts 4 into HOLD, and each held time takes 1.",
            "MPH is the second instruction.", 1, "17000 05000 10002", "100000000", 9,
            "STEP 2\nCOPIES 1\nSTEP 1\nCOPIES 1\nSTEP 3\nCOPIES 1\nSTEP 1\nCOPIES 1",
            three(1, "000000000 000000004") + three(1, "000000000 000000003") + three(1, "000000000 000000000")),
    latches("locator-has-place-and-saver",
            "LOCATOR: PLACE has module, sector, syllable, location and DUPIN of a HOP constant, SAVER a whole one.",
            "HOP 000 goes to module 0, sector 00, syllable 0, location 004 with DUPIN 1; then TRA 405 to syllable 1.", 2,
            "00000 00000 00000 00000 10405", "000010016", 3, "COPIES 2\nSTEP 1\nCOPIES 2\nSTEP 1\nCOPIES 2", three(2,
            "000000004 000000000") + three(2, "000010004 000002016") + three(2, "001012004 000012016")),
    latches("decoder-keeps-the-syllable", "DECODER: INSTR is the thirteen bits of the instruction of the time before.",
            "CLA 000 and ADD 001.", 3, SUM_CODE, SUM_WORDS, 3, "STEP 1\nCOPIES 3\nSTEP 1\nCOPIES 3", three(3,
            "000017000") + three(3, "000007001")),
    latches("selector-has-the-data-place",
            "SELECTOR: DATA has data module, data sector and DUPDN in their bits of a HOP constant.",
            "CDS 173: data module 7, data sector 13, DUPDN 0. CDS 573 the same with DUPDN 1. HOP 400 takes all from 0 of sector "
            "17.", 4, "16173 16573 00400", "", 3, "COPIES 4\nSTEP 1\nCOPIES 4\nSTEP 1\nCOPIES 4\nSTEP 1\nCOPIES 4", three(4,
            "000000012") + three(4, "000001730") + three(4, "000001732") + three(4, "000000650"), "3 17 000 000002654"),
    Case("accumulator-has-a-and-the-operand",
         "ACCUMULATOR: A and OPERAND. A bit of copy 2's A is forced in step 8, and shows in no other copy.", "debug",
         sum_deck("Step 8 is phase C of time 2, the time of STO.", 8,
         faults="* Bit 0 of A in copy 2 is 1 after step 8.\nFORCE 5 2 8 8 0 000000001 000000001",
         debug="BREAK 0 00 0 002\nGO\nSTEP 1\nDIS 0 01 1 002 1\nCOPIES 5\nGO"), text=COPIES_5, worked=True),
    latches("multiplier-at-the-issue-of-a-product",
            "MULTIPLIER: an issue sets CONTROL to the kind and 12 phases left, M, H and Q anew.",
            "MPY in time 1: kind 1, so CONTROL is 1 and 4 times 12. M is M shifted by two places, Q is A by 4.", 6, "17000 01001",
            "100000003 300000001", 2, "STEP 2\nCOPIES 6", three(6, "000000000 000000061 360000000 000000000 020000000")),
    latches("multiplier-works-on-a-product",
            "MULTIPLIER: three phases of a multiply in each time, until PQ has the product and CONTROL is 0.",
            "5/8 by -3/8, time by time.", 6, "17000 01001 10002", "120000000 320000000", 7,
            "STEP 2\nCOPIES 6\nSTEP 1\nCOPIES 6\nSTEP 1\nCOPIES 6\nSTEP 1\nCOPIES 6\nSTEP 1\nCOPIES 6"),
    latches("multiplier-works-for-mph", "MULTIPLIER: MPH's kind is 2; in the landing phase A takes the product too.",
            "Half by half.", 6, "17000 05000 10002", "100000000", 7, "STEP 2\nCOPIES 6\nSTEP 4\nCOPIES 6\nCOPIES 5",
            three(6, "000000000 000000062 020000000 000000000 020000000") + three(5, "040000000 100000000")),
    latches("multiplier-at-the-issue-of-a-quotient",
            "MULTIPLIER: a divide has kind 3 and 24 phases left; H is A shifted by two places, Q is 0.",
            "CONTROL is 3 and 4 times 24.", 6, "17000 03001", "340000000 100000000", 2, "STEP 2\nCOPIES 6", three(6,
            "000000000 000000143 020000000 370000000 000000000")),
    latches("multiplier-works-on-a-quotient",
            "MULTIPLIER: the first phase of a divide takes signs and magnitudes, each other one makes a bit.",
            "-1/4 by 3/8, time by time.", 6, "17000 03001 10002", "340000000 060000000", 11,
            "STEP 2\nCOPIES 6\nSTEP 1\nCOPIES 6\nSTEP 1\nCOPIES 6\nSTEP 5\nCOPIES 6\nSTEP 1\nCOPIES 6"),
    latches("multiplier-saturates",
            "MULTIPLIER: SAT is bit 8 of CONTROL and NEG bit 7; they are set in the first phase of a divide.",
            "-1/2 by 1/4 is too large.", 6, "17000 03001 10002", "300000000 040000000", 11, "STEP 3\nCOPIES 6\nSTEP 7\nCOPIES 6"),
    latches("exchange-after-a-shift-without-meaning",
            "EXCHANGE: STOP is 1 after a shift without meaning. REQUEST is 0 between times.", "SHF 203.", 7, "16203", "", 3,
            "GO\nCOPIES 7", three(7, "000000001 000000000")),
    latches("exchange-after-exm", "EXCHANGE: STOP is 2 after EXM.", "EXM.", 7, "16600", "", 3, "GO\nCOPIES 7", three(7,
            "000000002 000000000")),
    latches("a-wrong-request-has-no-effect",
            "EXCHANGE: REQUEST is set in phase B and made in phase C. One copy that asks for another store is outvoted.",
            "STO 002 asks for 0 01 002: kind 1, location 2, sector 1. Copy 3 asks for location 003.", 7, "17000 13002",
            "000000005", 2, "STEP 2\nCOPIES 7\nMEM 0 01 002 2", three(7,
            "000000000 000000000") + "MEM 0 01 002 000000005\nMEM 0 01 003 000000000", faults="FLIP 7 3 4 4 1 000000010"),
    latches("the-multiplier-of-a-product-has-no-sign", "MULTIPLIER: a multiply begins with Q the upper 24 bits of A, without a sign.",
            "A is negative.", 6, "17000 01001", "200000003 100000000", 2, "STEP 2\nCOPIES 6",
            three(6, "000000000 000000061 020000000 000000000 040000000")),
    latches("instr-stays-in-a-hold", "DECODER: INSTR stays while a hold is left.", "MPH in time 1.", 3, "17000 05000 10002",
            "100000000", 9, "STEP 3\nCOPIES 3", three(3, "000005000")),
    Case("instr-has-thirteen-bits", "DECODER: INSTR is read by its lowest thirteen bits.", "run --through",
         sum_deck("Bit 13 of INSTR is 1 in two copies after step 0, and stays till the next fetch.",
                  faults="FLIP 3 1 0 0 0 000020000\nFLIP 3 2 0 0 0 000020000"),
         text=SUM_REPORT.replace("RUN", "THROUGH") + "WRONG 3 3 1\n"),
    Case("unnamed-bits-of-instr", "DECODER: a step that keeps INSTR keeps all of its bits.", "run",
         sum_deck("Bit 13 of copy 1 is wrong after step 0. In steps 1 and 2 this copy is deaf, and hears itself.",
                  faults="FLIP 3 1 0 0 0 000020000\nDEAF 3 1 1 2"), text=SUM_REPORT + "WRONG 3 1 3\n"),
    Case("unnamed-bits-of-hold", "TIMER: HOLD's bits stay in phases A and B.", "run",
         sum_deck("Bit 3 of copy 1 is wrong after step 2. In steps 3 and 4 this copy is deaf, and hears itself.",
                  faults="FLIP 1 1 2 2 1 000000010\nDEAF 1 1 3 4"), text=SUM_REPORT + "WRONG 1 1 3\n"),
    Case("unnamed-bits-of-stop", "EXCHANGE: STOP keeps all of its bits.", "run",
         sum_deck("Bit 2 of copy 1 is wrong after step 0. In steps 1 to 3 this copy is deaf, and hears itself.",
                  faults="FLIP 7 1 0 0 0 000000004\nDEAF 7 1 1 3"), text=SUM_REPORT + "WRONG 7 1 4\n"),
    Case("unnamed-bits-of-control-in-a-divide", "MULTIPLIER: each phase of a divide keeps the unnamed bits of CONTROL.", "debug",
         deck("Bit 9 of copy 1 is wrong after the issue. Then this copy is deaf, and hears itself.", "03000 17000 17000", "100000000", 3,
              faults="FLIP 6 1 2 2 1 000001000\nDEAF 6 1 3 5", debug="STEP 2\nCOPIES 6"),
         has="COPY 6 1 000000000 000001127 020000000 000000000 000000000\nCOPY 6 2 000000000 000000127 020000000 000000000 000000000"),
    Case("a-unit-without-a-kind", "MULTIPLIER: where the kind is idle all latches stay, though phases are left.", "resume",
         state({6: "000000001 000000014 000000010 000001000 000000020"}, ["0 00 000 000017000"], 2),
         has="END DONE\nTIMES 2\nPQ 000000001"),
    Case("a-unit-without-phases-left", "MULTIPLIER: where no phase is left all latches stay, though the kind is a multiply.", "resume",
         state({6: "000000001 000000001 000000010 000001000 000000020"}, ["0 00 000 000010000"], 13),
         has="END DONE\nTIMES 13\nPQ 000000001"),
    Case("a-landing-in-the-phase-of-an-instruction",
         "ACCUMULATOR: where MPH's product lands while an instruction is carried out, A is the product.", "resume",
         state({6: "000000000 000000016 000000000 000001000 000000000"}, ["0 00 000 000017001", "0 01 001 000000005"], 2),
         has="END DONE\nTIMES 2\nA 000000100\nPQ 000000100"),
    Case("request-isnt-set-in-a-hold", "EXCHANGE: phase B sets REQUEST where no hold is left.", "resume",
         state({1: "000000000 000000001", 3: "000013002", 5: "000000005 000000000"}, ["0 00 000 000017001"], 2),
         has="END DONE\nTIMES 2\nA 000000005\nPLACE 0 00 0 000", lacks=["MEM 0 01 002"]),
]
for case in CASES:
    if case.name in ("exchange-after-a-shift-without-meaning", "exchange-after-exm"):
        case.status = 6
