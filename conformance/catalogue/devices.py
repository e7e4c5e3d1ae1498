"""Ports and the devices that the program brings."""
from . import Case, block, deck

TITLE = "devices"
SHOWS = """Ports and the sixteen devices that the program brings: tapes at 000 to 013, latches at 014 and 015, a ticker at 016, a
recorder at 017. A program with other devices can pass this group over."""

READER = "12400 13000 10000"

WHOLE = """
SOURCE
* DISCRETES, HALVED BY A SUBROUTINE, TO TELEMETRY
        CODE
MAIN    PIO   400
        STO   DISC
        TNZ   WORK
DONE    TRA   DONE
WORK    HOP   =HSCALE
BACK    CLA   SUM
        PIO   017
        TRA   MAIN
        CODE
SCALE   STO   776      RETURN
        CLA   DISC
        MPY   HALF
        CLA   SUM
        CLA   SUM
        CLA   SUM
        CLA   SUM
        ADD   775
        STO   SUM
        HOP   776
        WORDS 0,01
DISC    BSS   1
SUM     OCT   0
        WORDS 0,17
HALF    OCT   100000000
        END
START MAIN
PORTS
TAPE 000 000000010 000000020
FAULTS
%sRUN 40
"""
SIXTY = "".join("FLIP %d %d %d %d 0 000000001\n" % (i % 7 + 1, i % 3 + 1, 2 * i, 2 * i) for i in range(60))
TWICE = ((5, 1), (6, 2), (7, 3))
COUNTS = "\n".join("WRONG %d %d %d" % (m, c, 2 if (m, c) in TWICE else 3) for m in range(1, 8) for c in range(1, 4))

CASES = [
    Case("a-tape-without-words", "A tape without words answers 0; the exchange is logged.", "run", deck("PIO 400 reads port 000.",
         READER, "", 1), has="A 000000000\nIN 0 000 000000000", worked=True),
    Case("a-tape-word-by-word", "A tape answers its words in their order, and then 0.", "run",
         deck("Each round reads one word.", READER, "", 9, ports="TAPE 000 000000005 7"),
         has="IN 0 000 000000005\nIN 3 000 000000007\nIN 6 000 000000000"),
    Case("tape-lines-of-one-port", "Words of a later TAPE line stand behind those of an earlier one.", "run",
         deck("Two lines for port 013, the last tape.", "12413 13000 10000", "", 4, ports="TAPE 013 1\nTAPE 13 2"),
         has="IN 0 013 000000001\nIN 3 013 000000002"),
    Case("a-tape-ignores-writes", "A write to a tape is logged, and changes nothing.", "run",
         deck("PIO 000 writes A, PIO 400 reads.", "17000 12000 12400", "000000007", 3, ports="TAPE 000 5"),
         has="OUT 1 000 000000007\nIN 2 000 000000005"),
    Case("a-latch-keeps-the-last-word", "A latch answers the word written last, at first 0.", "run",
         deck("Read, write, read port 014; port 015 is another latch.", "12414 17000 12014 17001 12414 12415",
         "000000007 000000001", 6), has="IN 0 014 000000000\nOUT 2 014 000000007\nIN 4 014 000000007\nIN 5 015 000000000"),
    Case("a-ticker-tells-the-time", "A ticker answers the number of the instruction time, from 0.", "run",
         deck("Times 0 and 2.", "12416 17000 12416", "", 3), has="IN 0 016 000000000\nIN 2 016 000000002"),
    Case("a-recorder-keeps-all", "A recorder keeps each word written, and answers 0. A saved text shows what it holds.", "save 5",
         deck("Three writes to port 017, and a read.", "17000 12017 12017 12417 12017", "000000007", 5),
         has="STATE 017 000000007\nSTATE 017 000000000\nOUT 4 017 000000000\nIN 3 017 000000000"),
    Case("port-377", "The highest port has no device.", "run", deck("PIO 377 and PIO 777.", "17000 12377 12777", "000000007", 3),
         has="A 000000000\nOUT 1 377 000000007\nIN 2 377 000000000"),
    Case("an-unplugged-tape", "UNPLUG takes a device away before its time; reads answer 0 from then on.", "run",
         deck("The tape goes before time 3.", READER, "", 4, ports="TAPE 000 5 7\nUNPLUG 000 3"),
         has="PLACE 0 00 0 001\nA 000000000\nIN 0 000 000000005\nIN 3 000 000000000", worked=True),
    Case("unplugged-after-the-read", "An UNPLUG line for a time that isn't reached changes nothing.", "run",
         deck("The tape would go before time 4.", READER, "", 4, ports="TAPE 000 5 7\nUNPLUG 000 4"), has="IN 3 000 000000007"),
    Case("unplugged-in-a-held-time", "Devices are taken away in held times too.", "save 7",
         deck("MPH holds times 2 to 5. The latch, which holds a word, goes before time 4; the tape stays.", "17000 05000 10002",
         "000000005", 9, ports="TAPE 001 7\nUNPLUG 014 4"), has="STATE 001 000000007\nSTATE 015 000000000\nUNPLUG 014 4",
         lacks=["STATE 014"]),
    Case("unplugged-at-time-0", "UNPLUG with time 0: the device is gone from the start.", "run",
         deck("The tape has a word and goes before time 0.", READER, "", 4, ports="TAPE 000 5\nUNPLUG 000 0"),
         has="PLACE 0 00 0 001\nSAVER 000006016\nIN 0 000 000000000\nIN 3 000 000000000", worked=True),
    Case("ports-of-the-plain-machine", "The plain machine has the same devices and the same log.", "run --plain",
         deck("A tape, a ticker and the recorder.", "12401 12017 12416 12017", "", 4, ports="TAPE 001 123"),
         has="IN 0 001 000000123\nOUT 1 017 000000123\nIN 2 016 000000002\nOUT 3 017 000000002"),
    Case("a-wrong-copy-of-the-request", "A port exchange is made by the vote: a wrong copy of REQUEST reads no other port.", "run",
         deck("PIO 400. Copy 2 of module 7 asks for port 001.", READER, "", 1, ports="TAPE 000 5\nTAPE 001 6",
         faults="FLIP 7 2 1 1 1 000000010"), has="A 000000005\nIN 0 000 000000005\nWRONG 7 2 1"),
    Case("discretes-to-telemetry",
         "A whole program from its source, with a subroutine, a tape, the recorder and a wrong copy in every other step.", "run",
         block(WHOLE % SIXTY), has="END DONE\nTIMES 40\nPLACE 0 00 0 003\nA 000000000\nPQ 000000010\nSAVER 000010016\nIN 0 000 "
         "000000010\nOUT 15 017 "
         "000000004\nIN 17 000 000000020\nOUT 32 017 000000014\nIN 34 000 000000000\nMEM 0 01 001 000000014\n"
         "MEM 0 17 376 000012016\n" + COUNTS,
         worked=True),
    Case("discretes-by-the-plain-machine", "The same program on the plain machine.", "run --plain", block(WHOLE % SIXTY),
         has="LVDC PLAIN\nEND DONE\nOUT 15 017 000000004\nOUT 32 017 000000014", lacks=["WRONG"]),
    Case("unplugged-while-the-machine-holds", "A device is taken away at its time in held times too.", "run",
         deck("MPH holds the times 1 to 4; the tape goes in time 2.", "05000 12400 10002", "", 7, ports="TAPE 000 5\nUNPLUG 000 2"),
         has="A 000000000\nIN 5 000 000000000"),
]
