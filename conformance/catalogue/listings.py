"""Listings."""
from . import Case
from .sources import FIXED, SHORT, lines, unindented

TITLE = "listings"
SHOWS = """Listings, by `asm`: a row for each line of the source with what stands at its place, then the pooled words, then the
names."""

ALL = """
* Every kind of line, and CR LF: a listing has LF.
        USE   0,02
        ORG   1,00,1,010
MAIN    CLA   TABLE+1    OF SECTOR 17
        CDS   1,02
        SHF   040
        PIO   417
        HOP   =HMAIN
        ADD   =D-3
        ADD   =O377777775
        WORDS 0,17,020
TABLE   BSS   2
LAST    HOPC  MAIN
        DEC   -1

        CODE
        END   OF ALL
* NOT LISTED
"""

CASES = [
    Case("a-listing", "The number right in seven places, a field of twenty places, the line as it is; POOL and NAME rows.", "asm",
         SHORT.lstrip("\n"), text="""\
      1                              CODE
      2 0 00 0 000 17000     BEGIN   CLA   X
      3 0 00 0 001 07001             ADD   =O1
      4 0 00 0 002 10000             TRA   BEGIN
      5                              WORDS 0,01
      6 0 01 - 000 000000005 X       OCT   5
      7                              END
POOL 0 01 001 000000001
NAME BEGIN 0 00 0 000
NAME X 0 01 - 000
""", worked=True),
    Case("a-listing-of-room", "BSS has a place and no word.", "asm", (FIXED % "000").lstrip("\n"),
         has=["      8 0 01 - 001 000000001         DEC   1", "      9 0 01 - 002                   BSS   1",
         "NAME LOOP 0 00 0 003", "NAME X 0 01 - 000"]),
    Case("two-literals-of-one-word", "Two operands of one word in one sector give one POOL row.", "asm",
         unindented("        CODE\n        CLA   =O5\n        ADD   =D5\n        END\n"),
         has=["      2 0 00 0 000 17000             CLA   =O5", "      3 0 00 0 001 07000             ADD   =D5",
         "POOL 0 01 000 000000005"], worked=True),
    Case("every-kind-of-line", "Each kind of line with its field; what stands after END isn't listed.", "asm",
         ALL.lstrip("\n").replace("0,02\n", "1,17\n", 1).replace("WORDS 0,17", "WORDS 1,17").replace("\n", "\r\n")),
    Case("256-instructions", "A full sector: the last one stands at 0 00 0 377.", "asm", " CODE\n" + lines(256,
         " CLA 000") + " END\n", has=["    257 0 00 0 377 17000      CLA 000"], worked=True),
    Case("a-refused-listing", "A refusal in place of a listing.", "asm", " CODE\n CLA X\n END\n", 3, "REFUSED UndefinedName 2"),
    Case("pool-lines-in-the-order-of-use", "POOL lines come in the order of first use, not by address.", "asm",
         " CODE\n USE 0,02\n CLA =D1\n USE 0,01\n CLA =D1\n END\n", has=["POOL 0 02 000 000000001", "POOL 0 01 000 000000001"]),
]
