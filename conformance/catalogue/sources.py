"""Sources and the images that are made of them."""
from . import Case, block, comment

TITLE = "sources"
SHOWS = """Sources and their images, by `asm --image`: where blocks stand, what operands come to; and each refusal of the
assembler, status 3."""


def unindented(text: str) -> str:
    """A source that is written indented in the catalogue: its operations stay behind a blank, where it has no label too."""
    lines = text.lstrip("\n").rstrip(" \n").split("\n")
    if all(line.startswith(" " * 8) for line in lines if line) and any(line.startswith(" " * 16) for line in lines):
        lines = [line[8:] for line in lines]
    return "".join(line + "\n" for line in lines)


def source(name: str, shows: str, text: str, image: str, worked: bool = False) -> Case:
    """A source, and the word lines of its image."""
    return Case(name, shows, "asm --image", comment(shows) + unindented(text), text="LVDC 1\n" + block(image) + "END\n",
                worked=worked)


def refused(name: str, shows: str, text: str, cause: str, worked: bool = False) -> Case:
    return Case(name, shows, "asm --image", unindented(text), 3, "REFUSED %s" % cause, worked=worked)


FIXED = """
        ORG   0,00,0,%s
        CLA   X
        ADD   X+1
        STO   X+2
LOOP    TRA   LOOP
        WORDS 0,01,000
X       OCT   177777777
        DEC   1
        BSS   1
        END
"""
SHORT = """
        CODE
BEGIN   CLA   X
        ADD   =O1
        TRA   BEGIN
        WORDS 0,01
X       OCT   5
        END
"""


def lines(count: int, line: str) -> str:
    return (line + "\n") * count


CASES = [
    source("blocks-at-fixed-places",
           "ORG and WORDS with a location say where a block stands; BSS is room and no part of the image.",
           FIXED % "000", """
        0 00 000 000017000
        0 00 001 000007001
        0 00 002 000013002
        0 00 003 000010003
        0 01 000 177777777
        0 01 001 000000001
        """, True),
    source("floating-blocks", "CODE and WORDS without a location take the least place; a literal's word comes after them.",
           SHORT, """
        0 00 000 000017000
        0 00 001 000007001
        0 00 002 000010000
        0 01 000 000000005
        0 01 001 000000001
        """, True),
    source("each-instruction", "The eighteen mnemonics and their codes.", """
        * EXM alone is refused.
                ORG   0,00,0,000
                HOP   001
                MPY   001
                SUB   001
                DIV   001
                TNZ   001
                MPH   001
                AND   001
                ADD   001
                TRA   001
                XOR   001
                PIO   001
                STO   001
                TMI   001
                RSU   001
                CDS   0,01
                SHF   001
                CLA   001
                END
        """, "\n".join("0 00 %03o 0000%s" % (k, code) for k, code in enumerate(
            "00001 01001 02001 03001 04001 05001 06001 07001 10001 11001 12001 13001 14001 15001 16401 16201 17001".split()))),
    source("a-syllable-1-block", "A block of code in syllable 1 fills the upper half of its words; a syllable without code is 0.",
           """
                ORG   1,02,1,003
                CLA   777
                ORG   1,02,0,004
                CLA   001
                END
        """, "1 02 003 377760000\n1 02 004 000017001"),
    source("constants",
           "OCT, DEC with both signs, and HOPC: IM is twice the pair, DM and DS are of the USE in force at the named line.", """
                USE   1,02
                ORG   2,03,1,004
        MAIN    TRA   MAIN
                WORDS 1,02,000
                OCT   377777777
                DEC   33554431
                DEC   -33554432
                DEC   +10
                HOPC  MAIN
                END
        """, """
        1 02 000 377777777
        1 02 001 177777777
        1 02 002 200000000
        1 02 003 000000012
        1 02 004 207010426
        2 03 004 210100000
        """),
    source("the-residual-sector-and-use",
           "A name in the sector in use has A9 0, one in sector 17 of the pair A9 1; USE says which sector that is.", """
                ORG   0,00,0,000
                CLA   FAR        SECTOR 17, FROM SECTOR 01
                CLA   NEAR
                CDS   0,17
                USE   0,17
                CLA   FAR        SECTOR 17 IS IN USE: A9 IS 0
                WORDS 0,17,005
        FAR     OCT   1
                WORDS 0,01,006
        NEAR    OCT   2
                END
        """, """
        0 00 000 000017405
        0 00 001 000017006
        0 00 002 000016417
        0 00 003 000017005
        0 01 006 000000002
        0 17 005 000000001
        """),
    source("literals-are-pooled", "=O5 and =D5 are one word of a sector; after a USE the word stands again in the other sector.",
           """
                ORG   0,00,0,000
                CLA   =O5
                ADD   =D5
                SUB   =D-1
                USE   0,02
                ADD   =O5
                END
        """, """
        0 00 000 000017000
        0 00 001 000007000
        0 00 002 000002001
        0 00 003 000007000
        0 01 000 000000005
        0 01 001 377777777
        0 02 000 000000005
        """),
    source("a-literal-of-a-hop-constant", "=H makes the HOP constant of a line of code.", """
                ORG   0,00,0,000
                HOP   =HNEXT
                ORG   0,05,1,006
        NEXT    TRA   NEXT
                END
        """, "0 00 000 000000000\n0 01 000 013014016\n0 05 006 210140000"),
    source("a-transfer-to-syllable-1", "A9 of a transfer is the syllable of the line named.", """
                ORG   0,00,0,000
                TNZ   UP
                ORG   0,00,1,005
        UP      TMI   UP
                END
        """, "0 00 000 000004405\n0 00 005 310120000"),
    source("a-name-and-so-many-more", "name+n is so many locations later, whatever stands there.", """
                ORG   0,00,0,000
                CLA   X+010
                WORDS 0,01,000
        X       OCT   1
                END
        """, "0 00 000 000017012\n0 01 000 000000001"),
    source("code-read-as-data", "A line of code may be named as data where its sector is in use.", """
                USE   0,00
                ORG   0,00,0,000
        ONE     CLA   ONE
                END
        """, "0 00 000 000017000"),
    source("the-second-block-in-syllable-1",
           "250 instructions leave six slots in syllable 0; a block of ten isn't split, and stands in syllable 1.",
           " CODE\n" + lines(250, " CLA 000") + " CODE\n" + lines(10, " CLA 001") + " END\n", "\n".join("0 00 %03o %09o" % (k,
           (0o17001 << 13 if k < 10 else 0) | 0o17000) for k in range(250)), True),
    source("words-around-code", "Words want both slots of a location: they pass over those that code has.", """
                ORG   0,01,1,000
                CLA   000
                WORDS 0,01
                OCT   7
                END
        """, "0 01 000 360000000\n0 01 001 000000007"),
    source("a-full-residual-sector",
           "375 of sector 17 is never free, 376 and 377 are for fixed blocks alone: 253 words fill the rest.",
           " WORDS 0,17\n" + " BSS 252\n OCT 1\n WORDS 0,17,376\n OCT 2\n END\n", "0 17 374 000000001\n0 17 376 000000002"),
    source("an-empty-source", "END alone is a source; its image has no word.", "        END", ""),
    source("comments-of-any-bytes",
           "What follows the operand is comment, of any bytes; so is what follows an operation without one.",
           "* \xff\n CODE \x01 X\n CLA 000 \xe9\n END ALL THIS\n* AND THIS", "0 00 000 000017000"),
    refused("too-long-a-block", "A fixed block that runs past location 377.", FIXED % "376", "NoRoom 1", True),
    refused("257-instructions", "No sector has room for 257 instructions in one syllable.", " CODE\n" + lines(257,
            " CLA 000") + " END\n", "NoRoom 1", True),
    refused("too-many-words", "254 words don't fit beside the reserved locations of sector 17.", " WORDS 0,17\n BSS 254\n END\n",
            "NoRoom 1"),
    refused("overlap", "Two fixed blocks want one slot.", " ORG 0,00,0,000\n CLA 000\n CLA 000\n WORDS 0,00,001\n OCT 1\n END\n",
            "Overlap 4"),
    refused("at-375-of-sector-17", "Nothing stands where the address means PQ.", " WORDS 0,17,375\n OCT 1\n END\n", "Overlap 1"),
    refused("no-room-for-a-literal", "The sector in use is full.", " CODE\n CLA =O1\n WORDS 0,01\n BSS 256\n END\n", "NoRoom 2"),
    refused("out-of-sector", "Data of another sector can't be named.",
            "        CODE\n        CLA   X\n        WORDS 0,02\nX       OCT   5\n        END\n", "OutOfSector 2", True),
    refused("a-transfer-to-another-sector", "A transfer stays in its sector.",
            " ORG 0,00,0,000\n TRA Y\n ORG 0,02,0,000\nY CLA 000\n END\n", "OutOfSector 2"),
    refused("a-transfer-to-data", "A transfer goes to an instruction.", " ORG 0,01,0,000\n TRA X\n WORDS 0,01\nX OCT 1\n END\n",
            "OutOfSector 2"),
    refused("a-name-that-would-be-775", "An address that would be 775 means PQ, and no name.",
            " CODE\n CLA X+253\n WORDS 0,17,000\nX OCT 1\n END\n", "OutOfSector 2"),
    refused("hopc-of-data", "HOPC is of a line of code.", " WORDS 0,01\nX OCT 1\n HOPC X\n END\n", "OutOfSector 3"),
    refused("a-name-twice", "A line defines a name again.", " CODE\nA CLA 000\nA CLA 000\n END\n", "DuplicateName 3"),
    refused("a-name-that-isnt-there", "No line defines the name.", " CODE\n CLA NOWHERE\n END\n", "UndefinedName 2"),
    refused("an-address-of-ten-bits", "An address has nine bits.", " CODE\n CLA 1000\n END\n", "OutOfRange 2"),
    refused("a-constant-of-27-bits", "OCT is below 2^26.", " WORDS 0,01\n OCT 400000000\n END\n", "OutOfRange 2"),
    refused("a-decimal-too-large", "DEC is at most 33,554,431.", " WORDS 0,01\n DEC 33554432\n END\n", "OutOfRange 2"),
    refused("a-pattern-without-meaning", "SHF has five patterns.", " CODE\n SHF 003\n END\n", "OutOfRange 2"),
    refused("cds-of-pair-4", "CDS of a pair that isn't there is out of range.", " CODE\n CDS 4,00\n END\n", "OutOfRange 2"),
    refused("past-location-377", "name+n past location 377 never goes on in the next sector.",
            " CODE\n CLA X+1\n WORDS 0,01,377\nX OCT 1\n END\n", "OutOfRange 2"),
    refused("a-long-line", "Lines of a source have at most 120 bytes, comments too.", " CODE\n*" + 120 * "-" + "\n END\n",
            "LineTooLong 2"),
    refused("a-label-of-nine-characters", "A name has at most eight characters.", " CODE\nABCDEFGHI CLA 000\n END\n", "BadLabel 2"),
    refused("a-label-on-code", "CODE takes no label.", "X CODE\n END\n", "BadLabel 1"),
    refused("end-in-the-first-column", "What begins in the first column is a label.", " CODE\nEND\n", "UnknownOperation 2"),
    refused("exm", "EXM is no operation of this profile, wherever it stands.", " CODE\n EXM 000\n END\n", "ExecuteModified 2",
            True),
    refused("an-instruction-without-a-block", "Instructions stand in a block of code.", " CLA 000\n END\n", "BadDirective 1"),
    refused("a-constant-in-code", "Constants stand in a block of words.", " CODE\n OCT 1\n END\n", "BadDirective 2"),
    refused("org-of-pair-4", "A directive's numbers are in range, or it is BadDirective.", " ORG 4,00,0,000\n END\n",
            "BadDirective 1"),
    refused("bss-of-257", "BSS is 1 to 256.", " WORDS 0,01\n BSS 257\n END\n", "BadDirective 2"),
    refused("an-operand-that-is-missing", "CLA takes an operand.", " CODE\n CLA\n END\n", "BadOperand 2"),
    refused("a-literal-after-sto", "STO takes an address.", " CODE\n STO =O1\n END\n", "BadOperand 2"),
    refused("a-digit-8", "Addresses are octal.", " CODE\n CLA 8\n END\n", "BadOperand 2"),
    refused("no-end", "END is missing: one more than the last line is named.", " CODE\n CLA 000\n", "MissingEnd 3"),
    refused("after-end", "Only comments follow END.", " CODE\n END\n* A COMMENT\n CLA 000\n", "AfterEnd 4"),
    refused("an-offset-of-four-digits", "An offset has at most three digits.", " CODE\nX CLA X+0001\n END\n", "BadOperand 2"),
    refused("an-address-of-ten-digits", "An octal number has at most nine digits.", " CODE\n CLA 0000000001\n END\n", "BadOperand 2"),
    source("a-literal-with-a-plus-sign", "A decimal literal may have a plus sign.", """
                ORG   0,00,0,000
                CLA   =D+5
                END
        """, "0 00 000 000017000\n0 01 000 000000005"),
    source("tabs-in-a-source", "Tabs part the three fields of a line.", "\tORG\t0,00,0,000\nA\tTRA\tA\n\tEND\n", "0 00 000 000010000"),
    Case("a-cr-at-the-end", "A CR at the end of a last line without LF is part of the last word.", "asm --image",
         " CODE\n CLA 5\n END\r", 3, "REFUSED UnknownOperation 3"),
    refused("a-syllable-2", "A syllable is 0 or 1.", " ORG 0,00,2,000\n END\n", "BadDirective 1"),
    refused("use-with-a-location", "USE has a pair and a sector.", " USE 0,01,000\n END\n", "BadDirective 1"),
    refused("bss-0", "BSS is of one word at least.", " WORDS 0,01\n BSS 0\n END\n", "BadDirective 2"),
    refused("the-label-before-the-operation", "A label that is no name comes before an operation that is none.", "1A FLY\n END\n",
            "BadLabel 1"),
    refused("an-instruction-among-words", "Instructions stand in a block of code.", " WORDS 0,01\n CLA 0\n END\n", "BadDirective 2"),
    source("use-within-a-block", "USE doesn't end a block.", """
                WORDS 0,01,010
                OCT   1
                USE   0,02
                OCT   2
                END
        """, "0 01 010 000000001\n0 01 011 000000002"),
    refused("code-at-375-of-syllable-1", "Nothing stands at location 375 of sector 17, in neither syllable.",
            " ORG 0,17,1,375\n CLA 0\n END\n", "Overlap 1"),
    refused("code-at-375-of-pair-1", "The same in every pair.", " ORG 1,17,0,375\n CLA 0\n END\n", "Overlap 1"),
    refused("a-floating-word-at-377", "Locations 376 and 377 of sector 17 are for fixed blocks alone.",
            " WORDS 0,17\n BSS 253\n WORDS 0,17\n OCT 1\n END\n", "NoRoom 3"),
    refused("noroom-before-overlap", "A fixed block that runs past 377 and overlaps is NoRoom.",
            " ORG 0,00,0,377\n CLA 0\n ORG 0,00,0,377\n CLA 0\n CLA 0\n END\n", "NoRoom 3"),
    source("code-in-the-next-pair", "Where pair 0 is full code goes to pair 1.",
           "".join(" WORDS 0,%02o,000\n BSS %d\n" % (sector, 253 if sector == 15 else 256) for sector in range(16)) + " CODE\n CLA 5\n END\n",
           "1 00 000 000017005"),
    source("a-literal-takes-both-syllables", "A literal's word takes the least location with both slots free.", """
                ORG   0,01,1,000
                CLA   =D5
                END
        """, "0 01 000 360020000\n0 01 001 000000005"),
    refused("cds-of-sector-20", "CDS of a sector above 17.", " CODE\n CDS 0,20\n END\n", "OutOfRange 2"),
    source("a-literal-beside-an-equal-word", "A literal has a word of its own, also where an OCT line beside it is the same word.", """
                WORDS 0,01
                OCT   5
                ORG   0,00,0,000
                CLA   =O5
                END
        """, "0 00 000 000017001\n0 01 000 000000005\n0 01 001 000000005"),
    refused("a-transfer-to-another-pair", "A transfer stays in its pair.",
            " ORG 0,00,0,000\n TRA X\n ORG 1,00,0,000\nX CLA 0\n END\n", "OutOfSector 2"),
    refused("a-name-of-another-pair", "An operand stands in the pair in use.", " CODE\n CLA X\n WORDS 1,01\nX OCT 1\n END\n",
            "OutOfSector 2"),
]
