"""Decks that are refused, and decks that only look so."""
from . import SUM_CODE, SUM_REPORT, SUM_WORDS, Case, image as image_lines

TITLE = "refusals"
SHOWS = """Decks that are refused, by the first fault in the order of the lines; and a few that look wrong and aren't. Status 2 is
the deck's own, 3 and 4 that of its program."""

HEAD = "IMAGE\nLVDC 1\nEND\n"
# Row by row the deck of the sum without comments, so that its line 10 is RUN.
PLAIN = "IMAGE\nLVDC 1\n" + "".join(line + "\n" for line in image_lines(SUM_CODE, SUM_WORDS)) + "END\n"


def refused(name: str, shows: str, given: str, cause: str, status: int = 2, words: str = "run", worked: bool = False) -> Case:
    return Case(name, shows, words, given, status, "REFUSED %s" % cause, worked=worked)


def tenth(name: str, shows: str, lines: str, cause: str, worked: bool = True) -> Case:
    """The deck of the sum with these lines from line 10 on."""
    return refused(name, shows, PLAIN + lines + "\n" + ("" if "RUN" in lines else "RUN 3\n"), cause, worked=worked)


CASES = [
    refused("nothing", "An input without a byte.", "", "NoProgram 1", worked=True),
    refused("comments-alone", "A deck of comments and blank lines: one more than the last line is named.", "* A COMMENT\n\n \t\n",
            "NoProgram 4"),
    refused("an-image-without-its-heading", "An image by itself is no deck.", "LVDC 1\nEND\n", "NoProgram 1"),
    refused("a-heading-with-more-on-its-line", "IMAGE stands alone on its line.", "IMAGE X\nLVDC 1\nEND\nRUN 1\n", "NoProgram 1"),
    refused("a-byte-order-mark", "A byte-order mark is part of the first word.", "\xef\xbb\xbfIMAGE\nLVDC 1\nEND\nRUN 1\n",
            "NoProgram 1"),
    refused("lone-crs", "Lines that end with CR alone are one line.", "IMAGE\rLVDC 1\rEND\rRUN 1\r", "NoProgram 1"),
    refused("a-long-first-comment", "A comment above 120 bytes is BadLine, before the program too.",
            "*" + 120 * "X" + "\n" + HEAD + "RUN 1\n", "BadLine 1"),
    Case("a-comment-of-120-bytes", "A line of 120 bytes isn't too long.", "run", "*" + 119 * "X" + "\n" + HEAD + "RUN 0\n",
         has="END DONE"),
    refused("an-image-without-end", "The section that isn't closed is named.", "IMAGE\nLVDC 1\n", "BadSection 1", worked=True),
    refused("a-source-without-end", "The same after SOURCE, with comments before it.", "* A SOURCE\n\nSOURCE\n        CODE\n",
            "BadSection 3"),
    refused("no-run", "RUN must be there: one more than the last line is named.", HEAD, "BadSection 4", worked=True),
    refused("no-debug", "For the command debug DEBUG must be there too.", HEAD + "RUN 1\n", "BadSection 5", words="debug"),
    refused("run-and-a-letter", "A count out of form.", HEAD + "RUN 1x\n", "BadLine 4", worked=True),
    refused("run-and-a-byte-above-127", "The same with another byte.", HEAD + "RUN \xc3\n", "BadLine 4", worked=True),
    refused("run-above-a-million", "A count too large has a cause of its own.", HEAD + "RUN 1000001\n", "CountTooLarge 4",
            worked=True),
    refused("run-with-ten-digits", "A count has at most nine digits.", HEAD + "RUN 1000000000\n", "BadLine 4"),
    Case("run-with-leading-zeros", "A number with a said count of digits may begin with zeros.", "run", PLAIN + "RUN 000000003\n",
         text=SUM_REPORT),
    refused("a-cr-at-the-end", "A CR at the end of a last line without LF is part of the last word.", HEAD + "RUN 1\r",
            "BadLine 4"),
    Case("cr-lf", "A CR just before an LF is dropped.", "run", PLAIN.replace("\n", "\r\n") + "RUN 3\r\n", text=SUM_REPORT,
         worked=True),
    Case("no-last-line-end", "The last line may lack its LF.", "run", PLAIN + "RUN 3", text=SUM_REPORT, worked=True),
    Case("blanks-and-tabs", "Words of a deck are parted by any run of spaces and tabs, also at both ends.", "run",
         PLAIN.replace("IMAGE",
         " \tIMAGE ") + "\t \n  START\t 16 \n\tPORTS \nTAPE \t 0   1\n FAULTS\n\tLAG  2  2 2\t2\nRUN\t3  \n",
         text=SUM_REPORT + "WRONG 2 2 1\n"),
    tenth("run-with-two-numbers", "One number alone follows RUN.", "RUN 3 4", "BadLine 10"),
    tenth("an-unknown-word", "A line outside of PORTS, FAULTS and ORDER that is no section.", "GO", "BadSection 10"),
    tenth("a-section-after-run", "START comes before RUN.", "RUN 3\nSTART 16", "BadSection 11"),
    tenth("a-section-twice", "Each section comes at most once.", "FAULTS\nFAULTS", "BadSection 11", False),
    tenth("ports-after-faults", "The sections have an order.", "FAULTS\nPORTS", "BadSection 11", False),
    tenth("small-letters", "Words are capitals.", "faults", "BadSection 10", False),
    tenth("a-module-8", "Modules are 1 to 7.", "FAULTS\nFLIP 8 1 0 0 0 1", "BadLine 11"),
    tenth("a-last-step-before-the-first", "The last step isn't below the first.", "FAULTS\nFLIP 1 1 5 4 0 1", "BadLine 11"),
    tenth("a-latch-that-isnt-there", "Module 3 has one latch, 0.", "FAULTS\nFLIP 3 1 0 0 1 1", "BadLine 11"),
    tenth("a-copy-0", "Copies are 1 to 3.", "FAULTS\nLAG 3 0 0 0", "BadLine 11", False),
    tenth("a-step-with-a-leading-zero", "Steps have no leading zero.", "FAULTS\nFLIP 5 1 3 03 0 1", "BadLine 11", False),
    tenth("a-step-of-three-millions", "Steps are below 3,000,000.", "FAULTS\nLAG 1 1 0 3000000", "BadLine 11", False),
    tenth("a-mask-of-27-bits", "Masks of latches are below 2^26.", "FAULTS\nFLIP 5 1 0 0 0 400000000", "BadLine 11", False),
    tenth("a-mask-of-29-bits", "Masks of cells are below 2^28.", "FAULTS\nDAMAGE 0 0 0 0 0 2000000000", "BadLine 11", False),
    tenth("damage-in-bank-4", "Fault lines name physical places: pairs 0 to 3.", "FAULTS\nDAMAGE 0 4 0 0 0 1", "BadLine 11", False),
    tenth("a-fault-line-with-a-comment", "Nothing follows the last field, no comment either.", "FAULTS\nLAG 1 1 0 0 * A LAG",
          "BadLine 11", False),
    tenth("a-blank-before-a-comment", "A blank before the * makes it no comment.", "FAULTS\n * A LAG", "BadLine 11", False),
    tenth("a-tape-without-words", "TAPE has one word at least.", "PORTS\nTAPE 000", "BadLine 11"),
    tenth("a-tape-word-of-27-bits", "Words are below 2^26.", "PORTS\nTAPE 000 400000000", "BadLine 11", False),
    tenth("a-tape-that-is-a-ticker", "TAPE wants a tape.", "PORTS\nTAPE 016 1", "NoDevice 11"),
    tenth("a-tape-that-is-unplugged", "An earlier line unplugs it, whatever its time.", "PORTS\nUNPLUG 000 5\nTAPE 000 1",
          "NoDevice 12"),
    tenth("unplug-where-nothing-is", "UNPLUG wants a device.", "PORTS\nUNPLUG 020 0", "NoDevice 11"),
    tenth("the-form-before-the-device", "On one line the form comes first.", "PORTS\nTAPE 377 8", "BadLine 11", False),
    tenth("an-order-with-a-letter-twice", "Each of A to U stands once.", "ORDER\nAACDEFGHIJKLMNOPQRSTU", "BadLine 11", False),
    tenth("seventeen-orders", "There are at most sixteen orders.", "ORDER\n" + 17 * "ABCDEFGHIJKLMNOPQRSTU\n", "BadLine 27", False),
    tenth("simplex-pairs-that-fall", "The pairs of SIMPLEX rise.", "SIMPLEX 2 1", "BadLine 10", False),
    tenth("a-start-of-ten-digits", "A start constant has one to nine octal digits.", "START 0000000016", "BadLine 10", False),
    tenth("a-name-after-an-image", "An image has no names.", "START MAIN", "BadLine 10", False),
    refused("too-many-events", "The 65,537th fault line.", HEAD + "FAULTS\n" + 65537 * "LAG 1 1 0 0\n" + "RUN 1\n",
            "TooManyEvents 65541", worked=True),
    Case("an-empty-script", "FAULTS may have no line.", "run", HEAD + "FAULTS\nRUN 0\n", has="END DONE\nTIMES 0", worked=True),
    refused("too-long", "An input of 1,048,577 blanks: one byte too many.", 1048577 * " ", "TooLong", 11, worked=True),
    refused("as-long-as-may-be", "An input of 1,048,576 line ends is read, and has no program.", 1048576 * "\n",
            "NoProgram 1048577"),
    refused("sections-before-the-program", "The program is read after all sections: its faults come last.",
            "IMAGE\nLVDC 3\nEND\nRUN 1x\n", "BadLine 4"),
    refused("a-start-that-isnt-defined", "The name of START is looked at last, and its line is named.",
            "SOURCE\n CODE\nA CLA 0\n END\nSTART B\nRUN 1\n", "UndefinedName 5", 3, worked=True),
    refused("a-start-that-is-data", "START names a line of code.", "SOURCE\n WORDS 0,01\nA OCT 1\n END\nSTART A\nRUN 1\n",
            "OutOfSector 5", 3, worked=True),
    refused("exm-in-a-source", "EXM has a refusal of its own.", "SOURCE\n CODE\n EXM 000\n END\nRUN 1\n", "ExecuteModified 3", 3,
            worked=True),
    Case("debug-lines-in-another-command",
         "Every command but debug reads DEBUG's lines and ignores what they say; section words there are commands.", "run",
         PLAIN + "RUN 3\nDEBUG\nNONSENSE\nRUN 4\nFAULTS\n", text=SUM_REPORT),
    refused("a-long-debug-line", "A line above 120 bytes is BadLine in DEBUG too.", HEAD + "RUN 3\nDEBUG\n" + 121 * "X" + "\n",
            "BadLine 6"),
    # fault lines, field by field
    tenth("a-pair-of-two-digits", "The pair of a fault line has one octal digit.", "FAULTS\nDEAD 0 00 0 0", "BadLine 11", False),
    tenth("a-sector-20", "Its sector is at most 17.", "FAULTS\nDAMAGE 0 0 20 0 0 1", "BadLine 11", False),
    tenth("a-location-400", "Its location is at most 377.", "FAULTS\nDAMAGE 0 0 0 400 0 1", "BadLine 11", False),
    tenth("a-module-0", "There is no module 0.", "FAULTS\nLAG 0 1 0 0", "BadLine 11", False),
    tenth("a-copy-4", "There is no copy 4.", "FAULTS\nLAG 3 4 0 0", "BadLine 11", False),
    tenth("a-twin-2", "Twins are 0 and 1.", "FAULTS\nDEAD 2 0 0 0", "BadLine 11", False),
    Case("a-mask-of-28-bits", "Masks of cells have 28 bits: all of them make the cell of 0 the good cell of another word.", "run",
         PLAIN + "FAULTS\nDAMAGE 0 0 02 000 0 1777777777\nRUN 3\n", text=SUM_REPORT + "MEM 0 02 000 ?\n"),
    tenth("an-order-in-two-tokens", "An order is one token.", "ORDER\nABCDEFGHIJ KLMNOPQRSTU", "BadLine 11", False),
    refused("a-bad-line-past-the-limit", "The form of a fault line comes before their number: the 65,537th hasn't the form of one.",
            HEAD + "FAULTS\n" + 65536 * "LAG 1 1 0 0\n" + "LAG\nRUN 1\n", "BadLine 65541"),
    # headings
    tenth("a-start-of-two-tokens", "START has one token.", "START 16 16", "BadLine 10", False),
    tenth("a-start-of-27-bits", "A start constant is below 2^26.", "START 400000000", "BadLine 10", False),
    tenth("simplex-without-a-pair", "SIMPLEX has one pair at least.", "SIMPLEX", "BadLine 10", False),
    tenth("simplex-4", "Pairs are 0 to 3.", "SIMPLEX 4", "BadLine 10", False),
    tenth("faults-with-more-on-its-line", "PORTS, FAULTS, ORDER and DEBUG stand alone on their lines.", "FAULTS 1", "BadLine 10",
          False),
    Case("run-of-a-million-times", "RUN's count may be 1,000,000.", "run", "IMAGE\nLVDC 1\n0 00 000 000016600\nEND\nRUN 1000000\n", 6,
         has="END STOPPED 2 EXM\nTIMES 1"),
    # ports
    tenth("a-port-400", "Ports are at most 377, as the form of the line says.", "PORTS\nTAPE 400 1", "BadLine 11", False),
    tenth("a-port-of-four-digits", "A port has at most three digits.", "PORTS\nTAPE 0000 1", "BadLine 11", False),
    tenth("unplugged-twice", "After an UNPLUG line a port has no device.", "PORTS\nUNPLUG 000 1\nUNPLUG 000 2", "NoDevice 12", False),
    tenth("an-unplug-time-with-a-leading-zero", "The time of UNPLUG has no leading zero.", "PORTS\nUNPLUG 000 01", "BadLine 11",
          False),
    Case("unplug-at-a-million", "The time of UNPLUG may be 1,000,000.", "run", PLAIN + "PORTS\nUNPLUG 000 1000000\nRUN 3\n",
         text=SUM_REPORT),
    tenth("unplug-above-a-million", "A greater one is no time of UNPLUG.", "PORTS\nUNPLUG 000 1000001", "BadLine 11", False),
    # lines
    refused("two-crs", "One CR alone before LF is dropped.", HEAD + "RUN 1\r\r\n", "BadLine 4"),
    Case("an-end-among-debug-lines", "The program goes to the first END; another one may stand among DEBUG's lines.", "run",
         PLAIN + "RUN 3\nDEBUG\nEND\n", text=SUM_REPORT),
]
