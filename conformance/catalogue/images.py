"""Images of both versions, as decks take them."""
from . import Case
from .refusals import refused

TITLE = "images"
SHOWS = """The text of an image, in version 1 and in version 2 with its start constant and simplex pairs; and its refusals, status
4."""

TWO = "IMAGE\nLVDC 2\nSTART %s\nSIMPLEX 0\n0 00 000 000017000\n4 01 000 000000007\nEND\nRUN 1\n"


def image(name: str, shows: str, lines: str, cause: str, worked: bool = False) -> Case:
    return refused(name, shows, "IMAGE\n" + lines + "RUN 1\n", cause, 4, worked=worked)


CASES = [
    Case("a-start-in-module-1", "Version 2: the start constant has data module 1, which is bank 4 where pair 0 is simplex.", "run",
         TWO % "000000216", has="DATA 1 01\nA 000000007\nMEM 4 01 000 000000007", worked=True),
    Case("a-start-in-module-0", "The same image with data module 0: sector 01 of bank 0 is empty.", "run", TWO % "000000016",
         has="A 000000000", worked=True),
    Case("start-of-the-deck-over-the-image", "A deck's START goes before the image's.", "run",
         (TWO % "000000216").replace("RUN", "START 16\nRUN"), has="DATA 0 01\nA 000000000"),
    Case("simplex-of-the-deck-adds", "A deck's SIMPLEX line adds to the image's pairs.", "run", (TWO % "000000216").replace("RUN",
         "SIMPLEX 1\nRUN"), has="A 000000007\nMEM 4 01 000 000000007"),
    Case("version-2-without-simplex", "Version 2 without a SIMPLEX line: no pair is simplex.", "run",
         "IMAGE\nLVDC 2\nSTART 000000016\n3 17 377 000000001\nEND\nRUN 0\n", has="MEM 3 17 377 000000001"),
    Case("an-image-without-words", "An image may have no word at all.", "run --plain", "IMAGE\nLVDC 1\nEND\nRUN 0\n",
         has="TIMES 0", lacks=["MEM"]),
    Case("a-word-0-in-an-image", "A word 0 may be named; the report shows words other than 0 alone.", "run",
         "IMAGE\nLVDC 1\n0 01 000 000000000\nEND\nRUN 0\n", has="TIMES 0", lacks=["MEM"]),
    image("a-bank-that-isnt-there", "Banks 4 to 7 are there where the image's own SIMPLEX line names the pair.",
          "LVDC 2\nSTART 000000216\n0 00 000 000017000\n4 01 000 000000007\nEND\n", "BadImageLine 5", True),
    image("a-spare-bit-of-1", "The spare bit of the image's start constant is 0.", "LVDC 2\nSTART 000000017\nSIMPLEX 0\nEND\n",
          "BadWord 3", True),
    image("a-start-of-27-bits", "The image's start constant is below 2^26.", "LVDC 2\nSTART 400000000\nEND\n", "BadWord 3"),
    image("a-version-3", "There are versions 1 and 2.", "LVDC 3\nEND\n", "BadImageLine 2", True),
    image("version-2-without-start", "Version 2 has START at its second line.", "LVDC 2\nEND\n", "BadImageLine 3"),
    image("simplex-in-version-1", "Version 1 has no SIMPLEX line.", "LVDC 1\nSIMPLEX 0\nEND\n", "BadImageLine 3"),
    image("a-sector-20", "Sectors go to 17.", "LVDC 1\n0 20 000 000017000\nEND\n", "BadImageLine 3", True),
    image("a-location-400", "Locations go to 377.", "LVDC 1\n0 00 400 000017000\nEND\n", "BadImageLine 3"),
    image("a-tab-in-an-image", "Fields of an image are parted by single spaces.", "LVDC 1\n0 00 000\t000017000\nEND\n",
          "BadImageLine 3"),
    image("a-comment-in-an-image", "An image has no comments.", "LVDC 1\n* A COMMENT\nEND\n", "BadImageLine 3"),
    image("a-word-with-eight-digits", "A word has exactly nine digits.", "LVDC 1\n0 00 000 00017000\nEND\n", "BadImageLine 3"),
    image("the-same-address-twice", "Addresses rise strictly.",
          "LVDC 1\n0 00 000 000017000\n0 00 001 000007001\n0 00 001 000007001\nEND\n", "AddressOrder 5", True),
    image("an-address-that-falls", "Bank, then sector, then location.", "LVDC 1\n0 01 000 000000001\n0 00 377 000000001\nEND\n",
          "AddressOrder 4"),
    image("a-word-of-27-bits", "Words are below 2^26.", "LVDC 1\n0 00 000 400000000\nEND\n", "BadWord 3", True),
    image("the-order-before-the-word", "On one line the form comes first, then the order, then the word.",
          "LVDC 1\n0 01 000 000000001\n0 00 000 400000000\nEND\n", "AddressOrder 4"),
    image("an-end-with-blanks", "END with blanks ends the program, but is no line of an image.", "LVDC 1\n END\n",
          "BadImageLine 3"),
    image("simplex-pairs-of-an-image-that-fall", "A SIMPLEX line whose pairs don't rise is a word line without its form.",
          "LVDC 2\nSTART 000000016\nSIMPLEX 1 0\nEND\n", "BadImageLine 4"),
    image("two-blanks-in-simplex", "The pairs of an image's SIMPLEX line are parted by single spaces.",
          "LVDC 2\nSTART 000000016\nSIMPLEX 0  1\nEND\n", "BadImageLine 4"),
    image("two-blanks-in-a-word-line", "The fields of a word line are parted by single spaces.",
          "LVDC 1\n0 00  000 000000001\nEND\n", "BadImageLine 3"),
    image("a-start-constant-of-two-digits", "The start constant of an image has nine digits.", "LVDC 2\nSTART 16\nEND\n",
          "BadImageLine 3"),
]
