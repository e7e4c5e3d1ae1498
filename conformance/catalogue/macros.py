"""Macros."""
from . import Case
from .sources import unindented

TITLE = "macros"
SHOWS = """Sources with macros: `macro` writes the expansion, `macro --image` the image of it. A refusal names a line of the
source."""

DOUBLE = """
DOUBLE  MACRO
        CLA   &1
        ADD   &1
        STO   &2
        MEND
        ORG   0,00,0,000
        DOUBLE %s
        WORDS 0,01,000
X       OCT   5
        BSS   1
        END
"""
TIMES = """
* Five times three, by a small library of two macros.
* ADDTO X,Y adds the word X to the word Y.
ADDTO   MACRO
        CLA   &2
        ADD   &1
        STO   &2
        MEND
* TIMES N,X,Y adds X to Y as often as the word N says, and leaves 0 in N. Its label has the number of the call.
TIMES   MACRO
L&0     CLA   &1
        SUB   =O1
        STO   &1
        ADDTO &2,&3
        CLA   &1
        TNZ   L&0
        MEND
        ORG   0,00,0,000
        TIMES N,X,SUM
STOP    TRA   STOP
        WORDS 0,01
N       DEC   5
X       DEC   3
SUM     DEC   0
        END
"""
WRITTEN = """
* Five times three, by a small library of two macros.
* ADDTO X,Y adds the word X to the word Y.
* TIMES N,X,Y adds X to Y as often as the word N says, and leaves 0 in N. Its label has the number of the call.
        ORG   0,00,0,000
L001     CLA   N
        SUB   =O1
        STO   N
        CLA   SUM
        ADD   X
        STO   SUM
        CLA   N
        TNZ   L001
STOP    TRA   STOP
        WORDS 0,01
N       DEC   5
X       DEC   3
SUM     DEC   0
        END
"""
NESTED = """
INNER   MACRO
* &1 in call &0, and & alone, &A too
 OCT &1
        MEND
OUTER   MACRO
        INNER &2
        INNER &1&1
        INNER
        MEND
        WORDS 0,01
        OUTER 1,2,3
        OUTER ,7
        END
        OUTER 5
"""
NESTED_WRITTEN = """
        WORDS 0,01
* 2 in call 002, and & alone, &A too
 OCT 2
* 11 in call 003, and & alone, &A too
 OCT 11
*  in call 004, and & alone, &A too
 OCT 
* 7 in call 006, and & alone, &A too
 OCT 7
*  in call 007, and & alone, &A too
 OCT 
*  in call 008, and & alone, &A too
 OCT 
        END
*  in call 010, and & alone, &A too
 OCT 
* 55 in call 011, and & alone, &A too
 OCT 55
*  in call 012, and & alone, &A too
 OCT 
"""


def macro(name: str, shows: str, given: str, words: str = "macro", text: str | None = None, has: str | list[str] = "",
          worked: bool = False) -> Case:
    return Case(name, shows, words, unindented(given), text=text, has=has, worked=worked)


def refused(name: str, shows: str, given: str, cause: str, words: str = "macro", worked: bool = False) -> Case:
    return Case(name, shows, words, given, 3, "REFUSED %s" % cause, worked=worked)


def kept(name: str, shows: str, given: str, written: str) -> Case:
    """A case whose expansion is written out whole, blanks at the ends of its lines too."""
    case = macro(name, shows, given)
    case.text = written.lstrip("\n")
    return case


def levels(count: int) -> str:
    """A chain of macros, each of which calls the next one; the last has a body of its own."""
    text = "M1 MACRO\n* DONE\n MEND\n"
    for k in range(2, count + 1):
        text += "M%d MACRO\n M%d\n MEND\n" % (k, k - 1)
    return text + " M%d\n" % count


def chain(last: str) -> str:
    """Macros M1 to M17, of which M1 to M15 call the next one; this line is the body of M16."""
    text = "M17 MACRO\n* DONE\n MEND\nM16 MACRO\n%s\n MEND\n" % last
    return text + "".join("M%d MACRO\n M%d\n MEND\n" % (k, k + 1) for k in range(1, 16))


def as_long(rest: int) -> str:
    """A source whose expansion has 1,048,566 bytes and so many more; all of its lines but END are comments."""
    line = "*" + 118 * "X" + "\n"
    return "M MACRO\n" + 10 * line + " MEND\n" + 873 * " M\n" + 8 * line + "*" + (rest - 1) * "X" + "\n END\n"


def grown(length: int, label: str = "") -> str:
    """Macros whose argument grows tenfold from call to call, to so many bytes; the last one, called with this label, uses nothing of it."""
    text = "G0 MACRO\n* DONE\n MEND\n"
    digits = str(length)[2:]
    for k, digit in enumerate(reversed(digits), 1):
        text += "G%d MACRO\n%s G%d %s\n MEND\n" % (k, label if k == 1 else "", k - 1, 10 * "&1" + int(digit) * "X")
    return text + " G%d %s\n" % (len(digits), int(str(length)[:2]) * "X")


CASES = [
    macro("double-with-image", "Arguments are put in for &1 to &9.", DOUBLE % "X,X+1", "macro --image",
          has="0 00 000 000017000\n0 00 001 000007000\n0 00 002 000013001\n0 01 000 000000005", worked=True),
    refused("a-name-that-a-call-brings",
            "A refusal of the assembler names the line of the source from which the refused line came.",
            (DOUBLE % "X,Y").lstrip("\n"), "UndefinedName 7", "macro --image", True),
    kept("five-times-three", "A macro that calls another one; labels with the number of the call.", TIMES, WRITTEN),
    kept("nested-calls",
         "Calls are numbered as they begin; a missing argument is nothing; other & stay; lines after END are expanded too.",
         NESTED, NESTED_WRITTEN),
    Case("a-plain-source", "A source without macros is its own expansion.", "macro", "* NOTHING\n CODE\n  CLA\t000   &1\n\n END",
         text=None, has="* NOTHING\n CODE\n  CLA\t000   &1\n END"),
    macro("arguments-arent-looked-at-again", "Text that was put in isn't looked at again.",
          "M       MACRO\n*       &1 &2\n        MEND\n        M     &2,X\n", has="*       &2 X"),
    macro("sixteen-levels", "Calls go sixteen levels deep.", levels(16), text="* DONE"),
    refused("seventeen-levels", "A call on level 17.", levels(17), "TooDeep 52"),
    refused("a-macro-that-calls-itself", "It is named at the outermost call.",
            "LOOP    MACRO\n        LOOP\n        MEND\n        LOOP\n        END\n", "TooDeep 4", worked=True),
    Case("999-calls", "999 calls are allowed: the last has the number 999.", "macro", "M MACRO\n* &0\n MEND\n" + 999 * " M\n",
         has="* 001\n* 999"),
    refused("a-thousand-calls", "The thousandth call.", "M MACRO\n MEND\n" + 1000 * " M\n", "TooManyCalls 1002"),
    refused("an-expansion-too-long", "The line with which the expansion passes 1,048,576 bytes.",
            "M MACRO\n" + 500 * ("*" + 999 * "X" + "\n") + " MEND\n M\n M\n M\n", "ExpansionTooLong 505"),
    refused("a-macro-without-a-name", "MACRO has a label.", "        MACRO\n        MEND\n", "BadMacro 1"),
    refused("a-macro-named-cla", "A macro's name is no operation.", "CLA     MACRO\n        MEND\n", "BadMacro 1"),
    refused("a-macro-twice", "A macro is defined once.", "M MACRO\n MEND\nM MACRO\n MEND\n", "BadMacro 3"),
    refused("a-macro-in-a-macro", "MACRO inside of a definition.", "M MACRO\nN MACRO\n MEND\n MEND\n", "BadMacro 2"),
    refused("mend-alone", "MEND outside of a definition.", " CODE\n MEND\n", "BadMacro 2"),
    refused("mend-with-a-label", "MEND takes no label.", "M MACRO\nX MEND\n", "BadMacro 2"),
    refused("a-call-with-a-label", "A call takes no label.", "M MACRO\n MEND\nX M\n", "BadMacro 3"),
    refused("ten-arguments", "A call has at most nine arguments.", "M MACRO\n MEND\n M 1,2,3,4,5,6,7,8,9,10\n", "BadMacro 3"),
    refused("a-definition-without-mend", "One more than the last line is named.", "M MACRO\n CLA 000\n", "BadMacro 3"),
    refused("a-mend-that-was-put-in", "MEND in an expanded line, named at the outermost call.", "M MACRO\n &1\n MEND\n M MEND\n",
            "BadMacro 4"),
    refused("an-end-that-is-missing", "With --image a missing END is named at one more than the source's last line.",
            " CODE\n CLA 000\n", "MissingEnd 3", "macro --image"),
    Case("an-expansion-as-long-as-may-be", "An expansion may have 1,048,576 bytes.", "macro --image", as_long(10),
         text="LVDC 1\nEND"),
    refused("an-expansion-a-byte-too-long", "Each line counts with its LF; the one that passes 1,048,576 bytes is named.",
            as_long(11), "ExpansionTooLong %d" % as_long(11).count("\n"), "macro --image"),
    Case("a-call-as-long-as-an-expansion", "A call may come to 1,048,576 bytes with its LF, and use nothing of them.", "macro",
         grown(1_048_571), text="* DONE"),
    refused("a-call-a-byte-too-long", "A call that comes to 1,048,577 bytes is too long, though it uses nothing of them.",
            grown(1_048_572), "ExpansionTooLong 19"),
    refused("a-call-too-long-with-a-label", "A line that is too long isn't looked at: it isn't BadMacro for its label.",
            grown(1_048_572, "X"), "ExpansionTooLong 19"),
    refused("a-macro-named-exm", "A macro isn't called EXM.", "EXM MACRO\n MEND\n", "BadMacro 1"),
    refused("a-macro-named-mend", "Nor MEND.", "MEND MACRO\n MEND\n", "BadMacro 1"),
    refused("a-label-before-the-level", "A call with a label on level 17 is BadMacro.", chain("X M17") + " M1\n",
            "BadMacro %d" % (chain("X M17").count("\n") + 1)),
    refused("the-level-before-the-count", "The thousandth call on level 17 is TooDeep.", chain(" M17") + 983 * " M17\n" + " M1\n",
            "TooDeep %d" % (chain(" M17").count("\n") + 984)),
    Case("a-cr-at-the-end-of-a-last-line", "Each line of an expansion ends with LF: a CR that stood at the end of the last line is dropped.",
         "macro --image", " ORG 0,00,0,000\n CLA 5\n END\r", text="LVDC 1\n0 00 000 000017005\nEND"),
    Case("two-crs-in-a-source-with-macros", "The same of a second CR before LF.", "macro --image",
         " ORG 0,00,0,000\n CLA 5\n END\r\r\n", text="LVDC 1\n0 00 000 000017005\nEND"),
    refused("no-end-after-macros", "With --image a missing END is named at one more than the last line of the source.",
            "M MACRO\n* A\n* B\n MEND\n CODE\n M\n", "MissingEnd 7", "macro --image"),
]
