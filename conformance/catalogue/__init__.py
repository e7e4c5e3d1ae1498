"""The cases, group by group. Each says what it shows, the words, the input and the status that is due, and of the text that is due:

- text: the whole of it, where it was worked out by hand from the rules in docs/, or stands in docs/;
- has: lines of it that were worked out so; the rest is what simulator.py makes of the case;
- lacks: beginnings that no line of it has.

Where a case has neither text nor has, its text is the simulator's alone. `worked` marks the worked examples of the project's rules,
which were there before the program."""
import textwrap
from collections.abc import Sequence

from simulation.modules import LATCHES
from simulation.words import code, written


class Case:
    """What is given, and what is known of the answer without the simulator."""

    def __init__(self, name: str, shows: str, words: str | list[str], given: str, status: int = 0, text: str | None = None,
                 has: str | Sequence[str] = (), lacks: Sequence[str] = (), worked: bool = False, is_long: bool = False) -> None:
        self.name, self.shows, self.given, self.status, self.worked, self.is_long = name, shows, given, status, worked, is_long
        self.words = words.split() if isinstance(words, str) else words
        self.text = None if text is None else block(text)
        self.has = block(has).splitlines() if isinstance(has, str) else list(has)
        self.lacks = list(lacks)

    def source(self) -> str:
        """Where the wanted text comes from, for the table of cases."""
        who = "a worked example" if self.worked else "by hand"
        if self.text is not None:
            return "%s, whole" % who
        lines = len(self.has) + len(self.lacks)
        return "%s: %d line%s; simulator" % (who, lines, "" if lines == 1 else "s") if lines else "simulator"


def block(text: str) -> str:
    """A text that is written indented in the catalogue, with one LF at the end of each line."""
    text = textwrap.dedent(text).strip("\n")
    return text + "\n" if text else ""


def comment(text: str) -> str:
    """A text as comment lines."""
    return "".join("* %s\n" % line for line in textwrap.wrap(" ".join(text.split()), 100))


def listed(code: str, syllable: int, sector: str = "00") -> str:
    """A comment that says which instructions stand in a sector."""
    if not code:
        return ""
    instructions = ", ".join(written(int(text, 8)) for text in code.split())
    return comment("Code, sector %s from 000, syllable %d: %s." % (sector, syllable, instructions))


def image(code: str = "", words: str = "", more: str = "", upper: str = "") -> list[str]:
    """The lines of an image: code in sector 00 from 000, words in sector 01 from 000, and lines of its own."""
    lines = []
    lower, uppers = code.split(), upper.split()
    for k in range(max(len(lower), len(uppers))):
        low = int(lower[k], 8) if k < len(lower) else 0
        high = int(uppers[k], 8) if k < len(uppers) else 0
        lines.append("0 00 %03o %09o" % (k, high << 13 | low))
    lines += ["0 01 %03o %09o" % (k, int(word, 8)) for k, word in enumerate(words.split())]
    return sorted(lines + [line.strip() for line in block(more).splitlines()])


def deck(note: str, code: str = "", words: str = "", run: int | str = 1, more: str = "", upper: str = "", simplex: str = "",
         start: str = "", ports: str = "", faults: str = "", order: str = "", debug: str = "", version: str = "") -> str:
    """A deck with comments. `version` has the lines START and SIMPLEX of an image of version 2."""
    text = comment(note) + listed(code, 0) + listed(upper, 1) + "IMAGE\n"
    text += "LVDC 2\n" + block(version) if version else "LVDC 1\n"
    text += "".join(line + "\n" for line in image(code, words, more, upper)) + "END\n"
    text += "START %s\n" % start if start else ""
    text += "SIMPLEX %s\n" % simplex if simplex else ""
    for word, lines in (("PORTS", ports), ("FAULTS", faults), ("ORDER", order)):
        text += "%s\n%s" % (word, block(lines)) if lines else ""
    text += "RUN %s\n" % run
    return text + ("DEBUG\n" + block(debug) if debug else "")


# A deck of a sum that wraps at the sign, which many cases change.
SUM_CODE = "17000 07001 13002 10003"
SUM_WORDS = "177777777 000000001"
SUM_MEMORY = """
MEM 0 00 000 000017000
MEM 0 00 001 000007001
MEM 0 00 002 000013002
MEM 0 00 003 000010003
MEM 0 01 000 177777777
MEM 0 01 001 000000001
"""
SUM_REGISTERS = """
TIMES 3
PLACE 0 00 0 003
DATA 0 01
DUP 1 1
A 200000000
PQ 000000000
SAVER 000000000
"""
SUM_REPORT = "LVDC RUN\nEND DONE" + SUM_REGISTERS.rstrip() + SUM_MEMORY + "MEM 0 01 002 200000000\n"


def sum_deck(note: str, run: int | str = 3, **more: str) -> str:
    """The deck of that sum with more sections."""
    return deck(note, SUM_CODE, SUM_WORDS, run, **more)


AT_START = {2: "000000004 000000000", 4: "000000012"}


def state(latches: dict[int, str], words: Sequence[str], count: int, lines: str = "", steps: int = 3) -> str:
    """A saved text in which all copies of a module have these latches, or those of a start, and memory has these words; then lines."""
    text = "LVDC SAVE 1\nSTEPS %d\nCOUNT %d\n" % (steps, count)
    for m, number in enumerate(LATCHES, 1):
        kept = latches.get(m, AT_START.get(m, " ".join(number * ["000000000"])))
        text += "".join("COPY %d %d 0 %s\n" % (m, c, kept) for c in (1, 2, 3))
    text += "SELECT 0 0 0 0\n"
    cells = ["%s %010o\n" % (word[:8], code(int(word[9:], 8))) for word in words]
    text += "".join("CELL %d %s" % (twin, cell) for twin in (0, 1) for cell in cells)
    text += "".join("WORD %s\n" % word for word in words)
    return text + lines + "ABCDEFGHIJKLMNOPQRSTU\nEND\n"
