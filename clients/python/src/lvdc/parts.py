"""A line of a source, parted into label, operation and operand."""
import re
from dataclasses import dataclass

_BLANKS = " \t"
_FIELD = re.compile("[^ \t]+")

DIRECTIVES = ("CODE", "ORG", "WORDS", "USE", "END")
CONSTANTS = ("OCT", "DEC", "HOPC", "BSS")
WITH_LITERAL = ("HOP", "MPY", "SUB", "DIV", "MPH", "AND", "ADD", "XOR", "RSU", "CLA")
WITH_ADDRESS = ("STO", "TRA", "TNZ", "TMI")
INSTRUCTIONS = (*WITH_LITERAL, *WITH_ADDRESS, "PIO", "SHF", "CDS")
OPERATIONS = (*INSTRUCTIONS, *CONSTANTS, *DIRECTIVES)


@dataclass(frozen=True, slots=True)
class Parts:
    """The label, the operation and the operand of a line, each empty where there is none; and the columns in which they begin, from 0."""

    label: str = ""
    operation: str = ""
    operand: str = ""
    columns: tuple[int, int, int] = (0, 0, 0)

    @classmethod
    def of(cls, line: str) -> "Parts":
        """The parts of a line; a comment has none."""
        if line.startswith("*"):
            return cls()
        found = [(it[0], it.start()) for it in _FIELD.finditer(line)]
        if found and line[0] in _BLANKS:
            found.insert(0, ("", 0))
        fields = [*found, *[("", len(line))] * 3][:3]
        return cls(fields[0][0], fields[1][0], fields[2][0], (fields[0][1], fields[1][1], fields[2][1]))

    @property
    def is_comment(self) -> bool:
        """Whether the line has none of the three."""
        return not self.label and not self.operation
