"""Macros (docs/ASSEMBLER.md, "Macros")."""
import re
from typing import NoReturn

from .assembler import NAME, OPERATIONS, assemble, parted
from .lines import Refused, is_comment, lines_of, print_image

MOST_BYTES, MOST_CALLS, MOST_LEVELS = 1_048_576, 999, 16


class Expander:
    """Writes a source with macros out, line by line."""

    def __init__(self, lines: list[str]) -> None:
        self.lines = lines
        self.macros: dict[str, list[str]] = {}
        self.calls = self.size = 0
        self.out: list[str] = []
        self.origins: list[int] = []

    def refuse(self, cause: str, origin: int) -> NoReturn:
        """Refuses the source at this line of it."""
        raise Refused(cause, origin, 3)

    def expand(self) -> None:
        """Reads the definitions and writes out all else."""
        name: str | None = None
        body: list[str] = []
        for k, line in enumerate(self.lines):
            label, operation, operand = ("", "", "") if is_comment(line) else parted(line)
            if name is not None:
                if operation == "MACRO" or (operation == "MEND" and label):
                    self.refuse("BadMacro", k + 1)
                if operation == "MEND":
                    self.macros[name], name = body, None
                else:
                    body.append(line)
            elif operation == "MACRO":
                self.check_name(label, k + 1)
                name, body = label, []
            else:
                self.line(line, k + 1, 1)
        if name is not None:
            self.refuse("BadMacro", len(self.lines) + 1)

    def check_name(self, label: str, origin: int) -> None:
        """Refuses a macro's name that is none or is taken."""
        taken = label in OPERATIONS or label in ("EXM", "MACRO", "MEND") or label in self.macros
        if not re.fullmatch(NAME, label) or taken:
            self.refuse("BadMacro", origin)

    def line(self, line: str, origin: int, level: int) -> None:
        """Expands a line outside of definitions; a call in it is on this level."""
        label, operation, operand = ("", "", "") if is_comment(line) else parted(line)
        if operation in ("MACRO", "MEND"):
            self.refuse("BadMacro", origin)
        if operation in self.macros:
            self.call(label, self.macros[operation], operand, origin, level)
            return
        self.size += len(line) + 1
        if self.size > MOST_BYTES:
            self.refuse("ExpansionTooLong", origin)
        self.out.append(line)
        self.origins.append(origin)

    def call(self, label: str, body: list[str], operand: str, origin: int, level: int) -> None:
        """Writes out a call."""
        arguments = operand.split(",") if operand else []
        if label or len(arguments) > 9:
            self.refuse("BadMacro", origin)
        if level > MOST_LEVELS:
            self.refuse("TooDeep", origin)
        if self.calls == MOST_CALLS:
            self.refuse("TooManyCalls", origin)
        self.calls += 1
        put = {"&0": "%03d" % self.calls}
        put.update({"&%d" % k: arguments[k - 1] if k <= len(arguments) else "" for k in range(1, 10)})
        for line in body:
            self.check_length(line, put, origin)
            self.line(re.sub("&[0-9]", lambda found: put[found[0]], line), origin, level + 1)

    def check_length(self, line: str, put: dict[str, str], origin: int) -> None:
        """Refuses a line of a body that is longer than an expansion may be; nothing so long is made."""
        length = len(line) + sum(len(put[found]) - 2 for found in re.findall("&[0-9]", line))
        if length + 1 > MOST_BYTES:
            self.refuse("ExpansionTooLong", origin)


def expansion(lines: list[str]) -> Expander:
    """The expansion of a source."""
    expander = Expander(lines)
    expander.expand()
    return expander


def image_of_expansion(lines: list[str]) -> str:
    """The text of the image of the expansion; a refusal names the line of the source that it came from."""
    expander = expansion(lines)
    try:
        return print_image(assemble(lines_of("".join(line + "\n" for line in expander.out))).image())
    except Refused as refused:
        origins = expander.origins + [len(lines) + 1]
        raise Refused(refused.cause, origins[refused.line - 1], refused.status) from None
