"""Sources at random."""
import re

from .programs import Programs

CODE_NAMES, DATA_NAMES = ["A", "B", "ABCDEFGH"], ["C1", "X", "Y2"]
OPERANDS = "HOP MPY SUB DIV MPH AND ADD XOR RSU CLA".split()


class Sources(Programs):
    """Draws sources. A daring one has what is at a limit or just past it."""

    is_daring = False

    def constant(self) -> str:
        """A constant without its operation: O, D or H, and its operand."""
        near = self.choice([0, 2**25, 2**25, 2**26]) + self.randrange(-1, 2) if self.is_daring else self.randrange(-2, 4)
        name = self.choice(DATA_NAMES if self.chance(0.1) else CODE_NAMES)
        return self.choice(["O%o" % abs(near), "D%d" % near, "D+%d" % abs(near), "D-%d" % abs(near), "H" + name, "D1", "D1"])

    def operand(self, operation: str) -> str:
        """An operand, mostly one that the operation takes."""
        name = self.choice(CODE_NAMES if operation in ("TRA", "TNZ", "TMI") else DATA_NAMES)
        if operation in ("PIO", "SHF"):
            return "%o" % self.choice([0, 1, 2, 0o20, 0o40, *([0o777, 0o1000, self.randrange(2**9), 3, 0o4] if self.is_daring else [])])
        if operation == "CDS":
            return "%o,%o" % (self.choice([0, 0, 1, 3, 3 + self.is_daring]), self.choice([0, 1, 15, 15 + self.is_daring]))
        if self.chance(0.3):
            return "=" + self.constant()
        offset = self.choice([0, 1, 2, 253, 255]) if self.is_daring else 1
        return self.choice([name, name, name, "%s+%d" % (name, offset), "%o" % self.randrange(2**9 + self.is_daring)])

    def line(self, kind: str) -> str:
        """A line of a block of code or of words."""
        label = self.choice(CODE_NAMES if kind == "CODE" else DATA_NAMES) if self.chance(0.25) else ""
        if self.chance(0.08):
            return "* A NOTE" if self.chance(0.6) else "* A NOTE".ljust(self.choice([120, 121]))
        if self.chance(0.1):
            return " USE %o,%o" % ((self.choice([0, 0, 1]), self.choice([1, 2, 15])) if self.is_daring else (0, self.choice([1, 15])))
        if kind == "CODE":
            operation = self.choice([*OPERANDS, "STO", "TRA", "TNZ", "TMI", "PIO", "SHF", "CDS"])
            return "%s %s %s" % (label, operation, self.operand(operation))
        if self.chance(0.3):
            return "%s BSS %d" % (label, self.choice([0, 1, 2, 253, 255, 256, 257] if self.is_daring else [1, 2, 3]))
        constant = self.constant()
        return "%s %s %s" % (label, {"O": "OCT", "D": "DEC", "H": "HOPC"}[constant[0]], constant[1:])

    def heading(self) -> str:
        """The first line of a block."""
        at = (self.choice([0, 0, 1, 3]), self.choice([0, 1, 1, 2, 15, 15])) if self.is_daring else (0, self.choice([1, 1, 15]))
        loc = self.choice([0, 1, 250, 253, 253, 254, 255]) if self.is_daring else self.choice([0, 16, 64, 200, 247])
        return self.choice([" CODE", " CODE", " ORG %o,%o,%o,%o" % (*at, self.randrange(2), loc), " WORDS %o,%o" % at,
                            " WORDS %o,%o" % at, " WORDS %o,%o,%o" % (*at, loc)])

    def source(self) -> list[str]:
        """The lines of a source."""
        lines: list[str] = []
        defined: set[str] = set()
        self.is_daring = self.chance(0.4)
        for _ in range(self.choice([1, 2, 3, 5, 9])):
            heading = self.heading()
            lines.append(heading)
            for _ in range(self.choice([0, 1, 1, 2, 4, 8])):
                line = self.line("WORDS" if "WORDS" in heading else "CODE")
                label = line.split(" ")[0].strip("*")
                if label not in defined or self.chance(0.02):
                    lines.append(line)
                    defined |= {label} - {""}
        missing = sorted(set(re.findall("|".join(CODE_NAMES + DATA_NAMES), " ".join(lines))) - defined)
        code = ["%s TRA 0" % name for name in missing if name in CODE_NAMES and self.chance(0.98)]
        data = ["%s OCT 7" % name for name in missing if name in DATA_NAMES and self.chance(0.98)]
        return [*lines, " CODE", *code, " WORDS 0,%s" % self.choice(["01", "17"]), *data, " END"]

    # ---- macros

    def argument(self) -> str:
        """An argument of a call, mostly an operand."""
        return self.choice(["X", "C1", "Y2", "=D5", "3", "X+1"] if self.chance(0.85) else ["&1", "&9", "", "MAC1", "A B"])

    def call(self) -> str:
        """A call of a macro, mostly one that may stand there."""
        name = self.choice(["MAC1", "MAC1", "MAC2"] if self.chance(0.9) else ["MAC3", "ADD", "MAC4"])
        label = "" if self.chance(0.95) else self.choice(["A", "&0", "Z&0"])
        return "%s %s %s" % (label, name, ",".join(self.argument() for _ in range(self.choice([1, 1, 2, 2, 2, 3, 9, 10, 0]))))

    def body_line(self, called: str) -> str:
        """A line of a macro's body, which may call another macro."""
        if self.chance(0.85):
            return self.choice([" CLA &1", " ADD &2", " STO &1", "L&0 CLA &2", " TRA L&0", " SUB X", " MPY =D&0", " %s &2,&1" % called,
                                " %s &1" % called, "* NOTE &1 &0", " CLA &1 &2", " ADD C1 &&1", " STO &3"])
        operand = self.choice(["&1&2", "&", "&A", "&1 NOTE &2", "* &1", "&9", "&0"])
        return "%s %s %s" % (self.choice(["", "&1", "N&1"]), self.choice(["&1", "OCT", "MAC3", called]), operand)

    def macro(self, name: str, called: str) -> list[str]:
        """A macro's definition."""
        closing = " MEND" if self.chance(0.96) else self.choice(["A MEND", " MEND 1", " END", " MACRO"])
        return ["%s MACRO" % name, *(self.body_line(called) for _ in range(self.choice([0, 1, 2, 3]))), closing]

    def with_macros(self, lines: list[str]) -> list[str]:
        """A source with macros in front and calls among its lines."""
        names = ["MAC2", "MAC1"] if self.chance(0.8) else self.choice([["MAC1", "MAC2"], ["MAC1", "MAC1"], ["ADD", "MAC1"], ["MAC1"], ["EXM"]])
        lines = list(lines)
        for _ in range(self.choice([0, 1, 2, 4])):
            lines.insert(self.randrange(1, len(lines)), self.call())
        definitions = [line for name in names for line in self.macro(name, "MAC2" if name == "MAC1" else self.choice(["MAC3", "CLA", "CLA"]))]
        at = self.choice([0, 0, 0, 0, 1, len(lines)])
        return [*lines[:at], *definitions, *lines[at:]]

    def many_calls(self) -> list[str]:
        """As many calls as there may be, or as many levels, or one more."""
        if self.chance(0.4):
            return ["M1 MACRO", " MEND", *[" M1"] * self.choice([999, 1000]), " END"]
        levels = self.choice([16, 17])
        calls = [" M%d" % (level + 1) if level < levels else " CLA 1" for level in range(1, levels + 1)]
        chain = [line for level, call in enumerate(calls, 1) for line in ("M%d MACRO" % level, call, " MEND")]
        return [*chain, *[" M%d" % levels] * self.choice([0, 0, 999 - levels, 1000 - levels]), " CODE", " M1", " END"]

    def source_of_calls(self) -> list[str]:
        """A short source that is in order but for what its macros make of it."""
        calls = [self.call() for _ in range(self.choice([1, 2, 4]))]
        data = ["X OCT 5", "C1 DEC -1", "Y2 BSS 2"]
        return self.with_macros([" CODE", *calls, " CLA X", " WORDS 0,01", *data, " END"])
