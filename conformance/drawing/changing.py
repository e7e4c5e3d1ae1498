"""Texts that are changed at random."""
import re

from .texts import Texts

PUT = list("0123456789 \t\r,+-=&*ABX\xff")


class Changing(Texts):
    """Changes a text by a line or a word or a byte or a few."""

    def changed_word(self, line: str) -> str:
        """A line with a number one more or one less, or with a zero in front, or with a word twice or not at all."""
        found = list(re.finditer(r"[^ \t,]+", line))
        if not found:
            return line
        at = self.choice(found)
        put = self.choice(["%s %s" % (at[0], at[0]), "", "0" + at[0], at[0][1:], self.choice(found)[0]])
        if at[0].isdigit() and self.chance(0.7):
            put = "%0*d" % (len(at[0]), max(int(at[0]) + self.choice([-1, 1]), 0))
        if at[0].isdigit() and self.chance(0.15):
            put = self.choice([at[0].zfill(9), at[0].zfill(10), "0" * len(at[0]), "7" * len(at[0]), "4" + at[0][1:]])
        return line[:at.start()] + put + line[at.end():]

    def changed_blanks(self, line: str) -> str:
        """A line with more blanks, inside or behind."""
        if " " in line and self.chance(0.4):
            return line.replace(" ", self.choice(["  ", "\t"]), 1)
        return self.choice([line + "\r", line + "\r\r", line + " ", line + "\t", " " + line, line.ljust(120), line.ljust(121)])

    def changed_byte(self, line: str) -> str:
        """A line with a byte that is another one, or more, or less."""
        if not line:
            return line
        at = self.randrange(len(line))
        return line[:at] + self.choice(PUT + ["", line[at] * 2]) + line[at + self.choice([0, 1, 1]):]

    def line_of(self, lines: list[str]) -> int:
        """A line: of all, or of those of a kind that is as likely as the others."""
        if self.chance(0.4):
            return self.randrange(len(lines))
        kinds = sorted({line.split(" ")[0] for line in lines})
        kind = self.choice(kinds)
        return self.choice([k for k, line in enumerate(lines) if line.split(" ")[0] == kind])

    def changed(self, text: str) -> str:
        """A text with a change or a few."""
        lines = text.split("\n")
        for _ in range(self.choice([1, 1, 1, 1, 2, 3])):
            lines = self.changed_lines(lines or [""])
        return "\n".join(lines)

    def changed_lines(self, lines: list[str]) -> list[str]:
        """Lines with one change."""
        k, how = self.line_of(lines), self.randrange(12)
        near = min(max(k + self.choice([-1, 1]), 0), len(lines) - 1)
        other = near if self.chance(0.5) else self.randrange(len(lines))
        if how < 2:
            del lines[k]
        elif how < 3:
            lines.insert(other, lines[k])
        elif how < 4:
            lines[k], lines[other] = lines[other], lines[k]
        elif how < 8:
            lines[k] = self.changed_word(lines[k])
        elif how < 10:
            lines[k] = self.changed_blanks(lines[k])
        else:
            lines[k] = self.changed_byte(lines[k])
        return lines
