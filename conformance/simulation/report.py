"""Reports, soak texts and debug sessions (docs/FORMATS.md, "Report", "Soak" and "Debug session")."""
import re
from collections.abc import Sequence, Set

from .ends import End, Exchanged, Machine, Repaired
from .faults import octal, plain_decimal
from .lines import BLANKS, spot, tokens_of
from .modules import hold
from .voted import Voted
from .words import Address, banks, fetch_address, written

STATUS = {"INADMISSIBLE": 5, "STOPPED": 6}

# an address and a syllable
Place = tuple[Address, int]


def status_of(machine: Machine) -> int:
    """The status of a run that has ended so."""
    return STATUS[machine.end.word] if machine.end else 0


def end_line(end: End | None) -> str:
    """The line END."""
    if end is None:
        return "END DONE"
    line = "END %s %d %s" % end[:3]
    if end.cause == "MEMORY":
        return line + " " + spot(end.at)
    return line + " %d" % end.module if end.cause == "LOGIC" else line


def register_lines(machine: Machine) -> list[str]:
    """The lines TIMES to SAVER."""
    hop, a, pq, saver = machine.registers()
    return ["TIMES %d" % machine.times, "PLACE %o %02o %o %03o" % (hop.imod, hop.isec, hop.syl, hop.loc),
            "DATA %o %02o" % (hop.dmod, hop.dsec), "DUP %d %d" % (hop.dupin, hop.dupdn), "A %09o" % a, "PQ %09o" % pq,
            "SAVER %09o" % saver]


def log_lines(log: Sequence[Exchanged]) -> list[str]:
    """The lines IN and OUT."""
    return ["%s %d %03o %09o" % ("IN" if reading else "OUT", time, port, word) for time, port, reading, word in log]


def repair_lines(repairs: Sequence[Repaired]) -> list[str]:
    """The lines REPAIR."""
    return ["REPAIR %d %s %d%s" % (step, spot(at), twin, " SWITCH" if switched else "") for step, at, twin, switched in repairs]


def addresses(simplex: Set[int]) -> list[Address]:
    """All addresses that are there."""
    return [(bank, sector, loc) for bank in banks(simplex) for sector in range(16) for loc in range(256)]


def memory_lines(machine: Machine) -> list[str]:
    """The lines MEM."""
    lines = []
    for at in addresses(machine.opening.simplex):
        if not machine.is_known(at):
            lines.append("MEM %s ?" % spot(at))
        elif machine.intended(at):
            lines.append("MEM %s %09o" % (spot(at), machine.intended(at)))
    return lines


def wrong_lines(machine: Voted) -> list[str]:
    """The lines WRONG."""
    return ["WRONG %d %d %d" % (m + 1, c + 1, count) for m, counts in enumerate(machine.differed) for c, count in enumerate(counts)
            if count]


def text_of(lines: Sequence[str]) -> str:
    """The text of lines."""
    return "".join(line + "\n" for line in lines)


def front(title: str, machine: Machine) -> str:
    """A report without its last two parts."""
    return text_of([title, end_line(machine.end)] + register_lines(machine) + log_lines(machine.log) + memory_lines(machine))


def report(title: str, machine: Voted) -> str:
    """The report of a voted machine."""
    return front(title, machine) + text_of(wrong_lines(machine) + repair_lines(machine.repairs))


def soak_text(number: int, machine: Voted) -> str:
    """The text of a soak run."""
    return text_of(["LVDC SOAK %d" % number, end_line(machine.end), "TIMES %d" % machine.times, "A %09o" % machine.registers()[1],
                    "WRONG %d" % sum(sum(counts) for counts in machine.differed), "REPAIRS %d" % len(machine.repairs)])


# ---- debug sessions


class Session:
    """Answers commands over a guarded machine."""

    def __init__(self, machine: Voted, limit: int) -> None:
        self.machine, self.limit = machine, limit
        self.breaks: list[Place] = []

    def text(self, commands: Sequence[str]) -> str:
        """The text of the session of these commands."""
        lines = ["LVDC DEBUG"]
        for command in commands:
            lines += ["> " + command.strip(BLANKS)] + self.answer(tokens_of(command))
        return text_of(lines)

    def answer(self, tokens: list[str]) -> list[str]:
        """The lines that a command is answered."""
        word, rest = tokens[0], tokens[1:]
        if word == "STEP" and len(rest) == 1:
            count = plain_decimal(rest[0])
            if count is not None and 1 <= count <= 1_000_000:
                return self.steps(count)
        if word == "GO" and not rest:
            return self.go()
        if word == "REGS" and not rest:
            return register_lines(self.machine)
        if word == "BREAK" and len(rest) == 4:
            return self.set_break(self.spot(rest))
        if word == "MEM" and len(rest) == 4:
            return self.memory(self.spot(rest[:2] + ["0"] + rest[2:3]), plain_decimal(rest[3]))
        if word == "DIS" and len(rest) == 5:
            return self.instructions(self.spot(rest[:4]), plain_decimal(rest[4]))
        if word == "COPIES" and len(rest) == 1 and re.fullmatch("[1-7]", rest[0]):
            return self.copies(int(rest[0]))
        return ["BAD COMMAND"]

    def spot(self, fields: list[str]) -> Place | None:
        """(bank, sector, location) and syllable of p ss s lll, or None."""
        p, ss, s, lll = (octal(text, digits, below) for text, digits, below in zip(fields, (1, 2, 1, 3), (4, 16, 2, 256)))
        return None if p is None or ss is None or s is None or lll is None else ((p, ss, lll), s)

    def steps(self, count: int) -> list[str]:
        """STEP."""
        asked = self.machine.times + count
        self.machine.run(min(asked, self.limit))
        return [self.where_it_went(self.machine.times == asked)]

    def go(self) -> list[str]:
        """GO."""
        while self.machine.end is None and self.machine.times < self.limit:
            self.machine.run(self.machine.times + 1)
            if self.machine.end is None and not hold(self.machine.votes) and self.at_break():
                return [self.where_it_went(True)]
        return [self.where_it_went(False)]

    def at_break(self) -> bool:
        """Does the machine stand at a breakpoint?"""
        hop = self.machine.registers()[0]
        return (fetch_address(hop, self.machine.opening.simplex), hop.syl) in self.breaks

    def where_it_went(self, all_done: bool) -> str:
        """The end, the limit, or where the machine stands."""
        if self.machine.end is not None:
            return end_line(self.machine.end)
        if not all_done:
            return "LIMIT %d" % self.machine.times
        return "AT %d" % self.machine.times + register_lines(self.machine)[1][len("PLACE"):]

    def set_break(self, where: Place | None) -> list[str]:
        """BREAK."""
        if where is None:
            return ["BAD COMMAND"]
        if where not in self.breaks:
            if len(self.breaks) == 16:
                return ["BREAKS FULL"]
            self.breaks.append(where)
        return ["BREAKS %d" % len(self.breaks)]

    @staticmethod
    def range_of(where: Place | None, count: int | None) -> list[Place]:
        """The places of a command; none where they leave the sector."""
        if where is None or count is None or not 1 <= count <= 256 or where[0][2] + count > 256:
            return []
        return [((where[0][0], where[0][1], where[0][2] + k), where[1]) for k in range(count)]

    def memory(self, where: Place | None, count: int | None) -> list[str]:
        """MEM."""
        return ["MEM %s %s" % (spot(at), "%09o" % self.machine.intended(at) if self.machine.is_known(at) else "?")
                for at, _ in self.range_of(where, count)] or ["BAD COMMAND"]

    def instructions(self, where: Place | None, count: int | None) -> list[str]:
        """DIS."""
        return [self.instruction(at, syl) for at, syl in self.range_of(where, count)] or ["BAD COMMAND"]

    def instruction(self, at: Address, syl: int) -> str:
        """The line of an instruction."""
        line = "%o %02o %o %03o " % (at[0], at[1], syl, at[2])
        if not self.machine.is_known(at):
            return line + "?"
        word = self.machine.intended(at)
        syllable = word >> 13 if syl else word & 0o17777
        return line + "%05o %s" % (syllable, written(syllable))

    def copies(self, module: int) -> list[str]:
        """COPIES."""
        return ["COPY %d %d %s" % (module, c + 1, " ".join("%09o" % latch for latch in state))
                for c, state in enumerate(self.machine.copies[module - 1])]
