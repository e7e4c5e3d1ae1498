"""What the program answers in place of a text: refusals, the usage text, and want of memory."""
import re

from lvdc.errors import Error
from lvdc.lines import sections

_REFUSED = re.compile(r"REFUSED ([A-Za-z]+)(?: ([0-9]+))?\n")


class NoAnswer(Error):
    """A request that has no answer. `status` is the exit status that the program gives it, `text` what it writes."""

    def __init__(self, message: str, status: int, text: str = "") -> None:
        super().__init__(message)
        self.status, self.text = status, text


class Refused(NoAnswer):
    """The input is refused: `cause` as in docs/FORMATS.md, `number` that of the line from 1 (none for ReadFault and TooLong; the port for
    Device), and `line` that line's text, empty where it is one more than the last line."""

    def __init__(self, status: int, text: str, given: str) -> None:
        found = _REFUSED.fullmatch(text)
        if found is None:
            raise ValueError(f"{text[:120]!r} is no refusal")
        self.cause = found[1]
        digits = found[2]
        is_port = self.cause == "Device"
        self.number = None if digits is None else int(digits, 8 if is_port else 10)
        lines = sections(given)
        self.line = lines[self.number - 1] if self.number is not None and not is_port and 0 < self.number <= len(lines) else ""
        if is_port:
            message = f"the device at port {digits} failed"
        else:
            message = self.cause if digits is None else f"{self.cause} at line {digits}: {self.line!r}"
        super().__init__(message, status, text)

    def __str__(self) -> str:
        return str(self.args[0])


class NotACommand(NoAnswer):
    """The words are none that this program answers: it has written its usage text."""

    def __init__(self, words: str, text: str) -> None:
        super().__init__(f"the worker answers no {words!r}; it may be older than this package", 1, text)


class NoMemory(NoAnswer):
    """The program found no memory for the input or the answer."""

    def __init__(self, words: str) -> None:
        super().__init__(f"the worker found no memory to answer {words!r}", 9)
