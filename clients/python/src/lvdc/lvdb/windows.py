"""Pieces of traces, kept as text: a piece is searched by its lines, and a step of it is read where it is shown."""
import re
from collections.abc import Callable, Iterator
from dataclasses import dataclass
from functools import cached_property
from itertools import pairwise

from lvdc.ends import End
from lvdc.steps import Latches, Step
from lvdc.traces import Trace
from lvdc.values import MODULES, Word

_TITLE = "LVDC TRACE\n"
_STEP = re.compile("\nSTEP ")


@dataclass(frozen=True)
class Window:
    """The steps from `first` on that a trace tells, as text."""

    first: int
    text: str

    @cached_property
    def count(self) -> int:
        """How many steps it tells."""
        return _last_step(self.text) - self.first + 1 if "\nSTEP " in self.text else 0

    @property
    def past(self) -> int:
        """The step after the last that it tells."""
        return self.first + self.count

    @cached_property
    def end(self) -> End | None:
        """How the run ended with it; None where it goes on."""
        last = self.text.rfind("\n", 0, len(self.text) - 1)
        return Trace.read(_TITLE + self.text[last + 1:]).end

    def step(self, number: int) -> Step:
        """A step that it tells."""
        at = self._start_of(number)
        return Trace.read(f"{_TITLE}{self.text[at:self._start_of(number + 1)]}MORE\n").steps[0]

    def latch(self, number: int, module: int, index: int) -> Word:
        """The vote over one latch after a step that it tells."""
        at = self.text.rfind(f"\nVOTE {module} ", 0, self._start_of(number + 1)) + len("\nVOTE 1 ") + 10 * index
        return Word.read(self.text[at:at + 9])

    def votes(self, number: int) -> dict[int, Latches]:
        """The votes of all modules after a step that it tells: of each module the line that was told last."""
        end = self._start_of(number + 1)
        starts = [self.text.rfind(f"\nVOTE {module} ", 0, end) + 1 for module in MODULES]
        lines = "".join(self.text[at:self.text.index("\n", at) + 1] for at in starts)
        return dict(Trace.read(f"{_TITLE}STEP {number}\n{lines}MORE\n").steps[0].votes)

    def told(self, beginning: str) -> Iterator[tuple[int, str, str]]:
        """Each line that begins so: its step, its next 19 bytes, and what stands before it from the line of this kind before it on."""
        for before, line in pairwise(self.text.split(f"\n{beginning}")):
            yield _last_step(before), line[:19], before

    def spans(self, is_due: Callable[[str], bool]) -> Iterator[range]:
        """The steps after which PLACE has digits that are looked for, the first such steps first."""
        pieces = self.text.split("\nVOTE 2 ")
        for at in range(1, len(pieces)):
            if is_due(pieces[at][:9]):
                yield range(_last_step(pieces[at - 1]), _last_step(pieces[at]) if at + 1 < len(pieces) else self.past)

    def _start_of(self, number: int) -> int:
        """Where the line of a step begins; that of the last line, where it is one more than the last step."""
        if number == self.past:
            return self.text.rfind("\n", 0, len(self.text) - 1) + 1
        return self._starts[number - self.first]

    @cached_property
    def _starts(self) -> list[int]:
        """Where the line of each step begins."""
        return [it.start() + 1 for it in _STEP.finditer(self.text)]


def _last_step(text: str) -> int:
    """The number on the last line STEP of a text, which may end with that line and without its LF."""
    return int(text[text.rfind("\nSTEP ") + 6:].split("\n", 1)[0])
