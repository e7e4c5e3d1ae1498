"""What the commands work on: a debugger, and what the one who sits at it has asked to see."""
from collections.abc import Iterator
from dataclasses import dataclass, field

from lvdc.lvdb.errors import CommandError
from lvdc.lvdb.expressions import Words, addresses_in, evaluate, in_all_forms
from lvdc.lvdb.session import Debugger, Stop
from lvdc.lvdb.show import Style, stop_lines
from lvdc.values import Address, Word


class Leave(Exception):
    """The session is over."""


@dataclass
class Console:
    """A debugger with expressions that are shown at each stop, and the line at which `list` goes on."""

    debugger: Debugger
    style: Style = field(default_factory=Style)
    displays: dict[int, str] = field(default_factory=dict)
    last_display: int = 0
    next_line: int | None = None

    def stopped(self, stop: Stop) -> Iterator[str]:
        """What is shown after a command that moved."""
        self.next_line = None
        yield from stop_lines(self.debugger, stop, self.style)
        yield from self.display_lines()

    def display_lines(self) -> Iterator[str]:
        """The expressions that are shown at each stop."""
        addresses = [at for text in self.displays.values() for at in addresses_in(text, self.debugger.program)]
        if addresses:
            self.debugger.replay.words(self.debugger.position, addresses)
        for number, text in self.displays.items():
            yield f"{number}: {text} = {in_all_forms(self.value(text))}"

    def drop_displays(self) -> Iterator[str]:
        """Takes away the displays that have no meaning any more, and tells them."""
        for number, text in list(self.displays.items()):
            try:
                self.value(text)
            except CommandError as error:
                del self.displays[number]
                yield f"display {number} is gone: {error}"

    def value(self, text: str) -> Word | None:
        """What an expression comes to now."""
        return evaluate(text, Words(self.debugger.program, self.word, self.debugger.state.latch))

    def word(self, address: Address) -> Word | None:
        """A word of memory now."""
        return self.debugger.replay.words(self.debugger.position, [address])[0]
