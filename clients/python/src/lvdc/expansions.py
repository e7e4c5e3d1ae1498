"""Sources that were written out from those with macros."""
from dataclasses import dataclass, field
from typing import Self

from lvdc.lines import Lines


@dataclass(frozen=True, slots=True, repr=False)
class Expansion:
    """The lines of a source without macros."""

    lines: tuple[str, ...]
    text: str = field(repr=False, compare=False)

    @classmethod
    def read(cls, text: str) -> Self:
        """Reads the lines, each of which ends with LF."""
        lines = Lines(text)
        found: list[str] = []
        while (line := lines.take()) is not None:
            found.append(line)
        return cls(tuple(found), text)

    def __repr__(self) -> str:
        return f"<Expansion of {len(self.lines)} lines>"

    def __str__(self) -> str:
        return "".join(f"{it}\n" for it in self.lines)
