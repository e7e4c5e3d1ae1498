"""Which line of a source with macros each line of its expansion comes from: the one that calls, and the one of the definition.

The proved program says the lines of an expansion, and not whence they come. Here they are written out once more, by the rules of
docs/ASSEMBLER.md, and both must be the same line by line."""
import re
from collections.abc import Iterator, Sequence
from dataclasses import dataclass, field
from typing import NamedTuple

from lvdc.parts import Parts

_DEEPEST = 16
_PUT_IN = re.compile("&[0-9]")


class Written(NamedTuple):
    """A line of an expansion: the number of the line of the source, which for what is written out is that of the outermost call; and the
    number of the line of the definition, 0 where it isn't written out."""

    line: str
    number: int
    body: int


@dataclass
class _Writer:
    """Writes out line after line; `macros` are the bodies of those that were ended so far, each line with its number."""

    macros: dict[str, list[tuple[int, str]]] = field(default_factory=dict)
    calls: int = 0

    def written(self, line: str, number: int, body: int = 0, depth: int = 0) -> Iterator[Written]:
        """What a line comes to."""
        parts = Parts.of(line)
        if parts.operation not in self.macros or depth == _DEEPEST:
            yield Written(line, number, body)
            return
        self.calls += 1
        put_in = [f"{self.calls:03d}", *(parts.operand.split(",") if parts.operand else [])]
        for at, it in self.macros[parts.operation]:
            replaced = _PUT_IN.sub(lambda found: put_in[int(found[0][1])] if int(found[0][1]) < len(put_in) else "", it)
            yield from self.written(replaced, number, at, depth + 1)


def written_out(lines: Sequence[str]) -> list[Written]:
    """The lines of the expansion of a source that isn't refused."""
    writer = _Writer()
    found: list[Written] = []
    name: str = ""
    body: list[tuple[int, str]] = []
    for number, line in enumerate(lines, 1):
        parts = Parts.of(line)
        if parts.operation == "MACRO":
            name, body = parts.label, []
        elif parts.operation == "MEND":
            writer.macros[name] = body
            name = ""
        elif name:
            body.append((number, line))
        else:
            found += writer.written(line, number)
    return found
