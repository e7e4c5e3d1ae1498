"""How a run ends, and which step of it is the first that isn't admissible. Steps count from 0, three to an instruction time."""
import functools
import re
from dataclasses import dataclass
from typing import TypeAlias

from lvdc.lines import ADDRESS, MODULE, NUMBER, PORT, uncaptured
from lvdc.values import Address


@dataclass(frozen=True, slots=True)
class Admissible:
    """No step of the run is inadmissible."""

    def __str__(self) -> str:
        return "ADMISSIBLE"


@dataclass(frozen=True, slots=True)
class Logic:
    """In this step two copies of the module are wrong; it is the least such module."""

    step: int
    module: int

    def __str__(self) -> str:
        return f"LOGIC {self.step} {self.module}"


@dataclass(frozen=True, slots=True)
class Memory:
    """In this step the word at the address was to be read, and it can't be recovered."""

    step: int
    address: Address

    def __str__(self) -> str:
        return f"MEMORY {self.step} {self.address}"


Verdict: TypeAlias = Admissible | Logic | Memory
ADMISSIBLE = Admissible()


@dataclass(frozen=True, slots=True)
class Done:
    """All instruction times that were asked for were made."""

    def __str__(self) -> str:
        return "END DONE"


@dataclass(frozen=True, slots=True)
class Stopped:
    """The machine stopped: by SHIFT (a shift without a meaning), by EXM, or by MEMORY (a read found no good cell at the address)."""

    step: int
    cause: str
    address: Address | None = None

    def __str__(self) -> str:
        return f"END STOPPED {self.step} {self.cause}" + (f" {self.address}" if self.address else "")


@dataclass(frozen=True, slots=True)
class Inadmissible:
    """The first step that the machine can't withstand, and why."""

    cause: Logic | Memory

    @property
    def step(self) -> int:
        """The step."""
        return self.cause.step

    def __str__(self) -> str:
        at = f"LOGIC {self.cause.module}" if isinstance(self.cause, Logic) else f"MEMORY {self.cause.address}"
        return f"END INADMISSIBLE {self.cause.step} {at}"


@dataclass(frozen=True, slots=True)
class DeviceFailed:
    """The device at this port failed in an exchange."""

    step: int
    port: int

    def __str__(self) -> str:
        return f"END DEVICE {self.step} {self.port:03o}"


End: TypeAlias = Done | Stopped | Inadmissible | DeviceFailed

END = re.compile(
    rf"END (?:DONE|STOPPED {NUMBER} (SHIFT|EXM|MEMORY {ADDRESS})|INADMISSIBLE {NUMBER} (?:LOGIC {MODULE}|MEMORY {ADDRESS})|DEVICE {NUMBER} {PORT})")
VERDICT = uncaptured(rf"(ADMISSIBLE|LOGIC {NUMBER} {MODULE}|MEMORY {NUMBER} {ADDRESS})")


def end_of(line: re.Match[str]) -> End:
    """The end that a line of the form END says."""
    stopped, cause, at, inadmissible, module, address, failed, port = line.groups()
    if stopped is not None:
        return Stopped(int(stopped), cause.split(" ")[0], Address.read(at) if at else None)
    if inadmissible is not None:
        return Inadmissible(Logic(int(inadmissible), int(module)) if module else Memory(int(inadmissible), Address.read(address)))
    return Done() if failed is None else DeviceFailed(int(failed), int(port, 8))


def read_end(line: str) -> End | None:
    """The end that a line says; None where it says none."""
    found = END.fullmatch(line)
    return None if found is None else end_of(found)


@functools.lru_cache(maxsize=1 << 14)
def verdict_of(text: str) -> Verdict:
    """The verdict that a text of the form VERDICT says; the same few are read again and again."""
    word, *rest = text.split(" ", 2)
    if word == "LOGIC":
        return Logic(int(rest[0]), int(rest[1]))
    return Memory(int(rest[0]), Address.read(rest[1])) if word == "MEMORY" else ADMISSIBLE
