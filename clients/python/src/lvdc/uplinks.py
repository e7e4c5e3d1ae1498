"""Answers of an uplink, and the image that its loads made."""
from dataclasses import dataclass, field
from typing import Self, TypeAlias

from lvdc.images import Image
from lvdc.lines import NUMBER, WORD, Lines, pattern
from lvdc.values import Word

_ACK = pattern("ACK", rf"(?:FRAME {NUMBER} {NUMBER}|(OPEN|COMMIT|ABANDON) {NUMBER})")
_NAK = pattern("NAK", rf"(?:(Form|NoLoad|Range)|(Busy|Old|Differs|Missing) {NUMBER}|Check {WORD})")


@dataclass(frozen=True, slots=True)
class Ack:
    """A message was taken: OPEN, FRAME (with the frame's number), COMMIT or ABANDON of a load."""

    message: str
    load: int
    frame: int | None = None

    def __str__(self) -> str:
        return f"ACK {self.message} {self.load}" + ("" if self.frame is None else f" {self.frame}")


@dataclass(frozen=True, slots=True)
class Nak:
    """A message wasn't taken: Form, NoLoad, Range; Busy or Old with a load's number, Differs or Missing with a frame's, Check with the right
    check word."""

    cause: str
    number: int | None = None
    check: Word | None = None

    def __str__(self) -> str:
        named = self.number if self.check is None else self.check
        return f"NAK {self.cause}" + ("" if named is None else f" {named}")


UplinkAnswer: TypeAlias = Ack | Nak


@dataclass(frozen=True, slots=True)
class Uplink:
    """An answer for each message, and the image afterwards."""

    answers: tuple[UplinkAnswer, ...]
    image: Image
    text: str = field(repr=False, compare=False)

    @classmethod
    def read(cls, text: str) -> Self:
        """Reads the answers and the image whole."""
        lines = Lines(text)
        answers: list[UplinkAnswer] = []
        while (answer := _answer(lines)) is not None:
            answers.append(answer)
        image = Image.take(lines)
        lines.end()
        return cls(tuple(answers), image, text)

    def __str__(self) -> str:
        return "".join(f"{it}\n" for it in self.answers) + str(self.image)


def _answer(lines: Lines) -> UplinkAnswer | None:
    """The next answer, where there is one."""
    if (found := lines.may(_ACK)) is not None:
        return Ack("FRAME", int(found[1]), int(found[2])) if found[1] else Ack(found[3], int(found[4]))
    if (found := lines.may(_NAK)) is None:
        return None
    if found[4]:
        return Nak("Check", check=Word.read(found[4]))
    return Nak(found[1]) if found[1] else Nak(found[2], int(found[3]))
