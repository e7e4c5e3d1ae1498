"""All refusals of a file: the line that is refused is mended and the program asked again, as far as what follows is told of the file itself.

A mended line keeps its label, its place and its size, so names and blocks stand where they stood. Where that can't be kept the search
ends, and says so."""
import difflib
import re
from collections.abc import Iterator, Sequence
from dataclasses import dataclass, field, replace

from lvdc import commands
from lvdc.check.images import mend_image
from lvdc.check.slips import LABEL, OPERAND, OPERATION, Slip, block_at, name_in, slip_of
from lvdc.lines import sections, tokens
from lvdc.parts import CONSTANTS, DIRECTIVES, OPERATIONS, Parts
from lvdc.refusals import Refused
from lvdc.workers import Asker

MOST_FINDINGS = 20
_NO_NAME, _LONGEST_NAME = re.compile("[^A-Z0-9]"), 8
_OF_ASSEMBLY = 3
_FILLER = {"CODE": "HOP   000", "WORDS": "OCT   0"}
# refusals of a deck whose line can be left out, those of an image, and all else: of each what to look at first
_LEFT_OUT = {
    "BadLine": "The line hasn't the form of its section: count its fields, and look for a digit 8 or 9, a leading zero, a small letter, a step or a "
               "number out of range; no comment stands behind it.",
    "NoDevice": "TAPE wants a tape, at a port from 000 to 013; UNPLUG a device, from 000 to 017."}
_OF_IMAGES = {
    "BadImageLine": "A line of an image has 1, 2, 3 and 9 octal digits with single blanks, and nothing else.",
    "AddressOrder": "The address doesn't come after the one above it: sort the lines.",
    "BadWord": "A word is 377777777 at most."}
_ALL_ELSE = {
    "NoProgram": "A deck begins with IMAGE or SOURCE alone on its line.",
    "BadSection": "After END come START, SIMPLEX, PORTS, FAULTS, ORDER, RUN and DEBUG, each once at most and in this order; RUN has to be there.",
    "CountTooLarge": "RUN has 1000000 at most.", "TooManyEvents": "There are 65,536 fault lines at most.",
    "TooLong": "The file is above 1,048,576 bytes."}
_NO_END = "The program's END is missing, alone on its line."


@dataclass(frozen=True, slots=True)
class Finding:
    """A refusal: its cause, its line from 1 with the text, and the slip; `is_last` where what follows couldn't be looked at."""

    cause: str
    number: int
    line: str
    slip: Slip
    is_last: bool = False

    @property
    def column(self) -> int | None:
        """Where the field begins that is wrong, from 0."""
        return None if self.slip.field is None or not self.line else Parts.of(self.line).columns[self.slip.field]


@dataclass
class _File:
    """A file as it is mended: its lines, and which of them are those of the source, first and past the last, from 0, or those of the image,
    and of these the ones that aren't asked again. `asked` has the number in the file of each line that was asked last."""

    lines: list[str]
    kind: str
    first: int = 0
    past: int = 0
    image: range = range(0)
    left_out: set[int] = field(default_factory=set)
    asked: list[int] = field(default_factory=list)

    @property
    def source(self) -> list[str]:
        """The lines of the source."""
        return self.lines[self.first:self.past]

    @property
    def has_macros(self) -> bool:
        """Whether the source defines macros."""
        return any(Parts.of(it).operation == "MACRO" for it in self.source)

    def number_of(self, number: int) -> int:
        """The number in the file of a line that was asked."""
        return self.asked[number - 1] if 0 < number <= len(self.asked) else max(self.asked, default=0) + 1

    def ask(self, asker: Asker) -> None:
        """Asks the program. Raises Refused."""
        numbers = [it for it in range(1, len(self.lines) + 1) if it - 1 not in self.left_out]
        if self.image:
            self.asked = numbers if self.kind == "deck" else [1, *numbers, len(self.lines) + 1]
            text = _joined([self.lines[it - 1] for it in numbers])
            commands.form(text if self.kind == "deck" else f"IMAGE\n{text}RUN 0\n", worker=asker)
            return
        if self.kind == "source" or self.has_macros:
            self.asked = numbers[self.first:self.past]
            commands.assemble_image(_joined(self.source), macros=True, worker=asker)
        if self.kind == "source":
            return
        written = list(commands.expand(_joined(self.source), worker=asker).lines) if self.has_macros else self.source
        self.asked = [*numbers[:self.first], *([0] * len(written) if self.has_macros else numbers[self.first:self.past]), *numbers[self.past:]]
        commands.form(_joined([*self.lines[:self.first], *written, *self.lines[self.past:]]), worker=asker)


def _joined(lines: Sequence[str]) -> str:
    """Lines as a text."""
    return "".join(f"{it}\n" for it in lines)


def file_of(text: str) -> _File:
    """A deck, an image or a source."""
    lines = sections(text)
    first: list[str] = next((tokens(it) for it in lines if tokens(it) and not it.startswith("*")), [])
    if first[:1] == ["LVDC"]:
        return _File(lines, "image", image=range(len(lines)))
    if first not in (["IMAGE"], ["SOURCE"]):
        return _File(lines, "source", 0, len(lines))
    heading = next(at for at, it in enumerate(lines) if tokens(it) in (["IMAGE"], ["SOURCE"]))
    end = next((at for at, it in enumerate(lines) if at > heading and tokens(it) == ["END"]), len(lines) - 1)
    return _File(lines, "deck", heading + 1, end + 1) if first == ["SOURCE"] else _File(lines, "deck", image=range(heading + 1, end + 1))


def findings_of(text: str, asker: Asker) -> Iterator[Finding]:
    """The refusals of a text."""
    file, lost = file_of(text), set[str]()
    written = list(file.lines)
    for _ in range(MOST_FINDINGS):
        try:
            file.ask(asker)
            return
        except Refused as refused:
            found = finding_of(file, refused)
        is_mended = _mend(file, found, lost)
        is_own = found.cause in ("UndefinedName", "OutOfSector") and name_in(Parts.of(found.line).operand)[:_LONGEST_NAME] in lost
        if not is_own:
            line = written[found.number - 1] if 0 < found.number <= len(written) else found.line
            yield replace(found, line=line, is_last=not is_mended)
        if not is_mended:
            return


def told_of(text: str, refused: Refused) -> Finding:
    """The refusal of a text that was asked elsewhere."""
    file = file_of(text)
    file.asked = list(range(1, len(file.lines) + 1))
    return finding_of(file, refused)


def finding_of(file: _File, refused: Refused) -> Finding:
    """A refusal with the line of the file."""
    number = 0 if refused.number is None else file.number_of(refused.number)
    line = file.lines[number - 1] if 0 < number <= len(file.lines) else ""
    if refused.status == _OF_ASSEMBLY and file.first < number <= file.past + 1:
        return Finding(refused.cause, number, line, slip_of(refused.cause, number - file.first, file.source))
    sentence = {**_LEFT_OUT, **_OF_IMAGES, **_ALL_ELSE}.get(refused.cause, "")
    if refused.cause in ("UndefinedName", "OutOfSector"):
        sentence = "START wants the name of a line of code."
    if refused.cause == "BadSection" and number == (1 if file.kind == "image" else max(file.first, file.image.start)):
        sentence = _NO_END
    return Finding(refused.cause, number, line, Slip(sentence))


# ---- mending

def _mend(file: _File, found: Finding, lost: set[str]) -> bool:
    """Mends the line of a refusal; False where what comes then would say nothing of the file."""
    at = found.number - 1
    if found.cause == "MissingEnd":
        file.lines.insert(file.past, "        END")
        file.past += 1
        return True
    if not 0 <= at < len(file.lines):
        return False
    if found.cause in _LEFT_OUT:
        file.lines[at] = "*"
        return True
    if found.cause in _OF_IMAGES:
        return at in file.image and mend_image(file.lines, file.image, found.cause, at, file.left_out)
    if found.cause == "BadSection" and file.kind == "image" and at == 0:
        file.lines.append("END")
        file.image = range(len(file.lines))
        return True
    parts = Parts.of(found.line)
    if not file.first <= at < file.past or _is_of_macros(file, parts):
        return False
    mended = _mended(found, parts, block_at(found.number - file.first, file.source))
    if mended is None:
        return False
    if found.cause in ("BadLabel", "UnknownOperation", "BadDirective") and parts.label:
        lost.add(_NO_NAME.sub("", parts.label.upper())[:_LONGEST_NAME])
    file.lines[at] = mended
    return True


def _is_of_macros(file: _File, parts: Parts) -> bool:
    """Whether a line is one of a definition, or a call: what it comes to isn't kept by any line in its place."""
    return any(Parts.of(it).operation == "MACRO" for it in file.source) and parts.operation not in OPERATIONS


def _mended(found: Finding, parts: Parts, block: str) -> str | None:
    """A line that isn't refused, with the same label and of the same size; None where there is none."""
    filler = _FILLER.get(block)
    label = parts.label if parts.label and found.slip.field != LABEL else ""
    match found.cause:
        case "LineTooLong":
            end = parts.columns[OPERAND] + len(parts.operand)
            return found.line[:end] if len(found.line[:end].encode("utf-8", "surrogateescape")) <= 120 else None
        case "AfterEnd":
            return "*"
        case "BadLabel" | "DuplicateName":
            return " " * len(parts.label) + found.line[len(parts.label):]
        case "UnknownOperation" if found.slip.field == LABEL or not difflib.get_close_matches(parts.operation, DIRECTIVES, 1):
            return f"{label:8}{filler}" if filler else "*"
        case "BadDirective" if parts.operation == "BSS" and block == "WORDS":
            return f"{label:8}BSS   1"
        case "BadDirective" if found.slip.field == OPERATION and (filler or parts.operation in CONSTANTS):
            return f"{label:8}{filler}" if filler else "*"
        case "BadOperand" | "ExecuteModified" | "UndefinedName" | "OutOfRange" | "OutOfSector" if filler and parts.operation not in DIRECTIVES:
            return f"{label:8}{filler}"
    return None
