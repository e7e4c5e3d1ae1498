"""Memory as a client of the protocol reads it: bytes, and instructions at numbers.

A word is ten bytes: its nine octal digits and a space, so that a view of bytes shows octal words. The bytes are numbered by bank, sector
and location; an instruction has a number by bank, sector, syllable and location."""
import base64
import re

from lvdc.lvdb.errors import CommandError
from lvdc.lvdb.places import address_of
from lvdc.lvdb.session import SYLLABLE, Debugger
from lvdc.values import Address, Place, Word

BYTES_OF_WORD = 10
_SECTORS, _LOCATIONS, _SYLLABLES = 16, 256, 2
_WORDS = 8 * _SECTORS * _LOCATIONS
_MOST_WORDS, _MOST_INSTRUCTIONS = 4_096, 4_096
_NUMBER = re.compile("0x[0-9a-f]{1,8}")


def number_of_place(place: Place) -> str:
    """The number of an instruction."""
    return hex(((place.module * _SECTORS + place.sector) * _SYLLABLES + place.syllable) * _LOCATIONS + place.location)


def place_of_number(number: int) -> Place | None:
    """The instruction of a number; None where there is none."""
    rest, location = divmod(number, _LOCATIONS)
    rest, syllable = divmod(rest, _SYLLABLES)
    module, sector = divmod(rest, _SECTORS)
    return Place(module, sector, syllable, location) if 0 <= module < 8 else None


def _address(number: int) -> Address:
    """The word of a number."""
    rest, location = divmod(number, _LOCATIONS)
    return Address(rest // _SECTORS, rest % _SECTORS, location)


def read_bytes(debugger: Debugger, reference: str, offset: int, count: int) -> tuple[str, str, int]:
    """The number of the first byte that is read, the bytes in base 64, and how many can't be read."""
    if _NUMBER.fullmatch(reference):
        first = int(reference, 16)
    else:
        at = debugger.program.find_address(reference.split())
        first = ((at.bank * _SECTORS + at.sector) * _LOCATIONS + at.location) * BYTES_OF_WORD
    first += offset
    past = min(first + count, _WORDS * BYTES_OF_WORD, first + _MOST_WORDS * BYTES_OF_WORD)
    if not 0 <= first < past:
        return hex(max(first, 0)), "", count
    numbers = range(first // BYTES_OF_WORD, -(-past // BYTES_OF_WORD))
    words = debugger.replay.words(debugger.position, [_address(it) for it in numbers])
    text = "".join(f"{'?' * Word.DIGITS if it is None else it} " for it in words)
    at_first = first - numbers[0] * BYTES_OF_WORD
    told = text[at_first:at_first + past - first].encode("ascii")
    return hex(first), base64.b64encode(told).decode("ascii"), count - len(told)


def disassembled(debugger: Debugger, reference: str, first: int, count: int) -> list[dict[str, object]]:
    """So many instructions from one on that stands so far behind another; where there is none it is said."""
    if not _NUMBER.fullmatch(reference):
        raise CommandError(f"{reference!r} is no number of an instruction: it is that of a frame")
    if not 0 <= count <= _MOST_INSTRUCTIONS:
        raise CommandError(f"{_MOST_INSTRUCTIONS} instructions are shown at most")
    begin = int(reference, 16) + first
    places = [place_of_number(it) for it in range(begin, begin + count)]
    there = [it for it in places if it is not None]
    words = dict(zip(there, debugger.replay.words(debugger.position, [address_of(it) for it in there])))
    halves = {it: None if word is None else int(word) >> 13 if it.syllable else int(word) & SYLLABLE for it, word in words.items()}
    return [_row(debugger, begin + at, it, None if it is None else halves[it]) for at, it in enumerate(places)]


def _row(debugger: Debugger, number: int, place: Place | None, syllable: int | None) -> dict[str, object]:
    """An instruction, with its line."""
    if place is None or syllable is None:
        return {"address": hex(max(number, 0)), "instruction": "?" if place else "no memory", "presentationHint": "invalid"}
    line, label = debugger.program.line_of(place), debugger.program.label(place)
    return {"address": hex(number), "instructionBytes": f"{syllable:05o}", "instruction": debugger.named(syllable, place),
            **({"line": line} if line is not None else {}), **({"symbol": label} if label else {})}
