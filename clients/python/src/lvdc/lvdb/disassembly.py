"""Memory as a source that is assembled to the same words."""
from collections.abc import Iterator, Mapping, Set
from itertools import groupby

from lvdc.lvdb.operands import by_numbers, can_be_typed
from lvdc.lvdb.places import address_of
from lvdc.lvdb.replays import Decoder
from lvdc.values import Address, Place, Word

_SYLLABLE = (1 << 13) - 1


def source_lines(instructions: Set[Place], words: Mapping[Address, Word | None], decoder: Decoder) -> Iterator[str]:
    """The lines of a source: blocks of code where the instructions stand, all other words as constants.

    Operands are numbers: literals would be placed anew, and what a program changed is seen as it is. A word with an instruction that
    can't be typed, or with something in a half where the program has none, is a constant."""
    code = _code_of(instructions, words, decoder)
    for (bank, sector, syllable), places in _runs(sorted(code, key=lambda it: (it.module, it.sector, it.syllable, it.location))):
        yield f"        ORG   {bank:o},{sector:02o},{syllable},{places[0].location:03o}"
        yield from (f"        {_spaced(code[it])}" for it in places)
    taken = {address_of(it) for it in code}
    constants = sorted(at for at in words if at not in taken)
    for at, first in enumerate(constants):
        before = constants[at - 1] if at else None
        if before is None or (before.bank, before.sector, before.location + 1) != (first.bank, first.sector, first.location):
            yield f"        WORDS {first.bank:o},{first.sector:02o},{first.location:03o}"
        word = words[first]
        yield f"        OCT   {word}" if word is not None else "        BSS   1"
    yield "        END"


def _code_of(places_of_code: Set[Place], words: Mapping[Address, Word | None], decoder: Decoder) -> dict[Place, str]:
    """The instructions that are typed as such, by their places."""
    found: dict[Place, str] = {}
    for address in {address_of(it) for it in places_of_code}:
        word = words.get(address, Word(0))
        places = [Place(address.bank, address.sector, it, address.location) for it in (0, 1)]
        halves = [0 if word is None else int(word) & _SYLLABLE, 0 if word is None else int(word) >> 13]
        there = [(it, half) for it, half in zip(places, halves) if it in places_of_code]
        instructions = decoder.instructions([half for _, half in there])
        is_whole = all(half == 0 for it, half in zip(places, halves) if it not in places_of_code)
        if word is not None and is_whole and all(map(can_be_typed, instructions)):
            found.update((it, by_numbers(instruction)) for (it, _), instruction in zip(there, instructions))
    return found


def _spaced(instruction: str) -> str:
    """An instruction in the columns of a source."""
    mnemonic, operand = instruction.split()
    return f"{mnemonic:6}{operand}"


def _runs(places: list[Place]) -> Iterator[tuple[tuple[int, int, int], list[Place]]]:
    """Places of one syllable that stand behind one another."""
    keyed = [((it.module, it.sector, it.syllable, it.location - at), it) for at, it in enumerate(places)]
    for (bank, sector, syllable, _), group in groupby(keyed, key=lambda it: it[0]):
        yield (bank, sector, syllable), [it for _, it in group]
