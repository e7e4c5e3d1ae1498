"""Image texts: the words with which memory is filled."""
from collections.abc import Mapping
from dataclasses import dataclass, field
from typing import Self

from lvdc.frozen import Frozen
from lvdc.lines import ADDRESS, WORD, Lines, pattern
from lvdc.values import Address, Hop, Word

_VERSION = pattern("LVDC", "([12])")
_START = pattern("START", WORD)
_SIMPLEX = pattern("SIMPLEX", "([0-3](?: [0-3]){0,3})")
_LINE = pattern(ADDRESS, WORD)
_END = pattern("END")


@dataclass(frozen=True, slots=True, repr=False)
class Image:
    """Words by their addresses, and of version 2 a start constant and the simplex pairs. Words may be given as plain numbers.

    The addresses rise in the text, whatever order they are given in. Raises ValueError where a word or a pair is none, TypeError where
    an address is no Address.

    >>> from lvdc import Address, Image
    >>> print(Image({Address(0, 1, 0): 5, Address(0, 0, 0): 0o17000}), end="")
    LVDC 1
    0 00 000 000017000
    0 01 000 000000005
    END
    """

    words: Mapping[Address, int] = field(default_factory=dict)
    start: Hop | None = None
    simplex: tuple[int, ...] = ()

    def __post_init__(self) -> None:
        if not isinstance(self.words, Mapping):
            raise TypeError(f"an Image is made of words by their addresses, as {{Address(0, 0, 0): 0o17000}}, not {self.words!r:.60}: "
                            "of a text, Image.read(text)")
        for address in self.words:
            if not isinstance(address, Address):
                raise TypeError(f"the words of an Image stand at an Address, as Address(0, 1, 0), not at {address!r}")
        rising = {address: Word(self.words[address]) for address in sorted(self.words)}
        object.__setattr__(self, "words", Frozen(rising))
        if self.simplex and self.start is None:
            raise ValueError("an image with simplex pairs has a start constant too")
        if list(self.simplex) != sorted(set(self.simplex) & {0, 1, 2, 3}):
            raise ValueError(f"simplex pairs are 0 to 3 and rise, not {self.simplex}")
        for address in rising:
            if address.bank >= 4 and address.bank - 4 not in self.simplex:
                raise ValueError(f"bank {address.bank} is there only where pair {address.bank - 4} is simplex")

    @classmethod
    def read(cls, text: str) -> Self:
        """Reads an image text whole."""
        lines = Lines(text)
        image = cls.take(lines)
        lines.end()
        return image

    @classmethod
    def take(cls, lines: Lines) -> Self:
        """Reads the lines of an image, up to its END."""
        start: Hop | None = None
        simplex: tuple[int, ...] = ()
        if lines.need(_VERSION, "LVDC 1 or LVDC 2")[1] == "2":
            start, simplex = _take_start(lines)
        words: dict[Address, int] = {}
        for address, found in lines.rising(_LINE, lambda it: Address.read(it[1])):
            if address.bank >= 4 and address.bank - 4 not in simplex:
                raise lines.fault("a bank that is there")
            words[address] = Word.read(found[2])
        lines.need(_END, "a word line or END")
        return cls(words, start, simplex)

    def __repr__(self) -> str:
        return f"<Image of {len(self.words)} words>"

    def __str__(self) -> str:
        head = [f"LVDC {1 if self.start is None else 2}", *([] if self.start is None else [f"START {self.start}"])]
        head += [" ".join(["SIMPLEX", *map(str, self.simplex)])] if self.simplex else []
        return "".join(f"{it}\n" for it in [*head, *(f"{at} {word}" for at, word in self.words.items()), "END"])


def _take_start(lines: Lines) -> tuple[Hop, tuple[int, ...]]:
    """The start constant and the simplex pairs of version 2."""
    word = Word.read(lines.need(_START, "START and a constant")[1])
    if word & 1:
        raise lines.fault("a constant with spare bit 0")
    found = lines.may(_SIMPLEX)
    pairs = tuple(map(int, found[1].split(" "))) if found else ()
    if list(pairs) != sorted(set(pairs)):
        raise lines.fault("pairs that rise")
    return Hop.of(word), pairs
