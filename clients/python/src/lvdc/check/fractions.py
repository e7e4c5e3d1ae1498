"""Fractions as words: 0.75B0 is the number 0.75 with no binary place before the point, and 6.5B3 is 6.5 divided by 2^3."""
import re
from fractions import Fraction

from lvdc.errors import Error
from lvdc.values import Word

_FORM = re.compile(r"([+-]?[0-9]{1,12}(?:\.[0-9]{1,12})?)(?:B([0-9]{1,2}))?")
_PLACES, _MOST_SCALE = Word.BITS - 1, 25


class BadFraction(Error):
    """What is no fraction of a word."""


def fraction_line(text: str) -> str:
    """The word of a fraction, as a line of a source has it, and how far it is from the number."""
    found = _FORM.fullmatch(text)
    if found is None or int(found[2] or 0) > _MOST_SCALE:
        raise BadFraction(f"{text} is no fraction: it is a decimal number, and behind B how many binary places stand before the point, as 0.75B0")
    number = Fraction(found[1]) / 2**int(found[2] or 0)
    scaled = round(number * 2**_PLACES)
    if not -2**_PLACES <= scaled < 2**_PLACES:
        least = next((it for it in range(_MOST_SCALE + 1) if -1 <= Fraction(found[1]) / 2**it < 1), None)
        more = f"; {found[1]}B{least} does" if least is not None else ""
        raise BadFraction(f"{text} doesn't fit: a word goes from -1 up to 1 after it is divided by 2^B{more}")
    word = Word.of_signed(scaled)
    away = float(abs(Fraction(scaled, 2**_PLACES) - number) * 2**int(found[2] or 0))
    return f"OCT   {word}   {text}, DEC {scaled}, {'exact' if away == 0 else f'off by {away:.1e}'}"
