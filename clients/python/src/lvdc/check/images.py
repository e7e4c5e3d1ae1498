"""An image whose line is refused: what of it is asked again.

A line of words is refused by itself, by the banks that the heading has, or beside the line right above it. So the words above a refused line
are left out, and that line where it has no form: what is refused then is told of the file itself, and one wrong address is told once."""
from lvdc.lines import tokens

_NO_WORD = "000000000"
_ALL_BANKS = "SIMPLEX 0 1 2 3"
_PAST_ADDRESS = len("0 00 000 ")


def mend_image(lines: list[str], image: range, cause: str, at: int, left_out: set[int]) -> bool:
    """Mends the line of a refusal, from 0, or puts into `left_out` which lines aren't asked again; False where what comes then would
    say nothing of the file."""
    has_start = lines[image.start] == "LVDC 2"
    is_start, is_third = has_start and at == image.start + 1, has_start and at == image.start + 2
    if at == image.start or (tokens(lines[at])[:1] == ["SIMPLEX"] and not is_third):
        return False
    if is_start:
        lines[at] = f"START {_NO_WORD}"
    elif tokens(lines[at]) == ["END"]:
        lines[at] = "END"
    elif cause == "BadWord":
        lines[at] = f"{lines[at][:_PAST_ADDRESS]}{_NO_WORD}"
    elif is_third and cause == "BadImageLine":
        lines[at] = _ALL_BANKS
    else:
        left_out.update(range(_first_of_words(lines, image), at + (cause == "BadImageLine")))
    return True


def _first_of_words(lines: list[str], image: range) -> int:
    """The first line behind the heading."""
    if lines[image.start] != "LVDC 2":
        return image.start + 1
    return image.start + (3 if lines[image.start + 2].startswith("SIMPLEX") else 2)
