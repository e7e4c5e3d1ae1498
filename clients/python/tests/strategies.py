"""Values, faults and decks that hypothesis draws."""
from hypothesis import strategies as st

from lvdc import Address, Damage, Dead, Deaf, Deck, Fault, Flip, Force, Hop, Image, Lag, Source, Stick, Tape, Unplug, Word
from lvdc.values import LATCHES

LETTERS = "ABCDEFGHIJKLMNOPQRSTU"
LAST_STEP = 2_999_999
BLANK = st.sampled_from(["", "\n", " \t\n", "* a comment\n", "*\n"])

numbers = st.integers
words = st.builds(Word, numbers(0, 2**26 - 1))
masks = numbers(0, 2**28 - 1)
addresses = st.builds(Address, numbers(0, 3), numbers(0, 15), numbers(0, 255))
bits = numbers(0, 1)
hops = st.builds(Hop, numbers(0, 7), numbers(0, 15), bits, numbers(0, 255), numbers(0, 7), numbers(0, 15), bits, bits)
times = numbers(0, 1_000_000)


@st.composite
def faults(draw: st.DrawFn, last: int = LAST_STEP) -> Fault:
    """A fault of any kind whose steps are at most the last."""
    end = draw(numbers(0, last))
    first = draw(numbers(0, end))
    span = first, end
    module, copy, twin, place = draw(numbers(1, 7)), draw(numbers(1, 3)), draw(bits), draw(addresses)
    at = twin, place.bank, place.sector, place.location
    latch = draw(numbers(0, len(LATCHES[module]) - 1))
    made: list[Fault] = [
        Flip(module, copy, *span, latch, draw(words)), Force(module, copy, *span, latch, draw(words), draw(words)), Lag(module, copy, *span),
        Deaf(module, copy, *span), Damage(*at, end, draw(masks)), Stick(*at, *span, draw(masks), draw(masks)), Dead(twin, place.bank, *span)]
    return draw(st.sampled_from(made))


@st.composite
def images(draw: st.DrawFn) -> Image:
    """An image of either version."""
    simplex = tuple(sorted(draw(st.sets(numbers(0, 3)))))
    start = draw(hops if simplex else st.none() | hops)
    contents = draw(st.dictionaries(addresses, words, max_size=8))
    more = {Address(pair + 4, 1, 2): draw(words) for pair in simplex}
    return Image({**contents, **more}, start, simplex)


sources = st.builds(Source, st.sampled_from([" END\n", "* X\n CODE\nA CLA =O1\n END", " WORDS 0,01\nB OCT 7 \u00e9\n\tEND \n"]))
ports = st.builds(Tape, numbers(0, 0o13), st.tuples(words) | st.tuples(words, words)) | st.builds(Unplug, numbers(0, 255), times)
commands = st.sampled_from(["STEP 1", "GO", "REGS", "MEM 0 01 000 2", "COPIES 5", "FLY", "END"])


@st.composite
def decks(draw: st.DrawFn) -> Deck:
    """A deck with any of its sections, as one is made in code."""
    program = draw(images() | sources)
    start = draw(st.none() | hops | st.sampled_from(["A", "Z9"])) if isinstance(program, Source) else draw(st.none() | hops)
    return Deck(program, draw(times), start, tuple(sorted(draw(st.sets(numbers(0, 3))))), tuple(draw(st.lists(ports, max_size=3))),
                tuple(draw(st.lists(faults(), max_size=4))), tuple(draw(st.lists(st.permutations(LETTERS).map("".join), max_size=2))),
                None if draw(st.booleans()) else tuple(draw(st.lists(commands, max_size=3))))


@st.composite
def small_runs(draw: st.DrawFn) -> Deck:
    """A deck that runs for a few times: code in sector 00, words in sector 01, and faults near them."""
    code = draw(st.lists(numbers(0, 2**13 - 1), min_size=1, max_size=8))
    memory = {Address(0, 0, at): syllable for at, syllable in enumerate(code)}
    memory.update({Address(0, 1, at): word for at, word in enumerate(draw(st.lists(words, max_size=4)))})
    count = draw(numbers(0, 8))
    script = draw(st.lists(faults(last=3 * count), max_size=4))
    return Deck(Image(memory), count, faults=tuple(script), ports=(Tape(0, (1, 2)),))
