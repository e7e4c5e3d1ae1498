"""Words, cells, addresses and HOP constants."""
import copy
import pickle

import pytest
from hypothesis import given
from hypothesis import strategies as st
from strategies import addresses, hops, words

from lvdc import Address, Cell, Flip, Hop, Place, Word
from lvdc.ends import END, end_of


@given(words)
def test_a_word_is_its_digits_and_its_signed_value(word: Word) -> None:
    assert Word.read(str(word)) == word
    assert Word.of_signed(word.signed) == word
    assert len(str(word)) == len(f"{word}") == 9
    assert eval(repr(word), {"Word": Word}) == word


def test_words_at_the_ends_of_the_signs() -> None:
    assert Word(0o177777777).signed == 2**25 - 1
    assert Word(0o200000000).signed == -2**25
    assert str(Word.of_signed(-1)) == "377777777"
    assert str(Cell(1)) == "0000000001"


@pytest.mark.parametrize("value", [-1, 2**26])
def test_a_word_has_26_bits(value: int) -> None:
    with pytest.raises(ValueError, match="26 bits"):
        Word(value)


@given(addresses)
def test_an_address_is_its_text(address: Address) -> None:
    assert Address.read(str(address)) == address


@given(addresses, addresses)
def test_addresses_are_ordered_as_their_texts(one: Address, two: Address) -> None:
    assert (one < two) == (str(one) < str(two))


@given(hops)
def test_a_hop_constant_is_its_word(hop: Hop) -> None:
    assert Hop.of(hop.word) == hop == Hop.of(hop.word | 1)
    assert not hop.word & 1


def test_the_start_constant_is_the_one_without_arguments() -> None:
    assert str(Hop()) == "000000016"


@pytest.mark.parametrize("wrong", [lambda: Address(8, 0, 0), lambda: Address(0, 16, 0), lambda: Place(0, 0, 2, 0), lambda: Hop(dupin=2),
                                   lambda: Flip(8, 1, 0, 0, 0, 1), lambda: Flip(3, 1, 0, 0, 1, 1), lambda: Flip(1, 1, 2, 1, 0, 1)])
def test_what_isnt_there_cant_be_made(wrong: type[object]) -> None:
    with pytest.raises(ValueError, match=" is "):
        wrong()


@given(words)
def test_values_are_copied_and_pickled(word: Word) -> None:
    for value in (word, Address(0, 1, 2), Hop.of(word)):
        assert copy.deepcopy(value) == pickle.loads(pickle.dumps(value)) == value


@given(st.sampled_from(["DONE", "STOPPED 2 SHIFT", "STOPPED 5 EXM", "STOPPED 6 MEMORY 0 17 377", "INADMISSIBLE 4 LOGIC 3",
                        "INADMISSIBLE 0 MEMORY 4 01 000", "DEVICE 8 017"]))
def test_ends(text: str) -> None:
    found = END.fullmatch(f"END {text}")
    assert found is not None
    assert str(end_of(found)) == f"END {text}"
