"""Decks, images and fault lines: what is printed is read as the same."""
import pytest
from hypothesis import given
from hypothesis import strategies as st
from strategies import BLANK, decks, faults, images

from lvdc import Address, Damage, Deck, Fault, Flip, Hop, Image, Source, Unread, Word, read_fault
from lvdc.decks import campaign_text, without_commands
from lvdc.lines import decode, encode

SUM = Image({Address(0, 0, 0): 0o17000, Address(0, 0, 1): 0o7001, Address(0, 1, 0): 5})


@given(faults())
def test_a_fault_is_its_line(fault: Fault) -> None:
    assert read_fault(str(fault)) == fault
    assert read_fault("\t" + str(fault).replace(" ", "  \t") + " ") == fault


@pytest.mark.parametrize("line", ["", "FLIP", "FLOP 1 1 0 0", "LAG 1 1 0 00", "LAG 1 1 0 0 0", "LAG 8 1 0 0", "FLIP 1 1 0 0 2 1",
                                  "DAMAGE 0 0 01 000 0 2000000000", "LAG 1 1 0 3000000", "FLIP 1 1 0 0 0 400000000", "DEAD 0 4 0 0"])
def test_what_is_no_fault_line(line: str) -> None:
    with pytest.raises(ValueError, match=" is "):
        read_fault(line)


@given(images())
def test_an_image_is_its_text(image: Image) -> None:
    assert Image.read(str(image)) == image


@given(decks())
def test_a_deck_is_its_text(deck: Deck) -> None:
    assert Deck.read(str(deck)) == deck


@given(decks(), st.data())
def test_blanks_and_comments_say_nothing(deck: Deck, data: st.DataObject) -> None:
    program, rest = str(deck.program), str(deck).split(str(deck.program))
    tail = "".join(data.draw(BLANK) + f" {it}  \n" for it in rest[-1].split("\n")[:-1])
    assert Deck.read(data.draw(BLANK) + rest[0] + program + tail) == deck


@given(decks())
def test_lines_may_end_with_cr_and_the_last_without_lf(deck: Deck) -> None:
    if isinstance(deck.program, Image):
        assert Deck.read(str(deck).replace("\n", "\r\n")) == deck
    assert Deck.read(str(deck).removesuffix("\n")) == deck


@given(st.binary(max_size=200))
def test_any_bytes_are_a_text(text: bytes) -> None:
    assert encode(decode(text)) == text


@pytest.mark.parametrize(("text", "number"), [
    ("", 1), ("* A\n\nRUN 1\n", 3), ("IMAGE\nLVDC 1\n", 1), ("IMAGE\nLVDC 1\nEND\n", 4), ("IMAGE\nLVDC 1\nEND\nRUN 1x\n", 4),
    ("IMAGE\nLVDC 1\nEND\nRUN 1\nRUN 1\n", 5), ("IMAGE\nLVDC 1\nEND\nFAULTS\nFLIP 8 1 0 0 0 1\nRUN 1\n", 5),
    ("IMAGE\nLVDC 1\n0 00 000 400000000\nEND\nRUN 1\n", 3), ("IMAGE\nLVDC 1\nEND\nPORTS\nTAPE 400 1\nRUN 1\n", 5),
    ("IMAGE\nLVDC 1\n0 00 001 000000000\n0 00 000 000000000\nEND\nRUN 1\n", 4)])
def test_what_is_no_deck_is_named_by_its_line(text: str, number: int) -> None:
    with pytest.raises(Unread) as caught:
        Deck.read(text)
    assert caught.value.number == number


def test_the_text_of_a_deck() -> None:
    deck = Deck(SUM, 3, Hop(location=1), faults=(Flip(5, 2, 4, 4, 0, 1), Damage(0, 0, 1, 0, 0, 1)), commands=("GO",))
    assert str(deck) == ("IMAGE\nLVDC 1\n0 00 000 000017000\n0 00 001 000007001\n0 01 000 000000005\nEND\nSTART 000002016\nFAULTS\n"
                         "FLIP 5 2 4 4 0 000000001\nDAMAGE 0 0 01 000 0 0000000001\nRUN 3\nDEBUG\nGO\n")


def test_a_campaign_has_scripts_in_place_of_faults() -> None:
    deck = Deck(Source(" END"), 3, faults=(Flip(1, 1, 0, 0, 0, 1),), commands=())
    text = campaign_text(deck, [("A", deck.faults), ("B", ())])
    assert text == "SOURCE\n END\nRUN 3\nCAMPAIGN\nSCRIPT A\nFLIP 1 1 0 0 0 000000001\nSCRIPT B\n"


def test_commands_are_taken_away() -> None:
    assert without_commands("SOURCE\n DEBUG\n END\nRUN 1\n DEBUG \nGO\n") == "SOURCE\n DEBUG\n END\nRUN 1\n"


def test_an_image_keeps_words_as_words() -> None:
    assert SUM.words[Address(0, 1, 0)] == Word(5)
    with pytest.raises(ValueError, match="26 bits"):
        Image({Address(0, 0, 0): 2**26})
    with pytest.raises(ValueError, match="simplex"):
        Image({Address(4, 0, 0): 1})
