"""Every text of the conformance cases and the examples is read and printed again, the same bytes."""
from collections.abc import Callable
from pathlib import Path
from typing import Any

import pytest
from conftest import TOP, cases, input_of, name_of

from lvdc import (CampaignRows, Deck, Expansion, Form, Image, Listing, Refused, Report, Saved, Session, Soak, StudyRows, Trace, Unread,
                  Uplink)
from lvdc.lines import decode, encode

EXAMPLES = TOP / "examples"
OF_WORKER: dict[str, Callable[[str], Any]] = {"trace": Trace.read, "form": Form.read, "study": StudyRows.read}
READERS: dict[str, Callable[[str], Any]] = {
    "run": Report.read, "asm": Listing.read, "asm --image": Image.read, "macro": Expansion.read, "macro --image": Image.read,
    "debug": Session.read, "resume": Report.read, "campaign": CampaignRows.read, "uplink": Uplink.read}


def reader_of(words: list[str], text: str) -> Callable[[str], Any]:
    """What reads the text that these words are answered."""
    if words[0] == "soak":
        return Soak.read
    if words[0] in OF_WORKER:
        return OF_WORKER[words[0]]
    if words[0] == "save":
        return Saved.read if text.startswith("LVDC SAVE") else Report.read
    return READERS["run" if words[0] == "run" else " ".join(words)]


@pytest.mark.parametrize("case", cases(), ids=name_of)
def test_a_text_is_read_whole_and_printed_again(case: Path) -> None:
    words = (case / "words").read_text().split("\n")[:-1]
    status, raw = int((case / "status").read_text()), (case / "text").read_bytes()
    text = decode(raw)
    if status in (0, 5, 6, 10):
        found = reader_of(words, text)(text)
        assert encode(str(found)) == raw
        assert getattr(found, "text", text) == text
    elif status == 1:
        assert text.startswith("usage: ")
    else:
        refused = Refused(status, text, decode(input_of(case)))
        number = "" if refused.number is None else f" {refused.number}"
        assert f"REFUSED {refused.cause}{number}\n" == text


@pytest.mark.parametrize("case", [it for it in cases() if (it / "words").read_text().split("\n")[0] in ("run", "debug", "save")],
                         ids=name_of)
def test_an_accepted_deck_is_read_and_stays_the_same(case: Path) -> None:
    status = int((case / "status").read_text())
    text = decode(input_of(case))
    if status in (0, 5, 6, 10):
        deck = Deck.read(text)
        assert Deck.read(str(deck)) == deck
    elif status == 2 and " NoDevice" not in (case / "text").read_text():
        try:
            deck = Deck.read(text)
        except Unread as error:
            assert error.number > 0
        else:
            assert str(deck)


@pytest.mark.parametrize("path", sorted(EXAMPLES.glob("**/*.report")), ids=name_of)
def test_reports_of_the_examples(path: Path) -> None:
    text = path.read_text()
    if not text.startswith("REFUSED"):
        assert str(Report.read(text)) == text


@pytest.mark.parametrize(("pattern", "read"), [
    ("*.listing", Listing.read), ("*.image", Image.read), ("*.saved", Saved.read), ("*.session", Session.read),
    ("*.rows", CampaignRows.read), ("*.expansion", Expansion.read)])
def test_other_texts_of_the_examples(pattern: str, read: Callable[[str], Any]) -> None:
    paths = sorted(EXAMPLES.glob(pattern))
    assert paths
    for path in paths:
        assert str(read(path.read_text())) == path.read_text()


@pytest.mark.parametrize("path", sorted(EXAMPLES.glob("**/*.deck")), ids=name_of)
def test_decks_of_the_examples(path: Path) -> None:
    if not path.stem.startswith("refused-"):
        deck = Deck.read(path.read_text())
        assert Deck.read(str(deck)) == deck
