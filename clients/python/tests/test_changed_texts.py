"""Texts that are changed by a line or a character: each is refused at a line, or read as what it says and printed as the same bytes."""
from collections.abc import Callable
from pathlib import Path
from typing import Any

from conftest import cases
from hypothesis import HealthCheck, given, settings
from hypothesis import strategies as st
from test_cases import EXAMPLES, OF_WORKER, reader_of
from test_worker_texts import CASES

from lvdc import Deck, Unread
from lvdc.lines import decode

MOST_BYTES = 4000
PUT = "0123456789 \n\r\t?->AEFNX"


def texts() -> list[tuple[Path, Callable[[str], Any], str]]:
    """Texts of all kinds that are read, with their readers."""
    found: list[tuple[Path, Callable[[str], Any], str]] = []
    for case in cases():
        text, words = decode((case / "text").read_bytes()), (case / "words").read_text().split("\n")[:-1]
        if (case / "status").read_text().strip() in ("0", "5", "6") and len(text) < MOST_BYTES:
            found.append((case, reader_of(words, text), text))
    for case in CASES:
        if (case / "status").read_text().strip() != "2":
            found.append((case, OF_WORKER[case.parent.name], (case / "text").read_text()))
    return found


TEXTS = texts()


def changed(data: st.DataObject, text: str) -> str:
    """A text with a line left out, twice or elsewhere, or with a character changed."""
    lines = text.split("\n")
    at, other = (data.draw(st.integers(0, len(lines) - 1)) for _ in range(2))
    match data.draw(st.integers(0, 3)):
        case 0:
            del lines[at]
        case 1:
            lines.insert(other, lines[at])
        case 2:
            lines[at], lines[other] = lines[other], lines[at]
        case _:
            place = data.draw(st.integers(0, len(lines[at])))
            lines[at] = lines[at][:place] + data.draw(st.sampled_from(PUT)) + lines[at][place + data.draw(st.integers(0, 1)):]
    return "\n".join(lines)


@settings(max_examples=2000, deadline=None, suppress_health_check=list(HealthCheck))
@given(st.sampled_from(TEXTS), st.data())
def test_nothing_is_passed_over(chosen: tuple[Path, Callable[[str], Any], str], data: st.DataObject) -> None:
    _, read, text = chosen
    given_text = changed(data, text)
    try:
        found = read(given_text)
    except Unread as error:
        assert 1 <= error.number <= given_text.count("\n") + 1
    else:
        assert str(found) == given_text


@settings(max_examples=500, deadline=None, suppress_health_check=list(HealthCheck))
@given(st.sampled_from(sorted(EXAMPLES.glob("**/*.deck"))), st.data())
def test_a_changed_deck_is_refused_at_a_line_or_read(path: Path, data: st.DataObject) -> None:
    text = changed(data, path.read_text())
    try:
        deck = Deck.read(text)
    except Unread as error:
        assert 1 <= error.number <= text.count("\n") + 2
    else:
        assert Deck.read(str(deck)) == deck


def test_there_are_texts_of_all_kinds() -> None:
    assert len(TEXTS) > 300
