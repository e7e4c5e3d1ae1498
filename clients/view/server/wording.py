"""Reads the words of the pages: a text file for each language, on each line a key, blanks, and a sentence.

English has all keys. A translation may leave some out, which are English then; each of its sentences has the names in braces that the
English one has."""
import json
import pathlib
import re
from collections.abc import Iterator
from dataclasses import dataclass

WORDS = pathlib.Path(__file__).resolve().parent.parent / "words"
ENGLISH = "en"
NAME = re.compile("[a-z]{2,3}(-[a-z0-9]{2,8})?")
# words that stand on a lamp, which is as wide as a finger on a phone
ON_LAMPS, MOST_ON_A_LAMP = ("op.", "request."), 5
# a file of words may be a device without an end
MOST_BYTES = 1_048_576
IN_BRACES = re.compile(r"\{\w*\}")

# the sentences of a language, by their keys
Sentences = dict[str, str]


@dataclass(frozen=True, slots=True)
class Fault:
    """A line of a file that isn't as it should be."""

    file: str
    line: int
    what: str

    def __str__(self) -> str:
        return f"{self.file}, line {self.line}: {self.what}"


class WrongWords(Exception):
    """Files of words that have faults."""

    def __init__(self, faults: list[Fault]) -> None:
        super().__init__("\n".join(map(str, faults)))
        self.faults = faults


def lines_of(path: pathlib.Path) -> Iterator[tuple[int, str]]:
    """The lines that aren't comments, with their numbers. Raises WrongWords where the file can't be read, is too long or is no UTF-8."""
    try:
        with path.open("rb") as file:
            whole = file.read(MOST_BYTES + 1)
    except OSError as wrong:
        raise WrongWords([Fault(path.name, 0, f"it can't be read: {wrong.strerror}")]) from wrong
    if len(whole) > MOST_BYTES:
        raise WrongWords([Fault(path.name, 0, f"it has more than {MOST_BYTES} bytes")])
    for number, line in enumerate(whole.split(b"\n"), 1):
        try:
            text = line.decode().removeprefix("\ufeff").strip()
        except UnicodeDecodeError as wrong:
            raise WrongWords([Fault(path.name, number, "this is no UTF-8; save the file with that encoding")]) from wrong
        if text and not text.startswith("#"):
            yield number, text


def braces_of(sentence: str) -> list[str]:
    """What stands in braces."""
    return sorted(set(IN_BRACES.findall(sentence)))


def fault_of(key: str, sentence: str, found: Sentences, english: Sentences | None) -> str | None:
    """What is wrong with a line, after those before it; nothing is compared with where this is English itself."""
    if not sentence:
        return f"{key} has no sentence"
    if key in found:
        return f"{key} stands here twice"
    if key.startswith(ON_LAMPS) and len(sentence) > MOST_ON_A_LAMP:
        return f"{key} stands on a lamp, and has at most {MOST_ON_A_LAMP} letters"
    if english is None:
        return None
    if key not in english:
        return f"there is no key {key}"
    wanted = braces_of(english[key])
    return None if braces_of(sentence) == wanted else f"{key} has {' '.join(wanted) or 'nothing'} in braces, and nothing else"


def read(path: pathlib.Path, english: Sentences | None = None) -> Sentences:
    """The sentences of a file. Raises WrongWords with all its faults."""
    found: Sentences = {}
    faults = []
    for number, line in lines_of(path):
        key, *rest = line.split(maxsplit=1)
        sentence = rest[0] if rest else ""
        what = fault_of(key, sentence, found, english)
        if what is not None:
            faults.append(Fault(path.name, number, what))
        found.setdefault(key, sentence)
    if not faults and "language" not in found:
        faults.append(Fault(path.name, 1, "there is no line with the key language, which is its own name, as Deutsch"))
    if faults:
        raise WrongWords(faults)
    return found


def languages(*folders: pathlib.Path) -> dict[str, Sentences]:
    """All languages of these folders, English first. Raises WrongWords with the faults of all files."""
    english = read(WORDS / f"{ENGLISH}.txt")
    found, faults = {ENGLISH: english}, []
    for path in sorted(path for folder in (WORDS, *folders) for path in folder.glob("*.txt") if path.stem != ENGLISH):
        try:
            if not NAME.fullmatch(path.stem):
                raise WrongWords([Fault(path.name, 0, "the name isn't that of a language, as de.txt or pt-br.txt")])
            found[path.stem] = read(path, english)
        except WrongWords as wrong:
            faults += wrong.faults
    if faults:
        raise WrongWords(faults)
    return found


def script_of(found: dict[str, Sentences]) -> str:
    """The script that gives these languages to a page."""
    return f"'use strict';\n\nwindow.LANGUAGES = {json.dumps(found, indent=1, ensure_ascii=False)};\n".replace("<", "\\u003c")
