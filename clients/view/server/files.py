"""What the lab's server sends besides answers: its pages and the examples. All of it is read when it starts, and nothing afterwards, so a
path is only ever looked up in a table."""
import json
import pathlib
from collections.abc import Iterable
from dataclasses import dataclass

from wording import languages, script_of

VIEW = pathlib.Path(__file__).resolve().parent.parent
PAGES = VIEW / "page"
EXAMPLES = VIEW.parents[1] / "examples"
TYPES = {".html": "text/html", ".css": "text/css", ".js": "text/javascript", ".json": "application/json", ".svg": "image/svg+xml"}
SERVED = ["lab.html", "flight.html"]
PROGRAMS, LANGUAGES = "programs.json", "js/languages.js"


@dataclass(frozen=True, slots=True)
class File:
    """A file as it is sent."""

    type: str
    content: bytes


def file_of(path: str, content: bytes) -> File:
    """A file of the type that its name says."""
    return File(f"{TYPES[pathlib.PurePath(path).suffix]}; charset=utf-8", content)


def page_files(first: str, *words: pathlib.Path) -> dict[str, File]:
    """The pages, their styles and scripts, each by its path, and this page at the address itself. Languages are those of the repository and of
    these folders of words. Raises WrongWords."""
    found = [*(PAGES / it for it in SERVED), *PAGES.glob("*.css"), *PAGES.glob("js/**/*.js")]
    files = {it.relative_to(PAGES).as_posix(): file_of(it.name, it.read_bytes()) for it in found}
    files[LANGUAGES] = file_of(LANGUAGES, script_of(languages(*words)).encode())
    files[""] = files[first]
    return files


def example_decks() -> list[pathlib.Path]:
    """The decks of the examples, those first that have no faults of their own, since their names tell of the program."""
    found = sorted([*EXAMPLES.glob("programs/*.deck"), *EXAMPLES.glob("*.deck")], key=lambda it: it.name)
    return sorted(found, key=lambda it: b"\nFAULTS" in it.read_bytes())


def programs_file(decks: Iterable[tuple[str, str]]) -> File:
    """The list of programs, each with its name and its deck."""
    return file_of(PROGRAMS, json.dumps([{"name": name, "deck": deck} for name, deck in decks]).encode())
