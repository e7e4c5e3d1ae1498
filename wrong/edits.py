"""Edits: a line `file:`, then pairs of an `old:` and a `new:` text, one line each, and so on for further files.

A file is named from the folder of the edit's crate. One that changes several crates may name a file of another crate, as
`../lvdc_model/specs/Twins.antt`, and may have a text of several lines: as many lines `old:`, or `new:`. What stands on other lines
(`why:`) is for readers.
"""
import pathlib
from collections.abc import Iterator

TOP = pathlib.Path(__file__).resolve().parent.parent


class Misfit(Exception):
    """Why an edit doesn't fit the texts that it changes."""


def pairs(edit: pathlib.Path) -> Iterator[tuple[str, str, str]]:
    """Each file that an edit names, with an old and a new text; both are empty where it only names the file."""
    name = ""
    old: list[str] = []
    new: list[str] = []
    for line in [*edit.read_text().split("\n"), "file:"]:
        word, _, rest = line.partition(":")
        rest = rest.removeprefix(" ")
        if new and word in ("file", "old"):
            yield name, "\n".join(old), "\n".join(new)
            old, new = [], []
        if word == "file":
            name = rest.strip()
            if name:
                yield name, "", ""
        elif word == "old" and name:
            old.append(rest)
        elif word == "new" and old:
            new.append(rest)


def edited(edit: pathlib.Path, crate: pathlib.Path) -> dict[pathlib.Path, str]:
    """The files that an edit of the crate in this folder changes, as they are after it."""
    texts: dict[pathlib.Path, str] = {}
    for name, old, new in pairs(edit):
        file = crate / name
        if not file.is_file():
            raise Misfit(f"there is no {name}")
        text = texts.setdefault(file, file.read_text())
        if not old:
            continue
        if text.count(old) != 1:
            raise Misfit(f"{old.strip()!r} stands {text.count(old)} times")
        texts[file] = text.replace(old, new)
    if not texts:
        raise Misfit("no pair of an old and a new text")
    for path, text in texts.items():
        if text == path.read_text():
            raise Misfit(f"it leaves {path.name} as it is")
    return texts
