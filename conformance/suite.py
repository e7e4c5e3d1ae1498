"""The cases of the suite, one file for each group: cases/GROUP.json.

A text is a list of pieces that stand one behind the other: a string; `[string, times]`, so many of it; or `[string, first, last]`, one
for each number from the first to the last, with the number in place of `{}`. Each character is one byte (Latin-1)."""
import fnmatch
import json
import pathlib
import re
from collections.abc import Iterable, Iterator, Sequence
from typing import NamedTuple

HERE = pathlib.Path(__file__).resolve().parent
FOLDER = HERE / "cases"
SHORTEST_RUN = 8

Piece = str | list[str | int]


class Entry(NamedTuple):
    """A case: what it shows, its words and its input, the text and the status that are due; where the text comes from, what a program needs
    to take the case, and the rules on which its answer rests."""
    name: str
    shows: str
    words: list[str]
    given: bytes
    text: bytes
    status: int
    source: str
    needs: list[str]
    rules: list[str]

    @property
    def group(self) -> str:
        """The group of a case."""
        return self.name.split("/", maxsplit=1)[0]

    @property
    def is_refusal(self) -> bool:
        """Does the text refuse the input?"""
        return self.text.startswith(b"REFUSED ")


class Group(NamedTuple):
    """Cases that show one part of the machine or of its texts."""
    name: str
    title: str
    shows: str
    entries: list[Entry]


# ---- texts as pieces


def joined(pieces: Iterable[Piece]) -> bytes:
    """The text that pieces make."""
    return "".join("".join(expanded(piece)) for piece in pieces).encode("latin-1")


def expanded(piece: Piece) -> Iterator[str]:
    """The strings of a piece."""
    if isinstance(piece, str):
        yield piece
        return
    text, *numbers = piece
    if len(numbers) == 1:
        yield str(text) * int(numbers[0])
    else:
        for number in range(int(numbers[0]), int(numbers[1]) + 1):
            yield str(text).replace("{}", str(number))


def pieces_of(text: bytes) -> list[Piece]:
    """A text as pieces: its lines, and what is repeated once."""
    return list(packed([line for line in re.split("(?<=\n)", text.decode("latin-1")) if line]))


def packed(lines: Sequence[str]) -> Iterator[Piece]:
    """Lines as pieces."""
    at = 0
    while at < len(lines):
        same = run_length(lines, at, lines[at])
        numbered = re.fullmatch("([^0-9]*[A-Z])([0-9]+)(\n)", lines[at])
        rising = rising_length(lines, at, numbered) if numbered else 0
        if same >= SHORTEST_RUN:
            yield [lines[at], same]
            at += same
        elif numbered and rising >= SHORTEST_RUN:
            yield [numbered[1] + "{}" + numbered[3], int(numbered[2]), int(numbered[2]) + rising - 1]
            at += rising
        else:
            yield from parts_of(lines[at])
            at += 1


def run_length(lines: Sequence[str], at: int, line: str) -> int:
    """How many lines from here on are this one."""
    end = at
    while end < len(lines) and lines[end] == line:
        end += 1
    return end - at


def rising_length(lines: Sequence[str], at: int, numbered: re.Match[str]) -> int:
    """How many lines from here on have the numbers that follow this one."""
    end = at
    while end < len(lines) and lines[end] == f"{numbered[1]}{int(numbered[2]) + end - at}{numbered[3]}":
        end += 1
    return end - at


def parts_of(line: str) -> Iterator[Piece]:
    """A line as pieces; a character that comes hundreds of times is told once."""
    long = re.search(r"(.)\1{299,}", line, re.S)
    if not long:
        yield line
        return
    yield from [line[:long.start()]] * bool(long.start())
    yield [long[1], len(long[0])]
    yield from parts_of(line[long.end():]) if line[long.end():] else []


# ---- files


def text_of(group: Group) -> str:
    """A group's file."""
    entries = ",\n".join(text_of_entry(entry) for entry in group.entries)
    head = "".join(f" {json.dumps(key)}: {json.dumps(value)},\n" for key, value in
                   (("group", group.name), ("title", group.title), ("shows", group.shows)))
    return "{\n" + head + ' "cases": [\n' + entries + "\n ]\n}\n"


def text_of_entry(entry: Entry) -> str:
    """A case in a group's file: short things on one line, texts line by line."""
    rows = [("name", entry.name.split("/")[1]), ("shows", entry.shows), ("words", entry.words), ("status", entry.status),
            ("from", entry.source), ("needs", entry.needs), ("rules", entry.rules)]
    lines = [f"   {json.dumps(key)}: {json.dumps(value)}" for key, value in rows]
    for key, text in (("input", entry.given), ("text", entry.text)):
        pieces = ",".join("\n    " + json.dumps(piece) for piece in pieces_of(text))
        lines.append(f"   {json.dumps(key)}: [{pieces}]")
    return "  {\n" + ",\n".join(lines) + "\n  }"


def read_group(path: pathlib.Path) -> Group:
    """A group of a file."""
    found = json.loads(path.read_text())
    entries = [Entry(f"{found['group']}/{case['name']}", case["shows"], case["words"], joined(case["input"]), joined(case["text"]),
                     case["status"], case["from"], case["needs"], case["rules"]) for case in found["cases"]]
    return Group(found["group"], found["title"], found["shows"], entries)


def read_groups() -> list[Group]:
    """All groups, by their names."""
    return [read_group(path) for path in sorted(FOLDER.glob("*.json"))]


def read_entries(globs: Sequence[str] = ()) -> list[Entry]:
    """All cases, or those whose names one of the globs has."""
    entries = [entry for group in read_groups() for entry in group.entries]
    return [entry for entry in entries if not globs or any(fnmatch.fnmatchcase(entry.name, glob) for glob in globs)]
