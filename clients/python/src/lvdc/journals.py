"""Rows that are kept in a file as they come, so that a study which was killed goes on.

Beside the file of rows stands NAME.made-of: a line for each piece that is whole in the file, with how many scripts there are by then, a hash
of the deck and of all of these, and how many bytes the rows have. What stands behind the last such piece is cut off and asked again, so the
file comes to the same bytes. It stays there, so that the same study, asked once more, is read and not run. One study at a time is at work."""
import fcntl
import hashlib
import os
import re
from collections.abc import Iterator
from pathlib import Path
from typing import BinaryIO, NamedTuple

from lvdc.lines import decode, encode
from lvdc.scripts import Script


_MARK = re.compile(rb"([0-9]+) ([0-9a-f]{64}) ([0-9]+)\n")


class Mark(NamedTuple):
    """The end of a piece: the scripts up to there, a hash of what they were made of, and the bytes of their rows."""

    scripts: int
    hashed: str
    size: int


class Journal:
    """The file of rows of a study, and what stands beside it."""

    def __init__(self, path: str | os.PathLike[str], command: str, head: str) -> None:
        self.path = Path(path)
        self.beside = self.path.with_name(self.path.name + ".made-of")
        self._hash = hashlib.sha256(encode(f"{command}\n{head}"))
        self._scripts = 0
        if self.path.exists() and not self.beside.exists():
            raise FileExistsError(f"{self.path} is there, and no {self.beside.name} beside it: name a new file")
        self._lock = self._locked()
        self.marks = list(self._read_marks())
        size = self.marks[-1].size if self.marks else 0
        if self.path.exists():
            self.is_whole = self.path.stat().st_size > size and self._tail(size).endswith("\n") and self._tail(size).count("\n") == 1 \
                and not self._tail(size).startswith("SCRIPT ")
        else:
            self.is_whole = False
        if not self.is_whole:
            with open(self.path, "ab") as file:
                file.truncate(size)

    def close(self) -> None:
        """Lets another study take the file."""
        self._lock.close()

    def text(self) -> str:
        """The rows that are there, up to the last mark."""
        return decode(self.path.read_bytes()[:self.marks[-1].size if self.marks else 0])

    def told(self, script: Script) -> Mark | None:
        """Takes the next script of those whose rows are there; at the end of a piece its mark. Raises ValueError where it is another."""
        self._take(script)
        mark = next((it for it in self.marks if it.scripts == self._scripts), None)
        if mark is not None and mark.hashed != self._hash.hexdigest():
            raise ValueError(f"{self.path} has the rows of other scripts, or of another deck: name a new file")
        return mark

    def add(self, scripts: list[Script], rows: str) -> None:
        """Writes the rows of a piece, and then its mark."""
        for script in scripts:
            self._take(script)
        with open(self.path, "ab") as file:
            file.write(encode(rows))
            size = file.tell()
        mark = Mark(self._scripts, self._hash.hexdigest(), size)
        self.marks.append(mark)
        with open(self.beside, "ab") as file:
            file.write(f"{mark.scripts} {mark.hashed} {mark.size}\n".encode("ascii"))

    def finish(self, total: str) -> None:
        """Writes the total behind the rows."""
        if not self.is_whole:
            with open(self.path, "ab") as file:
                file.write(encode(total))

    def _locked(self) -> BinaryIO:
        """What stands beside the file, locked. Raises FileExistsError where another study is at work."""
        lock = open(self.beside, "ab")
        try:
            fcntl.flock(lock, fcntl.LOCK_EX | fcntl.LOCK_NB)
        except BlockingIOError as error:
            lock.close()
            raise FileExistsError(f"another study is at work in {self.path}: name a new file") from error
        return lock

    def _take(self, script: Script) -> None:
        """One more script."""
        self._scripts += 1
        self._hash.update(encode(f"SCRIPT\n{script}"))

    def _tail(self, size: int) -> str:
        """What stands behind so many bytes."""
        return decode(self.path.read_bytes()[size:])

    def _read_marks(self) -> Iterator[Mark]:
        """The marks of whole lines whose rows are there; what stands behind them is cut off, since after a failure of power it may be anything."""
        size, end = self.path.stat().st_size if self.path.exists() else 0, 0
        for line in self.beside.read_bytes().splitlines(keepends=True):
            found = _MARK.fullmatch(line)
            if found is None or int(found[3]) > size:
                break
            end += len(line)
            yield Mark(int(found[1]), found[2].decode("ascii"), int(found[3]))
        os.truncate(self.beside, end)
