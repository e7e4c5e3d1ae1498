"""Standard streams that may be closed or full, and files and lines that may be of any size."""
import contextlib
import errno
import io
import os
import signal
import sys
from collections.abc import Iterator
from pathlib import Path
from typing import NoReturn, TextIO

from lvdc.errors import Error
from lvdc.limits import MOST_BYTES, MOST_CHARACTERS
from lvdc.lines import ERRORS

_PIECE = 1 << 16
NO_MEMORY = "there isn't enough memory"


class BadFile(Error):
    """A file that can't be read, or that is too large."""


def open_streams() -> None:
    """Bytes that are no UTF-8 are read and written as they are; a stream that is closed is one of the null device."""
    for name, mode in (("stdin", os.O_RDONLY), ("stdout", os.O_WRONLY), ("stderr", os.O_WRONLY)):
        stream = getattr(sys, name)
        if stream is None:
            setattr(sys, name, os.fdopen(os.open(os.devnull, mode), "r" if mode == os.O_RDONLY else "w"))
        elif isinstance(stream, io.TextIOWrapper):
            stream.reconfigure(errors=ERRORS)


def drop_output() -> None:
    """What is still to be written goes nowhere, since it can't be written where it should."""
    os.dup2(os.open(os.devnull, os.O_WRONLY), sys.stdout.fileno())


def complain(text: object) -> None:
    """Writes to standard error, where that can be written."""
    try:
        print(text, file=sys.stderr, flush=True)
    except OSError:
        os.dup2(os.open(os.devnull, os.O_WRONLY), sys.stderr.fileno())


def leave(status: int) -> NoReturn:
    """Ends with this status. From here on an interrupt ends it at once: no trace is written of what Python does last."""
    signal.signal(signal.SIGINT, signal.SIG_DFL)
    sys.exit(status)


@contextlib.contextmanager
def telling(name: str) -> Iterator[None]:
    """Around all that a script does: where what it tells can't be written, it ends with status 1, and with a sentence where somebody may read
    it; of a reader that has gone it says nothing."""
    if sys.stdout is None:
        open_streams()
        complain(f"{name}: what is told can't be written: standard output is closed")
        sys.exit(1)
    try:
        yield
        sys.stdout.flush()
    except OSError as error:
        if error.filename is not None:
            raise
        drop_output()
        if not isinstance(error, BrokenPipeError):
            complain(f"{name}: what is told can't be written: {error.strerror}")
        sys.exit(1)
    except MemoryError:
        complain(f"{name}: {NO_MEMORY}")
        sys.exit(1)


def read_file(path: Path) -> bytes:
    """The bytes of a file, of which one more than the limit is read at most."""
    try:
        with path.open("rb") as file:
            text = file.read(MOST_BYTES + 1)
    except (OSError, ValueError) as error:
        raise BadFile(f"{path} can't be read: {error.strerror if isinstance(error, OSError) else error}") from error
    if len(text) > MOST_BYTES:
        raise BadFile(f"{path} has more than {MOST_BYTES} bytes, which is the most that is read")
    return text


def write_new(path: Path, text: bytes) -> None:
    """Writes a file that isn't there yet; where there is no room for all of it, nothing is left."""
    with path.open("xb", buffering=0) as file:
        try:
            if file.write(text) < len(text):
                raise OSError(errno.ENOSPC, os.strerror(errno.ENOSPC), str(path))
        except OSError:
            path.unlink()
            raise


def write_whole(path: Path, text: bytes) -> None:
    """Puts a file in place of what is there; where there is no room for all of it, that stays."""
    beside = path.with_name(f"{path.name}.new")
    try:
        beside.write_bytes(text)
        beside.replace(path)
    except OSError:
        with contextlib.suppress(OSError):
            beside.unlink(missing_ok=True)
        raise


def read_line(stream: TextIO) -> str:
    """The next line; of one that is too long as much as shows that it is, and the rest is passed over. EOFError at the end."""
    line = stream.readline(MOST_CHARACTERS + 2)
    if not line:
        raise EOFError
    more = line
    while more and not more.endswith("\n") and len(line) > MOST_CHARACTERS:
        more = stream.readline(_PIECE)
    return line.rstrip("\r\n")
