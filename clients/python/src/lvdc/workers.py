"""A process of lvdc-worker that answers one request after another."""
import os
import re
import select
import shutil
import subprocess
import threading
import time
import weakref
from collections.abc import Sequence
from dataclasses import dataclass
from pathlib import Path
from types import TracebackType
from typing import Any, Protocol, Self

from lvdc.errors import Error

PROGRAM = "lvdc-worker"
MOST_BYTES = 134_217_728
MOST_WORDS, MOST_OF_LINE = 8, 255
_WORD = re.compile("[!-~]+")
_HEAD = re.compile(rb"REPLY ([0-9]+) ([0-9]+)\n")
_AT_ONCE, _FRONT = 1 << 20, 1 << 16
_SECONDS_TO_END = 1.0


class NoWorker(Error):
    """There is no program lvdc-worker, or it can't be started."""


class WorkerFailed(Error):
    """The worker has gone while it was asked, twice in a row, or has written what is no reply."""


class Closed(WorkerFailed):
    """A worker or a pool is asked that was closed: make another one."""


class TimeLimit(Error, TimeoutError):
    """The request wasn't answered within its time limit. Its worker was ended; the next request starts another one."""


@dataclass(frozen=True, slots=True)
class Reply:
    """What a request is answered: the exit status that the program would have, and the text."""

    status: int
    text: bytes


class Asker(Protocol):
    """Whatever answers requests: a Worker, or a Pool."""

    def ask(self, words: Sequence[str], given: bytes = b"", limit: float | None = None) -> Reply:
        """Asks with these words and this input; `limit` is in seconds."""


def named_program(name: str | os.PathLike[str]) -> Path:
    """The program of this name: a file where the name has a folder, `./` among them, else that on PATH."""
    found = shutil.which(name)
    if found is None:
        raise NoWorker(f"{os.fspath(name)} is no program: name the lvdc-worker that ./build makes")
    return Path(found).resolve()


def find_worker() -> Path:
    """The program: what LVDC_WORKER names; else lvdc-worker in the package or above its sources; else that on PATH. Raises NoWorker."""
    named = os.environ.get("LVDC_WORKER")
    if named:
        found = shutil.which(named)
        if found is None:
            raise NoWorker(f"LVDC_WORKER names {named}, which is no program: name the lvdc-worker that ./build makes, or unset it")
        return Path(found).resolve()
    here = Path(__file__).resolve()
    for folder in (here.parent, *here.parents[4:5]):
        if os.access(folder / PROGRAM, os.X_OK) and (folder / PROGRAM).is_file():
            return folder / PROGRAM
    found = shutil.which(PROGRAM)
    if found is None:
        raise NoWorker("there is no program lvdc-worker: install the wheel or the package lvdc, which have it, or run ./build in the "
                       "repository and then pip install ./clients/python, or let LVDC_WORKER name the program")
    return Path(found)


def frame_of(words: Sequence[str], given: bytes) -> bytes:
    """The frame of a request. Raises ValueError where the words are none, TypeError where they or the input are of another kind."""
    if isinstance(words, (str, bytes)):
        raise TypeError(f"the words of a request are a list, as ['run', '--through'], not {words!r}")
    if not isinstance(given, (bytes, bytearray, memoryview)):
        raise TypeError(f"the input of a request is bytes, not {given!r:.60}: lvdc.ask takes a text")
    line = " ".join([f"REQUEST {len(given)}", *words])
    if not 1 <= len(words) <= MOST_WORDS or not all(map(_WORD.fullmatch, words)) or len(line) > MOST_OF_LINE:
        raise ValueError(f"a request has 1 to {MOST_WORDS} words without blanks, not {list(words)}")
    if len(given) > MOST_BYTES:
        raise ValueError(f"an input has at most {MOST_BYTES} bytes, not {len(given)}")
    return line.encode("ascii") + b"\n" + given


class _Started:
    """The process that a worker has started, and by which process it was: one that was started before a fork belongs to the parent."""

    def __init__(self) -> None:
        self.process: subprocess.Popen[bytes] | None = None
        self.owner = 0

    def end(self, seconds: float = 0) -> None:
        """Ends it, where it is this process's own: it has so many seconds to end by itself."""
        process, self.process = self.process, None
        if process is None or self.owner != os.getpid():
            return
        for stream in (process.stdin, process.stdout):
            assert stream is not None
            stream.close()
        try:
            process.wait(timeout=seconds)
        except subprocess.TimeoutExpired:
            process.kill()
            process.wait()


class Worker:
    """One process of lvdc-worker, which is started when it is first asked, and ends with this object at the latest.

    It is safe from threads: one request is answered at a time. Where the process has gone, another one is started and asked again, once;
    that may be done, since no reply depends on an earlier request. `limit` is the time in seconds that each request has, unless it has its
    own; None is no limit.

    >>> from lvdc import Worker, run
    >>> with Worker() as worker:
    ...     print(run("IMAGE\\nLVDC 1\\nEND\\nRUN 2\\n", worker=worker).end)
    END DONE
    """

    def __init__(self, program: str | os.PathLike[str] | None = None, *, limit: float | None = None) -> None:
        self.program = find_worker() if program is None else named_program(program)
        self.limit = checked_limit(limit)
        self._lock = threading.Lock()
        self._is_killed = self._is_closed = False
        self._started = _Started()
        weakref.finalize(self, self._started.end)

    def __enter__(self) -> Self:
        return self

    def __exit__(self, kind: type[BaseException] | None, error: BaseException | None, trace: TracebackType | None) -> None:
        self.close()

    def __repr__(self) -> str:
        return f"Worker({str(self.program)!r}" + ("" if self.limit is None else f", limit={self.limit}") + ")"

    def __reduce__(self) -> tuple[Any, ...]:
        return _worker, (self.program, self.limit)

    @property
    def is_ended(self) -> bool:
        """Whether it was closed or killed, and answers no more."""
        return self._is_killed or self._is_closed

    def ask(self, words: Sequence[str], given: bytes = b"", limit: float | None = None) -> Reply:
        """Asks with these words and this input. Raises TimeLimit, WorkerFailed, Closed or NoWorker."""
        frame = frame_of(words, given)
        seconds = self.limit if limit is None else checked_limit(limit)
        deadline = None if seconds is None else time.monotonic() + seconds
        with self._lock:
            try:
                return self._exchange(frame, deadline)
            except WorkerFailed:
                self._started.end()
                if self.is_ended:
                    raise
            except BaseException:
                self._started.end()
                raise
            try:
                return self._exchange(frame, deadline)
            except BaseException:
                self._started.end()
                raise

    def close(self) -> None:
        """Ends the process. Nothing can be asked afterwards."""
        with self._lock:
            self._is_closed = True
            self._started.end(_SECONDS_TO_END)

    def kill(self) -> None:
        """Ends the process at once, from any thread, also while it is asked: that request has then failed, and so has each later one."""
        self._is_killed = True
        process = self._started.process
        if process is not None and self._started.owner == os.getpid():
            process.kill()

    def _start(self) -> subprocess.Popen[bytes]:
        """The process; another one where it is the parent's."""
        if self._is_closed:
            raise Closed(f"this worker was closed: make another one, as Worker({str(self.program)!r})")
        if self._is_killed:
            raise WorkerFailed(f"{self.program} was ended")
        started = self._started
        if started.process is not None and started.owner == os.getpid():
            return started.process
        try:
            # in a process group of its own, so that an interrupt from the keyboard comes to this process alone
            process = subprocess.Popen([self.program], stdin=subprocess.PIPE, stdout=subprocess.PIPE, bufsize=0, process_group=0)
        except OSError as error:
            raise NoWorker(f"{self.program} can't be started: {error.strerror}") from error
        assert process.stdin is not None and process.stdout is not None
        # these ends alone: the worker's own ends block, or a wait would be a failure to it
        os.set_blocking(process.stdin.fileno(), False)
        os.set_blocking(process.stdout.fileno(), False)
        started.process, started.owner = process, os.getpid()
        return process

    def _exchange(self, frame: bytes, deadline: float | None) -> Reply:
        """Writes the frame and reads the reply."""
        process = self._start()
        assert process.stdin is not None and process.stdout is not None
        _write(process.stdin.fileno(), frame, deadline)
        found, rest = _read_head(process.stdout.fileno(), deadline)
        parts, due = [rest], int(found[2]) - len(rest)
        while due > 0:
            parts.append(_read(process.stdout.fileno(), due, deadline))
            due -= len(parts[-1])
        if due < 0:
            raise WorkerFailed(f"{self.program} wrote more than a reply")
        return Reply(int(found[1]), b"".join(parts))


def checked_limit(limit: float | None) -> float | None:
    """A time limit in seconds, or none. Raises TypeError or ValueError."""
    if limit is not None and (isinstance(limit, bool) or not isinstance(limit, (int, float))):
        raise TypeError(f"a limit is a number of seconds, not {limit!r}")
    if limit is not None and not limit > 0:
        raise ValueError(f"a limit is more than 0 seconds, not {limit}")
    return limit


def _worker(program: Path, limit: float | None) -> Worker:
    """A worker of this program."""
    return Worker(program, limit=limit)


def _await(file: int, event: int, deadline: float | None) -> None:
    """Waits until a pipe is ready, or the time limit is over."""
    poll = select.poll()
    poll.register(file, event)
    left = None if deadline is None else max(0.0, deadline - time.monotonic()) * 1000
    if not poll.poll(left):
        raise TimeLimit("the request wasn't answered within its time limit")


def _write(file: int, frame: bytes, deadline: float | None) -> None:
    """Writes all of a frame."""
    left = memoryview(frame)
    while left:
        try:
            left = left[os.write(file, left[:_AT_ONCE]):]
        except BlockingIOError:
            _await(file, select.POLLOUT, deadline)
        except BrokenPipeError as error:
            raise WorkerFailed("the worker has gone") from error


def _read(file: int, most: int, deadline: float | None) -> bytes:
    """Reads some bytes, at least one."""
    while True:
        _await(file, select.POLLIN, deadline)
        try:
            found = os.read(file, min(most, _AT_ONCE))
        except BlockingIOError:
            continue
        if not found:
            raise WorkerFailed("the worker has gone")
        return found


def _read_head(file: int, deadline: float | None) -> tuple[re.Match[bytes], bytes]:
    """Reads the first line of a reply, and what came with it."""
    text = b""
    while b"\n" not in text:
        if len(text) > MOST_OF_LINE:
            break
        text += _read(file, _FRONT, deadline)
    found = _HEAD.match(text)
    if found is None:
        raise WorkerFailed(f"the worker wrote {text[:80]!r}, which is no reply")
    return found, text[found.end():]
