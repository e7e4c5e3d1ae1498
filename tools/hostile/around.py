"""Runs a command where something around it is wrong: its worker, its limits, its output, or the moment at which it is told to end."""
import contextlib
import os
import pathlib
import random
import resource
import signal
import subprocess
import threading
import time
from collections.abc import Callable, Iterator
from typing import NamedTuple

# by the clock, where much else is at work
MOST_SECONDS = 900.0
# bytes that a worker reads or writes before it ends
MOST_OF_A_WORKER = 400
LEAST_FILES, MOST_FILES = 6, 24
MOST_OF_A_FILE = 20_000
# where Python and its modules have room, and a long file hasn't
LEAST_MEMORY, MOST_MEMORY = 44_000_000, 80_000_000
# the room that a disk has, and that a full one still has
WHOLE_DISK, MOST_LEFT = 1 << 30, 40_000
# when a signal is sent, by the processor's seconds: at first Python itself begins
SECONDS_TO_BEGIN, SECONDS_TO_END = 0.12, 0.6
TRACES = (b"Traceback", b"Fatal Python error", b"Exception ignored", b"Exception in thread")
# no other process keeps what the worker writes to open
WRITES_A_PART = """exec 5<&0 4>&1 >/dev/null
"{worker}" <&5 5<&- 4>&- | dd bs=1 count={bytes} >&4 4>&- 5<&- &
exec 4>&- 5<&-
wait"""
# what a worker does in place of answering; `true` is the whole one
WORKERS = {
    "its worker reads a part": 'dd bs=1 count={bytes} | "{worker}"', "its worker writes a part": WRITES_A_PART,
    "its worker ends": "exit 3", "its worker is killed": "kill -KILL $$", "its worker says something else": "echo REPLY of mine",
    "its worker says too little": 'echo "REPLY 0 900"; echo END DONE', "its worker can't write": 'exec "{worker}" >/dev/full'}
OUTPUTS = {"a full output": ">/dev/full", "a closed output": ">&-", "a reader that has gone": "| true", "closed messages": "2>&-",
           "full messages": "2>/dev/full", "a closed input": "<&-"}


class Around(NamedTuple):
    """What is wrong around a command: its worker, limits of the system, its streams, a disk with so little room, a signal after so many seconds."""

    name: str
    worker: str
    limits: dict[int, int]
    streams: str = ""
    room: int | None = None
    signal: int = 0
    seconds: float = 0.0

    @property
    def is_fine(self) -> bool:
        """Whether nothing is wrong."""
        return self.name == FINE


class Done(NamedTuple):
    """An exit status, below 0 that of a signal, and what was written on both streams."""

    status: int
    text: bytes
    messages: bytes


FINE = "nothing wrong"


def worker_in(folder: pathlib.Path, lines: str) -> str:
    """A worker of these lines of a shell."""
    path = folder / "worker"
    path.unlink(missing_ok=True)
    path.write_text(f"#!/bin/sh\nexec 2>/dev/null\n{lines}\n")
    path.chmod(0o755)
    return str(path)


def drawn_around(draw: random.Random, worker: str, folder: pathlib.Path, kinds: str = "wlos") -> Around:
    """Something that is wrong, of these kinds: the worker, limits, memory, streams, signals; in a third of the cases nothing."""
    fine = Around(FINE, worker, {})
    if draw.randrange(3) == 0:
        return fine
    match draw.choice(kinds):
        case "w":
            name = draw.choice(["no worker", "a worker that is none", *WORKERS])
            lines = WORKERS.get(name, "").format(worker=worker, bytes=draw.randrange(MOST_OF_A_WORKER))
            if name == "a worker that is none":
                pathlib.Path(worker_in(folder, "")).write_text("")
            there = folder / ("none" if name == "no worker" else "worker")
            return fine._replace(name=name, worker=worker_in(folder, lines) if lines else str(there))
        case "m":
            most = draw.randrange(LEAST_MEMORY, MOST_MEMORY)
            return fine._replace(name=f"{most} bytes of memory", limits={resource.RLIMIT_AS: most})
        case "l" if os.path.ismount(folder) and draw.randrange(2):
            room = draw.randrange(MOST_LEFT)
            return fine._replace(name=f"a disk with room for {room} bytes", room=room)
        case "l":
            what, most = draw.choice([(resource.RLIMIT_FSIZE, draw.randrange(MOST_OF_A_FILE)),
                                      (resource.RLIMIT_NOFILE, draw.randrange(LEAST_FILES, MOST_FILES))])
            return fine._replace(name=f"a limit {what} of {most}", limits={what: most})
        case "o":
            name = draw.choice([*OUTPUTS])
            return fine._replace(name=name, streams=OUTPUTS[name])
    number, seconds = draw.choice([signal.SIGTERM, signal.SIGINT, signal.SIGKILL]), draw.uniform(SECONDS_TO_BEGIN, SECONDS_TO_END)
    return fine._replace(name=f"{number.name} after {seconds:.2f} s of a processor", signal=number, seconds=seconds)


def limited(limits: dict[int, int]) -> Callable[[], None]:
    """Sets limits in a process that begins; a file that grows above its limit is an error, as on a full disk."""
    def begin() -> None:
        signal.signal(signal.SIGXFSZ, signal.SIG_IGN)
        for what, most in limits.items():
            resource.setrlimit(what, (most, most))
    return begin


@contextlib.contextmanager
def disk(folder: pathlib.Path) -> Iterator[None]:
    """A disk of a folder's own, where it may be mounted."""
    mount = ["mount", "-t", "tmpfs", "-o", f"size={WHOLE_DISK}", "lvdc", str(folder)]
    is_mounted = os.geteuid() == 0 and subprocess.run(mount, check=False).returncode == 0
    try:
        yield
    finally:
        if is_mounted:
            subprocess.run(["umount", "--lazy", folder], check=True)


@contextlib.contextmanager
def full(folder: pathlib.Path, room: int | None) -> Iterator[None]:
    """A disk that has so little room left for a while; with none as it is."""
    if room is None:
        yield
        return
    there = os.statvfs(folder)
    used = (there.f_blocks - there.f_bfree) * there.f_frsize
    subprocess.run(["mount", "-o", f"remount,size={max(used + room, there.f_frsize)}", folder], check=True)
    try:
        yield
    finally:
        subprocess.run(["mount", "-o", f"remount,size={WHOLE_DISK}", folder], check=True)


def run(words: list[str], given: bytes, around: Around, folder: pathlib.Path) -> Done:
    """Runs a command in a folder, over a disk of which nothing else is there."""
    with full(folder, around.room):
        return ended(words, given, around, folder)


def ended(words: list[str], given: bytes, around: Around, folder: pathlib.Path) -> Done:
    """Runs a command in a folder. A signal goes to all of its processes, and none is left behind; -1000 is the status of one that has no end."""
    names = {**os.environ, "LVDC_WORKER": around.worker, "PYTHONDONTWRITEBYTECODE": "1", "TMPDIR": str(folder)}
    if around.streams:
        words = ["bash", "-c", f'"$@" {around.streams}; exit "${{PIPESTATUS[0]}}"', words[0], *words]
    process = subprocess.Popen(words, stdin=subprocess.PIPE, stdout=subprocess.PIPE, stderr=subprocess.PIPE, cwd=folder, env=names,
                               start_new_session=True, preexec_fn=limited(around.limits))
    try:
        if around.signal:
            return signalled(process, given, around)
        text, messages = process.communicate(given, MOST_SECONDS)
        return Done(process.returncode, text, messages)
    except subprocess.TimeoutExpired:
        return Done(-1000, b"", f"no end after {MOST_SECONDS} seconds".encode())
    finally:
        with contextlib.suppress(ProcessLookupError):
            os.killpg(process.pid, signal.SIGKILL)
        process.wait()


def seconds_of(process: int) -> float:
    """The seconds of a processor that a process and those that it waited for have taken."""
    with contextlib.suppress(OSError):
        fields = pathlib.Path(f"/proc/{process}/stat").read_text().rpartition(")")[2].split()
        return sum(map(int, fields[11:15])) / os.sysconf("SC_CLK_TCK")
    return 0.0


def signalled(process: subprocess.Popen[bytes], given: bytes, around: Around) -> Done:
    """Sends a signal to all processes of a command after some seconds of a processor, unless it has ended."""
    def send() -> None:
        until = time.monotonic() + MOST_SECONDS / 2
        while process.poll() is None and seconds_of(process.pid) < around.seconds and time.monotonic() < until:
            time.sleep(0.005)
        with contextlib.suppress(ProcessLookupError):
            os.killpg(process.pid, around.signal)

    sender = threading.Thread(target=send)
    sender.start()
    try:
        text, messages = process.communicate(given, MOST_SECONDS)
    finally:
        sender.join()
    return Done(process.returncode, text, messages)


def complaint(done: Done, around: Around) -> str | None:
    """What is wrong with the end of any command: a trace of Python, a signal that nobody sent, or no end."""
    if any(it in done.messages or it in done.text for it in TRACES):
        return "a trace"
    if done.status < 0 and -done.status != around.signal:
        return f"an end by {done.status}"
    return None
