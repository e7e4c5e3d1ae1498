"""A lab that runs for the tests, and raw requests of it."""
import os
import pathlib
import re
import select
import signal
import socket
import subprocess
import tempfile
import time
import types

HERE = pathlib.Path(__file__).resolve().parent.parent
PATIENCE = 20.0
TYPE = "application/x-lvdc-deck"

# The line of a deck for which a sluggish worker takes its time, and such a worker over another one.
SLOW = "RUN 54321\n"
SLUGGISH = """#!/usr/bin/env python3
import subprocess, sys, time
with subprocess.Popen([{worker!r}], stdin=subprocess.PIPE, stdout=subprocess.PIPE) as worker:
    while head := sys.stdin.buffer.readline():
        text = sys.stdin.buffer.read(int(head.split()[1]))
        time.sleep(10 if {slow!r} in text else 0)
        worker.stdin.write(head + text)
        worker.stdin.flush()
        reply = worker.stdout.readline()
        sys.stdout.buffer.write(reply + worker.stdout.read(int(reply.split()[2])))
        sys.stdout.buffer.flush()
"""
STATUS = re.compile(rb"HTTP/1\.0 (\d{3}) ")


class Tally:
    """Counts what is as is due, and tells what isn't."""

    def __init__(self) -> None:
        self.passed = self.failed = 0

    def expect(self, name: str, got: object, wanted: object) -> None:
        """Notes whether something is as is due."""
        if got == wanted:
            self.passed += 1
        else:
            self.failed += 1
            print(f"lab: {name}: {str(got)[:400]} and not {str(wanted)[:400]}", flush=True)


class Lab:
    """A lab over this worker. Used by `with`, which ends it."""

    def __init__(self, worker: str, *words: str) -> None:
        self.worker = worker
        self.messages = tempfile.TemporaryFile()
        around = {**os.environ, "LVDC_WORKER": worker}
        self.process = subprocess.Popen([HERE / "lab", *words], stdout=subprocess.PIPE, stderr=self.messages, env=around)
        assert self.process.stdout is not None
        select.select([self.process.stdout], [], [], PATIENCE)
        self.address = self.process.stdout.readline().decode().strip()
        found = re.fullmatch(r"http://(127\.0\.0\.1:(\d+))/([\w-]{22})/", self.address)
        if found is None:
            raise ValueError(f"no address was written, but {self.address!r}: {self.told()}")
        self.host, self.port, self.token = found[1], int(found[2]), found[3]

    def __enter__(self) -> "Lab":
        return self

    def __exit__(self, kind: type[BaseException] | None, fault: BaseException | None, at: types.TracebackType | None) -> None:
        self.process.send_signal(signal.SIGINT)
        self.process.wait(PATIENCE)
        if self.process.stdout is not None:
            self.process.stdout.close()

    def told(self) -> str:
        """What it wrote on standard error so far."""
        self.messages.seek(0)
        return self.messages.read().decode(errors="replace")

    def connected(self) -> socket.socket:
        """A new connection."""
        return socket.create_connection((self.host.partition(":")[0], self.port), PATIENCE)

    def sent(self, request: bytes, whole: bool = True) -> bytes:
        """What a request of these bytes is answered; after it nothing more is sent, where it is `whole`."""
        with self.connected() as connection:
            connection.sendall(request)
            if whole:
                connection.shutdown(socket.SHUT_WR)
            return read_all(connection)

    def got(self, path: str = "", *headers: str) -> bytes:
        """What a GET of this path is answered, with these headers besides the host."""
        return self.sent(head_of("GET", f"/{self.token}/{path}", f"Host: {self.host}", *headers))

    def asked(self, path: str, deck: bytes, *headers: str) -> bytes:
        """What a question of this path is answered, with these headers besides the host."""
        return self.sent(head_of("POST", f"/{self.token}/ask/{path}", f"Host: {self.host}", *headers) + deck)

    def own_headers(self, deck: bytes) -> list[str]:
        """The headers that the lab's own page sends with a deck."""
        return [f"Origin: http://{self.host}", f"Content-Type: {TYPE}", f"Content-Length: {len(deck)}", "Sec-Fetch-Site: same-origin"]


def sluggish(worker: str, folder: pathlib.Path) -> str:
    """A worker over this one, which takes ten seconds for a deck with the line of slow ones."""
    program = folder / "sluggish-worker"
    program.write_text(SLUGGISH.format(worker=worker, slow=SLOW.encode()))
    program.chmod(0o755)
    return str(program)


def head_of(method: str, target: str, *headers: str) -> bytes:
    """The head of a request."""
    return "".join(f"{it}\r\n" for it in [f"{method} {target} HTTP/1.1", *headers, ""]).encode()


def read_all(connection: socket.socket) -> bytes:
    """All that comes up to the end; nothing, where the connection is cut."""
    found = b""
    until = time.monotonic() + PATIENCE
    try:
        while time.monotonic() < until and (more := connection.recv(1 << 16)):
            found += more
    except OSError:
        pass
    return found


def status_of(answer: bytes) -> int:
    """The status of an answer; 0 where there is none."""
    found = STATUS.match(answer)
    return int(found[1]) if found else 0


def body_of(answer: bytes) -> bytes:
    """What stands behind the headers of an answer."""
    return answer.partition(b"\r\n\r\n")[2]
