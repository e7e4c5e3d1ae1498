"""A worker that is asked in frames (docs/FORMATS.md, "Frames of the worker")."""
import re
import subprocess
import sys
import threading
from collections.abc import Iterable, Iterator, Sequence

# words and an input; a status and a text
Request = tuple[Sequence[str], bytes]
Reply = tuple[int, bytes]


def frame_of(words: Sequence[str], given: bytes) -> bytes | None:
    """A frame, or nothing where the words fit none."""
    fields = [word.encode("latin-1") for word in words]
    line = b" ".join([b"REQUEST %d" % len(given), *fields])
    fits = 1 <= len(fields) <= 8 and all(re.fullmatch(rb"[!-~]+", word) for word in fields) and len(line) <= 255
    return line + b"\n" + given if fits else None


class Worker:
    """A worker, which answers one request after the other."""

    def __init__(self, command: Sequence[str]) -> None:
        self.sending: threading.Thread | None = None
        try:
            self.process = subprocess.Popen(command, stdin=subprocess.PIPE, stdout=subprocess.PIPE)
        except OSError as error:
            sys.exit(f"{command[0]}: {error.strerror}")

    def __enter__(self) -> "Worker":
        return self

    def __exit__(self, *_: object) -> None:
        for stream in [self.process.stdout] if self.process.stdout else []:
            stream.close()
        if self.sending:
            self.sending.join()
        self.process.wait()

    def send(self, requests: Iterable[Request]) -> None:
        """Writes frames, and no more after them."""
        assert self.process.stdin
        try:
            with self.process.stdin as stream:
                for words, given in requests:
                    stream.write(frame_of(words, given) or b"")
        except BrokenPipeError:
            pass

    def ask_all(self, requests: Sequence[Request]) -> Iterator[Reply]:
        """The replies to these requests, the last that the worker is asked; fewer where it has gone."""
        assert self.process.stdout
        self.sending = threading.Thread(target=self.send, args=(requests,), daemon=True)
        self.sending.start()
        for _ in requests:
            head = re.fullmatch(rb"REPLY (\d+) (\d+)\n", self.process.stdout.readline())
            if not head:
                return
            yield int(head[1]), self.process.stdout.read(int(head[2]))
