"""Takes in requests byte by byte, all connections in one thread, until each is whole: so one that sends nothing holds nobody up."""
import contextlib
import re
import selectors
import socket
import time
from collections.abc import Callable
from dataclasses import dataclass, field

from gate import LENGTH, MOST_INPUT

SECONDS_TO_READ = 5.0
MOST_HEAD = 1 << 17
MOST_ARRIVING = 600
BYTES_AT_ONCE = 1 << 16
SECONDS_BETWEEN_LOOKS = 0.1
END_OF_HEAD = re.compile(rb"\r?\n\r?\n")
LENGTH_LINE = re.compile(rb"\ncontent-length:[ \t]*([^\r\n]*?)[ \t]*\r?\n", re.IGNORECASE)


def is_whole(came: bytes) -> bool:
    """Whether nothing more is wanted of a request: its head with as many bytes as it names, or so much that it is refused whatever follows."""
    end = END_OF_HEAD.search(came)
    if end is None:
        return len(came) > MOST_HEAD
    lengths = [it.decode("latin-1") for it in LENGTH_LINE.findall(came[:end.end()])]
    if len(lengths) != 1 or not LENGTH.fullmatch(lengths[0]) or int(lengths[0]) > MOST_INPUT:
        return True
    return len(came) >= end.end() + int(lengths[0])


@dataclass
class Arriving:
    """A connection whose request isn't whole yet."""

    connection: socket.socket
    until: float = field(default_factory=lambda: time.monotonic() + SECONDS_TO_READ)
    came: bytes = b""


class Gathering:
    """Takes connections of a listening socket, and hands on each request that is whole, with its connection."""

    def __init__(self, listener: socket.socket, hand_on: Callable[[socket.socket, bytes], None]) -> None:
        self._listener, self._hand_on = listener, hand_on
        self._arriving: dict[socket.socket, Arriving] = {}
        self._selector = selectors.DefaultSelector()
        listener.setblocking(False)
        self._selector.register(listener, selectors.EVENT_READ)

    def go_on(self) -> None:
        """Takes what is there now, and closes what came too slowly. To be called again and again."""
        for key, _ in self._selector.select(SECONDS_BETWEEN_LOOKS):
            if key.fileobj is self._listener:
                self._accept()
            elif isinstance(key.fileobj, socket.socket) and key.fileobj in self._arriving:
                # one that isn't there any more made room for another just now
                self._read(self._arriving[key.fileobj])
        now = time.monotonic()
        for late in [it for it in self._arriving.values() if it.until < now]:
            self._leave(late.connection).close()

    def _accept(self) -> None:
        """Takes a connection; where there are too many, the one that came first and isn't whole goes."""
        with contextlib.suppress(OSError):
            connection, _ = self._listener.accept()
            connection.setblocking(False)
            if len(self._arriving) >= MOST_ARRIVING:
                self._leave(next(iter(self._arriving))).close()
            self._arriving[connection] = Arriving(connection)
            self._selector.register(connection, selectors.EVENT_READ)

    def _read(self, arriving: Arriving) -> None:
        """Takes some bytes; a request that has ended is handed on as it is."""
        try:
            more = arriving.connection.recv(BYTES_AT_ONCE)
        except BlockingIOError:
            return
        except OSError:
            self._leave(arriving.connection).close()
            return
        arriving.came += more
        if not more or is_whole(arriving.came):
            self._hand_on(self._leave(arriving.connection), arriving.came)

    def _leave(self, connection: socket.socket) -> socket.socket:
        """A connection that isn't read here any more."""
        self._selector.unregister(connection)
        del self._arriving[connection]
        return connection
