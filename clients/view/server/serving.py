"""The lab's server: HTTP on the loopback, with few threads, and a limit on everything that a request brings.

It stands on http.server of Python, which limits little. Here a connection has one request, which must be whole within some seconds. Whole
requests wait for few threads in a queue, and one that finds the queue full is turned away. A question is answered or turned away within
some seconds from when it was whole, the time that it waited included."""
import contextlib
import io
import queue
import secrets
import socket
import threading
import time
from collections.abc import Callable
from http.server import BaseHTTPRequestHandler
from typing import Any, NamedTuple, Self

from arriving import Gathering
from files import File
from gate import HEADERS, Gate, Headers, Refusal, length_of_input
from questions import Asker, words_of
from lvdc.pools import Pool

ADDRESS = "127.0.0.1"
THREADS, THREADS_FOR_FILES = 32, 4
MOST_WAITING = 256
WAITING_TO_CONNECT = 1024
SECONDS_TO_WRITE = 5.0
SECONDS_TO_DROP = 0.25
MOST_DROPPED, MOST_DROPPED_AT_ONCE = 1 << 22, 1 << 16
BYTES_OF_TOKEN = 16
ASK = "ask/"
# The page takes nothing from elsewhere, is shown in no other page, and its answers are kept nowhere.
GUARDS = {
    "Content-Security-Policy": "default-src 'none'; script-src 'self'; style-src 'self'; img-src 'self' data:; connect-src 'self'; "
                               "base-uri 'none'; form-action 'none'; frame-ancestors 'none'",
    "Cross-Origin-Opener-Policy": "same-origin", "Cross-Origin-Resource-Policy": "same-origin", "Referrer-Policy": "no-referrer",
    "X-Content-Type-Options": "nosniff", "Cache-Control": "no-store"}
TURNED_AWAY = (b"HTTP/1.0 503 Service Unavailable\r\nContent-Type: text/plain; charset=utf-8\r\nRetry-After: 1\r\nConnection: close\r\n\r\n"
               b"Too many ask at once. Ask again in a second.\n")


class Whole(NamedTuple):
    """A request that has come, its connection, and when it was whole."""

    connection: socket.socket
    came: bytes
    at: float


class Handler(BaseHTTPRequestHandler):
    """Answers the one request of a connection."""

    server: "Server"  # type: ignore[assignment]

    def __init__(self, whole: Whole, server: "Server") -> None:
        self.whole_at, self.came = whole.at, whole.came
        super().__init__(whole.connection, None, server)  # type: ignore[arg-type]

    def setup(self) -> None:
        """Reads what has come."""
        super().setup()
        self.rfile = io.BufferedReader(io.BytesIO(self.came))  # type: ignore[arg-type]
        self.connection.settimeout(SECONDS_TO_WRITE)

    def handle_one_request(self) -> None:
        """Answers the request; one that is cut has no answer."""
        with contextlib.suppress(OSError):
            super().handle_one_request()

    def do_GET(self) -> None:
        """Sends a file."""
        self.answer(self.file_asked)

    def do_POST(self) -> None:
        """Asks the worker."""
        self.answer(self.question_asked)

    def answer(self, sends: Callable[[str, Headers], None]) -> None:
        """Answers a request that the gate lets through, else refuses it."""
        headers: Headers = {name: self.headers.get_all(name) or [] for name in HEADERS}
        try:
            sends(self.server.gate.path_of(self.command, self.path, headers), headers)
        except Refusal as refusal:
            self.send_error(refusal.status, explain=refusal.sentence)

    def file_asked(self, path: str, _: Headers) -> None:
        """Sends the file of this path."""
        file = self.server.files.get(path)
        if file is None:
            raise Refusal(404, "There is no such file.")
        self.send(200, file)

    def question_asked(self, path: str, headers: Headers) -> None:
        """Sends what the worker answers to the words of this path over the deck that comes with it."""
        if not path.startswith(ASK):
            raise Refusal(405, "Nothing can be sent there.")
        words = words_of(path.removeprefix(ASK))
        length = length_of_input(headers)
        deck = self.rfile.read(length)
        if len(deck) < length:
            raise Refusal(400, "The input has ended too early.")
        reply = self.server.asker.asked(words, deck, self.whole_at)
        self.send(200, File("text/plain; charset=utf-8", reply.text), {"Lvdc-Status": str(reply.status)})

    def send(self, status: int, file: File, more: dict[str, str] | None = None) -> None:
        """Sends a content with its headers."""
        self.connection.settimeout(SECONDS_TO_WRITE)
        self.send_response(status)
        for name, value in {**GUARDS, "Content-Type": file.type, "Content-Length": str(len(file.content)), **(more or {})}.items():
            self.send_header(name, value)
        self.end_headers()
        self.wfile.write(file.content)

    def send_error(self, code: int, message: str | None = None, explain: str | None = None) -> None:
        """Refuses a request with a sentence."""
        self.close_connection = True
        sentence = explain or "This is no request that is answered here."
        self.send(code, File("text/plain; charset=utf-8", f"{sentence}\n".encode()))
        self.drop_input()

    def drop_input(self) -> None:
        """Reads what still comes, within limits: where a connection is closed before, the answer may be lost on its way."""
        self.connection.shutdown(socket.SHUT_WR)
        until = time.monotonic() + SECONDS_TO_DROP
        for _ in range(MOST_DROPPED // MOST_DROPPED_AT_ONCE):
            self.connection.settimeout(max(0.001, until - time.monotonic()))
            if not self.connection.recv(MOST_DROPPED_AT_ONCE):
                break

    def version_string(self) -> str:
        """What the server calls itself."""
        return "lvdc-lab"

    def log_message(self, format: str, *args: Any) -> None:
        """Nothing is written of requests."""


class Server:
    """Listens on the loopback. Its files and its pool are what it answers from. Used by `with`, which ends it."""

    def __init__(self, port: int, files: dict[str, File], pool: Pool, token: str | None = None) -> None:
        self._listener = socket.create_server((ADDRESS, port), backlog=WAITING_TO_CONNECT)
        self._is_over = False
        self.files, self.asker = files, Asker(pool)
        self.gate = Gate(self._listener.getsockname()[1], token or secrets.token_urlsafe(BYTES_OF_TOKEN))
        # files don't wait for questions
        self._questions: queue.Queue[Whole] = queue.Queue(MOST_WAITING)
        self._others: queue.Queue[Whole] = queue.Queue(MOST_WAITING)
        for waiting, threads in ((self._questions, THREADS), (self._others, THREADS_FOR_FILES)):
            for _ in range(threads):
                threading.Thread(target=self._take_turns, args=[waiting], daemon=True).start()

    def __enter__(self) -> Self:
        return self

    def __exit__(self, *_: object) -> None:
        self._is_over = True
        self._listener.close()

    @property
    def address(self) -> str:
        """The address of the page."""
        return f"http://{ADDRESS}:{self.gate.port}/{self.gate.token}/"

    def serve_forever(self) -> None:
        """Takes requests until the program or the server ends."""
        try:
            gathering = Gathering(self._listener, self._hand_on)
            while not self._is_over:
                with contextlib.suppress(MemoryError):
                    gathering.go_on()
        except (OSError, ValueError):
            # a listener that was closed can't be looked at
            if not self._is_over:
                raise

    def _hand_on(self, connection: socket.socket, came: bytes) -> None:
        """Lets a request wait for a thread, or turns it away."""
        waiting = self._questions if came.startswith(b"POST ") else self._others
        try:
            waiting.put_nowait(Whole(connection, came, time.monotonic()))
        except queue.Full:
            turn_away(connection)

    def _take_turns(self, waiting: "queue.Queue[Whole]") -> None:
        """Answers one waiting request after another."""
        while True:
            whole = waiting.get()
            with contextlib.closing(whole.connection), contextlib.suppress(OSError, MemoryError):
                Handler(whole, self)
                whole.connection.shutdown(socket.SHUT_WR)


def turn_away(connection: socket.socket) -> None:
    """Says that too many ask at once."""
    with contextlib.closing(connection), contextlib.suppress(OSError):
        connection.send(TURNED_AWAY)
