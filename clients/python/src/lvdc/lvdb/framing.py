"""Messages of the Debug Adapter Protocol: a header with the length, a blank line, and so many bytes of JSON."""
import json
import re
from typing import Any, BinaryIO, Protocol, TypeAlias

from lvdc.errors import Error

Message: TypeAlias = dict[str, Any]
_LENGTH = re.compile(rb"Content-Length: *([0-9]{1,9})\r\n", re.IGNORECASE)
_MOST_HEADERS, _MOST_BYTES = 32, 1 << 24


class Incoming(Protocol):
    """Where messages come from; a read may give fewer bytes than are asked for."""

    def readline(self, size: int = ..., /) -> bytes:
        """The next line."""

    def read(self, size: int = ..., /) -> bytes | None:
        """Some bytes; none at the end."""


class BadMessage(Error):
    """What came is no message of the protocol."""


def read_message(stream: Incoming) -> Message | None:
    """The next message; None where the stream ends before it."""
    length = None
    for number in range(_MOST_HEADERS):
        line = stream.readline(4096)
        if not line and number == 0:
            return None
        if line == b"\r\n":
            break
        found = _LENGTH.fullmatch(line)
        length = int(found[1]) if found is not None else length
    if length is None:
        raise BadMessage("a message begins with a line Content-Length")
    if length > _MOST_BYTES:
        raise BadMessage(f"a message has at most {_MOST_BYTES} bytes")
    text = bytearray()
    while len(text) < length and (more := stream.read(length - len(text))):
        text += more
    try:
        message = json.loads(text)
    except (ValueError, RecursionError) as error:
        raise BadMessage(f"the message is no JSON: {error}") from error
    if not isinstance(message, dict):
        raise BadMessage("the message is no object")
    return message


def write_message(stream: BinaryIO, message: Message) -> None:
    """Writes a message."""
    text = json.dumps(message, separators=(",", ":")).encode()
    stream.write(b"Content-Length: %d\r\n\r\n" % len(text) + text)
    stream.flush()
