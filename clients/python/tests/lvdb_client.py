"""A client of the Debug Adapter Protocol, as an editor is one."""
import json
import os
import subprocess
import sys
import threading
from pathlib import Path
from typing import Any, Self

Body = dict[str, Any]
SECONDS = 120
SOURCES = Path(__file__).resolve().parents[1] / "src"


class Client:
    """Speaks to `lvdb --dap` in a process of its own. Events that come before a response are kept."""

    def __init__(self) -> None:
        names = {**os.environ, "PYTHONPATH": str(SOURCES), "PYTHONDONTWRITEBYTECODE": "1"}
        self.process = subprocess.Popen([sys.executable, "-m", "lvdc.lvdb", "--dap"], stdin=subprocess.PIPE, stdout=subprocess.PIPE, env=names)
        self.events: list[Body] = []
        self._watch = threading.Timer(SECONDS, self.process.terminate)
        self._watch.start()
        self._number = 0

    def __enter__(self) -> Self:
        return self

    def __exit__(self, *raised: object) -> None:
        assert self.process.stdin is not None and self.process.stdout is not None
        self.process.stdin.close()
        self.process.wait(timeout=SECONDS)
        self._watch.cancel()
        self.process.stdout.close()

    def send(self, command: str, **arguments: Any) -> int:
        """Writes a request."""
        assert self.process.stdin is not None
        self._number += 1
        text = json.dumps({"seq": self._number, "type": "request", "command": command, "arguments": arguments}).encode()
        self.process.stdin.write(b"Content-Length: %d\r\n\r\n" % len(text) + text)
        self.process.stdin.flush()
        return self._number

    def read(self) -> Body:
        """The next message; its header has the form that the protocol says."""
        assert self.process.stdout is not None
        head = self.process.stdout.readline()
        assert head.startswith(b"Content-Length: ") and self.process.stdout.readline() == b"\r\n"
        message: Body = json.loads(self.process.stdout.read(int(head.split(b":")[1])))
        return message

    def response(self, number: int) -> Body:
        """The response to a request; events that come first are kept."""
        while (message := self.read())["type"] == "event":
            self.events.append(message)
        assert message["type"] == "response" and message["request_seq"] == number
        return message

    def ask(self, command: str, **arguments: Any) -> Body:
        """What a request is answered, which succeeds."""
        answer = self.response(self.send(command, **arguments))
        assert answer["success"], answer
        body: Body = answer["body"]
        return body

    def refused(self, command: str, **arguments: Any) -> str:
        """The sentence with which a request is refused."""
        answer = self.response(self.send(command, **arguments))
        assert not answer["success"], answer
        return str(answer["message"])

    def event(self, name: str) -> Body:
        """The next event of a kind."""
        while True:
            message = self.events.pop(0) if self.events else self.read()
            assert message["type"] == "event", message
            if message["event"] == name:
                body: Body = message["body"]
                return body

    def variables(self, reference: int) -> dict[str, str]:
        """The variables of a scope by their names."""
        return {it["name"]: it["value"] for it in self.ask("variables", variablesReference=reference)["variables"]}
