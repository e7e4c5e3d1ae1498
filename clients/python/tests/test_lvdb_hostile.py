"""Random input to lvdb: lines at the prompt, messages of the protocol and files. Each is answered, and nothing is raised but what is shown.
--seconds=3600 goes on for an hour, with draws of its own."""
import io
import random
import subprocess
import time
from collections.abc import Callable
from pathlib import Path
from typing import Any

import pytest
from conftest import TOP

from lvdc import Error, Worker
from lvdc.check.main import check_file
from lvdc.lvdb.commands import COMMANDS, carry_out
from lvdc.lvdb.console import Console, Leave
from lvdc.lvdb.framing import BadMessage, read_message
from lvdc.lvdb.program import Options, load
from lvdc.lvdb.protocol import Server
from lvdc.lvdb.session import Debugger

FILES = sorted([*TOP.glob("examples/*.deck"), *TOP.glob("examples/*.source"), *TOP.glob("examples/*.macros"), *TOP.glob("examples/programs/*.deck")])
WORDS = [
    "STOP", "LIST", "LIST+2", "X", "A", "$A", "$PQ", "775", "777", "0,01,002", "0 01 002", "0,00,0,003", "9,99,999", "1", "0", "-1", "7",
    "for", "if", "flip", "force", "A", "==", "1 +", "(", ")", "~", "*", "=D-7", "=O17", "/8d", "/cells", "/s", "registers", "memory",
    "ports", "port 017", "port", "accumulator", "5", "2", "1000000", "99999999999", "early", "B", "é", "\udcff", "\0", "\t", "<", "&", "x" * 300,
    "(" * 80, "1" * 5000]
REQUESTS = ["initialize", "launch", "configurationDone", "threads", "setBreakpoints", "setFunctionBreakpoints", "setExceptionBreakpoints",
            "dataBreakpointInfo", "setDataBreakpoints", "stackTrace", "scopes", "variables", "evaluate", "disassemble", "readMemory", "completions",
            "continue", "next", "stepIn", "stepOut", "stepBack", "reverseContinue", "fly"]
KEYS = ["source", "path", "breakpoints", "line", "name", "condition", "hitCondition", "filters", "dataId", "accessType", "startFrame", "levels",
        "variablesReference", "expression", "context", "memoryReference", "offset", "instructionOffset", "instructionCount", "count", "text",
        "column"]


def line(draw: random.Random) -> str:
    """A line of words, most of which begin with a command."""
    words = [draw.choice(WORDS) for _ in range(draw.randrange(5))]
    return " ".join([draw.choice([*COMMANDS, *COMMANDS, *WORDS]), *words])


def value(draw: random.Random, depth: int = 0) -> Any:
    """A value of JSON."""
    kinds: list[Callable[[], Any]] = [
        lambda: None, lambda: draw.choice([True, False]), lambda: draw.choice([0, 1, -1, 2, 17, 10**6, 10**30, 1.5, float("inf"), float("nan")]),
        lambda: draw.choice(WORDS), lambda: line(draw), lambda: "repl", lambda: "0x10"]
    if depth < 3:
        kinds += [lambda: [value(draw, depth + 1) for _ in range(draw.randrange(3))],
                  lambda: {draw.choice(KEYS): value(draw, depth + 1) for _ in range(draw.randrange(4))}]
    return draw.choice(kinds)()


def changed(draw: random.Random, text: bytes) -> bytes:
    """A text with some bytes or lines changed."""
    lines = text.split(b"\n")
    for _ in range(draw.randrange(1, 4)):
        at = draw.randrange(len(lines))
        match draw.randrange(5):
            case 0:
                lines[at] = draw.choice(lines)
            case 1:
                lines[at] = lines[at][:draw.randrange(len(lines[at]) + 1)]
            case 2:
                lines[at] += draw.choice([b"\0", b"\xff", b" 8", b",", b"=", b"\r", b"*", b"A" * 200])
            case 3:
                del lines[at]
                lines = lines or [b""]
            case _:
                lines.insert(at, draw.choice([b"SAME    MACRO", b"        MEND", b"        SAME  1,2", b"        END", b"RUN 5", b"FAULTS", b""]))
    return b"\n".join(lines)


class Shaken:
    """lvdb over a file, by its console and by the protocol."""

    def __init__(self, draw: random.Random, worker: Worker, folder: Path) -> None:
        self.draw, self.worker, self.folder = draw, worker, folder
        self.console = self.opened(draw.choice(FILES))

    def opened(self, path: Path) -> Console:
        """A debugger over a file; its run is a short one, so that no search takes long."""
        program = load(path, Options(), self.worker)
        object.__setattr__(program.deck, "count", min(program.deck.count, 60))
        return Console(Debugger(program, self.worker))

    def type_a_line(self) -> str:
        """A line at the prompt."""
        typed = line(self.draw)
        if not typed.startswith(("sa", "rel")):
            try:
                carry_out(self.console, typed)
            except (Error, Leave):
                pass
        return typed

    def send_a_message(self) -> str:
        """A request of the protocol; a response comes, and no more than one."""
        given = {self.draw.choice(KEYS): value(self.draw) for _ in range(self.draw.randrange(6))}
        request = {"seq": 1, "type": "request", "command": self.draw.choice(REQUESTS), "arguments": self.draw.choice([given, value(self.draw)])}
        out = io.BytesIO()
        server = Server(out, self.worker)
        server.sit(self.console)
        server.answer(request)
        assert out.getvalue().count(b'"type":"response"') == 1
        return str(request)

    def read_a_message(self) -> str:
        """Bytes in place of a message."""
        text = changed(self.draw, b'Content-Length: 20\r\n\r\n{"command":"threads"}')
        try:
            read_message(io.BytesIO(text))
        except BadMessage:
            pass
        return repr(text)

    def open_a_file(self) -> str:
        """A file that is changed, by lvdb and by lvdc-check."""
        text = changed(self.draw, self.draw.choice(FILES).read_bytes())
        path = self.folder / "shaken"
        path.write_bytes(text)
        list(check_file(path, self.worker))
        try:
            self.console = self.opened(path)
        except Error:
            pass
        return repr(text)


def test_random_input_is_answered(worker: Worker, tmp_path: Path, pytestconfig: pytest.Config) -> None:
    seconds = float(pytestconfig.getoption("--seconds"))
    draw = random.Random(None if seconds > 60 else 77)
    shaken = Shaken(draw, worker, tmp_path)
    ways = [shaken.type_a_line, shaken.type_a_line, shaken.type_a_line, shaken.send_a_message, shaken.read_a_message, shaken.open_a_file]
    end, done = time.process_time() + seconds, 0
    while time.process_time() < end:
        draw.choice(ways)()
        done += 1
    print(f"{done} draws")


def with_memory(kilobytes: int, *words: str) -> subprocess.CompletedProcess[str]:
    """lvdb with these words, where it has so much memory at most."""
    command = ["bash", "-c", f'ulimit -v {kilobytes}; exec "$@"', "bash", str(TOP / "clients/python/lvdb"), *words]
    return subprocess.run(command, stdin=subprocess.DEVNULL, capture_output=True, text=True, check=False)


def test_too_little_memory_is_told(worker: Worker, tmp_path: Path) -> None:
    path = tmp_path / "long.deck"
    path.write_text("IMAGE\nLVDC 1\nEND\nFAULTS\n" + "FLIP 1 1 0 0 0 1\n" * 60_000 + "RUN 1\n")
    least = next(it for it in range(24_000, 400_000, 2_000) if with_memory(it, "--help").returncode == 0)
    # what a process has room for differs by a little
    told = with_memory(least + 8_000, str(path))
    assert (told.returncode, told.stderr) == (1, "lvdb: there isn't enough memory\n")
