"""A client of the Debug Adapter Protocol goes through whole sessions with lvdb."""
import base64
import io
import os
import signal
import subprocess
import sys
import threading
from collections.abc import Iterator
from pathlib import Path

import pytest
from conftest import TOP
from lvdb_client import Client

from lvdc import Worker
from lvdc.lvdb.protocol import Server

SORT = str(TOP / "examples" / "programs" / "sort.deck")
FIVE_THREES = str(TOP / "examples" / "five-threes.macros")


@pytest.fixture
def client(worker: Worker) -> Iterator[Client]:
    """A client that has initialized; without a worker there is none."""
    with Client() as found:
        capabilities = found.ask("initialize", adapterID="lvdb", linesStartAt1=True)
        assert capabilities["supportsStepBack"] and not capabilities.get("supportsSetVariable")
        yield found


def launched(client: Client, program: str, lines: list[int], **more: object) -> list[dict[str, object]]:
    """Launches a program with breakpoints by lines; it stands at its beginning then."""
    client.ask("launch", program=program, **more)
    client.event("initialized")
    found: list[dict[str, object]] = client.ask("setBreakpoints", source={"path": program}, breakpoints=[{"line": it} for it in lines])["breakpoints"]
    client.ask("configurationDone")
    return found


def frames(client: Client) -> list[tuple[str, int]]:
    """The stack: names and lines."""
    return [(it["name"].split(" ")[0], it["line"]) for it in client.ask("stackTrace", threadId=1)["stackFrames"]]


def test_a_session_from_initialize_to_disconnect(client: Client) -> None:
    lines = Path(SORT).read_text().split("\n")
    less, change = 1 + next(at for at, it in enumerate(lines) if it.startswith("LESS ")), 1 + lines.index("CHANGE  CLA   OTHER")
    set_ = launched(client, SORT, [less, change, 9_999])
    assert [it["verified"] for it in set_] == [True, True, False]
    assert client.event("stopped")["reason"] == "entry"
    assert client.ask("threads")["threads"] == [{"id": 1, "name": "LVDC"}]

    client.ask("continue", threadId=1)
    assert client.event("stopped")["reason"] == "breakpoint"
    stack = frames(client)
    assert stack == [("LESS", less), ("GET2+2", lines.index("        HOP   =HLESS     IS OTHER BELOW ONE?") + 1)]
    scopes = {it["name"]: it["variablesReference"] for it in client.ask("scopes", frameId=0)["scopes"]}
    registers, memory, copies = (client.variables(scopes[it]) for it in ("Registers", "Memory", "Copies"))
    assert registers["A"] == "200000000" and registers["TIME"].endswith("phase A")
    assert memory["ONE"].split()[1:2] == ["3"] and memory["OTHER"].split()[1:2] == ["-33554432"]
    assert copies["accumulator A"] == "200000000" and len(copies) == 15

    time = int(registers["TIME"].split(",")[0])
    client.ask("stepBack", threadId=1)
    client.event("stopped")
    assert client.variables(scopes["Registers"])["TIME"] == f"{time - 1}, phase A"
    for _ in range(2):
        client.ask("stepIn", threadId=1)
        client.event("stopped")
    assert frames(client)[0] == ("LESS+1", less + 1)
    client.ask("stepOut", threadId=1)
    client.event("stopped")
    assert frames(client) == [("GET2+3", stack[1][1] + 1)]

    client.ask("continue", threadId=1)
    client.event("stopped")
    assert frames(client)[0] == ("CHANGE", change)
    client.ask("reverseContinue", threadId=1)
    assert client.event("stopped")["reason"] == "breakpoint"
    assert client.variables(scopes["Registers"])["TIME"] == f"{time}, phase A"
    client.ask("disconnect")
    client.event("terminated")
    assert client.process.wait(timeout=10) == 0


def test_what_isnt_there_is_refused_by_a_sentence(client: Client) -> None:
    assert "nothing was launched" in client.refused("stackTrace", threadId=1)
    assert "can't be read" in client.refused("launch", program="/nowhere/at.all")
    assert "`program` is missing" in client.refused("launch")
    assert "`times` is a number" in client.refused("launch", program=SORT, times="many")
    assert "`tape`" in client.refused("launch", program=FIVE_THREES, tape=["5"])
    assert "RUN, START and PORTS" in client.refused("launch", program=SORT, times=5)
    assert "no request 'setVariable'" in client.refused("setVariable", name="A", value="1")
    launched(client, SORT, [])
    assert "is no expression" in client.refused("evaluate", expression="A B")
    assert "begins" in client.refused("evaluate", expression="back", context="repl")
    assert client.ask("evaluate", expression="$A", context="hover")["result"].startswith("000000000")


def test_the_console_of_the_client_takes_the_commands_of_the_prompt(client: Client) -> None:
    launched(client, SORT, [], stopOnEntry=True)
    client.event("stopped")
    assert "FLIP 5 2 0 2 0 000000001" in client.ask("evaluate", expression="hurt 5 2 for 3 flip 1", context="repl")["result"]
    assert "accumulator 2 differs" in client.ask("evaluate", expression="phase", context="repl")["result"]
    assert client.event("stopped")["reason"] == "goto"
    assert "; copy 2 " in client.variables(3)["accumulator A"]


def test_words_and_names_are_watched(client: Client) -> None:
    launched(client, SORT, [])
    client.event("stopped")
    found = client.ask("dataBreakpointInfo", name="OTHER")
    assert found["accessTypes"] == ["write", "read", "readWrite"] and client.ask("dataBreakpointInfo", name="NOBODY")["dataId"] is None
    client.ask("setDataBreakpoints", breakpoints=[{"dataId": found["dataId"]}])
    client.ask("continue", threadId=1)
    assert client.event("stopped")["reason"] == "data breakpoint"
    client.ask("setDataBreakpoints", breakpoints=[])
    named = client.ask("setFunctionBreakpoints", breakpoints=[{"name": "STOP"}, {"name": "NOBODY"}])["breakpoints"]
    assert [it["verified"] for it in named] == [True, False]
    client.ask("continue", threadId=1)
    assert client.event("stopped")["reason"] == "breakpoint"
    assert frames(client)[0][0] == "STOP"


def test_a_source_with_macros_has_its_own_lines(client: Client) -> None:
    found = launched(client, FIVE_THREES, [18, 19], times=200)
    assert [it["line"] for it in found] == [18, 19]
    client.event("stopped")
    frame = client.ask("stackTrace", threadId=1)["stackFrames"][0]
    assert frame["line"] == 18 and frame["source"]["path"] == FIVE_THREES
    assert not client.ask("setBreakpoints", source={"path": "/another.source"}, breakpoints=[{"line": 1}])["breakpoints"][0]["verified"]
    client.ask("setBreakpoints", source={"path": FIVE_THREES}, breakpoints=[{"line": 19}])
    client.ask("continue", threadId=1)
    assert client.event("stopped")["reason"] == "breakpoint"
    assert frames(client)[0] == ("STOP", 19)


def test_breakpoints_have_conditions_and_counts(client: Client) -> None:
    launched(client, SORT, [])
    client.event("stopped")
    asked = [{"name": "LESS", "condition": "(ONE < 0) & (OTHER > 0)"},
             {"name": "STOP", "condition": "1 +"}, {"name": "CHANGE", "hitCondition": "many"}]
    found = client.ask("setFunctionBreakpoints", breakpoints=asked)["breakpoints"]
    assert [it["verified"] for it in found] == [True, False, False] and "a part is missing" in found[1]["message"]
    client.ask("continue", threadId=1)
    client.event("stopped")
    memory = client.variables(2)
    assert frames(client)[0][0] == "LESS" and int(memory["ONE"].split()[1]) < 0 < int(memory["OTHER"].split()[1])
    client.ask("setFunctionBreakpoints", breakpoints=[{"name": "PASS", "hitCondition": "3"}])
    client.ask("reverseContinue", threadId=1)
    client.event("stopped")
    client.ask("evaluate", expression="goto 0", context="repl")
    client.event("stopped")
    client.ask("continue", threadId=1)
    client.event("stopped")
    assert client.variables(2)["PASSES"].split()[1] == "-5"


def test_tables_open_and_memory_is_octal_words(client: Client) -> None:
    launched(client, SORT, [])
    client.event("stopped")
    table = next(it for it in client.ask("variables", variablesReference=2)["variables"] if it["name"] == "LIST")
    assert table["value"].startswith("8 words: 000000003")
    words = client.variables(table["variablesReference"])
    assert list(words)[:2] == ["LIST", "LIST+1"] and words["LIST+1"].split()[1] == "-33554432" and len(words) == 8
    read = client.ask("readMemory", memoryReference=table["memoryReference"], count=20)
    assert base64.b64decode(read["data"]) == b"000000003 200000000 " and read["unreadableBytes"] == 0
    part = client.ask("readMemory", memoryReference=read["address"], offset=11, count=5)
    assert base64.b64decode(part["data"]) == b"00000"
    frame = client.ask("stackTrace", threadId=1)["stackFrames"][0]
    rows = client.ask("disassemble", memoryReference=frame["instructionPointerReference"], instructionOffset=-1, instructionCount=3)["instructions"]
    assert [it["instruction"] for it in rows] == ["HOP BEGIN", "CLA =D-7", "STO PASSES"]
    assert rows[1]["address"] == frame["instructionPointerReference"] and rows[2]["line"] == 7 and rows[1]["symbol"] == "BEGIN"


def test_the_console_completes_and_what_it_changes_is_told(client: Client) -> None:
    client.ask("initialize", adapterID="lvdb", supportsInvalidatedEvent=True)
    launched(client, SORT, [])
    client.event("stopped")
    assert client.ask("completions", text="unt", column=4)["targets"] == [{"label": "until", "start": 0, "length": 3}]
    assert [it["label"] for it in client.ask("completions", text="break GE", column=9)["targets"]] == ["GET1", "GET2"]
    client.ask("evaluate", expression="hurt 5 2 for 3 flip 1", context="repl")
    assert client.event("invalidated")["areas"] == ["all"]
    client.ask("evaluate", expression="undo", context="repl")
    assert client.event("invalidated")["areas"] == ["all"]


def test_a_mistake_is_an_exception(client: Client) -> None:
    filters = client.ask("initialize", adapterID="lvdb")["exceptionBreakpointFilters"]
    assert "early" in [it["filter"] for it in filters]
    launched(client, str(TOP / "examples" / "multiply.deck"), [])
    client.event("stopped")
    client.ask("setExceptionBreakpoints", filters=["early"])
    client.ask("continue", threadId=1)
    stopped = client.event("stopped")
    assert stopped["reason"] == "exception" and "reads PQ" in stopped["description"]


def test_arguments_of_another_form_are_answered(client: Client) -> None:
    launched(client, SORT, [])
    client.event("stopped")
    asked: list[tuple[str, dict[str, object]]] = [
        ("variables", {"variablesReference": -1}), ("variables", {"variablesReference": 999}), ("variables", {"variablesReference": float("inf")}),
        ("setBreakpoints", {"source": [1], "breakpoints": [1]}), ("setFunctionBreakpoints", {"breakpoints": [[]]}),
        ("disassemble", {"memoryReference": 5}), ("readMemory", {"memoryReference": "0x0", "offset": -1, "count": 10**9}),
        ("completions", {"text": [], "column": "x"}), ("evaluate", {"expression": "(" * 900}),
        ("setDataBreakpoints", {"breakpoints": [{"dataId": ""}]})]
    for name, arguments in asked:
        assert isinstance(client.response(client.send(name, **arguments))["success"], bool)
    assert client.ask("threads")["threads"]


def test_a_launch_says_tapes_times_and_mode(client: Client, tmp_path: Path) -> None:
    path = tmp_path / "reads.source"
    path.write_text("        CODE\nA       PIO   400\nSTOP    TRA   STOP\n        END\n")
    client.ask("launch", program=str(path), times=10, start="A", tape={"000": "5 7"}, through=True, stopOnEntry=False)
    client.event("initialized")
    client.ask("setFunctionBreakpoints", breakpoints=[{"name": "STOP"}])
    client.ask("configurationDone")
    assert client.event("stopped")["reason"] == "breakpoint"
    assert client.variables(1)["A"] == "000000005"
    assert "mode: through every fault" in client.ask("evaluate", expression="faults", context="repl")["result"]


@pytest.mark.parametrize("garbage", [b"GET / HTTP/1.1\r\n\r\n", b"Content-Length: 3\r\n\r\n{]}", b"Content-Length: 2\r\n\r\n[]",
                                     b"Content-Length: 99\r\n\r\n{}", b"Content-Length: 999999999\r\n\r\n{}",
                                     b"Content-Length: 200000\r\n\r\n" + b"[" * 200_000], ids=range(6))
def test_what_is_no_message_ends_the_session(client: Client, garbage: bytes) -> None:
    assert client.process.stdin is not None
    client.process.stdin.write(garbage)
    client.process.stdin.close()
    assert client.process.wait(timeout=20) == 0


class Gone:
    """A stream that can't be read any more."""

    def __init__(self, fault: Exception) -> None:
        self._fault = fault

    def readline(self, size: int = -1, /) -> bytes:
        raise self._fault

    def read(self, size: int = -1, /) -> bytes:
        raise self._fault


@pytest.mark.parametrize("fault", [OSError(5, "Input/output error"), ValueError("I/O operation on closed file"), MemoryError()], ids=str)
def test_a_stream_that_fails_ends_the_session_without_a_trace(worker: Worker, monkeypatch: pytest.MonkeyPatch, fault: Exception) -> None:
    raised: list[threading.ExceptHookArgs] = []
    monkeypatch.setattr(threading, "excepthook", raised.append)
    Server(io.BytesIO(), worker).answer_all(Gone(fault))
    assert not raised


def test_an_interrupt_while_python_ends_writes_no_trace() -> None:
    script = """import atexit, time
atexit.register(lambda: (print("ending", flush=True), time.sleep(20)))
from lvdc.streams import leave
leave(0)
"""
    around = {**os.environ, "PYTHONPATH": str(TOP / "clients" / "python" / "src")}
    with subprocess.Popen([sys.executable, "-c", script], stdout=subprocess.PIPE, stderr=subprocess.PIPE, env=around) as process:
        assert process.stdout is not None and process.stdout.readline() == b"ending\n"
        process.send_signal(signal.SIGINT)
        assert process.communicate(timeout=20) == (b"", b"") and process.returncode == -signal.SIGINT


def test_a_pause_ends_a_long_continue(client: Client, tmp_path: Path) -> None:
    launched(client, str(long_deck(tmp_path)), [])
    client.event("stopped")
    client.send("continue", threadId=1)
    number = client.send("pause", threadId=1)
    client.events.append(client.read())
    while (message := client.read()).get("request_seq") != number:
        client.events.append(message)
    assert [it["body"]["reason"] for it in client.events if it.get("event") == "stopped"] == ["pause"]


def long_deck(folder: Path) -> Path:
    """A deck whose run takes many seconds: in each of its steps other faults are active."""
    deck = folder / "long.deck"
    lags = "".join(f"LAG 1 1 {first} {first + 1_500_000}\n" for first in range(16_000))
    deck.write_text(f"IMAGE\nLVDC 1\nEND\nFAULTS\n{lags}RUN 1000000\n")
    return deck
