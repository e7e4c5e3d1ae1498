"""The Debug Adapter Protocol over the same core: `lvdb --dap` on standard input and output.

A client may step back and continue backwards. What has no meaning here, as setting a variable, isn't offered. A request that can't be
carried out is answered with success false and the sentence that the prompt would show."""
import os
import re
import signal
import threading
from collections.abc import Callable
from pathlib import Path
from queue import SimpleQueue
from types import FrameType
from typing import Any, BinaryIO

from lvdc.errors import Error
from lvdc.lines import tokens
from lvdc.lvdb.commands import carry_out
from lvdc.lvdb.console import Console, Leave
from lvdc.lvdb.errors import CommandError
from lvdc.lvdb.expressions import in_all_forms
from lvdc.lvdb.framing import BadMessage, Incoming, Message, read_message, write_message
from lvdc.lvdb.launching import read_launch
from lvdc.lvdb.program import load
from lvdc.lvdb.memory_views import disassembled, number_of_place, read_bytes
from lvdc.lvdb.mistakes import KINDS
from lvdc.lvdb.prompt import completions
from lvdc.lvdb.scopes import SCOPES, variables
from lvdc.lvdb.session import Debugger, Stop
from lvdc.lvdb.show import place_text
from lvdc.lvdb.stopping import watched
from lvdc.values import Place
from lvdc.workers import Asker, Worker

THREAD = 1
_ABILITIES = ["ConfigurationDoneRequest", "FunctionBreakpoints", "EvaluateForHovers", "StepBack", "TerminateRequest", "DataBreakpoints",
              "ConditionalBreakpoints", "HitConditionalBreakpoints", "DisassembleRequest", "ReadMemoryRequest", "CompletionsRequest"]
CAPABILITIES: Message = {
    **{f"supports{it}": True for it in _ABILITIES},
    "exceptionBreakpointFilters": [{"filter": kind, "label": f"{kind}: {text}", "default": False} for kind, text in KINDS.items()]}
_ACCESSES = {"write": "watch", "read": "rwatch", "readWrite": "awatch"}
_HITS = re.compile("[1-9][0-9]{0,6}")
_INTERRUPTING = ("pause", "disconnect", "terminate")


def serve(incoming: Incoming, outgoing: BinaryIO) -> None:
    """Answers one client until it disconnects or its stream ends."""
    with Worker() as worker:
        Server(outgoing, worker).answer_all(incoming)


class Server:
    """One client's session. Requests are answered one after another; one that interrupts ends a move that is under way."""

    def __init__(self, outgoing: BinaryIO, asker: Asker) -> None:
        self._outgoing, self._asker = outgoing, asker
        self._console: Console | None = None
        self._stop_on_entry = True
        self._is_moving = False
        self._interrupting = threading.Lock()
        self._is_over = False
        self._number, self._interrupted_before = 0, 0
        self._sequence = 0
        self._mine: dict[str, list[int]] = {}
        self._tells_invalid = False
        self._requests: dict[str, Callable[[Message], Message]] = {
            "initialize": self._initialize, "launch": self._launch, "configurationDone": self._configured, "threads": self._threads,
            "setBreakpoints": self._set_breakpoints, "setFunctionBreakpoints": self._set_function_breakpoints,
            "setExceptionBreakpoints": self._set_catches, "dataBreakpointInfo": self._data_breakpoint_info,
            "setDataBreakpoints": self._set_data_breakpoints, "stackTrace": self._stack_trace, "scopes": self._scopes,
            "variables": self._variables, "evaluate": self._evaluate, "pause": lambda _: {}, "disassemble": self._disassemble,
            "readMemory": self._read_memory, "completions": self._completions}
        self._moves: dict[str, tuple[str, Callable[[Debugger], Stop]]] = {
            "continue": ("breakpoint", Debugger.proceed), "next": ("step", Debugger.next), "stepIn": ("step", Debugger.step),
            "stepOut": ("step", Debugger.finish), "stepBack": ("step", Debugger.step_back), "reverseContinue": ("breakpoint", Debugger.reverse)}

    # ---- messages

    def answer_all(self, incoming: Incoming) -> None:
        """Answers requests; a thread reads them, so that one that interrupts is seen at once."""
        queue: SimpleQueue[Message | None] = SimpleQueue()
        before = signal.signal(signal.SIGINT, self._interrupted)
        threading.Thread(target=self._read_all, args=(incoming, queue), daemon=True).start()
        try:
            while (request := queue.get()) is not None and request.get("command") not in ("disconnect", "terminate"):
                self._number += 1
                self.answer(request)
            if request is not None:
                self._respond(request, {})
                self._event("terminated")
        finally:
            with self._interrupting:
                self._is_over = True
            signal.signal(signal.SIGINT, before)

    def _read_all(self, incoming: Incoming, queue: "SimpleQueue[Message | None]") -> None:
        """Reads requests into a queue; a stream that ends, was closed or has what is no message is the end. One that interrupts ends the
        moves that were asked for before it, also one that hasn't begun."""
        request: Message | None = {}
        number = 0
        while request is not None:
            try:
                request = read_message(incoming)
            except (BadMessage, OSError, ValueError, MemoryError):
                request = None
            queue.put(request)
            number += 1
            if request is None or request.get("command") in _INTERRUPTING:
                self._interrupt(number)

    def _interrupt(self, number: int) -> None:
        """Ends the moves that were asked for before this request. Once all is over nobody is interrupted any more."""
        self._interrupted_before = number
        with self._interrupting:
            if self._is_moving and not self._is_over:
                os.kill(os.getpid(), signal.SIGINT)

    def _interrupted(self, number: int, frame: FrameType | None) -> None:
        """Ends a move that is under way, and nothing else."""
        if self._is_moving:
            self._is_moving = False
            raise KeyboardInterrupt

    def _send(self, message: Message) -> None:
        """Writes a message under the next number."""
        self._sequence += 1
        write_message(self._outgoing, {"seq": self._sequence, **message})

    def _event(self, name: str, **body: Any) -> None:
        """Tells the client what happened."""
        self._send({"type": "event", "event": name, "body": body})

    def _respond(self, request: Message, body: Message, problem: str = "") -> None:
        """Answers a request."""
        answer = {"type": "response", "request_seq": request.get("seq", 0), "command": request.get("command", ""), "success": not problem}
        self._send({**answer, "body": body} if not problem else {**answer, "message": problem, "body": {"error": {
            "id": 1, "format": problem.replace("{", "(").replace("}", ")"), "showUser": True}}})

    def sit(self, console: Console) -> None:
        """Goes on with what is debugged already."""
        self._console = console

    def answer(self, request: Message) -> None:
        """Carries a request out."""
        name = str(request.get("command", ""))
        given = request.get("arguments")
        try:
            if name in self._moves:
                self._move(request, *self._moves[name])
                return
            if name not in self._requests:
                raise CommandError(f"there is no request {name!r} here")
            self._respond(request, self._requests[name](given if isinstance(given, dict) else {}))
        except (Error, KeyError, TypeError, ValueError, IndexError, AttributeError, OverflowError, RecursionError) as error:
            self._respond(request, {}, str(error) if isinstance(error, Error) else f"the arguments of {name} have another form: {error!r}")
            return
        if name == "launch":
            self._event("initialized")
        if name == "configurationDone":
            self._begin()

    # ---- the beginning

    @property
    def _sitting(self) -> Console:
        """What is debugged."""
        if self._console is None:
            raise CommandError("nothing was launched: `launch` names a program")
        return self._console

    def _initialize(self, given: Message) -> Message:
        """What this server can do."""
        self._tells_invalid = given.get("supportsInvalidatedEvent") is True
        return CAPABILITIES

    def _launch(self, given: Message) -> Message:
        """Reads the program."""
        path, options, is_through, self._stop_on_entry = read_launch(given)
        self._console = Console(Debugger(load(path, options, self._asker), self._asker))
        self._console.debugger.is_through = is_through
        return {}

    def _configured(self, given: Message) -> Message:
        """All breakpoints are set."""
        self._sitting
        return {}

    def _begin(self) -> None:
        """Stops at the beginning, or goes on from it."""
        debugger = self._sitting.debugger
        if self._stop_on_entry:
            self._stopped("entry", Stop(debugger.state, debugger.state))
        else:
            self._make("breakpoint", Debugger.proceed)

    def _threads(self, given: Message) -> Message:
        """There is one."""
        return {"threads": [{"id": THREAD, "name": "LVDC"}]}

    # ---- moving

    def _move(self, request: Message, reason: str, make: Callable[[Debugger], Stop]) -> None:
        """Answers that a move is under way, makes it, and tells where it stopped."""
        self._sitting
        self._respond(request, {"allThreadsContinued": True} if request["command"] in ("continue", "reverseContinue") else {})
        self._make(reason, make)

    def _make(self, reason: str, make: Callable[[Debugger], Stop]) -> None:
        """Makes a move; one that is refused or interrupted stops where it began."""
        debugger = self._sitting.debugger
        try:
            self._is_moving = True
            if self._number < self._interrupted_before:
                raise KeyboardInterrupt
            stop = make(debugger)
            self._is_moving = False
        except KeyboardInterrupt:
            reason, stop = "pause", Stop(debugger.state, debugger.state, ("interrupted",))
        except Error as error:
            stop = Stop(debugger.state, debugger.state, (str(error),))
        finally:
            self._is_moving = False
        self._stopped(reason, stop)

    def _stopped(self, reason: str, stop: Stop) -> None:
        """Tells where it stopped, and writes what the prompt would show."""
        told = "".join(f"{it}\n" for it in self._sitting.stopped(stop))
        self._event("output", category="console", output=told)
        kinds = {it.split(" ")[0] for it in stop.reasons}
        why = ("data breakpoint" if kinds & set(_ACCESSES.values()) else "exception" if "catch" in kinds else
               reason if "breakpoint" in kinds or reason != "breakpoint" else "pause")
        self._event("stopped", reason=why, threadId=THREAD, allThreadsStopped=True, description="; ".join(stop.reasons) or why)

    # ---- breakpoints

    def _set_breakpoints(self, given: Message) -> Message:
        """The breakpoints by lines, in place of those of before."""
        program = self._sitting.debugger.program
        if Path(str(given["source"].get("path", ""))).resolve() != Path(program.path).resolve():
            refused = {"verified": False, "message": f"lines are those of {program.path}"}
            return {"breakpoints": [refused for _ in given.get("breakpoints", [])]}
        return self._set_all("lines", given, lambda it: self._break(it, program.find_line(int(it["line"])), str(it["line"])))

    def _set_function_breakpoints(self, given: Message) -> Message:
        """The breakpoints by names or places, likewise."""
        program = self._sitting.debugger.program
        return self._set_all("names", given, lambda it: self._break(it, (0, program.find_place(tokens(str(it["name"])))), str(it["name"])))

    def _set_all(self, owner: str, given: Message, set_one: Callable[[Message], tuple[int, Message]]) -> Message:
        """Sets what is asked for in place of what was asked for before; what can't be set isn't verified, and says why."""
        breakpoints = self._sitting.debugger.breakpoints
        for number in self._mine.pop(owner, []):
            if number in breakpoints:
                breakpoints.remove(number)
        shown: list[Message] = []
        for it in list(given.get("breakpoints", [])):
            try:
                number, more = set_one(it)
                self._mine.setdefault(owner, []).append(number)
                shown.append({"id": number, "verified": True, **more})
            except CommandError as error:
                shown.append({"verified": False, "message": str(error)})
        return {"breakpoints": shown}

    def _break(self, asked: Message, found: tuple[int, Place], typed: str) -> tuple[int, Message]:
        """Sets a breakpoint at a place, where there is none yet."""
        debugger, (line, place) = self._sitting.debugger, found
        known = debugger.breakpoints.at_place(place)
        number = known[0].number if known else debugger.add_breakpoint("break", place, place_text(debugger, place), typed).number
        self._conditioned(number, asked)
        return number, {"line": line} if line else {}

    def _conditioned(self, number: int, asked: Message) -> None:
        """Gives a breakpoint the condition and the count that are asked for, or takes it away again where they have no meaning."""
        debugger, hits = self._sitting.debugger, str(asked.get("hitCondition") or "1").strip()
        try:
            debugger.set_condition(number, str(asked.get("condition") or ""))
            if not _HITS.fullmatch(hits):
                raise CommandError(f"{hits!r} is no count of hits: a number from 1 on says at which it stops")
        except CommandError:
            debugger.breakpoints.remove(number)
            raise
        debugger.breakpoints.change(number, left=int(hits) - 1)

    def _set_catches(self, given: Message) -> Message:
        """The kinds of mistakes at which the run is to stop."""
        debugger = self._sitting.debugger
        for number in self._mine.pop("mistakes", []):
            if number in debugger.breakpoints:
                debugger.breakpoints.remove(number)
        kinds = [str(it) for it in given.get("filters", []) if it in KINDS]
        if kinds:
            text = " ".join(kinds)
            self._mine["mistakes"] = [debugger.add_breakpoint("catch", text, text, text, set(kinds)).number]
        return {}

    def _data_breakpoint_info(self, given: Message) -> Message:
        """Whether a variable can be watched: a word of memory can, and some registers."""
        name = str(given["name"])
        try:
            at = watched(self._sitting, tokens(name) or [""])
        except CommandError as error:
            return {"dataId": None, "description": str(error)}
        return {"dataId": name, "description": name, "accessTypes": ["write"] if isinstance(at, str) else list(_ACCESSES)}

    def _set_data_breakpoints(self, given: Message) -> Message:
        """The words and registers that are watched, in place of those of before."""
        return self._set_all("data", given, self._watch)

    def _watch(self, asked: Message) -> tuple[int, Message]:
        """Watches a word or a register."""
        name = str(asked["dataId"])
        at = watched(self._sitting, tokens(name))
        kind = "watch" if isinstance(at, str) else _ACCESSES.get(str(asked.get("accessType", "write")), "watch")
        number = self._sitting.debugger.add_breakpoint(kind, at, name, name).number
        self._conditioned(number, asked)
        return number, {}

    # ---- looking

    def _stack_trace(self, given: Message) -> Message:
        """The place, and the calls that haven't returned, as far as the saver tells."""
        debugger = self._sitting.debugger
        places = [debugger.place, *(it.caller for it in reversed(debugger.stack().calls))]
        frames = [self._frame(number, place) for number, place in enumerate(places)]
        first, count = int(given.get("startFrame") or 0), int(given.get("levels") or len(frames))
        return {"stackFrames": frames[first:first + count], "totalFrames": len(frames)}

    def _frame(self, number: int, place: Place) -> Message:
        """A place as a frame."""
        program = self._sitting.debugger.program
        line = program.line_of(place)
        frame = {"id": number, "name": place_text(self._sitting.debugger, place), "line": line or 0, "column": 0 if line is None else 1,
                 "instructionPointerReference": number_of_place(place)}
        if line is None:
            return {**frame, "presentationHint": "subtle"}
        path = Path(program.path).absolute()
        return {**frame, "source": {"name": path.name, "path": str(path)}}

    def _scopes(self, given: Message) -> Message:
        """Registers, memory and copies, the same in each frame."""
        return {"scopes": [{"name": name, "variablesReference": number, "expensive": name == "Memory",
                            **({"presentationHint": "registers"} if name == "Registers" else {})} for number, name in enumerate(SCOPES, 1)]}

    def _variables(self, given: Message) -> Message:
        """What a scope or a table has."""
        shown = variables(self._sitting.debugger, int(given["variablesReference"]))
        return {"variables": [{"name": it.name, "value": it.value, "variablesReference": it.table,
                               **({"memoryReference": it.address} if it.address else {})} for it in shown]}

    def _disassemble(self, given: Message) -> Message:
        """Instructions as memory has them now."""
        offset = int(given.get("offset") or 0) + int(given.get("instructionOffset") or 0)
        return {"instructions": disassembled(self._sitting.debugger, str(given["memoryReference"]), offset, int(given["instructionCount"]))}

    def _read_memory(self, given: Message) -> Message:
        """Words of memory, of which each is ten bytes: nine octal digits and a space."""
        address, data, unread = read_bytes(self._sitting.debugger, str(given["memoryReference"]), int(given.get("offset") or 0), int(given["count"]))
        return {"address": address, "data": data, "unreadableBytes": unread}

    def _completions(self, given: Message) -> Message:
        """What the last word of a line of the console may become."""
        text = str(given["text"])[:max(0, int(given["column"]) - 1)]
        length = len(text.split(" ")[-1])
        return {"targets": [{"label": it, "start": len(text) - length, "length": length} for it in completions(self._sitting, text)]}

    def _evaluate(self, given: Message) -> Message:
        """An expression; in the client's console a command of the prompt."""
        console, text = self._sitting, str(given["expression"])
        if given.get("context") != "repl":
            return {"result": in_all_forms(console.value(text)), "variablesReference": 0}
        before = console.debugger.position, console.debugger.deck, console.debugger.is_through, console.debugger.program
        try:
            told = carry_out(console, text) if tokens(text) else []
        except Leave:
            raise CommandError("the client's own command ends the session") from None
        now = console.debugger.position, console.debugger.deck, console.debugger.is_through, console.debugger.program
        if now[0] != before[0] or now != before and not self._tells_invalid:
            self._event("stopped", reason="goto", threadId=THREAD, allThreadsStopped=True)
        elif now != before:
            self._event("invalidated", areas=["all"])
        return {"result": "\n".join(told), "variablesReference": 0}
