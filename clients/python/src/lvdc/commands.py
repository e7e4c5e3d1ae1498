"""What can be asked: each function asks a worker and gives an object, or raises Refused.

A deck is a Deck, a text, bytes, or a path of a file (pathlib.Path). `worker` is a Worker or a Pool; without it one worker is started for all
functions, when it is first asked. `limit` is a time limit in seconds. Beside what its own text says each function raises TypeError or
ValueError where an argument is of another kind, TimeLimit where the limit is over, NoWorker where there is no program lvdc-worker, and
Unread where the worker is of another version."""
import os
import threading
from collections.abc import Sequence
from pathlib import Path
from typing import TypeAlias

from lvdc.decks import Deck, Source, several, without_commands
from lvdc.expansions import Expansion
from lvdc.images import Image
from lvdc.lines import decode, encode
from lvdc.listings import Listing
from lvdc.refusals import NoMemory, NotACommand, Refused
from lvdc.reports import Report, Soak
from lvdc.saved import Saved
from lvdc.sessions import Session
from lvdc.traces import Form, Trace
from lvdc.uplinks import Uplink
from lvdc.values import check
from lvdc.workers import Asker, Reply, Worker

Given: TypeAlias = Deck | Source | Image | Saved | str | bytes | os.PathLike[str]
ANSWERED = (0, 5, 6, 10)
USAGE, WANT_OF_MEMORY = 1, 9
MOST_STEPS = 100_000  # of one request
END_OF_NUMBERS = 1 << 63
_LOCK = threading.Lock()
_SHARED: list[Worker] = []


def shared_worker() -> Worker:
    """The worker that is asked where none is named. It ends with this process; one that was closed or killed is replaced.
    Raises NoWorker where there is no program.

    >>> import lvdc
    >>> lvdc.shared_worker().is_ended
    False
    """
    with _LOCK:
        if _SHARED and _SHARED[0].is_ended:
            _SHARED.clear()
        if not _SHARED:
            _SHARED.append(Worker())
        return _SHARED[0]


def asker(worker: Asker | None) -> Asker:
    """The worker that is named, or the shared one."""
    if worker is None:
        return shared_worker()
    if isinstance(worker, type) or not callable(getattr(worker, "ask", None)):
        raise TypeError(f"worker= is a Worker or a Pool, not {worker!r}")
    return worker


def text_of(given: Given, what: str = "an input", kinds: tuple[type, ...] = (Deck, Source, Image, Saved)) -> str:
    """The text of what is given, as `what`: one of these kinds, a text, bytes or a path. Raises TypeError where it is something else, and
    ValueError where a text is rather the name of a file."""
    if isinstance(given, os.PathLike):
        return decode(Path(given).read_bytes())
    if isinstance(given, bytes):
        return decode(given)
    if isinstance(given, kinds):
        return str(given)
    if isinstance(given, str):
        if given and "\n" not in given and (Deck in kinds[:1] or not given.strip(" \t") or " " not in given):
            raise ValueError(f"{given!r} is no text of {what}, which has lines: of a file give pathlib.Path({given!r})")
        return given
    names = ", ".join(f"a {it.__name__}" for it in kinds)
    hint = ""
    if isinstance(given, Deck):
        hint = ": its program is deck.program"
    elif isinstance(given, (Source, Image)):
        hint = ": to be run it is made a deck, Deck(program, count)"
    elif hasattr(given, "readline"):
        hint = ": of an open file, file.read()"
    raise TypeError(f"{what} is {names}, a text, bytes or a pathlib.Path, not {type(given).__name__}{hint}")


def answer(words: Sequence[str], given: str, reply: Reply) -> str:
    """The text of a reply, or a refusal of it."""
    text = decode(reply.text)
    if reply.status in ANSWERED and not text.startswith("REFUSED "):
        return text
    if reply.status == USAGE:
        raise NotACommand(" ".join(words), text)
    if reply.status == WANT_OF_MEMORY:
        raise NoMemory(" ".join(words))
    raise Refused(reply.status, text, given)


def ask(words: Sequence[str], given: Given = "", *, worker: Asker | None = None, limit: float | None = None) -> str:
    """The text that a request is answered, whatever it is of. Raises NotACommand where the worker answers no such words.

    >>> import lvdc
    >>> print(lvdc.ask(["form"], "IMAGE\\nLVDC 1\\nEND\\nRUN 1\\n"), end="")
    FORM YES
    """
    return _asked(words, text_of(given) if not isinstance(given, str) else given, worker, limit)


def _asked(words: Sequence[str], text: str, worker: Asker | None, limit: float | None) -> str:
    """The text that a request is answered."""
    return answer(words, text, asker(worker).ask(words, encode(text), limit))


def _deck(given: Given) -> str:
    """The text of a deck."""
    return text_of(given, "a deck", (Deck,))


def run(deck: Given, *, through: bool = False, plain: bool = False, worker: Asker | None = None, limit: float | None = None) -> Report:
    """Runs a deck on the voted machine up to its first inadmissible step; or through every fault; or on the plain machine.
    Raises Refused where the program refuses it, ValueError where both are asked for.

    >>> import lvdc
    >>> lvdc.run("IMAGE\\nLVDC 1\\n0 00 000 000017000\\n0 01 000 000000005\\nEND\\nRUN 1\\n").registers.a
    Word(0o000000005)
    """
    if through and plain:
        raise ValueError("a run is through every fault or plain, not both")
    flags = ["--through"] * bool(through) + ["--plain"] * bool(plain)
    return Report.read(_asked(["run", *flags], _deck(deck), worker, limit))


def assemble(source: Given, *, worker: Asker | None = None, limit: float | None = None) -> Listing:
    """Assembles a source: a Source, a text, bytes or a path. Raises Refused where the program refuses it.

    >>> import lvdc
    >>> print(lvdc.assemble("        ORG   0,00,0,000\\nLOOP    TRA   LOOP\\n        END\\n").names["LOOP"])
    0 00 0 000
    """
    return Listing.read(_asked(["asm"], text_of(source, "a source", (Source,)), worker, limit))


def assemble_image(source: Given, *, macros: bool = False, worker: Asker | None = None, limit: float | None = None) -> Image:
    """Assembles a source, or one with macros, to its image. Raises Refused where the program refuses it.

    >>> import lvdc
    >>> lvdc.assemble_image("        WORDS 0,01,000\\nFIVE    DEC   5\\n        END\\n")
    <Image of 1 words>
    """
    text = text_of(source, "a source", (Source,))
    return Image.read(_asked(["macro" if macros else "asm", "--image"], text, worker, limit))


def expand(source: Given, *, worker: Asker | None = None, limit: float | None = None) -> Expansion:
    """Writes out a source with macros. Raises Refused where the program refuses it.

    >>> import lvdc
    >>> lvdc.expand("        END\\n").lines
    ('        END',)
    """
    return Expansion.read(_asked(["macro"], text_of(source, "a source", (Source,)), worker, limit))


def debug(deck: Given, commands: Sequence[str] | None = None, *, worker: Asker | None = None, limit: float | None = None) -> Session:
    """Answers the commands of a debug session: those of the deck, or these in their place, a list of lines.
    Raises Refused where the program refuses it.

    >>> import lvdc
    >>> print(lvdc.debug("IMAGE\\nLVDC 1\\nEND\\nRUN 2\\n", ["STEP 1"]).answers[0], end="")
    AT 1 0 00 0 000
    """
    text = _deck(deck)
    if commands is not None:
        text = without_commands(text) + "".join(f"{it}\n" for it in ["DEBUG", *several("commands", commands, (str,))])
    return Session.read(_asked(["debug"], text, worker, limit))


def trace(given: Given, first: int = 0, count: int | None = None, *, through: bool = False, worker: Asker | None = None,
          limit: float | None = None) -> Trace:
    """What happens in so many steps from the first one on, as far as they are made; without a count in all. Steps count from 0, three to an
    instruction time. They are asked in pieces of 100,000. What is given is a deck, or, but through every fault, a saved run, whose steps
    keep their numbers: where the first one was made before it was saved, the first that is left takes its place.
    Raises Refused where the program refuses it.

    >>> import lvdc
    >>> found = lvdc.trace("IMAGE\\nLVDC 1\\n0 00 000 000017000\\nEND\\nRUN 1\\n")
    >>> len(found), str(found[0].exchange)
    (3, 'FETCH 0 00 000 000017000')
    >>> saved = lvdc.save("IMAGE\\nLVDC 1\\nEND\\nRUN 3\\n", 2)
    >>> isinstance(saved, lvdc.Saved) and [step.number for step in lvdc.trace(saved)]
    [6, 7, 8]
    """
    check("a first step", first, END_OF_NUMBERS)
    if count is not None:
        check("a count of steps", count, END_OF_NUMBERS)
    text, flags = text_of(given, "a deck or a saved run", (Deck, Saved)), ["--through"] * bool(through)
    found: list[Trace] = []
    left = count
    while True:
        piece = MOST_STEPS if left is None else min(left, MOST_STEPS)
        part = Trace.read(_asked(["trace", *flags, str(first), str(piece)], text, worker, limit))
        found.append(part)
        first = part[-1].number + 1 if part else first + piece
        left = None if left is None else left - piece
        if left == 0 or part.end is not None:
            return Trace.joined(found)


def form(deck: Given, *, worker: Asker | None = None, limit: float | None = None) -> Form:
    """Whether a deck's script masks by form. Raises Refused where the program refuses it.

    >>> import lvdc
    >>> lvdc.form("IMAGE\\nLVDC 1\\nEND\\nFAULTS\\nLAG 1 1 0 0\\nLAG 1 2 0 0\\nRUN 1\\n").failing
    1
    """
    return Form.read(_asked(["form"], _deck(deck), worker, limit))


def save(deck: Given, times: int, *, worker: Asker | None = None, limit: float | None = None) -> Saved | Report:
    """The state after so many instruction times; the report, where the run ends in them. Raises Refused where the program refuses it.

    >>> import lvdc
    >>> lvdc.save("IMAGE\\nLVDC 1\\nEND\\nRUN 3\\n", 2)
    <Saved after 6 steps of 9>
    """
    check("a count of instruction times", times, END_OF_NUMBERS)
    text = _asked(["save", str(times)], _deck(deck), worker, limit)
    return Saved.read(text) if text.startswith("LVDC SAVE ") else Report.read(text)


def resume(saved: Given, *, worker: Asker | None = None, limit: float | None = None) -> Report:
    """Goes on with a saved run up to its deck's count. Raises Refused where the program refuses it.

    >>> import lvdc
    >>> saved = lvdc.save("IMAGE\\nLVDC 1\\nEND\\nRUN 3\\n", 2)
    >>> isinstance(saved, lvdc.Saved) and lvdc.resume(saved).registers.times
    3
    """
    return Report.read(_asked(["resume"], text_of(saved, "a saved run", (Saved,)), worker, limit))


def soak(number: int, *, worker: Asker | None = None, limit: float | None = None) -> Soak:
    """Runs the deck that a number makes. Raises ValueError for one of 2^64 or more.

    >>> import lvdc
    >>> lvdc.soak(1, limit=60).number  # doctest: +SKIP
    1
    """
    check("a number of a soak", number, 1 << 64)
    return Soak.read(_asked(["soak", str(number)], "", worker, limit))


def uplink(messages: Given, *, worker: Asker | None = None, limit: float | None = None) -> Uplink:
    """Answers messages that patch an image: a text, bytes or a path. Raises Refused where the program refuses it.

    >>> import lvdc
    >>> print(*lvdc.uplink("IMAGE\\nLVDC 1\\nEND\\nUPLINK\\nOPEN 1 2\\n").answers)
    ACK OPEN 1
    """
    return Uplink.read(_asked(["uplink"], text_of(messages, "messages of an uplink", (Image,)), worker, limit))
