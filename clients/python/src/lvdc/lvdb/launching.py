"""What a client says when it launches: the arguments of the request, as `launch.json` has them."""
from pathlib import Path

from lvdc.decks import Tape
from lvdc.lvdb.errors import CommandError
from lvdc.lvdb.framing import Message
from lvdc.lvdb.program import MOST_TIMES, Options


def read_launch(given: Message) -> tuple[Path, Options, bool, bool]:
    """The file, the options, whether the run goes through every fault, and whether it stops at the beginning."""
    path, times, start = given.get("program"), given.get("times"), given.get("start")
    if not isinstance(path, str) or not path:
        raise CommandError("`program` is missing: the path of a deck, a source or an image")
    if times is not None and not (isinstance(times, int) and 0 <= times <= MOST_TIMES):
        raise CommandError(f"`times` is a number up to {MOST_TIMES}, not {times!r}")
    if start is not None and not isinstance(start, str):
        raise CommandError(f"`start` is the name of a line of code, not {start!r}")
    return Path(path), Options(times, start, _tapes(given.get("tape"))), given.get("through") is True, given.get("stopOnEntry") is not False


def _tapes(given: object) -> tuple[Tape, ...]:
    """The tapes, as {"000": "5 7"}: by ports the words, all octal."""
    if given is None:
        return ()
    try:
        if isinstance(given, dict):
            return tuple(Tape(int(port, 8), [int(it, 8) for it in str(words).split()]) for port, words in given.items())
    except ValueError as error:
        raise CommandError(f"`tape` has what is no word: {error}") from error
    raise CommandError('`tape` has the words of each port, as {"000": "5 7"}')
