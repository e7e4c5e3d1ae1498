"""All commands: those of the modules beside this, and those of the session itself."""
from collections.abc import Iterator
from pathlib import Path

from lvdc.lvdb import asking, hurting, looking, moving, stopping
from lvdc.lvdb.console import Console, Leave
from lvdc.lvdb.errors import CommandError
from lvdc.lvdb.registry import COMMANDS, Told, carry_out, command, find, split, want_nothing
from lvdc.streams import write_new

__all__ = ["COMMANDS", "GROUPS", "carry_out", "find", "split"]

# What these modules define is added to the commands where they are imported; `help` shows them in this order.
GROUPS = (moving, stopping, looking, asking, hurting)

_WIDTH = 34


@command("", "isn't there, since the machine's state comes from its deck alone")
def set_(console: Console, words: list[str]) -> Told:
    """Refused."""
    raise CommandError("there is no set: the machine's state comes from its deck alone. Change a word of the program (DEC, OCT) or of a tape and "
                       "begin anew, or put a fault in: `hurt` changes latches of a copy, `damage` a cell of memory")


@command("FILE", "writes the deck with all that was put in, so that `lvdc run` or `lvdb` takes it; a file that is there stays")
def save(console: Console, words: list[str]) -> Iterator[str]:
    """The deck."""
    if len(words) != 1:
        raise COMMANDS["save"].wrong("the name of a file is wanted")
    try:
        write_new(Path(words[0]), str(console.debugger.deck).encode("utf-8", "surrogateescape"))
    except (OSError, ValueError) as error:
        told = error.strerror if isinstance(error, OSError) else error
        raise CommandError(f"{words[0]} can't be written: {told}; name another file") from error
    yield f"{words[0]} is the deck with {len(console.debugger.deck.faults)} fault lines"


@command("[COMMAND]", "shows all commands, or what one does", "h", "?")
def help_(console: Console, words: list[str]) -> Iterator[str]:
    """Help."""
    if words:
        found = find(words[0])
        yield f"{found.name} {found.usage}".strip()
        yield f"  {found.help}" + (f"; short {', '.join(found.shorts)}" if found.shorts else "")
        return
    names = [it.__name__ for it in GROUPS]
    for it in sorted(COMMANDS.values(), key=lambda it: names.index(it.run.__module__) if it.run.__module__ in names else len(names)):
        called = f"{it.name} {it.usage}".strip()
        if len(called) > _WIDTH:
            yield f"  {called}"
            called = ""
        yield f"  {called:{_WIDTH}} {it.help.split(';')[0].split(':')[0]}"
    yield "A beginning of a name is enough where no other has it. Words and addresses are octal, times, counts and lines decimal."


@command("", "leaves; the end of input does too", "q", "exit")
def quit_(console: Console, words: list[str]) -> Told:
    """The end."""
    want_nothing("quit", words)
    raise Leave
