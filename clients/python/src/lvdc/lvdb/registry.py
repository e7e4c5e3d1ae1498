"""What a command is, and which there are. The modules beside this add theirs."""
import re
from collections.abc import Callable, Iterable
from dataclasses import dataclass
from typing import TypeAlias

from lvdc.lines import tokens
from lvdc.lvdb.console import Console
from lvdc.lvdb.errors import CommandError
from lvdc.limits import MOST_CHARACTERS

Told: TypeAlias = Iterable[str]
Run: TypeAlias = Callable[[Console, list[str]], Told]
COUNT = re.compile("[1-9][0-9]{0,6}")


@dataclass(frozen=True, slots=True)
class Command:
    """A command: its name, what stands behind it, what it does, its short forms, and whether an empty line does it again."""

    name: str
    usage: str
    help: str
    run: Run
    shorts: tuple[str, ...] = ()
    repeats: bool = False

    def wrong(self, found: str = "") -> CommandError:
        """What is said where its arguments are wrong."""
        return CommandError(f"{f'{found}: ' if found else ''}usage: {f'{self.name} {self.usage}'.strip()} -- {self.help}")


COMMANDS: dict[str, Command] = {}


def command(usage: str, help_text: str, *shorts: str, repeats: bool = False) -> Callable[[Run], Run]:
    """Adds a function to the commands, by its name."""
    def add(run: Run) -> Run:
        called = run.__name__.strip("_").replace("_", "-")
        COMMANDS[called] = Command(called, usage, help_text, run, shorts, repeats)
        return run
    return add


def find(word: str) -> Command:
    """The command of a word: its name, a short form, or the beginning of one name."""
    if word in COMMANDS:
        return COMMANDS[word]
    short = next((it for it in COMMANDS.values() if word in it.shorts), None)
    if short is not None:
        return short
    found = [it for it in COMMANDS.values() if it.name.startswith(word)]
    if len(found) == 1:
        return found[0]
    if not found:
        raise CommandError(f"there is no command {word!r}; `help` shows all")
    raise CommandError(f"{word!r} may be {', '.join(it.name for it in found)}")


def split(line: str) -> tuple[Command, list[str]]:
    """The command of a line and its words; what stands behind `/` in the first is the next."""
    first, *words = tokens(line) or [""]
    if not first:
        raise CommandError("a command is missing; `help` shows all")
    name, slash, form = first.partition("/")
    found = find(name)
    if slash and found.name not in ("x", "print", "disassemble"):
        raise found.wrong(f"{found.name} has no format")
    return found, [slash + form, *words] if slash else words


def carry_out(console: Console, line: str) -> list[str]:
    """What a line is answered; it has a command."""
    if len(line) > MOST_CHARACTERS:
        raise CommandError(f"a line has at most {MOST_CHARACTERS} characters")
    found, words = split(line)
    return list(found.run(console, words))


def want_nothing(name: str, words: list[str]) -> None:
    """Wants no words."""
    if words:
        raise COMMANDS[name.split(" ")[0]].wrong(f"nothing stands behind {name}")


def count_in(name: str, words: list[str]) -> int:
    """Wants a count, or nothing, which is 1."""
    if not words:
        return 1
    if len(words) > 1 or not COUNT.fullmatch(words[0]):
        raise COMMANDS[name].wrong(f"{' '.join(words)!r} is no count, which is decimal and 1 or more")
    return int(words[0])
