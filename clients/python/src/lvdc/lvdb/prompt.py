"""Where lines come from: prompt_toolkit where it is there and a person types, else plain lines."""
import importlib
import os
import sys
from collections.abc import Callable, Iterable, Iterator
from pathlib import Path
from typing import Any, Protocol

from lvdc.lvdb.commands import COMMANDS
from lvdc.lvdb.console import Console
from lvdc.lvdb.information import INFORMATION
from lvdc.lvdb.states import MODULE_NAMES
from lvdc.streams import read_line

PROMPT = "(lvdb) "
_HISTORY = Path("~/.lvdb_history")


class Prompt(Protocol):
    """Gives one line after another, or raises EOFError."""

    def __call__(self) -> str:
        """The next line."""


def plain_prompt() -> str:
    """A line of standard input. It is written behind the prompt, so that what is written reads as a session."""
    text = read_line(sys.stdin)
    print(f"{PROMPT}{text}", flush=True)
    return text


def typed_prompt() -> str:
    """A line that is typed, without prompt_toolkit."""
    return input(PROMPT)


def choose_prompt(console: Console) -> Prompt:
    """The prompt for standard input and output as they are."""
    if not sys.stdin.isatty():
        return plain_prompt
    if sys.stdout.isatty() and os.environ.get("TERM", "dumb") != "dumb":
        try:
            return _toolkit_prompt(lambda text: completions(console, text))
        except ImportError:
            pass
    return typed_prompt


def completions(console: Console, text: str) -> Iterator[str]:
    """What the last word of a line may become: commands first, then what the command takes, and names."""
    *before, last = text.split(" ")
    if not before:
        known: Iterable[str] = COMMANDS
    elif "info".startswith(before[0]) and len(before) == 1:
        known = INFORMATION
    elif "help".startswith(before[0]):
        known = COMMANDS
    elif before[0] == "hurt" and len(before) == 1:
        known = MODULE_NAMES
    else:
        known = console.debugger.program.names
    yield from sorted(it for it in known if it.startswith(last))


def _toolkit_prompt(complete: Callable[[str], Iterable[str]]) -> Prompt:
    """A prompt with history and completion; ImportError where there is no prompt_toolkit."""
    toolkit, completion, histories = (importlib.import_module(f"prompt_toolkit{it}") for it in ("", ".completion", ".history"))

    def get_completions(self: object, document: Any, event: object) -> list[Any]:
        """What the last word may become."""
        text = document.text_before_cursor
        return [completion.Completion(it, -len(text.split(" ")[-1])) for it in complete(text)]

    completer = type("Words", (completion.Completer,), {"get_completions": get_completions})()
    path = _HISTORY.expanduser()
    try:
        path.touch()
        history = histories.FileHistory(str(path))
    except OSError:
        history = histories.InMemoryHistory()
    session: Any = toolkit.PromptSession(PROMPT, completer=completer, history=history, complete_while_typing=False)
    prompt: Prompt = session.prompt
    return prompt
