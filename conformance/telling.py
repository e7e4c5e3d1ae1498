"""The end of a script: where what it tells can't be written, or a file can't be read or written, a sentence says so."""
import os
import signal
import sys
from collections.abc import Callable
from typing import NoReturn


def complain(text: str) -> None:
    """Writes to standard error, where that can be written."""
    try:
        print(text, file=sys.stderr, flush=True)
    except OSError:
        os.dup2(os.open(os.devnull, os.O_WRONLY), sys.stderr.fileno())


def end_with(name: str, main: Callable[[], int], unwritten: int = 1) -> NoReturn:
    """Ends with the status of a script, or with another one where something can't be written; of a reader that has gone nothing is said."""
    # an interrupt ends it without a trace
    signal.signal(signal.SIGINT, signal.SIG_DFL)
    if sys.stdout is None:
        complain(f"{name}: what is told can't be written: standard output is closed")
        sys.exit(unwritten)
    try:
        status = main()
        sys.stdout.flush()
    except OSError as error:
        if error.filename is not None:
            complain(f"{name}: {error.filename}: {error.strerror}")
            sys.exit(unwritten)
        os.dup2(os.open(os.devnull, os.O_WRONLY), sys.stdout.fileno())
        if not isinstance(error, BrokenPipeError):
            complain(f"{name}: what is told can't be written: {error.strerror}")
        sys.exit(unwritten)
    sys.exit(status)
