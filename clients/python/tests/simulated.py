"""The simulator of conformance/ in place of a worker: it is slow, and independent of the program and of this package."""
import sys
from collections.abc import Sequence

from conftest import TOP

from lvdc import Reply

sys.path.insert(0, str(TOP / "conformance"))

from simulator import answer  # noqa: E402


class Simulated:
    """Answers requests as the program does."""

    def ask(self, words: Sequence[str], given: bytes = b"", limit: float | None = None) -> Reply:
        """The simulator's answer."""
        status, text = answer(list(words), given.decode("latin-1"))
        return Reply(status, text.encode("latin-1"))
