"""Counts what a test found as it is wanted, and tells what isn't."""
import json
from typing import Any


class Tally:
    """How much passed, and how much failed."""

    def __init__(self) -> None:
        self.passed = 0
        self.failed = 0

    def expect(self, name: str, got: Any, wanted: Any) -> None:
        """Notes whether something is as it is wanted."""
        if got == wanted:
            self.passed += 1
        else:
            self.failed += 1
            print(f"view: {name}: {json.dumps(got)[:400]} and not {json.dumps(wanted)[:400]}")


TALLY = Tally()
expect = TALLY.expect
