"""What a program takes for an input: processor time, and resident memory."""
import math
import os
import pathlib
import re
import subprocess
import tempfile
from typing import NamedTuple

import recipes

TOP = pathlib.Path(__file__).resolve().parents[2]


class Cost(NamedTuple):
    """Seconds of a processor, the system's among them, the most memory that was resident, in KB, and the exit status."""

    seconds: float
    kilobytes: int
    status: int


class Programs(NamedTuple):
    """The program and the worker."""

    program: str
    worker: str

    def words(self, name: str, numbers: recipes.Recipe) -> list[str]:
        """What is run for a command or a request."""
        return [self.worker] if name in recipes.REQUESTS else [self.program, *recipes.words_of(name, numbers).split()]

    def cost(self, name: str, numbers: recipes.Recipe) -> Cost:
        """What it takes to answer the input of a recipe."""
        with tempfile.TemporaryFile() as stream:
            stream.write(recipes.given(name, numbers))
            stream.seek(0)
            return cost_of(self.words(name, numbers), stream.fileno())

    def millions(self, name: str, numbers: recipes.Recipe) -> float:
        """How many millions of instructions it executes to answer the small form of a recipe, as callgrind counts them."""
        few = recipes.small(numbers)
        with tempfile.TemporaryFile() as stream:
            stream.write(recipes.given(name, few))
            stream.seek(0)
            words = ["valgrind", "--tool=callgrind", "--callgrind-out-file=/dev/null", *self.words(name, few)]
            said = subprocess.run(words, stdin=stream, stdout=subprocess.DEVNULL, stderr=subprocess.PIPE, check=False).stderr
        found = re.search(rb"Collected : ([0-9]+)", said)
        return int(found[1]) / 1e6 if found else math.inf


def named_programs() -> Programs:
    """The programs that LVDC and LVDC_WORKER name, else those of this repository."""
    return Programs(os.environ.get("LVDC") or str(TOP / "lvdc"), os.environ.get("LVDC_WORKER") or str(TOP / "lvdc-worker"))


def cost_of(words: list[str], stream: int) -> Cost:
    """What a program takes over an input. A small process starts it: the memory of one that is started from here would be this one's, too."""
    with tempfile.NamedTemporaryFile() as spent:
        started = ["/usr/bin/time", "-f", "%M", "-o", spent.name, *words]
        process = subprocess.Popen(started, stdin=stream, stdout=subprocess.DEVNULL, stderr=subprocess.DEVNULL)
        _, status, used = os.wait4(process.pid, 0)
        process.returncode = os.waitstatus_to_exitcode(status)
        kilobytes = int(spent.read().split()[-1])
    return Cost(used.ru_utime + used.ru_stime, kilobytes, process.returncode)
