"""What the tests share: the texts of the repository, and a worker where one is there."""
import atexit
import functools
import os
import shlex
import shutil
import stat
import subprocess
import sys
import tempfile
from collections.abc import Iterator
from pathlib import Path

import pytest
from hypothesis import settings

from lvdc import NoWorker, Worker
from lvdc.workers import find_worker

TOP = Path(__file__).resolve().parents[3]
FAKE = Path(__file__).resolve().parent / "fake_worker.py"

# The same examples each time, on however busy a machine; --hypothesis-profile=others draws others.
settings.register_profile("same", deadline=None, derandomize=True)
settings.register_profile("others", deadline=None)
settings.load_profile("same")


@functools.cache
def cases() -> list[Path]:
    """The conformance cases, each as a folder of its words, its input, its text and its status, which go when the tests are over."""
    folder = tempfile.mkdtemp()
    atexit.register(shutil.rmtree, folder)
    subprocess.run([sys.executable, str(TOP / "conformance" / "run"), "--unpack", folder], check=True)
    return sorted(Path(folder).glob("*/*"))


def input_of(case: Path) -> bytes:
    """The input of a case."""
    return (case / "input").read_bytes()


def name_of(path: Path) -> str:
    """The name of a test by its file or folder."""
    return f"{path.parent.name}/{path.stem}"


@pytest.fixture(scope="session")
def worker() -> Iterator[Worker]:
    """A worker; what wants one is skipped where LVDC_WORKER is unset and none is beside the package or on the path."""
    try:
        program = find_worker()
    except NoWorker as error:
        if os.environ.get("LVDC_WORKER"):
            raise
        pytest.skip(str(error))
    with Worker(program, limit=60) as found:
        yield found


@pytest.fixture
def program(tmp_path: Path, monkeypatch: pytest.MonkeyPatch) -> Path:
    """The stand-in as a program, which notes its starts in a file `log` beside it."""
    found = tmp_path / "lvdc-worker"
    found.write_text(f"#!/bin/sh\nexec {shlex.quote(sys.executable)} {shlex.quote(str(FAKE))}\n")
    found.chmod(found.stat().st_mode | stat.S_IXUSR)
    monkeypatch.setenv("FAKE_WORKER_LOG", str(tmp_path / "log"))
    return found


def pytest_addoption(parser: pytest.Parser) -> None:
    """How many random sequences of commands lvdb is given, and for how many seconds of a processor random input."""
    parser.addoption("--seconds", default="3", help="how long lvdb is given random input")
    parser.addoption("--sequences", default="60", help="how many sequences of commands lvdb is given")
