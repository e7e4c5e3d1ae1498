"""Tries the program that keeps an exhibit running: each of its processes is killed once, the server is made to hang, and all is back. The browser
is a stand-in."""
import os
import pathlib
import signal
import subprocess
import time
import urllib.request
from collections.abc import Callable

from lab_running import TYPE, Tally

START = pathlib.Path(__file__).resolve().parent.parent / "start"
SECONDS_TO_BE_BACK = 30.0
BROWSER = """#!/bin/sh
for word; do address=$word; done
echo "$address" > {file}
exec sleep 1000
"""


def children_of(process: int) -> dict[int, str]:
    """The processes below a process, each with its command."""
    found: dict[int, str] = {}
    for path in pathlib.Path("/proc").glob("[0-9]*"):
        try:
            parent = int((path / "stat").read_text().rpartition(")")[2].split()[1])
            command = (path / "cmdline").read_bytes().replace(b"\0", b" ").decode(errors="replace")
        except OSError:
            continue
        if parent == process:
            found |= {int(path.name): command, **children_of(int(path.name))}
    return found


def one(process: int, word: str) -> int | None:
    """A process below another one with this word in its command."""
    return next((number for number, command in children_of(process).items() if word in command), None)


def answers(file: pathlib.Path) -> bool:
    """Whether the page answers that the browser was started with."""
    try:
        with urllib.request.urlopen(file.read_text().strip(), timeout=2) as answer:
            return bool(answer.status == 200)
    except OSError:
        return False


def is_answered(file: pathlib.Path) -> bool:
    """Whether a question of the page is answered."""
    page = file.read_text().partition("flight.html")[0]
    headers = {"Content-Type": TYPE, "Origin": page[:page.index("/", 8)], "Sec-Fetch-Site": "same-origin"}
    request = urllib.request.Request(f"{page}ask/form", b"IMAGE\nLVDC 1\nEND\nRUN 1\n", headers)
    try:
        with urllib.request.urlopen(request, timeout=5) as answer:
            return bool(answer.read() == b"FORM YES\n")
    except OSError:
        return False


def seconds_until(holds: Callable[[], bool]) -> float:
    """How long it takes until something holds."""
    began = time.monotonic()
    while not holds() and time.monotonic() < began + 2 * SECONDS_TO_BE_BACK:
        time.sleep(0.1)
    return time.monotonic() - began


def try_back(tally: Tally, start: int, file: pathlib.Path, word: str, number: signal.Signals) -> None:
    """A process is sent a signal; another one is there soon, and the page answers at the same address."""
    before, address = one(start, word), file.read_text()
    if before is None:
        tally.expect(f"box: there is {word}", None, "a process")
        return
    os.kill(before, number)
    seconds = seconds_until(lambda: one(start, word) not in (None, before) and answers(file))
    print(f"box: {word} by {number.name}: back after {seconds:.1f} s", flush=True)
    tally.expect(f"box: {word} by {number.name}", [seconds < SECONDS_TO_BE_BACK, file.read_text()], [True, address])


def try_box(tally: Tally, worker: str, folder: pathlib.Path) -> None:
    """All of it."""
    browser, file, settings = folder / "browser", folder / "shown", folder / "settings.txt"
    browser.write_text(BROWSER.format(file=file))
    browser.chmod(0o755)
    settings.write_text(f"show = flight\nlanguage = de\nidle = 20\nbrowser = {browser} --full\n")
    with subprocess.Popen([START, settings], env={**os.environ, "LVDC_WORKER": worker}) as box:
        tally.expect("box: the page is there", seconds_until(lambda: file.exists() and answers(file)) < SECONDS_TO_BE_BACK, True)
        tally.expect("box: its address", file.read_text().strip().endswith("/flight.html?kiosk=de&idle=20&sound=button&brightness=100"), True)
        for word, number in [("clients/view/lab", signal.SIGKILL), ("sleep 1000", signal.SIGKILL), ("clients/view/lab", signal.SIGSTOP)]:
            try_back(tally, box.pid, file, word, number)
        workers = [it for it, command in children_of(box.pid).items() if command.startswith(worker)]
        for it in workers:
            os.kill(it, signal.SIGKILL)
        seconds = seconds_until(lambda: is_answered(file))
        tally.expect("box: all workers are killed, and a question is answered", [len(workers) > 0, seconds < SECONDS_TO_BE_BACK], [True, True])
        below = list(children_of(box.pid))
        box.send_signal(signal.SIGTERM)
        box.wait(SECONDS_TO_BE_BACK)
        left = [it for it in below if pathlib.Path(f"/proc/{it}").exists()]
        tally.expect("box: it ends, and leaves nothing behind", [box.returncode, left], [0, []])
    for wrong in ("show = film\n", "idle = 0\n", "brightness\n", "idle = 5\nidle = 6\n", 'browser = "chromium\n', "browser = ''\n"):
        settings.write_text(f"# settings\n{wrong}")
        done = subprocess.run([START, settings], capture_output=True, text=True, check=False)
        tally.expect(f"box: {wrong!r}", [done.returncode, done.stderr.startswith("start: settings.txt, line ")], [1, True])
    settings.write_text(f"browser = {folder}\n")
    for given, said in ((settings, f"start: {folder}: Permission denied\n"), (pathlib.Path("/dev/zero"), "start: /dev/zero has more than")):
        done = subprocess.run([START, given], env={**os.environ, "LVDC_WORKER": worker}, capture_output=True, text=True, check=False)
        tally.expect(f"box: {said!r}", [done.returncode, done.stderr.startswith(said)], [1, True])
