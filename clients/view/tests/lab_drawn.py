"""Requests of the lab that are drawn, and workers that are killed while they are asked: each request is answered by a status that it may have, the
lab writes nothing on standard error, and goes on. By itself: python3 clients/view/tests/lab_drawn.py WORKER COUNT [NUMBER]"""
import concurrent.futures
import contextlib
import os
import pathlib
import random
import shutil
import signal
import sys
import tempfile
import threading
import time

if __name__ == "__main__":
    sys.dont_write_bytecode = True
    sys.path.insert(0, str(pathlib.Path(__file__).resolve().parents[2] / "python" / "src"))

from box_tried import children_of
from lab_running import Lab, Tally, head_of, read_all, status_of

DECK = (pathlib.Path(__file__).resolve().parents[3] / "examples" / "one-wrong-copy.deck").read_bytes()
# what an answer of the lab may be; 0 is none, where no request came
STATUSES = {0, 200, 400, 403, 404, 405, 411, 413, 414, 415, 421, 431, 501, 502, 503, 504, 505, 507}
METHODS = ["GET", "GET", "POST", "POST", "POST", "HEAD", "PUT", "OPTIONS", "get", "P\0ST", "", "X" * 300]
PATHS = ["", "ask/run", "ask/form", "ask/save/2", "ask/trace/0/9", "ask/run/--through", "lab.html", "js/parts.js", "%2e%2e/x", "ask/" + "run/" * 500,
         "\u00e9"]
PIECES = [b"\r\n", b"\n", b"\r", b"\0", b": ", b" ", b"\xff\xfe", b"\r\n\r\n", b"Content-Length: 3\r\n", b"Transfer-Encoding: chunked\r\n",
          b"x" * 5000, b"%00", b"\t"]
AT_ONCE, MORE_THAN_THREADS = 24, 40
SECONDS_OF_KILLING = 3.0


def drawn_head(draw: random.Random, lab: Lab) -> list[str]:
    """The headers of a request: those of the lab's own page, some of which are missing, twice or others."""
    headers = [f"Host: {lab.host}", *lab.own_headers(DECK)]
    others = ["Host: evil.example", "Origin: null", "Content-Type: text/plain", "Content-Length: -1", f"Content-Length: {10 ** draw.randrange(9)}",
              "Sec-Fetch-Site: cross-site", "Transfer-Encoding: chunked", "Expect: 100-continue", "Connection: keep-alive", "Upgrade: websocket",
              "X: " + "x" * draw.choice([1, 1000, 70_000]), " folded", ":", "Range: bytes=0-"]
    for _ in range(draw.choice([0, 0, 1, 2, 4])):
        at = draw.randrange(len(headers) + 1)
        headers[at:at + draw.randrange(2)] = [draw.choice(others)] * draw.choice([0, 1, 1, 200])
    return headers


def drawn_request(draw: random.Random, lab: Lab) -> bytes:
    """A request, some of whose bytes are others."""
    token = draw.choice([lab.token] * 6 + [lab.token[:-1], "", "x" * 22])
    request = head_of(draw.choice(METHODS), f"/{token}/{draw.choice(PATHS)}", *drawn_head(draw, lab))
    found = bytearray(request + DECK[:draw.choice([len(DECK), len(DECK), 0, 7])])
    for _ in range(draw.choice([0, 0, 1, 3])):
        at = draw.randrange(len(found) + 1)
        found[at:at + draw.choice([0, 1, 5, 50])] = draw.choice(PIECES)
    return bytes(found[:draw.choice([len(found)] * 5 + [draw.randrange(len(found) + 1)])])


def answered(lab: Lab, request: bytes, is_whole: bool) -> bytes:
    """What a request is answered; nothing where the lab cuts the connection."""
    with contextlib.suppress(OSError), lab.connected() as connection:
        connection.sendall(request)
        if is_whole:
            connection.shutdown(1)
        return read_all(connection)
    return b""


def goes_on(lab: Lab, tally: Tally, when: str) -> None:
    """The lab answers as before, and has written nothing."""
    tally.expect(f"{when}: a question", status_of(lab.asked("run", DECK, *lab.own_headers(DECK))), 200)
    tally.expect(f"{when}: the page", status_of(lab.got()), 200)
    tally.expect(f"{when}: what the lab wrote on standard error", lab.told(), "")


def try_drawn(lab: Lab, tally: Tally, count: int, number: int) -> dict[int, int]:
    """So many drawn requests, some at once. Returns how many had which status."""
    draw = random.Random(number)
    told: dict[int, int] = {}
    with concurrent.futures.ThreadPoolExecutor(AT_ONCE) as pool:
        # one that isn't whole would be waited for
        asked = [(drawn_request(draw, lab), True) for _ in range(count)]
        for (request, _), answer in zip(asked, pool.map(lambda it: answered(lab, *it), asked)):
            status = status_of(answer)
            told[status] = told.get(status, 0) + 1
            if status not in STATUSES or b"Traceback" in answer:
                tally.expect(f"drawn request {request[:200]!r}", answer[:200], "a status that the lab has")
    goes_on(lab, tally, f"after {count} drawn requests")
    return told


def kill_workers(lab: Lab) -> None:
    """Kills all workers of a lab, which are the processes below it."""
    for process in children_of(lab.process.pid):
        with contextlib.suppress(ProcessLookupError):
            os.kill(process, signal.SIGKILL)


def try_killed(lab: Lab, tally: Tally) -> None:
    """Workers are killed again and again while the lab is asked: each answer is whole, or says that the worker has ended or that it took too long."""
    over = threading.Event()

    def kill() -> None:
        while not over.wait(0.1):
            kill_workers(lab)

    due = lab.asked("run", DECK, *lab.own_headers(DECK))
    killer = threading.Thread(target=kill)
    killer.start()
    until = time.monotonic() + SECONDS_OF_KILLING
    found: list[bytes] = []
    with concurrent.futures.ThreadPoolExecutor(8) as pool:
        while time.monotonic() < until:
            found += pool.map(lambda _: lab.asked("run", DECK, *lab.own_headers(DECK)), range(8))
    over.set()
    killer.join()
    statuses = [status_of(it) for it in found]
    print(f"lab: {len(found)} questions while its workers are killed: {statuses.count(200)} answered, {statuses.count(502)} by no worker", flush=True)
    tally.expect("killed workers: other answers", set(statuses) - {200, 502, 503, 504}, set())
    bodies = {it.partition(b"\r\n\r\n")[2] for it in found if status_of(it) == 200}
    tally.expect("killed workers: another text", bodies - {due.partition(b"\r\n\r\n")[2]}, set())
    goes_on(lab, tally, "after workers were killed")


def try_gone(tally: Tally, worker: str) -> None:
    """The worker's file goes while the lab runs, and comes again: more questions than it has threads are told so, and then it answers as before."""
    with tempfile.TemporaryDirectory() as folder:
        own, away = pathlib.Path(folder, "lvdc-worker"), pathlib.Path(folder, "away")
        shutil.copy(worker, own)
        with Lab(str(own)) as lab:
            goes_on(lab, tally, "before its worker goes")
            own.rename(away)
            kill_workers(lab)
            statuses = {status_of(lab.asked("run", DECK, *lab.own_headers(DECK))) for _ in range(MORE_THAN_THREADS)}
            tally.expect("questions where there is no worker", statuses, {502})
            away.rename(own)
            goes_on(lab, tally, "after its worker has come again")


def try_kept(tally: Tally, worker: str) -> None:
    """A file without a byte, as a disk without room leaves one, keeps no address; what is kept there is whole, and is found again."""
    with tempfile.TemporaryDirectory() as folder:
        file = pathlib.Path(folder, "address")
        file.touch()
        with Lab(worker, "--keep", str(file)) as first:
            kept = file.read_text().strip(), oct(file.stat().st_mode & 0o777), [it.name for it in file.parent.iterdir()]
            tally.expect("an address that is kept", kept, (first.address, "0o600", [file.name]))
        with Lab(worker, "--keep", str(file)) as again:
            tally.expect("the address of a lab that is started again", again.address, first.address)


def main(worker: str, count: int, number: int) -> None:
    """Tries all of it, and tells how many requests had which status."""
    tally = Tally()
    with Lab(worker) as lab:
        told = try_drawn(lab, tally, count, number)
        try_killed(lab, tally)
    try_gone(tally, worker)
    try_kept(tally, worker)
    print(f"lab: {count} drawn requests of number {number}:", ", ".join(f"{told[status]} by {status}" for status in sorted(told)))
    sys.exit(tally.failed > 0)


if __name__ == "__main__":
    main(os.path.abspath(sys.argv[1]), int(sys.argv[2]), int((sys.argv + ["1"])[3]))
