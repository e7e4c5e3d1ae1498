"""Requests that the lab's server must refuse, and more of them at once than it answers. What is due is worked out from what docs/EXHIBIT.md
says of the server."""
import concurrent.futures
import contextlib
import os
import pathlib
import resource
import shutil
import signal
import socket
import tempfile
import time
from collections.abc import Iterator

from lab_running import PATIENCE, TYPE, Lab, Tally, body_of, head_of, read_all, status_of
from lvdc.workers import Worker

DECK = (pathlib.Path(__file__).resolve().parents[3] / "examples" / "one-wrong-copy.deck").read_bytes()
QUESTIONS = ["run", "run/--through", "form", "save/2", "trace/0/9", "trace/--through/3/6000"]
NO_QUESTIONS = ["", "soak/1", "debug", "save", "save/-1", "resume", "study", "campaign", "uplink", "macro", "asm/--image", "trace/0/6001",
                "trace/0/0",
                "trace/00/1", "trace/0/1/2", "trace/0", "trace/-1/1", "trace/30000000/1", "run/", "/run", "run/--image", "run%20",
                "run%0aREQUEST", "run\u00e9", "form/../run", "trace/--through/--through/0/1"]
NO_FILES = ["x", "lab", "serving.py", "js/serving.py", "../serving.py", "js/../serving.py", "../../etc/passwd", "%2e%2e/serving.py",
            "..%2fserving.py", "..\\serving.py", "/etc/passwd", "//etc/passwd", "js/", "js", "lab.html/", "LAB.HTML", "lab.html%00", "test-lab",
            "../examples/run", "js/%70arts.js"]
LENGTHS = {"262145": 413, "9999999999": 413, "99999999999": 411, "-1": 411, "+5": 411, "0x10": 411, "05": 411, "5 5": 411, "5,5": 411, "": 411,
           "\u0661": 411}
MOST_INPUT = 262_144
AT_ONCE = 1000
IDLE, HEAVY, LOST = 40, 32, 20
MOST_SECONDS, SLACK = 2.0, 2.0
HEAVY_DECK = b"IMAGE\nLVDC 1\n0 00 000 000010000\nEND\nFAULTS\nLAG 1 1 0 2999999\nRUN 400000\n"
SLOW = 20
SECONDS_TO_READ = 5
TLS_HELLO = b"\x16\x03\x01\x02\x00\x01\x00\x01\xfc\x03\x03" + bytes(range(256))


def try_right(lab: Lab, tally: Tally, worker: Worker) -> None:
    """What the lab's own page asks is answered, with the texts of the worker."""
    for path in ["", "lab.html", "style.css", "js/parts.js", "programs.json", "?kiosk"]:
        tally.expect(f"GET {path!r}", status_of(lab.got(path)), 200)
    for path in QUESTIONS:
        answer, due = lab.asked(path, DECK, *lab.own_headers(DECK)), worker.ask(path.split("/"), DECK)
        tally.expect(f"{path}: status", [status_of(answer), f"Lvdc-Status: {due.status}\r\n".encode() in answer], [200, True])
        tally.expect(f"{path}: text", body_of(answer), due.text)
    page = lab.got()
    for guard in [b"default-src 'none'", b"frame-ancestors 'none'", b"nosniff", b"no-store"]:
        tally.expect(f"the page's headers: {guard!r}", guard in page, True)
    tally.expect("localhost", status_of(lab.sent(head_of("GET", f"/{lab.token}/", f"Host: localhost:{lab.port}"))), 200)


def try_host(lab: Lab, tally: Tally) -> None:
    """A host that isn't the server's own: a name that leads here, another port, none, two."""
    own = f"Host: {lab.host}"
    wrong: list[list[str]] = [
        ["Host: evil.example"], [f"Host: rebound.evil.example:{lab.port}"], ["Host: 127.0.0.1"], [f"Host: 127.0.0.1:{lab.port + 1}"],
        [f"Host: 127.0.0.1.evil.example:{lab.port}"], [f"Host: 0.0.0.0:{lab.port}"], [f"Host: [::1]:{lab.port}"], [], [own, own],
        [own, "Host: evil.example"]]
    for headers in wrong:
        tally.expect(f"GET with {headers}", status_of(lab.sent(head_of("GET", f"/{lab.token}/", *headers))), 421)
    rebound = f"rebound.evil.example:{lab.port}"
    request = head_of("POST", f"/{lab.token}/ask/run", f"Host: {rebound}", f"Origin: http://{rebound}", *lab.own_headers(DECK)[1:]) + DECK
    tally.expect("a question by a name that leads here", status_of(lab.sent(request)), 421)


def try_origin(lab: Lab, tally: Tally) -> None:
    """An origin that isn't the lab's page, or none where something is sent; and what a browser says of the site that asks."""
    own, *others = lab.own_headers(DECK)
    wrong = ["http://evil.example", "null", f"https://{lab.host}", f"http://127.0.0.1:{lab.port + 1}", "http://127.0.0.1",
             f"http://localhost:{lab.port}", "file://", ""]
    for origin in wrong:
        tally.expect(f"a question with the origin {origin!r}", status_of(lab.asked("run", DECK, f"Origin: {origin}", *others)), 403)
        tally.expect(f"GET with the origin {origin!r}", status_of(lab.got("", f"Origin: {origin}")), 403)
    tally.expect("a question without an origin", status_of(lab.asked("run", DECK, *others)), 403)
    tally.expect("a question with two origins", status_of(lab.asked("run", DECK, own, own, *others)), 403)
    for site in ["cross-site", "same-site", "none"]:
        tally.expect(f"a question from {site}", status_of(lab.asked("run", DECK, own, *others[:2], f"Sec-Fetch-Site: {site}")), 403)
    tally.expect("GET from another site", status_of(lab.got("", "Sec-Fetch-Site: cross-site")), 403)
    tally.expect("the page from the address bar", status_of(lab.got("", "Sec-Fetch-Site: none")), 200)


def try_methods(lab: Lab, tally: Tally) -> None:
    """What a browser asks before it lets another site send a deck has no answer that would let it; other methods have none."""
    asks = ["Origin: http://evil.example", "Access-Control-Request-Method: POST", "Access-Control-Request-Headers: content-type"]
    for method in ["OPTIONS", "HEAD", "PUT", "DELETE", "TRACE", "CONNECT", "get", "\x00"]:
        answer = lab.sent(head_of(method, f"/{lab.token}/ask/run", f"Host: {lab.host}", *asks))
        tally.expect(f"{method!r}", [status_of(answer), b"Access-Control" in answer], [501, False])
    for kind in ["text/plain", "application/x-www-form-urlencoded", "multipart/form-data; boundary=x", f"{TYPE}; charset=utf-8"]:
        own = [it for it in lab.own_headers(DECK) if not it.startswith("Content-Type")]
        tally.expect(f"a question of the type {kind}", status_of(lab.asked("run", DECK, *own, f"Content-Type: {kind}")), 415)
    tally.expect("something sent to a file", status_of(lab.sent(head_of("POST", f"/{lab.token}/", f"Host: {lab.host}", *lab.own_headers(b"")))), 405)


def try_paths(lab: Lab, tally: Tally) -> None:
    """No token or another one; files that aren't the page's; words that aren't asked."""
    for target in ["/", "*", "/lab.html", f"/{lab.token}x/", f"/{lab.token[:-1]}/", f"/{lab.token.swapcase()}/", f"/x/{lab.token}/",
                   f"//{lab.token}x/", "http://evil.example/", f"http://{lab.host}/{lab.token}/", f"/?{lab.token}/"]:
        tally.expect(f"GET {target!r}", status_of(lab.sent(head_of("GET", target, f"Host: {lab.host}"))), 404)
    for path in NO_FILES:
        tally.expect(f"the file {path!r}", status_of(lab.got(path)), 404)
    for path in NO_QUESTIONS:
        tally.expect(f"the question {path!r}", status_of(lab.asked(path, DECK, *lab.own_headers(DECK))), 404)


def try_sizes(lab: Lab, tally: Tally) -> None:
    """Inputs that are too long, or don't say how long they are; heads that are too long."""
    origin, kind, _, site = lab.own_headers(DECK)
    for length, status in LENGTHS.items():
        tally.expect(f"a length of {length!r}", status_of(lab.asked("run", DECK, origin, kind, site, f"Content-Length: {length}")), status)
    tally.expect("no length", status_of(lab.asked("run", DECK, origin, kind, site)), 411)
    tally.expect("two lengths", status_of(lab.asked("run", DECK, *lab.own_headers(DECK), f"Content-Length: {len(DECK)}")), 411)
    tally.expect("chunks", status_of(lab.asked("run", b"1\r\nA\r\n0\r\n\r\n", *lab.own_headers(DECK), "Transfer-Encoding: chunked")), 411)
    tally.expect("an input that ends early", status_of(lab.asked("run", DECK[:-1], *lab.own_headers(DECK))), 400)
    for size, status in [(MOST_INPUT, 200), (MOST_INPUT + 1, 413), (3_000_000, 413)]:
        tally.expect(f"an input of {size} bytes", status_of(lab.asked("form", b" " * size, *lab.own_headers(b" " * size))), status)
    tally.expect("a long path", status_of(lab.got("x" * 70_000)), 414)
    tally.expect("a long header", status_of(lab.got("", "X: " + "x" * 70_000)), 431)
    tally.expect("many headers", status_of(lab.got("", *[f"X{it}: x" for it in range(200)])), 431)
    for odd in [b"", b"\r\n\r\n", b"\x00" * 100, b"GET", b"GET /\r\n", b"\xff\xfe\r\n\r\n", TLS_HELLO, b"GET / HTTP/9.9\r\n\r\n", b"x" * 100_000]:
        tally.expect(f"{odd[:20]!r}: no page", b"200 OK" in lab.sent(odd), False)


def dripping(lab: Lab) -> list[socket.socket]:
    """Connections whose requests don't come to their end: half of them have begun their input."""
    heads = [b"GET /", head_of("POST", f"/{lab.token}/ask/run", f"Host: {lab.host}", *lab.own_headers(DECK))]
    found = [lab.connected() for _ in range(SLOW)]
    for number, connection in enumerate(found):
        connection.sendall(heads[number % 2])
    return found


def try_slow(tally: Tally, slow: list[socket.socket], began: float) -> None:
    """A byte now and then keeps no connection open: each is closed when its time is over."""
    left, until = slow, max(began + 2 * SECONDS_TO_READ, time.monotonic() + 2)
    while left and time.monotonic() < until:
        time.sleep(0.2)
        left = [it for it in left if is_open(it)]
    tally.expect("slow requests that are still open", len(left), 0)
    tally.expect("slow requests had their time", time.monotonic() - began > SECONDS_TO_READ - 1, True)
    for connection in slow:
        connection.close()


def is_open(connection: socket.socket) -> bool:
    """Whether a connection is still open; a byte is sent."""
    connection.settimeout(0.001)
    try:
        connection.send(b"x")
        return connection.recv(4096) != b""
    except TimeoutError:
        return True
    except OSError:
        return False


def many(lab: Lab, request: bytes) -> Iterator[int]:
    """The statuses of so many requests, all of which are sent before an answer is read; 0 where one has none."""
    with contextlib.ExitStack() as stack:
        connections = [stack.enter_context(lab.connected()) for _ in range(AT_ONCE)]
        for connection in connections:
            with contextlib.suppress(ConnectionError):
                connection.sendall(request)
        until = time.monotonic() + PATIENCE
        for connection in connections:
            connection.settimeout(max(0.01, until - time.monotonic()))
            yield status_of(read_all(connection))


def try_many(lab: Lab, tally: Tally) -> None:
    """A thousand at once: each is answered or turned away, and then the lab answers as before."""
    soft, hard = resource.getrlimit(resource.RLIMIT_NOFILE)
    resource.setrlimit(resource.RLIMIT_NOFILE, (min(hard, max(soft, 4096)), hard))
    own = head_of("POST", f"/{lab.token}/ask/form", f"Host: {lab.host}", *lab.own_headers(DECK)) + DECK
    foreign = head_of("POST", f"/{lab.token}/ask/form", f"Host: {lab.host}", "Origin: http://evil.example", *lab.own_headers(DECK)[1:]) + DECK
    for what, request, answered in [("its own page", own, 200), ("another", foreign, 403)]:
        began = time.monotonic()
        found = list(many(lab, request))
        print(f"lab: {AT_ONCE} requests of {what} at once: {found.count(answered)} answered, {found.count(503)} turned away, "
              f"{found.count(0)} cut, in {time.monotonic() - began:.1f} seconds", flush=True)
        tally.expect(f"{AT_ONCE} of {what}: other answers", set(found) - {answered, 503, 0}, set())
        tally.expect(f"{AT_ONCE} of {what}: some are answered", found.count(answered) > 0, True)
        tally.expect(f"after {AT_ONCE} of {what}: a question", status_of(lab.asked("run", DECK, *lab.own_headers(DECK))), 200)


def try_idle(lab: Lab, tally: Tally) -> None:
    """Connections that send nothing hold nobody up."""
    with contextlib.ExitStack() as stack:
        for _ in range(IDLE):
            stack.enter_context(lab.connected())
        began = time.monotonic()
        tally.expect(f"the page beside {IDLE} idle connections", [status_of(lab.got()), time.monotonic() - began < SECONDS_TO_READ / 2], [200, True])


def try_heavy(lab: Lab, tally: Tally) -> None:
    """Questions that take long, as many at once as are answered: each is answered or refused in its time, and a small one too."""
    def timed(deck: bytes) -> tuple[int, float]:
        began = time.monotonic()
        return status_of(lab.asked("run/--through", deck, *lab.own_headers(deck))), time.monotonic() - began

    with concurrent.futures.ThreadPoolExecutor(HEAVY + 1) as pool:
        found = list(pool.map(timed, [HEAVY_DECK] * HEAVY + [DECK]))
    slowest = max(seconds for _, seconds in found)
    statuses = [status for status, _ in found]
    print(f"lab: {HEAVY} heavy questions at once: {statuses.count(200)} answered, {statuses.count(503)} turned away, {statuses.count(504)} too late, "
          f"the slowest in {slowest:.1f} seconds", flush=True)
    tally.expect("heavy questions: other answers", set(statuses) - {200, 503, 504}, set())
    tally.expect("heavy questions: none waits longer than it may", slowest < MOST_SECONDS + SLACK, True)


def kill_workers(lab: Lab) -> None:
    """Kills all that the lab has started."""
    for task in pathlib.Path(f"/proc/{lab.process.pid}/task").iterdir():
        for number in (task / "children").read_text().split():
            os.kill(int(number), signal.SIGKILL)


def try_no_worker(program: str, tally: Tally) -> None:
    """Questions whose worker can't be started, more than there are workers: each is told so, and none takes a worker's place for good."""
    with tempfile.TemporaryDirectory() as folder:
        here, away = pathlib.Path(folder, "lvdc-worker"), pathlib.Path(folder, "away")
        shutil.copy(program, here)
        with Lab(str(here)) as lab:
            here.rename(away)
            kill_workers(lab)
            statuses = [status_of(lab.asked("run", DECK, *lab.own_headers(DECK))) for _ in range(LOST + 2 * (os.cpu_count() or 1))]
            tally.expect("questions whose worker can't be started", set(statuses), {502})
            away.rename(here)
            tally.expect("a question once it can be started again", status_of(lab.asked("run", DECK, *lab.own_headers(DECK))), 200)
            tally.expect("what that lab wrote on standard error", lab.told(), "")


def try_hostile(lab: Lab, tally: Tally, worker: Worker) -> None:
    """All of it, while slow requests are held open."""
    began = time.monotonic()
    slow = dripping(lab)
    try_right(lab, tally, worker)
    for part in (try_host, try_origin, try_methods, try_paths, try_sizes):
        part(lab, tally)
    try_slow(tally, slow, began)
    try_idle(lab, tally)
    try_heavy(lab, tally)
    try_many(lab, tally)
    try_no_worker(lab.worker, tally)
    tally.expect("the lab still runs", lab.process.poll(), None)
    tally.expect("what the lab wrote on standard error", lab.told(), "")
