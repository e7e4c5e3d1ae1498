"""What stands around the programs, part by part: what is asked of each at random, and what is due of its answer and of the files that it leaves."""
import json
import os
import pathlib
import random
import re
import resource
import shutil
import signal
import subprocess
import sys
import zipfile
from collections.abc import Callable, Iterator
from concurrent.futures import ThreadPoolExecutor
from typing import NamedTuple

TOP = pathlib.Path(__file__).resolve().parents[2]
sys.path[:0] = [str(TOP / "clients/view/tests"), str(TOP / "clients/python/src")]

from around import FINE, Around, Done, complaint, drawn_around, run, worker_in  # noqa: E402
from lab_drawn import DECK, STATUSES, answered, drawn_request, goes_on, kill_workers, try_drawn  # noqa: E402
from lab_running import Lab, Tally, head_of, status_of  # noqa: E402
from unproved import stand_in  # noqa: E402

EXAMPLES = sorted([*TOP.glob("examples/*.*"), *TOP.glob("examples/programs/*.*")])
DECKS = [it for it in EXAMPLES if it.suffix == ".deck"]
CAMPAIGNS = sorted(TOP.glob("examples/*.campaign"))
FEW_TIMES = [TOP / "examples" / it for it in ("divide.deck", "multiply.deck", "sum-that-wraps.deck")]
LANGUAGES = sorted(TOP.glob("clients/view/words/*.txt"))
FILES = [it for it in EXAMPLES if it.suffix in (".deck", ".source", ".macros", ".image")]
LONGEST, LONG = 20_000, 1_000_000
FEW_REQUESTS, AT_ONCE = 40, 12
PIECES = [b"\0", b"\xff", b" 8", b",", b"=", b"\r", b"*", b"A" * 200, b"\t", b"-1", b"99999999999", b"END", b"RUN 5", b"FAULTS", b"CAMPAIGN",
          b"SCRIPT X"]
LVDB_WORDS: list[list[str]] = [[], ["--times", "50"], ["--start", "X"], ["--tape", "1"]]
EXHIBIT_WORDS: list[list[str]] = [["--no-answers"], ["--no-answers"], ["--times", "7"], []]
TABLE_WORDS: list[list[str]] = [[], ["--by", "module"], ["--by", "verdict"]]
RELIABILITY_WORDS: list[list[str]] = [[], ["--rate", "1e-3"], ["--rate", "nan"], ["--times", "100"]]
DRAW_WORDS = """--count 20 --within 2 --steps 4 --modules 5 --latches 0 --bits 3 --length 2 --places 0,01,002 --faults lag""".split()
PROMPT = """step back continue reverse-continue until finish break tbreak watch rwatch awatch delete print x disassemble backtrace hurt damage kill
undo through guarded goto last writes reads mistakes info help list registers memory ports reload run save quit""".split()
WORDS = """A PQ STOP LIST LIST+2 775 777 0,01,002 0,00,0,003 1 0 -1 7 30 1000 for if flip force == ( ) ~ =D-7 /8d registers memory ports port 017
accumulator 5 2 1000000 99999999999 early B""".split()
REQUESTS = """initialize configurationDone threads stackTrace scopes variables evaluate disassemble readMemory completions continue next stepIn
stepBack reverseContinue pause setBreakpoints dataBreakpointInfo fly""".split()
ARGUMENTS = """expression variablesReference memoryReference count offset instructionCount text column name source breakpoints""".split()
RUN_WORDS: list[list[str]] = [[], ["--scripts", "1"], ["--scripts", "3"], ["--scripts", "256", "--jobs", "2"], ["--csv"], ["--by", "verdict"]]


class Bench(NamedTuple):
    """The folder of a trial, what draws it, and the programs."""

    folder: pathlib.Path
    draw: random.Random
    program: str
    worker: str

    def around(self, kinds: str = "wlos") -> Around:
        """Something that is wrong around a command."""
        return drawn_around(self.draw, self.worker, self.folder, kinds)


class Found(NamedTuple):
    """What was tried, and what of it isn't as is due, if anything is."""

    what: str
    wrong: str | None


def changed(draw: random.Random, text: bytes) -> bytes:
    """A text some of whose lines are others; in a third of the cases as it is."""
    lines = text.split(b"\n")
    for _ in range(draw.choice([0, 1, 2, 4])):
        at = draw.randrange(len(lines))
        place = draw.randrange(len(lines[at]) + 1)
        ways = [draw.choice(lines), lines[at][:place], lines[at] + draw.choice(PIECES), lines[at][:place] + draw.choice(PIECES) + lines[at][place:],
                lines[at] + b"\n" + lines[at], draw.choice(PIECES)]
        lines[at:at + 1] = [draw.choice(ways)] if draw.randrange(6) else []
        lines = lines or [b""]
    return b"\n".join(lines)


def written(bench: Bench, files: list[pathlib.Path], name: str) -> pathlib.Path:
    """A changed file, or one that is none."""
    path = bench.folder / name
    if bench.draw.randrange(12):
        text = changed(bench.draw, bench.draw.choice(files).read_bytes()[:LONGEST])
        path.write_bytes(text * (LONG // (len(text) + 1)) if bench.draw.randrange(12) == 0 else text)
        return path
    return pathlib.Path(bench.draw.choice([str(bench.folder), "/dev/null", "/dev/zero", "/dev/full", str(bench.folder / "nothing"), "x" * 300]))


# ---- lvdb and lvdc-check

def is_deck(path: pathlib.Path) -> bool:
    """Whether a file that was saved is a whole deck, or isn't there."""
    text = path.read_bytes() if path.exists() else b"\nRUN 0\n"
    return b"\nRUN " in text and text.endswith(b"\n")


def prompt(bench: Bench) -> Found:
    """lvdb over a file, with drawn lines; what it saves is whole."""
    draw, around = bench.draw, bench.around("wlmos")
    lines = [" ".join([draw.choice(PROMPT), *(draw.choice(WORDS) for _ in range(draw.randrange(4)))]) for _ in range(draw.randrange(30))]
    lines[draw.randrange(len(lines) + 1):0] = ["save saved.deck"]
    words = [str(TOP / "clients/python/lvdb"), str(written(bench, FILES, "shown")), *draw.choice(LVDB_WORDS)]
    done = run(words, "\n".join(lines).encode(), around, bench.folder)
    wrong = complaint(done, around) or (None if is_deck(bench.folder / "saved.deck") else "a deck that is saved in part")
    return Found(f"{words[1:]} with {around.name}, {lines}", wrong and f"{wrong}: {done}")


def message(number: int, command: str, arguments: object) -> bytes:
    """A request of the protocol."""
    text = json.dumps({"seq": number, "type": "request", "command": command, "arguments": arguments}).encode()
    return b"Content-Length: %d\r\n\r\n" % len(text) + text


def messages_of(text: bytes) -> list[dict[str, object]] | None:
    """The messages in a text; none where there is anything else."""
    found = []
    while text:
        head = re.match(rb"Content-Length: ([0-9]+)\r\n\r\n", text)
        if head is None or len(text) < head.end() + int(head[1]):
            return None
        found.append(json.loads(text[head.end():head.end() + int(head[1])]))
        text = text[head.end() + int(head[1]):]
    return found


def protocol(bench: Bench) -> Found:
    """lvdb --dap with drawn requests and bytes; each request that comes whole is answered once."""
    draw, around = bench.draw, bench.around("wlmos")
    launch = {"program": str(written(bench, FILES, "shown")), "stopOnEntry": draw.choice([True, False]), "times": 50}
    asked = [("launch", launch), *((draw.choice(REQUESTS), {draw.choice(ARGUMENTS): draw.choice([*WORDS, 0, 1, -1, 2**40, None, [], {}])
                                                            for _ in range(3)}) for _ in range(draw.randrange(25)))]
    given = b"".join(message(number, *it) for number, it in enumerate(asked, 1))
    is_whole = draw.randrange(3) > 0
    given = given if is_whole else changed(draw, given)
    done = run([str(TOP / "clients/python/lvdb"), "--dap"], given, around, bench.folder)
    wrong, told = complaint(done, around), messages_of(done.text)
    if wrong is None and told is None and not around.signal:
        wrong = "what is no message"
    answered = sorted(str(it["request_seq"]) for it in told or [] if it["type"] == "response")
    if wrong is None and around.is_fine and is_whole and answered != sorted(str(it) for it in range(1, len(asked) + 1)):
        wrong = f"answers to {answered} of {len(asked)} requests"
    return Found(f"--dap with {around.name}, {given!r}", wrong and f"{wrong}: {done}")


def checked(bench: Bench) -> Found:
    """lvdc-check over changed files."""
    around, paths = bench.around("wlmos"), [str(written(bench, FILES, f"file{at}")) for at in range(bench.draw.randrange(1, 4))]
    words = bench.draw.choice([paths, paths, ["--fraction", *bench.draw.choices(WORDS, k=3)], ["--told", "REFUSED BadLine 3", paths[0]]])
    done = run([str(TOP / "clients/python/lvdc-check"), *words], b"", around, bench.folder)
    wrong = complaint(done, around)
    return Found(f"lvdc-check {words} with {around.name}", wrong and f"{wrong}: {done}")


# ---- campaigns

def due_of(bench: Bench, given: bytes, is_study: bool) -> tuple[int, bytes]:
    """What one run of the program answers to a campaign, or the worker to a study."""
    asked = b"REQUEST %d study\n" % len(given) + given if is_study else given
    done = subprocess.run([bench.worker] if is_study else [bench.program, "campaign"], input=asked, stdout=subprocess.PIPE, check=False)
    head, _, text = done.stdout.partition(b"\n") if is_study else (b"", b"", done.stdout)
    return (int(head.split()[1]) if is_study else done.returncode), text


def of_table(done: Done, due: tuple[int, bytes]) -> tuple[int, bytes]:
    """What is compared where a table is written: that it has come, or the refusal."""
    return (0, due[1]) if done.status == 0 and done.text else (done.status, done.text)


def campaigns(bench: Bench) -> Found:
    """clients/campaigns/run in a folder that is kept, with something wrong around it, or twice at once; the same command then goes on to the end."""
    draw = bench.draw
    is_study, more = draw.randrange(3) == 0, draw.choice(RUN_WORDS)
    around = bench.around("los") if draw.randrange(4) else bench.around("w")
    path = bench.folder / "given"
    path.write_bytes(changed(draw, draw.choice(CAMPAIGNS).read_bytes()))
    due = due_of(bench, path.read_bytes(), is_study)
    words = [str(TOP / "clients/campaigns/run"), *["--study"] * is_study, *more, "--resume", "kept", str(path)]
    own = bench.worker if is_study else bench.program
    programs = [["--program", it] for it in (around.worker if around.worker != bench.worker else own, own)]
    with ThreadPoolExecutor(2) as pool:
        at_once = draw.choice([1, 1, 1, 2])
        first = list(pool.map(lambda _: run([words[0], *programs[0], *words[1:]], b"", around, bench.folder), range(at_once)))
    # where all was done it is done anew
    last = run([words[0], *programs[1], *words[1:]], b"", Around(FINE, around.worker, {}), bench.folder)
    what = f"{words[1:]} {at_once} at once with {around.name}: {path.read_bytes()!r}"
    for done in [*first, last]:
        wrong = complaint(done, around)
        is_told = done is last or (done.status == 0 and not around.streams)
        told = of_table(done, due) if more[:1] in (["--csv"], ["--by"]) else (done.status, done.text)
        # a name that is there twice is told before what is wrong in a script above it
        is_twice = b"an earlier one's" in done.messages and told[0] == due[0] == 2
        if wrong is None and is_told and told != due and not is_twice:
            wrong = f"another answer than {due}"
        if wrong:
            return Found(what, f"{wrong}: {done}")
    return Found(what, "a folder that is left" if (bench.folder / "kept").exists() else None)


def scripts(bench: Bench) -> Found:
    """clients/campaigns/draw, table, census and reliability over changed files, and clients/view/check-words over a folder of them."""
    draw, around = bench.draw, bench.around()
    kind = draw.choice(["flips", "pairs", "copies", "memory", "lasting"])
    some = [it for at in draw.sample(range(0, len(DRAW_WORDS), 2), 3) for it in DRAW_WORDS[at:at + 2]]
    rows, languages = TOP / "examples/scripts.rows", bench.folder / "languages"
    languages.mkdir()
    written(bench, LANGUAGES, "languages/it.txt")
    words = draw.choice([
        ["../view/check-words", str(languages)],
        ["census", "--kinds", draw.choice(["flips", "damages"]), "--steps", "1", "--jobs", "1", str(written(bench, FEW_TIMES, "few"))],
        ["draw", kind, str(written(bench, DECKS, "deck")), *some, *["--study"] * draw.randrange(2), "--count", "9"],
        ["table", str(written(bench, CAMPAIGNS, "campaign")), str(written(bench, [rows], "rows")), *draw.choice(TABLE_WORDS)],
        ["reliability", draw.choice(["memory", "copies"]), "--count", "20", *draw.choice(RELIABILITY_WORDS)]])
    done = run([str(TOP / "clients/campaigns" / words[0]), *words[1:]], b"", around, bench.folder)
    wrong = complaint(done, around)
    return Found(f"{words} with {around.name}", wrong and f"{wrong}: {done}")


# ---- exhibits

def exhibit(bench: Bench) -> Found:
    """clients/view/exhibit over a changed deck: a whole page, or a sentence and nothing."""
    around, deck = bench.around(), written(bench, DECKS, "deck")
    words = [str(TOP / "clients/view/exhibit"), *bench.draw.choice(EXHIBIT_WORDS), str(deck)]
    done = run(words, b"", around, bench.folder)
    wrong = complaint(done, around)
    is_page = done.text.rstrip().endswith(b"</html>") and b"window.EXHIBIT = " in done.text
    if wrong is None and not around.streams and not around.signal and is_page != (done.status == 0):
        wrong = "no whole page"
    if wrong is None and not around.streams and done.status == 1 and (done.text or done.messages.count(b"\n") < 1):
        wrong = "no sentence"
    given = deck.read_bytes() if deck.parent == bench.folder and deck.exists() else b""
    return Found(f"{words[1:]} with {around.name}: {given!r}", wrong and f"{wrong}: {done.status} {done.text[-200:]!r} {done.messages!r}")


# ---- the lab

def files_of(process: int) -> int:
    """How many files a process has open."""
    return len(os.listdir(f"/proc/{process}/fd"))


def served(bench: Bench) -> Found:
    """The lab is asked drawn requests while its worker is another one or it may open few files; then it answers as before."""
    around, tally, own = bench.around("wl"), Tally(), bench.folder / "own worker"
    own.mkdir()
    good = f'exec "{bench.worker}"'
    with Lab(worker_in(own, good)) as lab:
        try_drawn(lab, tally, FEW_REQUESTS, bench.draw.randrange(1 << 30))
        if resource.RLIMIT_NOFILE in around.limits:
            resource.prlimit(lab.process.pid, resource.RLIMIT_NOFILE, (files_of(lab.process.pid) + bench.draw.randrange(12), 4096))
        if around.worker != bench.worker:
            worker_in(own, f'exec "{around.worker}"')
        kill_workers(lab)
        asked = [(drawn_request(bench.draw, lab), True) for _ in range(FEW_REQUESTS)]
        asked += [(head_of("POST", f"/{lab.token}/ask/run", f"Host: {lab.host}", *lab.own_headers(DECK)) + DECK, True)] * FEW_REQUESTS
        with ThreadPoolExecutor(AT_ONCE) as pool:
            statuses = {status_of(it) for it in pool.map(lambda it: answered(lab, *it), asked)}
        tally.expect("statuses", statuses - STATUSES, set())
        resource.prlimit(lab.process.pid, resource.RLIMIT_NOFILE, (4096, 4096))
        worker_in(own, good)
        kill_workers(lab)
        goes_on(lab, tally, f"with {around.name}")
        wrong = f"{tally.failed} wrong; {lab.told()}" if tally.failed else None
    return Found(f"the lab with {around.name}", wrong or (None if lab.process.returncode == 0 else f"an end by {lab.process.returncode}"))


# ---- installations and packages

def files_below(folder: pathlib.Path) -> dict[str, bytes]:
    """What is below a folder."""
    return {str(it.relative_to(folder)): it.read_bytes() for it in folder.rglob("*") if it.is_file()}


def tree(bench: Bench) -> pathlib.Path:
    """A copy of the repository with the programs, as if ./build had left them."""
    copy = bench.folder.parent / "copy"
    if not copy.exists():
        left = shutil.ignore_patterns(".git", "out", "__pycache__", "*.deb", "*.whl", "*.zip", "*.gz", ".mypy_cache", "lvdc.installed")
        shutil.copytree(TOP, copy, ignore=left)
        stand_in(copy, pathlib.Path(bench.program), pathlib.Path(bench.worker), copy.with_name("told"))
    return copy


def installed(bench: Bench) -> Found:
    """tools/install that is broken off or has no room, over nothing or over another installation; then whole, and then taken away."""
    around, copy, place = bench.around("ls"), tree(bench), bench.folder / "place"
    place.mkdir()
    (place / "own").write_text("mine\n")
    command, fine = [str(copy / "tools/install"), str(place)], Around(FINE, bench.worker, {})
    stale = copy / "examples/stale.deck"
    if bench.draw.randrange(2):
        stale.write_text("RUN 1\n")
        run(command, b"", fine, bench.folder)
        stale.unlink()
    broken = run(bench.draw.choice([command, [command[0], "--remove", str(place)]]), b"", around, bench.folder)
    whole = run(command, b"", fine, bench.folder)
    there, due = files_below(place), {it: (copy / it).read_bytes() for it in ("lvdc", "lvdc-worker")}
    gone = run([command[0], "--remove", str(place)], b"", fine, bench.folder)
    wrong = complaint(broken, around) or complaint(whole, fine)
    is_whole = all(there.get(f"bin/{it}") == data for it, data in due.items()) and "share/doc/lvdc/examples/stale.deck" not in there
    if wrong is None and not (is_whole and (whole.status, gone.status) == (0, 0)):
        wrong = f"no whole installation: {whole}, {gone}"
    left = sorted(files_below(place))
    if wrong is None and (left != ["own"] or [it for it in place.rglob("*") if it.is_dir()]):
        wrong = f"what is left: {left[:5]}"
    return Found(f"install with {around.name}", wrong and f"{wrong}; {broken}")


def broken_packages(folder: pathlib.Path) -> Iterator[str]:
    """The packages in a folder that aren't whole."""
    looks: dict[str, list[str]] = {"*.deb": ["dpkg-deb", "--fsys-tarfile"], "*.gz": ["gzip", "-t"]}
    for pattern, words in looks.items():
        for path in folder.glob(pattern):
            if subprocess.run([*words, path], stdout=subprocess.DEVNULL, stderr=subprocess.DEVNULL, check=False).returncode:
                yield path.name
    for path in [*folder.glob("*.whl"), *folder.glob("*.zip")]:
        if not zipfile.is_zipfile(path) or zipfile.ZipFile(path).testzip() is not None:
            yield path.name


def packaged(bench: Bench) -> Found:
    """tools/package that is broken off or has no room: each package that is there is whole, and nothing else is left."""
    copy = tree(bench)
    around = bench.around("ls")
    around = around._replace(seconds=around.seconds * 5) if around.signal else around
    before = {it.name for it in copy.iterdir()}
    os.environ |= {"VECTORS": "1 2", "SOURCE_DATE_EPOCH": "1700000000"}
    done = run([str(copy / "tools/package"), "1.2"], b"", around, bench.folder)
    made = sorted({it.name for it in copy.iterdir()} - before)
    wrong = complaint(done, around)
    if wrong is None and list(broken_packages(copy)):
        wrong = f"packages in part: {list(broken_packages(copy))}"
    # what is killed at once can't clear up
    is_killed = around.signal == signal.SIGKILL
    if wrong is None and [it for it in made if not (is_killed or re.search(r"1\.2.*\.(deb|whl|zip|tar\.gz)$", it))]:
        wrong = f"what is left: {made}"
    for name in made:
        shutil.rmtree(copy / name) if (copy / name).is_dir() else (copy / name).unlink()
    return Found(f"package with {around.name}", wrong and f"{wrong}; {done}")


PARTS: dict[str, Callable[[Bench], Found]] = {
    "prompt": prompt, "protocol": protocol, "check": checked, "campaigns": campaigns, "scripts": scripts, "exhibit": exhibit, "install": installed,
    "package": packaged, "lab": served}
