"""Drives the lab's page in a headless Chromium as a visitor would, and compares what it says with the texts of the worker."""
import http.server
import json
import os
import pathlib
import re
import threading
import time
from collections.abc import Callable
from typing import Any, Self

import lvdc
from browser import Browser, Failure
from lab_running import SLOW, TYPE, Lab, Tally, sluggish, status_of
from lvdc.workers import Worker
from visitors import ALL_TEXTS, unreadable

PATIENCE = 20.0
PROGRAM = "telemetry"
STEP = 4
LATE = 200
SIZES = [(390, 844), (768, 1024), (1366, 768), (1920, 1080)]
LEAST_TARGET = 44
LARGE_LETTERS = 24
MOST_MILLISECONDS = 100
MOST_PAGES = 500
HOSTILE_AT_ONCE = 1000

# Decks that can't be shown, and what the page says of each.
ODD_DECKS = {
    "no.deck": ("hello\n", "That is no deck."),
    "refused.deck": ("IMAGE\nLVDC 1\nEND\nFAULTS\nFLIP 9\nRUN 3\n", "BadLine, line 5"),
    "long.deck": ("SOURCE\n" + "* LONG\n" * 40_000 + " END\nRUN 1\n", "too long for the lab"),
}

# What the page says, read from its elements.
SAYS = """(() => {
    const words = (query) => document.querySelector(query)?.textContent ?? null;
    const all = (query) => [...document.querySelectorAll(query)];
    return {
        kind: document.getElementById('outcome').dataset.kind,
        title: words('#outcome .sentence'),
        outcome: words('#outcome'),
        where: words('#where'),
        happens: all('#happens li').map((it) => it.textContent),
        acts: all('#acts li > span').map((it) => it.textContent),
        deck: document.getElementById('deck').value,
        lamps: Object.fromEntries(all('#board .light').map((it) => [`${it.dataset.module}-${it.dataset.copy}`, it.dataset.kind])),
        cells: Object.fromEntries(all('#board .slot').map((it) => [`${it.dataset.twin} ${it.dataset.place}`, it.dataset.states])),
        step: Number(document.getElementById('slider').value),
        last: Number(document.getElementById('slider').max),
        marked: all('#beside mark').map((it) => it.textContent),
        parting: words('#parting'),
    };
})()"""
RESTS = ("document.body.getAttribute('aria-busy') === 'false' && document.getElementById('outcome').dataset.kind !== undefined "
         "&& document.querySelector('#board [role=\"button\"]') !== null")
# Two frames of the screen: what was asked of the layout is there.
FRAMES = "await new Promise((done) => requestAnimationFrame(() => requestAnimationFrame(done)))"

# All that a visitor can set, and where the page stands.
CONTROLS = """[[...document.querySelectorAll('input, select, [aria-pressed], [aria-selected]')].map((it) =>
    [it.id || it.lang, it.value, it.checked, it.getAttribute('aria-pressed'), it.getAttribute('aria-selected')].join()).join(' '), scrollY]"""


class Visitor(Browser):
    """Someone who looks at a page of the lab, and presses."""

    def __enter__(self) -> Self:
        return self

    def visit(self, address: str) -> None:
        """Opens an address and waits until all is there."""
        self.events.clear()
        self.call("Page.navigate", url="about:blank")
        self.call("Page.navigate", url=address)
        self.wait(f"location.href.startsWith({json.dumps(address)}) && document.readyState === 'complete'")

    def wait(self, until: str = RESTS) -> None:
        """Waits until something holds in the page; at first, until nothing is asked any more."""
        limit = time.monotonic() + PATIENCE
        while not self.run(until):
            if time.monotonic() > limit:
                raise Failure(f"it never came that {until}: {self.faults()}")
            time.sleep(0.02)

    def press(self, query: str) -> None:
        """Presses in the middle of an element with the mouse, and waits for what becomes of it."""
        x, y = self.middle(query)
        for kind in ("mousePressed", "mouseReleased"):
            self.mouse(kind, x, y)
        self.wait()

    def middle(self, query: str) -> tuple[float, float]:
        """The middle of an element, once it stands still. What stands behind a tab is brought to sight."""
        x, y = self.run(f"""(async () => {{
            const find = () => document.querySelector({json.dumps(query)});
            const panel = find().closest('.lab-panel, #outcome')?.id ?? 'more';
            if (!find().checkVisibility()) document.getElementById(`tab-${{panel}}`).click();
            const where = () => {{
                find().scrollIntoView({{ block: 'center' }});
                const {{ left, top, width, height }} = find().getBoundingClientRect();
                return [left + width / 2, top + height / 2];
            }};
            let now = where();
            for (let before = null, looks = 0; String(now) !== String(before) && looks < 50; looks += 1) {{
                before = now;
                {FRAMES};
                now = where();
            }}
            return now;
        }})()""")
        return x, y

    def mouse(self, kind: str, x: float, y: float) -> None:
        """The mouse is pressed or released somewhere."""
        self.call("Input.dispatchMouseEvent", type=kind, x=x, y=y, button="left", clickCount=1)

    def press_lamp(self, module: int, copy: int) -> None:
        """Presses the lamp of a copy."""
        self.press(f'#board .light[data-module="{module}"][data-copy="{copy}"]')

    def cell(self, twin: int, place: str) -> str:
        """A query for a cell, once its page is turned to."""
        query = f'#board .slot[data-twin="{twin}"][data-place="{place}"]'
        for _ in range(MOST_PAGES):
            if self.run(f"document.querySelector('{query}') !== null"):
                break
            self.run("document.querySelector('#cells-pages button:last-child').click()")
        return query

    def press_cell(self, twin: int, place: str) -> None:
        """Presses a cell."""
        self.press(self.cell(twin, place))

    def states(self, twin: int, place: str) -> list[str]:
        """What has befallen a cell, and what is done with it."""
        told: str = self.run(f"document.querySelector('{self.cell(twin, place)}').dataset.states")
        return told.split()

    def go_to(self, step: int) -> None:
        """Moves the slider."""
        self.set("slider", step, "input")

    def set(self, control: str, value: object, event: str) -> None:
        """Gives a control a value, as by this event."""
        given = f"it.value = {json.dumps(value)}; it.dispatchEvent(new Event('{event}'));"
        self.run(f"(() => {{ const it = document.getElementById('{control}'); {given} }})()")
        self.wait()

    def choose(self, program: str) -> None:
        """Chooses a program by the name of its example."""
        names = self.run("[...document.getElementById('program').options].map((it) => it.dataset.program)")
        self.set("program", str(names.index(program)), "change")

    def timed(self, press: Callable[[], None]) -> float:
        """The milliseconds from a press to the frame of the screen that shows its answer."""
        self.run("performance.clearMeasures()")
        press()
        self.wait("performance.getEntriesByName('answer').length > 0")
        return float(self.run("performance.getEntriesByName('answer')[0].duration"))

    def says(self) -> dict[str, Any]:
        """What the page says."""
        found: dict[str, Any] = self.run(SAYS)
        return found


# ---- what is due, by the worker's texts

def kind_due(worker: Worker, deck: str) -> str:
    """What the page must call the outcome of a deck with fault lines, by its report and its form."""
    report, form = lvdc.run(deck, worker=worker), lvdc.form(deck, worker=worker)
    match report.end:
        case lvdc.Inadmissible(cause=lvdc.Logic()):
            return "logic"
        case lvdc.Inadmissible():
            return "memory"
    if report.lost:
        return "so-far"
    return "always" if form.is_masking else "this-time"


def differing(worker: Worker, deck: str, step: int) -> list[str]:
    """The copies that differ after a step, by its trace."""
    return [f"{module}-{copy}" for module, copy in lvdc.trace(deck, step, 1, worker=worker).steps[0].differing]


def try_outcome(page: Visitor, tally: Tally, worker: Worker, what: str, kind: str) -> dict[str, Any]:
    """The outcome is of this kind, by the page and by the texts of the deck that the page would share."""
    says = page.says()
    tally.expect(f"{what}: outcome", [says["kind"], kind_due(worker, says["deck"])], [kind, kind])
    return says


# ---- the drive

def try_copies(page: Visitor, tally: Tally, worker: Worker) -> None:
    """A copy is hurt and outvoted, and back at the next step; a second one is hurt, and that is the end."""
    page.press_lamp(3, 1)
    says = try_outcome(page, tally, worker, "one copy", "always")
    tally.expect("one copy: the deck's faults", says["deck"].count("FLIP 3 1 4 4 "), 1)
    tally.expect("one copy: it differs", [[key for key, it in says["lamps"].items() if it == "differed"], differing(worker, says["deck"], STEP)],
                 [["3-1"], ["3-1"]])
    page.press("#forward")
    says = page.says()
    tally.expect("one copy, a step on", [says["step"], says["lamps"]["3-1"], differing(worker, says["deck"], STEP + 1)], [STEP + 1, "healed", []])
    page.press("#back")
    page.press_lamp(3, 2)
    says = try_outcome(page, tally, worker, "two copies", "logic")
    end = lvdc.run(says["deck"], worker=worker).end
    tally.expect("two copies: the end", str(end), f"END INADMISSIBLE {STEP} LOGIC 3")
    tally.expect("two copies: its words", [f"step {STEP} " in says["outcome"], "copies 1 & 2 of the decoder" in says["outcome"]], [True, True])
    page.press_lamp(3, 2)
    tally.expect("a second press takes the second copy back", [page.says()["kind"], page.says()["deck"].count("FLIP")], ["always", 1])
    page.press_lamp(3, 2)
    whole = says["last"]
    page.go_to(whole)
    says = page.says()
    tally.expect("two copies: the last step, on the same scale", [says["step"], says["last"], says["lamps"]["3-1"], says["lamps"]["3-2"]],
                 [STEP, whole, "hurt", "hurt"])
    page.go_to(2)
    page.press("#outcome button:nth-of-type(2)")
    tally.expect("two copies: to the step that decided", page.says()["step"], STEP)


def first_words(healthy: lvdc.Report, other: lvdc.Report) -> list[int | None]:
    """The first words that differ: of the one run and of the other, where it has one."""
    logs = [healthy.exchanges, other.exchanges]
    first = next((at for at, (one, two) in enumerate(zip(*logs)) if one != two), min(map(len, logs)))
    return [log[first].word.signed if first < len(log) else None for log in logs]


def told_words(marked: list[str]) -> list[int | None]:
    """The words that are marked."""
    return [None if it == "nothing" else int(it.rpartition(": ")[2].replace(",", "").replace("\u2212", "-")) for it in marked]


def try_what_if(page: Visitor, tally: Tally, worker: Worker) -> None:
    """What would have happened: the two wrong copies outvote the third, and the first wrong word is marked."""
    page.press("#outcome button")
    says = page.says()
    healthy = lvdc.run(lvdc.Deck.read(says["deck"]).with_faults(), worker=worker)
    other = lvdc.run(says["deck"], through=True, worker=worker)
    tally.expect("what would have happened: the first wrong word", told_words(says["marked"]), first_words(healthy, other))
    tally.expect("what would have happened: the third copy", [key for key, it in says["lamps"].items() if it == "differed"], ["3-3"])
    page.press("#outcome button")
    tally.expect("back to the judged run", page.says()["kind"], "logic")


def try_undo(page: Visitor, tally: Tally, worker: Worker) -> None:
    """Undo, take one back, start again."""
    page.press("#undo")
    try_outcome(page, tally, worker, "undo", "always")
    page.press_lamp(5, 2)
    page.press_lamp(7, 3)
    tally.expect("three copies of three modules", page.says()["kind"], "always")
    page.press("#acts li:first-child button")
    tally.expect("the first is taken back", [it.split(",")[0] for it in page.says()["acts"]], ["accumulator", "exchange"])
    page.press("#again")
    says = page.says()
    tally.expect("start again", [says["kind"], says["step"], "FAULTS" in says["deck"]], ["healthy", 0, False])


def try_held(page: Visitor, tally: Tally, _: Worker) -> None:
    """A finger that is down while the board is laid out anew has still pressed what was under it."""
    x, y = page.middle('#board .light[data-module="4"][data-copy="2"]')
    page.mouse("mousePressed", x, y)
    page.run(f"(async () => {{ document.getElementById('board').style.height = '300px'; {FRAMES}; }})()")
    page.mouse("mouseReleased", x, y)
    page.wait()
    tally.expect("a press while the board is laid out anew", len(page.says()["acts"]), 1)
    page.run("document.getElementById('board').style.height = ''; 0")
    page.press("#again")


def number_of(place: str) -> int:
    """The number by which visitors are told of a cell."""
    pair, sector, location = (int(it, 8) for it in place.split())
    return (16 * pair + sector) * 256 + location


def reads_of(worker: Worker, deck: str) -> dict[str, list[int]]:
    """The steps at which each word is read or stored."""
    found: dict[str, list[int]] = {}
    for step in lvdc.trace(deck, worker=worker).steps:
        if step.exchange is not None and hasattr(step.exchange, "address"):
            found.setdefault(str(step.exchange.address), []).append(step.number)
    return found


def try_cells(page: Visitor, tally: Tally, worker: Worker) -> None:
    """A cell breaks and is mended; it breaks again, in the other memory; at last in both at once."""
    reads = reads_of(worker, page.says()["deck"])
    place, steps = next((place, steps) for place, steps in reads.items() if len(steps) > 1 and steps[0] > STEP + 2 and steps[1] < steps[0] + 60)
    page.go_to(steps[0] - 1)
    page.press_cell(0, place)
    says = try_outcome(page, tally, worker, "a cell", "always")
    tally.expect("a cell: damaged", page.states(0, place), ["damaged", "marked"])
    repair = lvdc.run(says["deck"], worker=worker).repairs[0]
    page.go_to(repair.step)
    tally.expect("a cell: mended as it is read", "mended" in page.states(0, place), True)
    page.press("#forward")
    page.press_cell(1, place)
    try_outcome(page, tally, worker, "a cell once more", "this-time")
    page.press_cell(0, place)
    says = try_outcome(page, tally, worker, "a cell in both memories", "memory")
    end = str(lvdc.run(says["deck"], worker=worker).end).split()
    tally.expect("a cell in both memories: its end", end[3:], ["MEMORY", *place.split()])
    words = [f"step {end[2]} " in says["outcome"], f"cell {number_of(place)}" in says["outcome"]]
    tally.expect("a cell in both memories: its words", words, [True, True])
    page.press("#again")


def try_lost(page: Visitor, tally: Tally, worker: Worker) -> None:
    """A word is lost that nobody reads any more."""
    says = page.says()
    reads = reads_of(worker, says["deck"])
    place = min(reads, key=lambda it: reads[it][-1])
    page.go_to(says["last"])
    for twin in (0, 1):
        page.press_cell(twin, place)
    says = try_outcome(page, tally, worker, "a lost word", "so-far")
    tally.expect("a lost word: its cell", f"cell {number_of(place)} " in says["outcome"], True)
    page.press("#octal")
    tally.expect("a lost word: its place in octal", place in page.says()["outcome"], True)
    page.press("#octal")
    page.press("#again")


def try_late(page: Visitor, tally: Tally, worker: Worker) -> None:
    """A cell breaks at the start and is read late: it is seen damaged in between, and mended from then on; a store would do so too."""
    page.choose("decimal")
    reads = reads_of(worker, page.says()["deck"])
    place, steps = next((place, steps) for place, steps in reads.items() if steps[0] > LATE)
    page.go_to(0)
    page.press_cell(0, place)
    for step in (steps[0] - 1, steps[0] + LATE):
        page.go_to(step)
        cells = re.findall(f"^CELL [01] {place} ([0-7]+)$", str(lvdc.save(page.says()["deck"], step // 3, worker=worker)), re.MULTILINE)
        damaged = "damaged" in page.states(0, place)
        tally.expect(f"a cell that is read late, at step {step}: its twins differ", [damaged, len(set(cells)) > 1], [step < steps[0]] * 2)
    page.choose(PROGRAM)


def try_for_good(page: Visitor, tally: Tally, worker: Worker) -> None:
    """Copies and a memory fail for good; a copy lags, a copy is deaf."""
    page.press("#good")
    page.press_lamp(1, 2)
    page.press("#memory-1")
    says = try_outcome(page, tally, worker, "a copy and a memory for good", "always")
    tally.expect("for good: the acts", [len(says["acts"]), says["deck"].count(" 2999999"), says["deck"].count("DEAD 1 ")], [2, 5, 4])
    tally.expect("for good: the cells are dead", {it.split()[0] for key, it in says["cells"].items() if key.startswith("1 ")}, {"dead"})
    for number, kind in enumerate(["LAG", "DEAF"]):
        page.set("kind", kind, "change")
        page.press_lamp(2 + number, 1)
        tally.expect(f"{kind}: in the deck", page.says()["deck"].count(f"{kind} {2 + number} 1 {STEP} 2999999"), 1)
    page.press_cell(0, next(key[2:] for key in says["cells"] if key.startswith("0 ")))
    try_outcome(page, tally, worker, "a cell sticks beside a dead memory", kind_due(worker, page.says()["deck"]))
    page.set("kind", "FLIP", "change")
    page.press("#once")
    page.press("#again")


def try_opened(page: Visitor, tally: Tally, file: pathlib.Path, text: str, said: str) -> None:
    """A file of this text is opened, and of it this is said."""
    file.write_text(text)
    element = page.call("Runtime.evaluate", expression="document.getElementById('file')")["result"]["objectId"]
    page.call("DOM.setFileInputFiles", files=[str(file)], objectId=element)
    page.wait(f"{RESTS} && document.getElementById('outcome').textContent.includes({json.dumps(said)})")
    tally.expect(f"{file.name} is opened", said in page.says()["outcome"], True)


def try_shared(page: Visitor, tally: Tally, worker: Worker, folder: pathlib.Path) -> None:
    """A deck that was shared is opened, and comes to the same; of what can't be shown it is told why."""
    page.go_to(STEP)
    page.press_lamp(4, 1)
    shared = page.says()["deck"]
    for name, (text, said) in {**ODD_DECKS, "shared.deck": (shared, "always will be")}.items():
        try_opened(page, tally, folder / name, text, said)
    tally.expect("the deck that was shared", page.says()["deck"], shared)
    page.press("#again")


def try_slow(page: Visitor, tally: Tally, lab: Lab, folder: pathlib.Path) -> None:
    """Over a worker that takes its time for one deck: that deck isn't waited for, and what comes after it is answered."""
    with Lab(sluggish(lab.worker, folder)) as slow:
        page.visit(slow.address)
        page.wait()
        try_opened(page, tally, folder / "slow.deck", f"IMAGE\nLVDC 1\nEND\n{SLOW}", "would take too long")
        try_opened(page, tally, folder / "quick.deck", "IMAGE\nLVDC 1\nEND\nFAULTS\nFLIP 5 1 0 0 0 000000001\nRUN 1\n", "always will be")


# ---- all of it by other ways: keys, sizes, colours, languages

def try_keys(page: Visitor, tally: Tally) -> None:
    """The keyboard alone: a lamp and a cell are hurt, time goes on, the last is undone."""
    page.run("document.querySelector('#board .light').focus()")
    page.key("ArrowRight", 39)
    page.key("Enter", 13)
    page.wait()
    tally.expect("keys: a lamp", page.says()["acts"], [f"timer, copy 2: says something wrong in step {STEP}"])
    page.run("document.querySelector('#board .slot').focus()")
    page.key(" ", 32)
    page.wait()
    tally.expect("keys: a cell", len(page.says()["acts"]), 2)
    page.run("document.getElementById('slider').focus()")
    page.key("ArrowRight", 39)
    page.wait()
    tally.expect("keys: a step on", page.says()["step"], STEP + 1)
    controls = "[...document.querySelectorAll('button, select, input, textarea')]"
    unnamed = f"{controls}.filter((it) => !it.textContent.trim() && !it.ariaLabel && !it.labels?.length).length"
    unreached = f"{controls}.filter((it) => it.tabIndex < 0 && it.role !== 'tab').length"
    tally.expect("keys: all has a name and is reached", [page.run(unnamed), page.run(unreached)], [0, 0])
    page.run("document.querySelector('#tabs [tabindex=\"0\"]').focus()")
    page.key("ArrowRight", 39)
    page.key("Enter", 13, "\r")
    stops = "document.querySelectorAll('#tabs [tabindex=\"0\"]').length"
    tally.expect("keys: a tab, of which one is a stop", [page.run("document.body.dataset.panel"), page.run(stops)], ["broken", 1])
    page.run("document.getElementById('undo').focus()")
    page.key("Enter", 13, "\r")
    page.wait()
    tally.expect("keys: undo", len(page.says()["acts"]), 1)
    page.press("#again")


def try_sizes(page: Visitor, tally: Tally, address: str) -> None:
    """Phones to large screens: nothing is cut off, the targets are large, and the outcome is in sight beside the lamp that was pressed."""
    small = f"""[...document.querySelectorAll('button, select, #slider, .lab-lasting label')].filter((it) => it.checkVisibility())
        .filter((it) => Math.round(it.getBoundingClientRect().height) < {LEAST_TARGET} - (it.id === 'slider' ? 12 : 0))
        .map((it) => it.id || it.textContent)"""
    in_sight = """(() => {
        const { top, bottom } = document.getElementById('outcome').getBoundingClientRect();
        return top >= 0 && Math.floor(bottom) <= innerHeight;
    })()"""
    for width, height in SIZES:
        page.size(width, height, dark=width > 1000)
        page.visit(address)
        page.wait()
        page.press_lamp(5, 1)
        tally.expect(f"{width} wide: fits", page.run("document.documentElement.scrollWidth <= innerWidth"), True)
        tally.expect(f"{width} wide: small targets", page.run(small), [])
        tally.expect(f"{width} wide: the outcome is in sight", page.run(in_sight), True)
        shade = page.run("getComputedStyle(document.body).backgroundColor.match(/\\d+/g).slice(0, 3).reduce((sum, it) => sum + Number(it), 0)")
        tally.expect(f"{width} wide: dark where that is wanted", shade < 3 * 128, width > 1000)
        tally.expect(f"{width} wide: faults of the page", page.faults(), [])


def try_letters(tally: Tally, address: str) -> None:
    """The size of letters that the browser asks for counts, and all fits with it."""
    with Visitor(f"--blink-settings=defaultFontSize={LARGE_LETTERS}") as page:
        for width, height in (SIZES[0], SIZES[2]):
            page.size(width, height)
            page.visit(address)
            page.wait()
            size = page.run("Number.parseFloat(getComputedStyle(document.querySelector('.lab-side p')).fontSize)")
            fits = page.run("document.documentElement.scrollWidth <= innerWidth")
            tally.expect(f"{width} wide, with large letters", [size >= LARGE_LETTERS, fits], [True, True])


def try_still(page: Visitor, tally: Tally) -> None:
    """What moves in a step stands still for whoever asked for that."""
    moving = "document.getAnimations().filter((it) => it.playState === 'running').length > 0"
    page.press("#forward")
    tally.expect("a step on: something moves", page.run(moving), True)
    page.call("Emulation.setEmulatedMedia", features=[{"name": "prefers-reduced-motion", "value": "reduce"}])
    page.press("#forward")
    tally.expect("a step on for whoever wants no motion", page.run(moving), False)
    page.call("Emulation.setEmulatedMedia", features=[])


def try_languages(page: Visitor, tally: Tally) -> None:
    """The page speaks another language."""
    page.press('#languages [lang="de"]')
    page.press_lamp(3, 2)
    says = page.says()
    tally.expect("German: the outcome", says["title"], "✓✓Überstanden, und das immer.")
    tally.expect("German: words that are missing", page.run("document.body.innerText.match(/\\b(lab|happens|moment|control)\\.[a-z]/g)"), None)
    page.press('#languages [lang="en"]')
    page.press("#again")


def try_kiosk(page: Visitor, tally: Tally, address: str) -> None:
    """In a kiosk nothing leads out of the page, and it begins again by itself."""
    page.visit(f"{address}?kiosk&idle=1")
    page.wait()
    ways_out = "[...document.querySelectorAll('a, textarea, input[type=\"file\"], input[type=\"number\"]')]"
    tally.expect("a kiosk: ways out", page.run(f"{ways_out}.filter((it) => it.checkVisibility()).length"), 0)
    controls = page.run(CONTROLS)
    for query in ('#languages [lang="de"]', "#good", "#octal"):
        page.press(query)
    page.set("kind", "DEAF", "change")
    page.press_lamp(5, 1)
    page.run("window.scrollTo(0, 1000)")
    tally.expect("a kiosk: its controls are others now", page.run(CONTROLS) != controls, True)
    page.wait(f"{RESTS} && document.getElementById('outcome').dataset.kind === 'healthy'")
    tally.expect("a kiosk: it begins again", [page.run("document.documentElement.lang"), page.says()["step"], page.says()["acts"]], ["en", STEP, []])
    tally.expect("a kiosk: all controls are as at first", page.run(CONTROLS), controls)


def try_readable(page: Visitor, tally: Tally, address: str) -> None:
    """In a kiosk there is nothing that visitors can't read: of any program, in any language, after what they break."""
    page.visit(f"{address}?kiosk&idle=600")
    page.wait()
    for at in range(page.run("document.getElementById('program').options.length")):
        page.set("program", str(at), "change")
        tally.expect(f"a kiosk, program {at}: what visitors can't read", unreadable(page.run(ALL_TEXTS)), [])
    page.choose(PROGRAM)
    for language in page.run("Object.keys(Words.LANGUAGES)"):
        page.press(f'#languages [lang="{language}"]')
        cell = page.run("document.querySelector('#board .slot').dataset.place")
        lamps = [f'#board .light[data-module="5"][data-copy="{copy}"]' for copy in (1, 2)]
        for query in [*lamps, "#outcome button", "#undo", f'#board .slot[data-twin="0"][data-place="{cell}"]', "#memory-1", "#forward", "#again"]:
            page.press(query)
            tally.expect(f"a kiosk, {language}: what visitors can't read", unreadable(page.run(ALL_TEXTS)), [])


# ---- time, and hostile pages

def try_time(page: Visitor, tally: Tally) -> None:
    """From a press to its answer, at the end of a long run; the least of some. Where more want the processors than there are, it is told alone."""
    page.set("count", "100000", "change")
    page.press("#to-end")
    tally.expect("a long run: its last step", page.says()["step"], 299_999)
    found = []
    for copy in (1, 2, 3):
        found.append(page.timed(lambda: page.press_lamp(5, copy)))
        page.press("#undo")
    taken = min(found)
    waiting = os.getloadavg()[0]
    print(f"lab: {taken:.0f} ms from a press to its answer at 100,000 instruction times, at a load of {waiting:.0f}", flush=True)
    tally.expect("an answer in time", taken < MOST_MILLISECONDS or waiting > (os.cpu_count() or 1), True)
    page.press("#again")


HOSTILE_PAGE = """<!DOCTYPE html><title>hostile</title><body><script>
const address = 'ADDRESS';
const deck = 'IMAGE\\nLVDC 1\\nEND\\nRUN 1\\n';
const typed = { headers: { 'Content-Type': 'TYPE' } };
const ask = (options) => fetch(address + 'ask/run', { method: 'POST', body: deck, ...options }).then((it) => it.type, () => 'failed');
const read = (path) => fetch(address + path, { mode: 'no-cors' }).then((it) => it.type, () => 'failed');
const storm = () => Promise.all(Array.from({ length: COUNT }, () => ask({ mode: 'no-cors' })));
function put(name, properties) {
    const made = Object.assign(document.createElement(name), properties);
    const done = new Promise((end) => { made.onload = () => end('loaded'); made.onerror = () => end('failed'); });
    document.body.append(made);
    return { made, done };
}
async function attack() {
    const asks = [{ mode: 'no-cors' }, { mode: 'cors' }, { mode: 'no-cors', ...typed }, { mode: 'cors', ...typed }];
    const found = [...await Promise.all(asks.map(ask)), await read(''), await read('programs.json'), ...await storm()];
    found.push(await put('script', { src: address + 'js/parts.js' }).done);
    const into = put('iframe', { name: 'into' });
    put('form', { action: address + 'ask/run', method: 'POST', enctype: 'text/plain', target: 'into' }).made.submit();
    put('iframe', { src: address });
    await into.done;
    return [...new Set(found)];
}
</script>"""


class HostilePage(http.server.BaseHTTPRequestHandler):
    """Another site's page."""

    page = b""

    def do_GET(self) -> None:
        """Sends the page."""
        self.send_response(200)
        self.send_header("Content-Type", "text/html")
        self.end_headers()
        self.wfile.write(self.page)

    def log_message(self, format: str, *args: Any) -> None:
        """Nothing is written."""


def try_hostile_page(page: Visitor, tally: Tally, lab: Lab) -> None:
    """A page of another site that knows the address, the token too: whatever it sends is refused, and it reads nothing."""
    text = HOSTILE_PAGE.replace("ADDRESS", lab.address).replace("TYPE", TYPE).replace("COUNT", str(HOSTILE_AT_ONCE))
    HostilePage.page = text.encode()
    with http.server.ThreadingHTTPServer(("127.0.0.1", 0), HostilePage) as server:
        threading.Thread(target=server.serve_forever, daemon=True).start()
        page.visit(f"http://127.0.0.1:{server.server_address[1]}/")
        found = page.run("attack()")
        server.shutdown()
    events = [it for it in page.events if it.get("method", "").startswith("Network.")]
    asked = {it["params"]["requestId"] for it in events
             if it["method"] == "Network.requestWillBeSent" and it["params"]["request"]["url"].startswith(lab.address)}
    answers = [it["params"] for it in events if it["method"] == "Network.responseReceivedExtraInfo"]
    statuses = {it["statusCode"] for it in answers if it["requestId"] in asked}
    tally.expect("a hostile page: what its requests are answered", statuses - {403, 501, 503}, set())
    tally.expect("a hostile page: it was answered", 403 in statuses, True)
    tally.expect("a hostile page: what it can read", found, ["failed"])
    tally.expect("a hostile page: afterwards", status_of(lab.got()), 200)


def try_driven(lab: Lab, tally: Tally, worker: Worker, folder: pathlib.Path) -> None:
    """All of it."""
    with Visitor() as page:
        page.size(1366, 768)
        page.visit(lab.address)
        page.wait()
        tally.expect("at first", [page.says()["kind"], page.says()["step"]], ["healthy", STEP])
        for part in (try_copies, try_what_if, try_undo, try_held, try_cells, try_lost, try_late, try_for_good):
            page.go_to(STEP)
            part(page, tally, worker)
        try_shared(page, tally, worker, folder)
        strangers = [it for it in page.strangers() if not it.startswith((lab.address, "blob:"))]
        tally.expect("faults of the page, and what it asks for elsewhere", page.faults() + strangers, [])
        try_sizes(page, tally, lab.address)
        page.size(1366, 768)
        page.visit(lab.address)
        page.wait()
        for other in (try_keys, try_languages, try_still, try_time):
            page.go_to(STEP)
            other(page, tally)
        try_kiosk(page, tally, lab.address)
        try_readable(page, tally, lab.address)
        try_slow(page, tally, lab, folder)
        tally.expect("faults of the page", page.faults(), [])
        try_hostile_page(page, tally, lab)
    try_letters(tally, lab.address)
