"""Drives the flight in a headless Chromium as visitors would, and compares what it shows with the texts of the worker."""
import itertools
import json
import os
import random
import re
import time

import lvdc
from lab_driven import Visitor
from lab_running import Lab, Tally
from measures import FEW_SIZES, FINE, SIZES, faint, measures
from visitors import ALL_TEXTS, unreadable
from lvdc.workers import Worker

SECONDS_TO_MOVE = 0.2
SECONDS_TO_A_FAULT = 10
STEPS_OF_A_SECOND = 60
STEPS_OF_A_STRIKE = 90
OPENING_STEP = 61
STEPS_TRIED = range(OPENING_STEP, OPENING_STEP + STEPS_OF_A_SECOND, 10)
DRAWN_STRIKES, FEW_STRIKES = 300, 40
STORY = 5
PAIRS = [(module, pair) for module in range(1, 8) for pair in itertools.combinations((1, 2, 3), 2)]
PROVED = "Proved: every word that it sends"
PROVED_UNTIL = "Proved: up to here"

# What stands on the page, with the language's own words for nothing but what is shown.
TEXT = "document.body.innerText"

MEASURES = measures("h1, h2, p, button, .says, .number, .voter, .value, .port",
                    "h1, h2, #verdict, #more, button:not(.copy), .says, .voter, .value, .port, .angle", "button")

# Which words that a copy may say are wider than the lamps.
WIDER = """(() => {
    const copy = document.querySelector('.copy'), says = copy.querySelector('.says');
    if (!says) return ['no copy says anything'];
    const before = says.textContent;
    const words = Object.keys(LANGUAGES.en).filter((key) => /^(op|request)[.]/.test(key)).map((key) => flight.sight.words(key));
    const isWider = (word) => { says.textContent = word; return says.getBoundingClientRect().width > copy.clientWidth; };
    const found = [...new Set(words)].filter(isWider);
    says.textContent = before;
    return found;
})()"""

# All that a visitor can change.
CONTROLS = """[document.documentElement.lang, document.getElementById('sound').ariaPressed, document.getElementById('told').open, flight.alone,
    flight.struck.length, flight.guess, document.querySelectorAll('.copy.struck, .memory[data-kind="dead"]').length, scrollY,
    [...document.querySelectorAll('[aria-pressed]')].map((it) => it.ariaPressed).join(' ')]"""
KIND = "document.body.dataset.kind"


class Guest(Visitor):
    """Someone who looks at the flight of this lab."""

    def __init__(self, lab: Lab) -> None:
        super().__init__()
        self.lab = lab


def opened(page: Guest, query: str = "") -> None:
    """Opens the flight and waits until it flies."""
    page.visit(f"{page.lab.address}flight.html{query}")
    page.wait("window.flight?.state === 'flying'")
    page.run("Flight.GUESS_WITHIN = 600_000, 0")


def launch(page: Guest) -> None:
    """A visitor begins a flight."""
    page.run("flight.act(() => flight.launch())")


def strike(page: Guest, *what: tuple[int, int]) -> None:
    """Strikes copies with the mouse, and waits for the question."""
    for module, copy in what:
        point(page, f'.copy[data-module="{module}"][data-copy="{copy}"]')
        page.wait(f"{KIND} === 'asked' && flight.struckTogether.length > 0 && /(FLIP|FORCE) {module} {copy} /.test(flight.flown.text)")


def point(page: Guest, query: str) -> None:
    """Presses the mouse in the middle of an element."""
    x, y = page.run(f"(({{ left, top, width, height }}) => [left + width / 2, top + height / 2])"
                    f"(document.querySelector({json.dumps(query)}).getBoundingClientRect())")
    for kind in ("mousePressed", "mouseReleased"):
        page.call("Input.dispatchMouseEvent", type=kind, x=x, y=y, button="left", clickCount=1)


def words_of(report: lvdc.Report) -> list[tuple[int, int]]:
    """The words that go to the rocket, with their times."""
    return [(it.time, it.word.signed) for it in report.exchanges if it.is_write]


# ---- what two lies come to

def try_pairs(page: Guest, tally: Tally, worker: Worker, deck: str) -> None:
    """Two copies of a module, struck in any step of a second: other words go to the rocket than from a healthy computer."""
    healthy = words_of(lvdc.run(deck, worker=worker))
    same = []
    for step, (module, copies) in itertools.product(STEPS_TRIED, PAIRS):
        faults = page.run(f"{json.dumps(copies)}.flatMap((it) => Strikes.copy({module}, it, {step}))")
        told = lvdc.run(deck.replace("\nRUN ", "\nFAULTS\n" + "\n".join(faults) + "\nRUN "), through=True, worker=worker)
        if words_of(told) == healthy:
            same.append((step, module, copies))
    tally.expect(f"{len(STEPS_TRIED) * len(PAIRS)} pairs of lies that change no word", same, [])


def drawn_parts(draw: random.Random) -> list[dict[str, int]]:
    """What is struck together: in a third of the cases two copies of one module, else one to three of anything."""
    if draw.randrange(3) == 0:
        module = draw.randint(1, 7)
        return [{"module": module, "copy": copy} for copy in draw.sample([1, 2, 3], 2)]
    return [{"twin": draw.randrange(2)} if draw.randrange(5) == 0 else {"module": draw.randint(1, 7), "copy": draw.randint(1, 3)}
            for _ in range(draw.choice([1, 1, 2, 2, 3]))]


def try_claims(page: Guest, tally: Tally, worker: Worker, count: int) -> None:
    """Whatever is struck, what is said of it agrees with the report of the same deck."""
    kinds: dict[str, int] = {}
    for number in range(count):
        draw = random.Random(number)
        first = draw.randrange(1, 3000)
        parts = drawn_parts(draw)
        said = page.run(f"""(async (parts) => {{
            const faults = parts.flatMap((it) => (it.module ? Strikes.copy(it.module, it.copy, {first}) : Strikes.memory(it.twin, {first})));
            const flown = await Flown.of(flight.deck, [...new Set(faults)]);
            const verdict = Verdict.of(flown, flight.healthy, parts, Words.of('en'));
            return [flown.text, verdict.kind, [verdict.title, ...verdict.more].join(' ')];
        }})({json.dumps(parts)})""")
        text, kind, words = said
        report = lvdc.run(text, worker=worker)
        is_done, is_ended = isinstance(report.end, lvdc.Done), isinstance(report.end, lvdc.Inadmissible)
        kinds[kind] = kinds.get(kind, 0) + 1
        tally.expect(f"drawn strike {number}: what is claimed", [PROVED in words, PROVED_UNTIL in words], [is_done and not report.lost, is_ended])
        healthy = words_of(lvdc.run(lvdc.Deck.read(text).with_faults(), worker=worker))
        through = words_of(lvdc.run(text, through=True, worker=worker))
        due = ("broke" if through != healthy else "luck") if is_ended else "flew"
        tally.expect(f"drawn strike {number}: its kind", kind, due)
    print(f"flight: claims of {count} drawn strikes: " + ", ".join(f"{kind} {many}" for kind, many in sorted(kinds.items())), flush=True)
    tally.expect("kinds of what was drawn", {"flew", "broke"} <= kinds.keys(), True)


# ---- a visit

def try_visit(page: Guest, tally: Tally, worker: Worker) -> None:
    """One lie is outvoted, two win; each press moves something at once, and each copy shows what the trace says."""
    launch(page)
    page.wait("flight.at > 130")
    began = time.monotonic()
    strike(page, (5, 2))
    answered = page.run("performance.getEntriesByName('answer').at(-1).duration") / 1000
    moved = page.run("document.querySelector('.copy.hit') !== null")
    tally.expect("a press moves what was pressed", [moved, time.monotonic() - began < 10], [True, True])
    print(f"flight: {1000 * answered:.0f} ms from a strike to its answer, at a load of {os.getloadavg()[0]:.0f}", flush=True)
    tally.expect("an answer in time", answered < SECONDS_TO_MOVE or os.getloadavg()[0] > (os.cpu_count() or 1), True)
    text, step = page.run("[flight.flown.text, flight.step]")
    traced = lvdc.trace(text, step, 1, worker=worker).steps[0]
    shown = page.run("[1, 2, 3].map((it) => document.querySelector(`.copy[data-module=\"5\"][data-copy=\"${it}\"] .says`).textContent)")
    vote, lie = traced.votes[5][0].signed, traced.differing[(5, 2)][0].signed
    tally.expect("what the copies say", [int(it.replace("\u2212", "-")) for it in shown], [vote, lie, vote])
    point(page, '[data-key="flight.yes"]')
    page.wait(f"{KIND} === 'flew'")
    tally.expect("one lie", ["outvoted" in page.run(TEXT), "You guessed right" in page.run(TEXT)], [True, True])
    page.wait("flight.state === 'flying' && flight.at > 260")
    strike(page, (5, 1), (5, 3))
    point(page, '[data-key="flight.yes"]')
    page.wait(f"{KIND} === 'broke'")
    told = re.search("was told (\u2212?[0-9]+)", page.run(TEXT))
    through = words_of(lvdc.run(page.run("flight.flown.text"), through=True, worker=worker))
    at = page.run("flight.flown.firstWrong(flight.healthy)")
    tally.expect("two lies: the angle that the rocket is told", told and int(told[1].replace("\u2212", "-")), round(through[at][1] / 100))
    tally.expect("two lies", ["outvoted the truth" in page.run(TEXT), "You guessed wrong" in page.run(TEXT)], [True, True])


def try_memories(page: Guest, tally: Tally) -> None:
    """A dead memory is told by the other one; two dead ones are the end."""
    opened(page)
    launch(page)
    for twin, kind in ((0, "flew"), (1, "broke")):
        page.wait("flight.state === 'flying'")
        point(page, f'.memory[data-twin="{twin}"]')
        page.wait(f"{KIND} === 'asked' && flight.flown.text.includes('DEAD {twin} ')")
        point(page, '[data-key="flight.no"]')
        page.wait(f"{KIND} === '{kind}'")
        page.wait(f"document.querySelector('.memory[data-twin=\"{twin}\"]').dataset.kind === 'dead'")
        tally.expect(f"memory {twin + 1} is dead", page.run(f"document.querySelector('.memory[data-twin=\"{twin}\"]').dataset.kind"), "dead")
    point(page, "#choices button")


def try_fingers(page: Guest, tally: Tally) -> None:
    """Two fingers at once strike two copies."""
    opened(page)
    corner = "(({ left, top }) => ({ x: left + 9, y: top + 9 }))"
    points = [page.run(f"{corner}(document.querySelector('.copy[data-module=\"4\"][data-copy=\"{it}\"]').getBoundingClientRect())") for it in (1, 2)]
    page.call("Input.dispatchTouchEvent", type="touchStart", touchPoints=points)
    page.call("Input.dispatchTouchEvent", type="touchEnd", touchPoints=[])
    page.wait(f"{KIND} === 'asked' && flight.flown.through !== null")
    tally.expect("two fingers at once", page.run("flight.struckTogether.map((it) => it.copy).sort().join()"), "1,2")


def try_keys(page: Guest, tally: Tally) -> None:
    """The keyboard alone: a copy is struck, and a guess is made."""
    opened(page)
    page.run("document.querySelector('.copy').focus()")
    page.key("ArrowRight", 39)
    page.key("Enter", 13, "\r")
    page.wait(f"{KIND} === 'asked'")
    tally.expect("keys: a copy", page.run("[flight.struck[0].module, flight.struck[0].copy]"), [1, 2])
    page.run("document.querySelector('[data-key=\"flight.yes\"]').focus()")
    page.key("Enter", 13, "\r")
    page.wait(f"{KIND} === 'flew'")
    tab_stops = "document.querySelectorAll('#machine [tabindex=\"0\"]').length"
    focused = page.run("document.activeElement.dataset.key")
    tally.expect("keys: one stop in the machine, the guess keeps the focus", [page.run(tab_stops), focused], [1, "flight.again"])


# ---- nobody there

def try_alone(page: Guest, tally: Tally) -> None:
    """Untouched a fault shows within ten seconds; then a disaster; with less motion too."""
    for still in (False, True):
        page.size(1366, 768, still=still)
        began = time.monotonic()
        opened(page)
        page.wait("document.querySelector('.copy[data-kind=\"lies\"]') !== null")
        tally.expect(f"untouched, less motion {still}: a fault", time.monotonic() - began < SECONDS_TO_A_FAULT, True)
        page.wait(f"{KIND} === 'flew'")
        tally.expect(f"untouched, less motion {still}: what moves", page.run("document.getAnimations().length > 0") and still, False)
    page.size(1366, 768)


def try_idle(page: Guest, tally: Tally) -> None:
    """When a visitor has gone, all is as at first."""
    opened(page, "?kiosk&idle=2")
    first = page.run(CONTROLS)
    point(page, '.memory[data-twin="1"]')
    page.wait(f"{KIND} === 'asked'")
    for query in ('#languages [lang="de"]', "#sound", "#story"):
        point(page, query)
    page.run("flight.alone = false; 0")
    tally.expect("idle: what a visitor changed", page.run(CONTROLS) != first, True)
    page.wait("flight.alone && flight.state === 'flying'")
    tally.expect("idle: all is as at first", page.run(CONTROLS), first)


# ---- sizes, languages, colours

def try_state(page: Guest, tally: Tally, name: str) -> None:
    """What stands on the page measures well in all languages, and can be read by visitors."""
    # what was struck shakes, over its neighbours, for a moment
    page.run("document.querySelectorAll('.hit').forEach((it) => it.classList.remove('hit'))")
    for language in page.run("Object.keys(Words.LANGUAGES)"):
        page.run(f"flight.speak('{language}')")
        tally.expect(f"{name}, {language}", page.run(MEASURES), FINE)
        tally.expect(f"{name}, {language}: words that are wider than their lamps", page.run(WIDER), [])
        tally.expect(f"{name}, {language}: what visitors can't read", unreadable(page.run(ALL_TEXTS)), [])


# Each further state of the flight: how a visitor, the time or a server that is gone comes to it, and what holds there.
STRIKE = "flight.touch({what}, document.querySelector('.copy'))"
REVEAL = "flight.state === 'asked' && flight.flown.text.includes('{line} ') && (flight.guess = false, flight.reveal(), true)"
STATES = {
    "one lie": ([STRIKE.format(what="{ module: 5, copy: 2 }")], REVEAL.format(line="FLIP 5 2"), f"{KIND} === 'flew'"),
    "a dead memory": ([STRIKE.format(what="{ twin: 1 }")], REVEAL.format(line="DEAD 1"), f"{KIND} === 'flew'"),
    "two dead memories": (
        [STRIKE.format(what=f"{{ twin: {twin} }}") for twin in (0, 1)], REVEAL.format(line="DEAD 1"), f"{KIND} === 'broke'"),
    "landed": (["flight.at = flight.steps"], "true", "flight.state === 'landed'"),
    "no answer": (["flight.guarded(async () => { throw new Error('lab.late'); })"], "true", f"{KIND} === 'unknown'"),
}


def try_states(page: Guest, tally: Tally, name: str) -> None:
    """Each of them measures well."""
    for state, (steps, then, until) in STATES.items():
        launch(page)
        for step in steps:
            page.run(f"{step}; 0")
        page.wait(then)
        page.wait(until)
        try_state(page, tally, f"{name}: {state}")


def try_measures(page: Guest, tally: Tally, sizes: list[tuple[int, int]]) -> None:
    """At all sizes and in all languages nothing is cut off, overlaid or scrolled, letters and targets are large; nothing is said in octal."""
    for width, height in sizes:
        name = f"{width} by {height}"
        page.size(width, height)
        opened(page)
        launch(page)
        try_state(page, tally, f"{name}: at first")
        page.run("Flight.VOTE = Flight.RUN = 50; flight.touch({ module: 2, copy: 1 }, document.querySelector('.copy'))")
        try_state(page, tally, f"{name}: the question")
        page.run("flight.touch({ module: 2, copy: 3 }, document.querySelector('.copy'))")
        page.run("flight.guess = true; flight.reveal()")
        page.wait(f"['broke', 'luck'].includes({KIND})")
        try_state(page, tally, f"{name}: the end")
        try_states(page, tally, name)
        point(page, "#story")
        for _ in range(STORY):
            try_state(page, tally, f"{name}: the story")
            page.run("[...document.querySelectorAll('#told .row button')].at(-2).click()")
    page.size(1366, 768)


CONTRASTS = [("--text", "--night", 4.5), ("--text", "--card", 4.5), ("--muted", "--card", 4.5), ("--text", "--well", 4.5), ("--muted", "--well", 4.5),
             ("--text", "--lie", 4.5), ("--text", "--alone", 4.5), ("--on-button", "--button", 4.5), ("--lie-edge", "--card", 4.5),
             ("--edge", "--night", 3), ("--edge", "--card", 3), ("--well-edge", "--card", 3), ("--lie-edge", "--night", 3)]


def try_flight(lab: Lab, tally: Tally, worker: Worker, is_whole: bool) -> None:
    """All of it; at all sizes where the whole is wanted."""
    with Guest(lab) as page:
        page.size(1366, 768)
        opened(page)
        tally.expect("contrasts that are too low", page.run(faint(CONTRASTS)), [])
        deck = page.run("flight.healthy.text")
        try_pairs(page, tally, worker, deck)
        try_claims(page, tally, worker, DRAWN_STRIKES if is_whole else FEW_STRIKES)
        try_visit(page, tally, worker)
        for part in (try_memories, try_fingers, try_keys, try_alone, try_idle):
            part(page, tally)
        try_measures(page, tally, SIZES if is_whole else FEW_SIZES)
        strangers = [it for it in page.strangers() if not it.startswith(lab.address)]
        tally.expect("faults of the flight, and what it asks for elsewhere", page.faults() + strangers, [])
