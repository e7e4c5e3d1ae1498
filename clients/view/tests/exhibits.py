"""Tries exhibits and the kiosk in a browser: what they show at each step is what the texts in them say."""
import concurrent.futures
import html.parser
import itertools
import json
import os
import pathlib
import random
import re
import subprocess
from typing import Any, TypeAlias

import expected
from browser import Browser
from claims import try_claims
from measures import FEW_SIZES, FINE, SIZES, measures
from tally import expect
from visitors import ALL_TEXTS, unreadable

HERE = pathlib.Path(__file__).resolve().parent.parent
EXAMPLES = HERE.parents[1] / "examples"
TOOL = HERE / "exhibit"
WITH_ANSWERS = [HERE / "kiosk.deck", EXAMPLES / "two-wrong-copies.deck"]
WIDTHS = [320, 390, 768, 1366, 1920]
SCREENS = 5
LANGUAGES = ["en", "de", "fr"]
COPIES = [f"{module}-{copy}" for module in range(1, 8) for copy in range(1, 4)]

# an exhibit's texts, as they stand in its file
Texts: TypeAlias = dict[str, Any]

DRAWN = "document.querySelectorAll('.light').length === 21"

# What an exhibit shows at each step of the slider.
MOMENTS = """(() => {
    const all = (query) => [...document.querySelectorAll(query)];
    const slider = document.querySelector('#moments .steps');
    const found = [];
    for (let step = Number(slider.min); step <= Number(slider.max); step += 1) {
        slider.value = step;
        slider.dispatchEvent(new Event('input'));
        const lights = all('.light').filter((it) => it.dataset.kind !== 'well');
        found.push({
            step,
            lamps: Object.fromEntries(lights.map((it) => [`${it.dataset.module}-${it.dataset.copy}`, it.dataset.kind])),
            cells: Object.fromEntries(all('.slot').filter((it) => it.dataset.states)
                .map((it) => [`${it.dataset.twin} ${it.dataset.place}`, it.dataset.states])),
            name: document.querySelector('.instruction-name')?.textContent ?? '',
            line: document.querySelector('.source-line')?.textContent ?? '',
            where: document.querySelector('.moment-where').textContent,
            happens: all('.happens li').map((it) => it.textContent).join(' '),
        });
    }
    return found;
})()"""


def press(module: int | str, copy: int | str) -> str:
    """Presses a lamp."""
    return (f"document.querySelector('.light[data-module=\"{module}\"][data-copy=\"{copy}\"]')"
            ".dispatchEvent(new MouseEvent('click', { bubbles: true }))")


def click(query: str) -> str:
    """Presses a button."""
    return f"document.querySelector({json.dumps(query)}).click()"


def words(page: Browser, query: str) -> str:
    """The text of an element, empty where there is none."""
    return str(page.run(f"document.querySelector({json.dumps(query)})?.textContent ?? ''"))


# ---- making

def made(deck: pathlib.Path, worker: str, folder: pathlib.Path) -> pathlib.Path:
    """The exhibit of a deck, with answers for some."""
    path = folder / f"{deck.stem}.html"
    flags = [] if deck in WITH_ANSWERS else ["--no-answers"]
    with path.open("wb") as file:
        subprocess.run([TOOL, deck, *flags], env={**os.environ, "LVDC_WORKER": worker}, stdout=file, check=True)
    return path


def can_run(deck: pathlib.Path) -> bool:
    """Whether an example is none that shows a refusal."""
    return not deck.with_suffix(".report").read_text().startswith("REFUSED")


class Outside(html.parser.HTMLParser):
    """Collects what a page takes from elsewhere."""

    def __init__(self) -> None:
        super().__init__()
        self.found: list[str | None] = []

    def handle_starttag(self, tag: str, attrs: list[tuple[str, str | None]]) -> None:
        self.found += [value for name, value in attrs if name in ("src", "href")]


def outside(path: pathlib.Path) -> list[str | None]:
    """What a page takes from elsewhere."""
    reader = Outside()
    reader.feed(path.read_text())
    return reader.found


def opened(page: Browser, path: pathlib.Path, query: str = "") -> None:
    """Opens an exhibit, and waits until it is drawn."""
    page.open(path, query=query)
    expect(f"{path.stem}: it is drawn", page.until(DRAWN), True)


# ---- each step

def try_step(name: str, shown: Texts, told: list[expected.Step], at: int) -> None:
    """What is shown at a step is what the trace says of it."""
    step, place = told[at], f"exhibit {name}: step {told[at].number}"
    expect(f"{place}: lamps", shown["lamps"], expected.lamps(told, at))
    expect(f"{place}: its number", shown["where"].split(":")[0], f"Step {step.number} of {shown['last']}")
    expect(f"{place}: words of {step.exchange}", [it for it in expected.said(step) if it not in shown["happens"]], [])
    if step.exchange and step.exchange[0] not in ("IN", "OUT"):
        kind = "stored" if step.exchange[0] == "STORE" else "read"
        cells = [key[2:] for key, states in shown["cells"].items() if kind in states.split()]
        expect(f"{place}: the cell that is {kind}", set(cells), {expected.place(step.exchange[1:4])})
    if step.repair:
        states = shown["cells"].get(f"{step.repair[4]} {expected.place(step.repair[1:4])}", "").split()
        expect(f"{place}: the cell that is mended, or dead", [it for it in ("mended", "dead") if it in states] in (["mended"], ["dead"]), True)


SHOWN_AS = {"DAMAGE": ["damaged"], "STICK": ["stuck"], "DEAD": ["dead"]}


def is_shown(words: list[str], shown: Texts) -> bool:
    """Whether a fault line that acts in a step is seen there."""
    if words[0] in expected.COPY_FAULTS:
        return shown["lamps"].get(f"{words[1]}-{words[2]}") in ("hurt", "differed")
    if words[0] == "DEAD":
        cells = [states for key, states in shown["cells"].items() if key.startswith(f"{words[1]} {words[2]} ")]
        return bool(cells) and all("dead" in it.split() for it in cells)
    key = f"{words[1]} {expected.place_of(words)}"
    return any(it in shown["cells"].get(key, "").split() for it in SHOWN_AS[words[0]])


def try_steps(page: Browser, name: str, texts: Texts) -> None:
    """Goes through all steps: each is as the trace says, and every fault is seen where it acts."""
    told = expected.steps(texts["trace"])
    page.run(click(".octal-button"))
    moments = page.run(MOMENTS)
    for at, shown in enumerate(moments):
        shown["last"] = moments[-1]["step"]
        if at < len(told):
            try_step(name, shown, told, at)
        unseen = [it for it in expected.faults(texts["deck"]) if expected.acts(it, shown["step"]) and not is_shown(it, shown)]
        expect(f"exhibit {name}: step {shown['step']}: faults that aren't seen", unseen, [])
    unmade = texts["report"].split("\n")[1].split()[1] in ("INADMISSIBLE", "DEVICE")
    expect(f"exhibit {name}: steps", [it["step"] for it in moments], list(range(len(told) + unmade)))
    if texts["listing"]:
        try_names(name, moments, told, texts["listing"])


ROW = re.compile(r" *[0-9]+ ([0-3] [0-7]{2}) ([01]) ([0-7]{3}) ([0-7]{5}) +(.*)")


def try_names(name: str, moments: list[Texts], told: list[expected.Step], listing: str) -> None:
    """The line of the source is that of the listing at the place of the fetch, where that is still the instruction there."""
    rows = {f"{it[1]} {it[3]} {it[2]}": [it[4], it[5].strip()] for row in listing.split("\n") if (it := ROW.fullmatch(row))}
    for shown, step in zip(moments, told):
        if step.exchange[:1] == ["FETCH"]:
            syllable = int(step.place, 8) >> 18 & 1
            word = int(step.exchange[4], 8) >> 13 * syllable & 0o17777
            code, line = rows.get(" ".join([*step.exchange[1:4], str(syllable)]), ["", ""])
            expect(f"exhibit {name}: step {step.number}: the line of the source", shown["line"], line if code == f"{word:05o}" else "")


# ---- what it came to

def try_end(page: Browser, name: str, texts: Texts) -> None:
    """The words of the end; and where it is inadmissible, the panel of the module, and what would have happened."""
    end = texts["report"].split("\n")[1].split()
    expect(f"exhibit {name}: the history", "what the modules are called and do" in words(page, "#history"), True)
    if end[1] != "INADMISSIBLE":
        return
    expect(f"exhibit {name}: the notice at the end", f"step {end[2]}" in words(page, ".notice .sentence"), True)
    panel = page.run("document.querySelector('.panel .side-by-side')?.dataset.module ?? ''")
    expect(f"exhibit {name}: the panel that is open", panel, end[4] if end[3] == "LOGIC" else "")
    page.run(click(".notice button"))
    first = expected.first_wrong(texts["healthy"]["trace"], texts["through"]["trace"])
    row = words(page, ".first-wrong-row td:first-child").split(" ")[0]
    expect(f"exhibit {name}: the first wrong result", row, "" if first is None else str(first))
    told = expected.steps(texts["through"]["trace"])
    lamps = page.run("Object.fromEntries([...document.querySelectorAll('.light')].filter((it) => it.dataset.kind !== 'well')"
                     ".map((it) => [`${it.dataset.module}-${it.dataset.copy}`, it.dataset.kind]))")
    wanted = expected.lamps(told, int(end[2])) if int(end[2]) < len(told) else lamps
    expect(f"exhibit {name}: the lamps through every fault", lamps, wanted)


def try_exhibit(page: Browser, path: pathlib.Path) -> Texts:
    """An exhibit stands alone, and shows what its texts say."""
    expect(f"exhibit {path.stem}: stands alone", outside(path), [])
    opened(page, path)
    texts: Texts = page.run("window.EXHIBIT")
    try_steps(page, path.stem, texts)
    try_end(page, path.stem, texts)
    expect(f"exhibit {path.stem}: faults of the page, and what it asks for elsewhere", page.faults() + page.strangers(), [])
    return texts


# ---- touching

# What a key can press and has no name; and how many parts Tab reaches in the drawing: one in each module, and one in each twin.
UNNAMED = """[...document.querySelectorAll('button, input, summary, [role=button]')]
    .filter((it) => !it.textContent.trim() && !it.ariaLabel && !it.labels?.length).length"""
STOPS = "document.querySelectorAll('.board [tabindex=\"0\"]').length"


def try_panel(page: Browser, path: pathlib.Path) -> None:
    """A lamp opens what its copies say; a second touch, by Enter, lets go of it."""
    opened(page, path)
    count = "document.querySelectorAll('.panel .side-by-side').length"
    page.run(press(5, 2))
    first = page.run(count)
    page.run("document.querySelector('.light[data-module=\"5\"][data-copy=\"1\"]').focus()")
    page.key("Enter", 13)
    expect(f"exhibit {path.stem}: a panel opens and closes", [first, page.run(count)], [1, 0])
    expect(f"exhibit {path.stem}: all has a name, and Tab reaches it", [page.run(UNNAMED), page.run(STOPS)], [0, 9])
    page.run("document.querySelector('#moments .steps').focus()")
    page.key("ArrowRight", 39)
    expect(f"exhibit {path.stem}: a key goes on", words(page, ".moment-where")[:6], "Step 1")


def asked(worker: str, deck: str, request: str) -> list[str]:
    """The lines of what a worker answers."""
    frame = f"REQUEST {len(deck.encode())} {request}\n".encode() + deck.encode()
    text = subprocess.run([worker], input=frame, stdout=subprocess.PIPE, check=True).stdout.decode()
    return text.split("\n")[1:]


HURTS = {"1": "0 1", "2": "0 2000", "3": "0 1", "4": "0 10", "5": "0 20", "6": "0 1", "7": "1 1"}


def hurt_deck(deck: str, step: int, keys: tuple[str, ...]) -> str:
    """A deck without faults, with those of a visitor."""
    lines = [f"FLIP {key[0]} {key[2]} {step} {step} {HURTS[key[0]]}" for key in keys]
    head, run = deck.split("\nRUN ")
    return f"{head}\n" + "\n".join(["FAULTS", *lines]) + f"\nRUN {run}"


def try_answers(page: Browser, worker: str, path: pathlib.Path, texts: Texts) -> None:
    """One lamp and then another: the end that the worker tells of the same faults is what is said."""
    opened(page, path)
    page.run(click("[data-mode=break]"))
    draw = random.Random(1)
    healthy = (HERE / "kiosk.deck").read_text()
    sets = [(key,) for key in draw.sample(COPIES, 3)] + draw.sample(list(itertools.combinations(COPIES, 2)), 5) + [("3-1", "3-2")]
    for keys, step in zip(sets, itertools.cycle(texts["answers"]["steps"])):
        page.run(click("[data-mode=break]"))
        page.run(f"(() => {{ const it = document.querySelector('#moments .steps'); it.value = {step}; it.dispatchEvent(new Event('input')); }})()")
        for key in keys:
            page.run(press(key[0], key[2]))
        end = asked(worker, hurt_deck(healthy, step, keys), "run")[1].split()
        verdict = page.run("document.querySelector('.notice .sentence')?.dataset.verdict")
        expect(f"{keys} at step {step}", verdict, end[3] if end[1] == "INADMISSIBLE" else "ADMISSIBLE")


# ---- spelling

def try_spelling(page: Browser, worker: str) -> None:
    """All 8,192 instructions are named as the debugger names them, and numbers are as they are wanted."""
    image = [f"0 {at >> 8:02o} {at & 255:03o} {2 * at + ((2 * at + 1) << 13):09o}" for at in range(4096)]
    commands = [f"DIS 0 {sector:02o} {syllable} 000 256" for sector in range(16) for syllable in (0, 1)]
    deck = "\n".join(["IMAGE", "LVDC 1", *image, "END", "RUN 1", "DEBUG", *commands, ""])
    rows = [it.split() for it in asked(worker, deck, "debug") if re.fullmatch("0 .. . ... [0-7]{5} [A-Z]{3} ...", it)]
    wanted = {row[4]: " ".join(row[5:]) for row in rows}
    got = page.run(f"Object.fromEntries({json.dumps(list(wanted))}.map((it) => [it, Latches.instruction(it.padStart(9, '0'))]))")
    expect("names of all instructions", [len(wanted), {key: name for key, name in got.items() if wanted[key] != name}], [8192, {}])
    numbers = [f"{random.Random(at).randrange(1 << 26):09o}" for at in range(200)]
    expect("numbers", page.run(f"{json.dumps(numbers)}.map(Latches.decimal)"), [expected.decimal(it) for it in numbers])


# ---- sizes, colours, motion

# How far text stands out from what it stands on, for each pair of colours.
CONTRASTS = """(() => {
    const luminance = (colour) => {
        const place = document.createElement('span');
        place.style.color = `var(${colour})`;
        document.body.append(place);
        const parts = getComputedStyle(place).color.match(/[\\d.]+/g).slice(0, 3).map((it) => it / 255);
        place.remove();
        const [r, g, b] = parts.map((it) => (it <= 0.04045 ? it / 12.92 : ((it + 0.055) / 1.055) ** 2.4));
        return 0.2126 * r + 0.7152 * g + 0.0722 * b;
    };
    return PAIRS.map(([text, paper]) => {
        const [one, other] = [luminance(text), luminance(paper)].sort((a, b) => b - a);
        return [text, paper, (one + 0.05) / (other + 0.05)];
    }).filter(([, , contrast]) => contrast < 4.5);
})()"""
PAIRS = [["--text", "--board"], ["--text", "--card"], ["--muted", "--board"], ["--muted", "--card"], ["--muted", "--paper"], ["--text", "--lit"],
         ["--text", "--wary"], ["--apart-text", "--apart"], ["--chip-text", "--chip"], ["--card", "--back"], ["--fault", "--panel"],
         ["--fault", "--board"], ["--repair", "--board"], ["--repair", "--panel"], ["--text", "--cellbox"]]


def try_sizes(page: Browser, path: pathlib.Path, query: str = "") -> None:
    """It fits pages of all widths, in light and dark."""
    for width in WIDTHS:
        page.size(width, 900 if width > 1000 else 700)
        opened(page, path, query)
        expect(f"{path.stem}?{query}: fits {width} pixels", page.run("document.documentElement.scrollWidth <= innerWidth"), True)
    papers = []
    for dark in (False, True):
        page.size(1366, 768, dark)
        papers.append(page.run("getComputedStyle(document.body).backgroundColor"))
        expect(f"{path.stem}?{query}: contrasts, dark {dark}", page.run(CONTRASTS.replace("PAIRS", json.dumps(PAIRS))), [])
    expect(f"{path.stem}?{query}: dark is another colour", papers[0] != papers[1], True)
    page.size(1366, 768)


def try_motion(page: Browser, path: pathlib.Path) -> None:
    """What moves in a step is seen moving, and stands still for whoever asked for that."""
    for still in (False, True):
        page.size(1366, 768, still=still)
        opened(page, path)
        page.run(click(".slide button:nth-of-type(2)"))
        expect(f"{path.stem}: something moves, asked for less {still}", page.run("document.getAnimations().length > 0"), not still)
        expect(f"{path.stem}: the word is seen, asked for less {still}", page.run("document.querySelectorAll('.moving .chip').length > 0"), True)
    page.size(1366, 768)


LETTERS = "['.instruction', '.board .name'].map((it) => parseFloat(getComputedStyle(document.querySelector(it)).fontSize))"


def try_letters(path: pathlib.Path) -> None:
    """The browser's own font size counts: where its letters are twice as large, they grow here too."""
    sizes = []
    for size in (16, 32):
        with Browser(f"--blink-settings=defaultFontSize={size}") as page:
            page.size(1900, 900)
            opened(page, path)
            sizes.append(page.run(LETTERS))
            fits = page.run("document.documentElement.scrollWidth <= innerWidth")
            expect(f"{path.stem}: fits with letters of {size} pixels", fits, True)
    expect(f"{path.stem}: letters grow", [larger >= 1.4 * small for small, larger in zip(*sizes)], [True, True])


# ---- the kiosk

_TEXTS = ".kiosk h1, .kiosk h2, .kiosk h3, .kiosk p:not(.buttons), .kiosk li, .kiosk button, .board text"
_APART = ".kiosk h1, .kiosk h2, .kiosk h3, .kiosk p:not(.buttons), .kiosk li, .kiosk button, .board .name, .board .value"
MEASURES = measures(_TEXTS, _APART, "button")
LAMPS_TOO = measures(_TEXTS, _APART, "button, .board .light .hit")
WAYS_OUT = "document.querySelectorAll('a, iframe, form, select, textarea, input:not([type=range])').length"


def try_screens(page: Browser, path: pathlib.Path, language: str, width: int, height: int) -> None:
    """All five screens fit, have large targets and no way out, and say what stands in the words."""
    page.size(width, height)
    opened(page, path, f"kiosk={language}")
    told = page.run(f"({{ ...Words.LANGUAGES.en, ...Words.LANGUAGES.{language} }})")
    for screen in range(1, SCREENS + 1):
        name = f"kiosk, {language}, {width} pixels, screen {screen}"
        page.until("new Promise((done) => requestAnimationFrame(() => requestAnimationFrame(() => done(true))))")
        expect(f"{name}: the heading and the history", [words(page, ".kiosk-text h2"), words(page, ".history")],
               [told[f"kiosk.{screen}.title"], told["history"]])
        expect(f"{name}: its measures", page.run(LAMPS_TOO if screen == SCREENS else MEASURES), FINE)
        expect(f"{name}: ways out, parts without a name", [page.run(WAYS_OUT), page.run(UNNAMED)], [0, 0])
        if screen < SCREENS:
            page.run(click(".next"))


# What stands on a screen of the kiosk at each of its moments.
ALL_MOMENTS = f"""(() => {{
    const slider = document.querySelector('.kiosk .steps');
    const found = new Set([{ALL_TEXTS}]);
    for (let step = Number(slider.min); step <= Number(slider.max); step += 1) {{
        slider.value = step;
        slider.dispatchEvent(new Event('input'));
        found.add({ALL_TEXTS});
    }}
    return [...found].join(' | ');
}})()"""


def try_readable(page: Browser, path: pathlib.Path, language: str) -> None:
    """No screen has anything that visitors can't read, at any of its moments, nor after a visitor's turn."""
    opened(page, path, f"kiosk={language}")
    for screen in range(1, SCREENS + 1):
        expect(f"kiosk, {language}, screen {screen}: what visitors can't read", unreadable(page.run(ALL_MOMENTS)), [])
        page.run("document.querySelector('.kiosk-text .large')?.click()")
        expect(f"kiosk, {language}, screen {screen}, asked: what visitors can't read", unreadable(page.run(ALL_MOMENTS)), [])
        if screen < SCREENS:
            page.run(click(".next"))
    page.run(press(3, 1))
    page.run(press(3, 2))
    expect(f"kiosk, {language}: after a turn: what visitors can't read", unreadable(page.run(ALL_TEXTS)), [])


def told_numbers(sentence: str) -> list[list[str]]:
    """The numbers that would have been sent, and those that are right, as a sentence tells them."""
    told = re.fullmatch(r"Had it gone on, it would have sent (.*)\. Right is (.*)\.", sentence)
    return [it.split(", ") for it in told.groups()] if told else []


def numbers_due(texts: Texts, pair: str) -> list[list[str]]:
    """The same by the reports: up to the first number that is another one, or that isn't there; nothing where all are the same."""
    reports = [texts["story"]["turns"]["reports"][pair], texts["healthy"]["report"]]
    wrong, right = ([expected.decimal(it.split()[3]) for it in report.split("\n") if it.startswith("OUT ")] + ["nothing more"] for report in reports)
    at = next((at for at, (one, other) in enumerate(zip(wrong, right)) if one != other), None)
    return [] if at is None else [it[max(0, at - 2):at + 1] for it in (wrong, right)]


def try_turns(page: Browser, path: pathlib.Path, texts: Texts) -> None:
    """Each two copies of a module, in a visitor's turn: other numbers would have been sent, and they are told."""
    opened(page, path, "kiosk")
    for _ in range(SCREENS - 1):
        page.run(click(".next"))
    for module, (one, other) in itertools.product(range(1, 8), itertools.combinations((1, 2, 3), 2)):
        page.run(press(module, one))
        page.run(press(module, other))
        told = words(page, ".kiosk-text .side-by-text p:nth-of-type(2)")
        due = numbers_due(texts, f"{module}-{one} {module}-{other}")
        expect(f"kiosk: copies {one} and {other} of module {module}", [told_numbers(told), "at wrong times" in told], [due, not due])
        page.run(click(".kiosk-text .large"))


def try_story(page: Browser, path: pathlib.Path, texts: Texts) -> None:
    """What happens on the screens is what the traces of the story say."""
    opened(page, path, "kiosk")
    numbers = [expected.decimal(it.exchange[2]) for it in expected.steps(texts["healthy"]["trace"]) if it.exchange[:1] == ["OUT"]][:3]
    expect("kiosk: the numbers of the first screen", ", ".join(numbers) in words(page, ".kiosk-text"), True)
    expect("kiosk: it begins by itself", page.until("!document.querySelector('.moment-where').textContent.startsWith('Step 0 ')"), True)
    for screen, chapter in [(2, "one"), (3, "two"), (4, "cell")]:
        page.run(click(".next"))
        moments = page.run(MOMENTS.replace("#moments ", ".kiosk "))
        told = {it.number: it for it in expected.steps(texts["story"][chapter]["trace"])}
        steps = list(told.values())
        wanted = [expected.lamps(steps, told[it["step"]].number) for it in moments if it["step"] in told]
        expect(f"kiosk: lamps of screen {screen}", [it["lamps"] for it in moments if it["step"] in told], wanted)
        faults = expected.faults(texts["story"][chapter]["deck"])
        shown = next(it for it in moments if it["step"] == texts["story"][chapter]["step"])
        expect(f"kiosk: faults that screen {screen} doesn't show", [it for it in faults if not is_shown(it, shown)], [])
        if chapter == "two":
            page.run(click(".kiosk-text .large"))
            pair = " ".join(f"{it[1]}-{it[2]}" for it in faults)
            expect("kiosk: what two wrong copies would have sent", told_numbers(words(page, ".kiosk-text .sentence")), numbers_due(texts, pair))


# The lamps that aren't well.
UNWELL = """Object.fromEntries([...document.querySelectorAll('.light')].filter((it) => it.dataset.kind !== 'well')
    .map((it) => [`${it.dataset.module}-${it.dataset.copy}`, it.dataset.kind]))"""


def try_visitor(page: Browser, path: pathlib.Path) -> None:
    """A visitor's own turn, the languages, and what happens when the visitor has gone."""
    opened(page, path, "kiosk")
    for _ in range(SCREENS - 1):
        page.run(click(".next"))
    page.run(press(3, 1))
    one = page.run("document.querySelector('.kiosk-text .sentence').dataset.verdict")
    broken = page.run(UNWELL)
    page.run(press(3, 2))
    two = page.run("document.querySelector('.kiosk-text .sentence').dataset.verdict")
    wanted = [{"3-1": "differed"}, {"3-1": "hurt", "3-2": "hurt", "3-3": "differed"}]
    expect("kiosk: what a visitor broke is seen", [broken, page.run(UNWELL)], wanted)
    kinds = page.run("[...document.querySelectorAll('.turn-part:nth-child(3) button')].map((it) => it.dataset.kind)")
    expect("kiosk: the same by buttons, for a phone", kinds, ["hurt", "hurt", "alone"])
    expect("kiosk: one copy and then two of a module", [one, two], ["ADMISSIBLE", "LOGIC"])
    page.run(click(".kiosk-head button:nth-of-type(2)"))
    expect("kiosk: the other language", page.run("document.documentElement.lang"), "de")
    menu = "document.body.dispatchEvent(new MouseEvent('contextmenu', { bubbles: true, cancelable: true }))"
    keys = "document.body.dispatchEvent(new KeyboardEvent('keydown', { key: 'p', ctrlKey: true, bubbles: true, cancelable: true }))"
    expect("kiosk: a menu and a key that lead away", [page.run(menu), page.run(keys)], [False, False])
    expect("kiosk: faults of the page", page.faults() + page.strangers(), [])


# All that a visitor can change: the screen, the language, what is hurt, what is pressed, and whether it plays.
KIOSK_CONTROLS = """[
    document.querySelector('.kiosk').dataset.screen, document.documentElement.lang, document.querySelectorAll('.light.marked').length,
    [...document.querySelectorAll('[aria-pressed]')].map((it) => it.ariaPressed).join(' '),
    document.querySelector('.slide button:nth-of-type(3)').textContent, document.querySelector('.kiosk-text').textContent, scrollY]"""


def try_idle(page: Browser, path: pathlib.Path) -> None:
    """Where nobody touches anything for a while it begins anew, in its first language, and all controls are as at first."""
    opened(page, path, "kiosk&idle=3")
    first = page.run(KIOSK_CONTROLS)
    page.run(click(".slide button:nth-of-type(3)"))
    paused = page.run(KIOSK_CONTROLS)
    for _ in range(SCREENS - 1):
        page.run(click(".next"))
    for copy in (1, 2):
        page.run(press(5, copy))
    page.run(click(".kiosk-head button:nth-of-type(2)"))
    changed = page.run(KIOSK_CONTROLS)
    expect("kiosk: what a visitor changed", [first == paused, *changed[:3]], [False, "5", "de", 2])
    expect("kiosk: it begins anew", page.until("document.querySelector('.kiosk').dataset.screen === '1'", 10), True)
    expect("kiosk: all controls are as at first", page.run(KIOSK_CONTROLS), first)


MOST_TABS = 60


def tab_to(page: Browser, query: str) -> bool:
    """Goes on by Tab until an element has the focus, and tells whether it came to have it."""
    here = f"document.activeElement?.matches({json.dumps(query)}) ?? false"
    for _ in range(MOST_TABS):
        page.key("Tab", 9)
        if page.run(here):
            return True
    return False


def try_walk(page: Browser, path: pathlib.Path) -> None:
    """All five screens by Tab and Enter alone, down to two faults of a visitor's own."""
    opened(page, path, "kiosk")
    for screen in range(1, SCREENS):
        reached = tab_to(page, ".next")
        page.key("Enter", 13, "\r")
        there = page.until(f"document.querySelector('.kiosk').dataset.screen === '{screen + 1}'", 2)
        expect(f"kiosk by keys: on from screen {screen}", [reached, there], [True, True])
    verdict = "document.querySelector('.kiosk-text .sentence')?.dataset.verdict"
    verdicts = []
    reached = tab_to(page, ".light[data-module='3']")
    for key in ("Enter", "ArrowRight", "Enter"):
        page.key(key, 13 if key == "Enter" else 39, "\r" if key == "Enter" else "")
        verdicts.append(page.run(verdict))
    expect("kiosk by keys: one copy and then two of a module", [reached, verdicts[0], verdicts[2]], [True, "ADMISSIBLE", "LOGIC"])
    expect("kiosk by keys: faults of the page", page.faults() + page.strangers(), [])


def try_kiosk(page: Browser, path: pathlib.Path, texts: Texts, is_whole: bool) -> None:
    """The kiosk; at all sizes where the whole is wanted."""
    for language, (width, height) in itertools.product(LANGUAGES, SIZES if is_whole else FEW_SIZES):
        try_screens(page, path, language, width, height)
    page.size(1366, 768)
    for language in LANGUAGES:
        try_readable(page, path, language)
    try_turns(page, path, texts)
    try_story(page, path, texts)
    try_visitor(page, path)
    try_walk(page, path)
    try_idle(page, path)
    try_sizes(page, path, "kiosk")


# ---- wrong words

def try_refusals(worker: str) -> None:
    """Wrong input is told on standard error, with status 1 and nothing on standard output."""
    for deck, message in [("refused-deck.deck", "BadLine at line 6"), ("nothing.deck", "No such file"), (".", "directory"), ("scripts.rows", "")]:
        done = subprocess.run([TOOL, EXAMPLES / deck], env={**os.environ, "LVDC_WORKER": worker}, capture_output=True, text=True, check=False)
        is_a_sentence = done.stderr.startswith("clients/view/exhibit: ") and "Traceback" not in done.stderr
        told = [done.returncode, done.stdout, is_a_sentence and message in done.stderr]
        expect(f"clients/view/exhibit {deck}", told, [1, "", True])


def try_all(page: Browser, worker: str, folder: pathlib.Path, is_whole: bool) -> None:
    """All exhibits of the examples, and what a visitor does with two of them; at all sizes and over more decks where the whole is wanted."""
    decks = [*WITH_ANSWERS, *(it for it in sorted(EXAMPLES.glob("*.deck")) if can_run(it) and it not in WITH_ANSWERS)]
    with concurrent.futures.ThreadPoolExecutor(max_workers=4) as pool:
        paths = list(pool.map(lambda deck: made(deck, worker, folder), decks))
    page.size(1366, 768)
    texts = [try_exhibit(page, it) for it in paths]
    kiosk = paths[0]
    try_panel(page, paths[1])
    try_answers(page, worker, kiosk, texts[0])
    try_spelling(page, worker)
    try_sizes(page, paths[1])
    try_motion(page, kiosk)
    try_letters(kiosk)
    try_kiosk(page, kiosk, texts[0], is_whole)
    try_claims(page, worker, is_whole)
    try_refusals(worker)
