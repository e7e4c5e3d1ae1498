"""Measures the lab: at all sizes, in all languages and in each of its states the page doesn't scroll, nothing is cut off or lies over something
else, and what is pressed is as large as a finger. On small screens that holds behind each tab."""
import json

from lab_driven import FRAMES, Visitor, kind_due
from lab_running import Lab, Tally
from lvdc.workers import Worker
from measures import FEW_SIZES, FINE, SIZES, faint, measures

SMALL = [(390, 844), (844, 390), (360, 640)]
OTHERS = [(360, 640), (768, 1024), (1366, 620)]

_TEXTS = ("h1, h2, p, li, th, td, button, label > span, #instruction, #where, footer span, "
          ".name, .value, .tally, .port-line, .busname, .content, .location, .more")
_APART = ("h1, h2, .sentence, .lab-told, .lab-lead, #parting, .lab-list li, td, button, label, #instruction, #where, footer p, .lab-pages span, "
          ".name, .value, .port-line")
_TARGETS = "button, select, input[type='number'], textarea, #slider, .lab-lasting label, .lab-file, .light .hit, .slot .hit"
_BLOCKS = "#board, #cells-pages, #outcome, #tabs, .choices, .lab-moment, .lab-time, .lab-happens, .lab-panel, h1, footer"
MEASURES = measures(_TEXTS, _APART, _TARGETS, letters=0, blocks=_BLOCKS)

CONTRASTS = [
    ("--text", "--paper", 4.5), ("--text", "--panel", 4.5), ("--muted", "--paper", 4.5), ("--muted", "--panel", 4.5), ("--text", "--board", 4.5),
    ("--muted", "--board", 4.5), ("--text", "--card", 4.5), ("--muted", "--card", 4.5), ("--text", "--lit", 4.5), ("--text", "--cellbox", 4.5),
    ("--text", "--wary", 4.5), ("--apart-text", "--apart", 4.5), ("--chip-text", "--chip", 4.5), ("--card", "--back", 4.5),
    ("--panel", "--text", 4.5), ("--panel", "--fault", 4.5), ("--text", "--mark", 4.5),
    ("--wire", "--board", 3), ("--wire", "--card", 3), ("--cell-edge", "--card", 3), ("--lit-edge", "--card", 3), ("--lit-edge", "--lit", 3),
    ("--apart", "--card", 3), ("--apart", "--board", 3), ("--apart", "--wary", 3), ("--hurt-cell", "--card", 3), ("--hurt-cell", "--board", 3),
    ("--back", "--card", 3), ("--chip", "--card", 3), ("--fault", "--panel", 3), ("--repair", "--panel", 3), ("--muted", "--panel", 3),
    ("--in", "--board", 3), ("--in", "--paper", 3)]

# What a visitor does, as scripts; a tab that isn't there at a size is passed over.
_TAB = "document.getElementById('tab-{tab}').click()"
_LAMP = "document.querySelector('#board .light[data-module=\"{module}\"][data-copy=\"{copy}\"]').dispatchEvent(new MouseEvent('click'))"
_CELL = "[...document.querySelectorAll('#board .slot[data-twin=\"{twin}\"]')].at(-1).dispatchEvent(new MouseEvent('click'))"
_CLICK = "document.getElementById('{id}').click()"
_SET = "(() => {{ const it = document.getElementById('{id}'); it.value = {value}; it.dispatchEvent(new Event('change')); }})()"


def lamp(module: int, copy: int) -> list[str]:
    """The lamp of a copy is pressed."""
    return [_TAB.format(tab="copies"), _LAMP.format(module=module, copy=copy)]


def cell(twin: int) -> list[str]:
    """The last cell is pressed that is shown of a memory."""
    return [_TAB.format(tab="memory"), _CELL.format(twin=twin)]


def click(element: str) -> list[str]:
    """A button is pressed."""
    return [_CLICK.format(id=element)]


def given(element: str, value: str) -> list[str]:
    """A field has another value."""
    return [_SET.format(id=element, value=json.dumps(value))]


_TWO = [*lamp(5, 1), *lamp(5, 2)]
_LATE = ["Asking.ask = async () => { throw new Error('lab.late'); }"]
STATES: dict[str, list[str]] = {
    "at first": [],
    "one copy": lamp(5, 1),
    "two copies": _TWO,
    "what would have happened": [*_TWO, "document.querySelector('#outcome .buttons button').click()"],
    "no harm": [*given("kind", "LAG"), *lamp(6, 1), *lamp(6, 2), "document.querySelector('#outcome .buttons button').click()"],
    "much is broken": [*click("good"), *[step for module in range(1, 8) for step in lamp(module, 1 + module % 3)], *click("memory-1"), *cell(0)],
    "a cell is mended": [*cell(0), *cell(1), *click("undo"), *click("forward"), *cell(1)],
    "a word is lost": [*click("to-end"), *cell(0), *cell(1)],
    "a deck is refused": given("deck", "IMAGE\nLVDC 1\nEND\nFAULTS\nFLIP 9\nRUN 3\n"),
    "no deck": given("deck", "hello\n"),
    "a long run": [*given("count", "100000"), *click("to-end"), *lamp(2, 3)],
    "octal": [*click("octal"), *lamp(4, 2)],
    "no answer in time": [*_LATE, *lamp(1, 1)],
}

# what most states change; of the others each tab is looked at
FEW_TABS = ["tab-copies", "tab-outcome"]
WHOLE = ["at first", "much is broken", "octal"]

_TABS = "[...document.querySelectorAll('#tabs [role=\"tab\"]')].filter((it) => it.checkVisibility()).map((it) => it.id)"
# choices whose words have no room in their field; programs, which are many and long, end in dots
CUT_CHOICES = """(() => {
    const pen = document.createElement('canvas').getContext('2d');
    return [...document.querySelectorAll('select:not(#program)')].filter((it) => it.checkVisibility()).flatMap((it) => {
        const style = getComputedStyle(it);
        pen.font = style.font;
        const room = it.clientWidth - parseFloat(style.paddingLeft) - parseFloat(style.paddingRight) - ARROW;
        return [...it.options].map((option) => option.text).filter((text) => pen.measureText(text).width > room);
    });
})()""".replace("ARROW", "28")

# names of memories over which the words that move are drawn
COVERED_NAMES = """(() => {
    const moving = document.querySelector('#board .moving'), names = [...document.querySelectorAll('#board .twin-name')];
    return names.filter((it) => !(moving.compareDocumentPosition(it) & Node.DOCUMENT_POSITION_FOLLOWING)).map((it) => it.textContent);
})()"""


def try_state(page: Visitor, tally: Tally, name: str, is_whole: bool) -> None:
    """What stands behind the tabs measures well in all languages."""
    tabs = [it for it in page.run(_TABS) if is_whole or it in FEW_TABS]
    for language in page.run("Object.keys(Words.LANGUAGES)"):
        page.run(f"document.querySelector('#languages [lang=\"{language}\"]').click()")
        for tab in tabs:
            measured = page.run(f"(async () => {{ document.getElementById('{tab}').click(); {FRAMES}; return {MEASURES}; }})()")
            tally.expect(f"{name}, {language}, {tab}", measured, FINE)
            tally.expect(f"{name}, {language}, {tab}: choices that are cut", page.run(CUT_CHOICES), [])


def try_size(page: Visitor, tally: Tally, address: str, size: tuple[int, int]) -> None:
    """Each state at a size."""
    page.size(*size)
    for state, steps in STATES.items():
        page.visit(address)
        page.wait()
        tally.expect(f"{size[0]} by {size[1]}: {state}: names that are covered", page.run(COVERED_NAMES), [])
        for step in steps:
            page.run(f"{step}; 0")
            page.wait()
        try_state(page, tally, f"{size[0]} by {size[1]}: {state}", state in WHOLE)


def try_phone(page: Visitor, tally: Tally, worker: Worker, address: str) -> None:
    """A visitor's way on a small screen, with a finger: two copies are hurt for good, the end is told, and it is seen what would have happened."""
    page.visit(address)
    page.wait()
    page.press("#tab-press")
    page.press("#good")
    page.press("#tab-copies")
    page.press_lamp(5, 1)
    name = "{} by {}".format(*page.run("[innerWidth, innerHeight]"))
    tally.expect(f"{name}: one copy", [page.says()["kind"], kind_due(worker, page.says()["deck"])], ["always", "always"])
    tally.expect(f"{name}: what it came to is in sight", page.run("document.querySelector('#outcome .sentence').checkVisibility()"), True)
    page.press_lamp(5, 2)
    tally.expect(f"{name}: two copies", [page.says()["kind"], kind_due(worker, page.says()["deck"])], ["logic", "logic"])
    page.press("#outcome button")
    tally.expect(f"{name}: what would have happened", [page.run("document.body.dataset.panel"), len(page.says()["marked"])], ["outcome", 2])
    page.press("#outcome .buttons button")
    tally.expect(f"{name}: back", page.says()["kind"], "logic")
    page.press("#acts li:first-child button")
    tally.expect(f"{name}: one is taken back", [page.says()["kind"], len(page.says()["acts"])], ["always", 1])
    page.press("#tab-memory")
    page.press("#board .slot")
    tally.expect(f"{name}: a cell", len(page.says()["acts"]), 2)


def try_measured(lab: Lab, tally: Tally, worker: Worker, is_whole: bool) -> None:
    """All of it; at all sizes where the whole is wanted."""
    with Visitor() as page:
        for dark in (False, True):
            page.size(1366, 768, dark=dark)
            page.visit(lab.address)
            tally.expect(f"contrasts of the lab that are too low, dark {dark}", page.run(faint(CONTRASTS)), [])
        for size in [*SIZES, *OTHERS] if is_whole else FEW_SIZES:
            try_size(page, tally, lab.address, size)
        for size in SMALL if is_whole else SMALL[:1]:
            page.size(*size)
            try_phone(page, tally, worker, lab.address)
        tally.expect("faults of the lab's page at all sizes", page.faults(), [])
