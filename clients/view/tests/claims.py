"""Tries what the pages claim of runs: over decks of each kind of end, with and without lost words, and over decks that are drawn, each sentence
is the one that the report allows."""
import json
import pathlib
import random
import subprocess
from typing import TypeAlias

from browser import Browser
from tally import expect

HERE = pathlib.Path(__file__).resolve().parent.parent / "page"
PAGE = HERE / "index.html"
DRAWN_DECKS, FEW_DECKS = 300, 60

WHOLE = "Every result is exactly that of a healthy machine. That is proved, not tested."
LOST = "All that was sent out, and every word that can still be read, is exactly that of a healthy machine. That is proved, not tested."
ALWAYS = "Faults of this kind are withstood whatever program runs."

# a deck with the texts that a worker answers over it
Case: TypeAlias = dict[str, str]

# What three pages say of a deck's texts: the section of the end, the last moment of an exhibit, and the lab.
SAYS = """(({ deck, report, form, trace }) => {
    const given = { deck, report, form, trace, listing: null, healthy: { trace, report }, through: null, answers: null };
    const exhibit = ExhibitView.read(given);
    const { made } = ExhibitView.of(exhibit, Words.of('en'));
    const slider = made.querySelector('.steps');
    slider.value = slider.max;
    slider.dispatchEvent(new Event('input'));
    const end = EndView.run(exhibit.report, exhibit.isForm && exhibit.deck.faults.length > 0);
    const lab = LabOutcome.of({ text: report }, { text: form }, exhibit.deck.faults.length);
    return [made.querySelector('.notice').textContent, end.textContent, lab.kind];
})"""
LAB_SCRIPTS = ["js/lab/outcome.js"]


def due(case: Case) -> list[str]:
    """What may be said by the report alone, and whether the lab may say that it withstood, or that a word is lost."""
    rows = [it.split() for it in case["report"].split("\n")]
    end = rows[1][1:]
    if end[0] == "INADMISSIBLE":
        return ["", end[2].lower()]
    if end[0] == "DEVICE":
        return ["", "device"]
    if any(it[0] == "MEM" and it[4] == "?" for it in rows if it):
        return [LOST, "so-far"]
    if "\nFAULTS\n" not in case["deck"]:
        return [WHOLE, "healthy"]
    return [WHOLE, "always" if case["form"] == "FORM YES\n" else "this-time"]


def answers(worker: str, deck: str) -> Case:
    """What a worker answers over a deck."""
    requests = {"report": "run", "form": "form", "trace": "trace 0 600"}
    frames = b"".join(f"REQUEST {len(deck)} {it}\n{deck}".encode() for it in requests.values())
    text = subprocess.run([worker], input=frames, stdout=subprocess.PIPE, check=True).stdout
    found = {"deck": deck}
    for name in requests:
        head, text = text.split(b"\n", 1)
        length = int(head.split()[2])
        found[name], text = text[:length].decode(), text[length:]
    return found


# ---- decks of each kind of end

# It sums two numbers, sends the sum and keeps it at 0 01 002; then comes one of these words.
IMAGE = """IMAGE
LVDC 1
0 00 000 000017000
0 00 001 000007001
0 00 002 000012017
0 00 003 000013002
0 00 004 {last}
0 00 005 000010005
0 01 000 000000001
0 01 001 000000002
END
"""
LASTS = {"done": "000017000", "shift": "000016203", "exm": "000016600"}
RUN = "RUN 10\n"
# The sum is damaged in both memories after it was stored, and nobody reads it again.
NO_WORD: list[str] = []
LOST_WORD = ["DAMAGE 0 0 01 002 12 1", "DAMAGE 1 0 01 002 12 1"]
MORE_FAULTS = {"logic": ["FLIP 3 1 13 13 0 1", "FLIP 3 2 13 13 0 1"], "memory": ["DAMAGE 0 0 01 000 12 1", "DAMAGE 1 0 01 000 12 1"]}
ENDS = {"done": "END DONE", "shift": "END STOPPED 14 SHIFT", "exm": "END STOPPED 14 EXM", "logic": "END INADMISSIBLE 13 LOGIC 3",
        "memory": "END INADMISSIBLE 13 MEMORY 0 01 000"}


def deck_of(end: str, faults: list[str]) -> str:
    """A deck that comes to this end, with more faults."""
    script = [*faults, *MORE_FAULTS.get(end, [])]
    return IMAGE.format(last=LASTS.get(end, LASTS["done"])) + "".join(f"{it}\n" for it in ["FAULTS"] * bool(script) + script) + RUN


def try_case(page: Browser, name: str, case: Case) -> None:
    """Each page says what is due, and no claim beside it."""
    notice, end, lab = page.run(f"SAYS({json.dumps(case)})")
    claim, kind = due(case)
    for place, words in (("exhibit", notice), ("end", end)):
        expect(f"claims of {name}: {place}", [it for it in (WHOLE, LOST) if it in words], [claim] if claim else [])
        always = "FAULTS" in case["deck"] and claim == WHOLE and case["form"] == "FORM YES\n"
        expect(f"claims of {name}: {place}: always", ALWAYS in words, always)
    expect(f"claims of {name}: lab", lab, kind)


def try_ends(page: Browser, worker: str) -> None:
    """Each kind of end, with a lost word and without."""
    for end, line in ENDS.items():
        for faults in NO_WORD, LOST_WORD:
            case = answers(worker, deck_of(end, faults))
            rows = case["report"].split("\n")
            expect(f"claims: a deck of {line}, lost {bool(faults)}", [rows[1], "MEM 0 01 002 ?" in rows], [line, bool(faults)])
            try_case(page, f"{line}, lost {bool(faults)}", case)
            if end == "done":
                # no device of the program fails; the texts of another one may say so
                try_case(page, f"a device that failed, lost {bool(faults)}", {**case, "report": case["report"].replace(line, "END DEVICE 14 017", 1)})


# ---- decks that are drawn

def drawn_fault(draw: random.Random) -> str:
    """A fault line of any kind in the run."""
    first = draw.randrange(30)
    last = first + draw.choice([0, 0, 2, 9, 2_000_000])
    copy = f"{draw.randint(1, 7)} {draw.randint(1, 3)} {first} {last}"
    place = f"{draw.randrange(2)} 0 {draw.choice(['00 004', '01 000', '01 001', '01 002'])} {first}"
    bits = f"{draw.choice([1, 2, 3, 0o100]):o}"
    return draw.choice([f"FLIP {copy} 0 1", f"LAG {copy}", f"DEAF {copy}", f"DAMAGE {place} {bits}", f"DAMAGE {place} {bits}",
                        f"STICK {place} {last} {bits} 0", f"DEAD {draw.randrange(2)} 0 {first} {last}"])


def try_drawn(page: Browser, worker: str, count: int) -> None:
    """Decks with up to five faults; all kinds of claims come among them."""
    kinds: dict[str, int] = {}
    for number in range(count):
        draw = random.Random(number)
        faults = [drawn_fault(draw) for _ in range(draw.choice([0, 1, 1, 2, 3, 4, 5]))]
        case = answers(worker, deck_of(draw.choice(["done", "done", *LASTS]), faults))
        try_case(page, f"drawn deck {number}", case)
        kinds[due(case)[1]] = kinds.get(due(case)[1], 0) + 1
    print(f"view: claims of {count} drawn decks by what is due: " + ", ".join(f"{kind} {many}" for kind, many in sorted(kinds.items())))
    expect("claims: kinds among the drawn decks", sorted(kinds), ["always", "healthy", "logic", "memory", "so-far", "this-time"])


def try_claims(page: Browser, worker: str, is_whole: bool) -> None:
    """All of it, on a page that has the lab's judgement too."""
    page.open(PAGE)
    for path in LAB_SCRIPTS:
        page.run(f"{(HERE / path).read_text()}; 0")
    page.run(f"globalThis.SAYS = {SAYS}; 0")
    try_ends(page, worker)
    try_drawn(page, worker, DRAWN_DECKS if is_whole else FEW_DECKS)
    expect("claims: faults of the page", page.faults(), [])
