"""Hurts two copies of one module in the lab, at the step at which it opens: each pair of copies, in each of the ways that the page offers. Another
word goes in or out, or the run ends otherwise, or something else stands there in the end, or the page says why not; by the texts of the worker."""
import itertools

import lvdc
from lab_driven import Visitor, first_words, told_words
from lab_running import Lab, Tally
from lvdc.workers import Worker

KINDS = ["FLIP", "LAG", "DEAF"]
PAIRS = [(module, pair) for module in range(1, 8) for pair in itertools.combinations((1, 2, 3), 2)]
STEPS = 1500
# what is said where the run ends otherwise, or something else stands there in the end
ENDS, HOLDS = "It would have ended otherwise", "in the end this is wrong"


def seen(healthy: lvdc.Report, other: lvdc.Report) -> str:
    """What is seen of a run beside that of a healthy machine."""
    if healthy.exchanges != other.exchanges:
        return "words"
    if healthy.end != other.end:
        return "end"
    return "nothing" if (healthy.registers, healthy.words) == (other.registers, other.words) else "inside"


def reason(worker: Worker, deck: str, step: int) -> str:
    """Why nothing is seen of two lies, in the words of the page."""
    other = lvdc.trace(deck, step, STEPS, through=True, worker=worker)
    healthy = lvdc.trace(lvdc.Deck.read(deck).with_faults(), step, STEPS, worker=worker)
    misled = [it.number for it in other.diff(healthy) if it.votes]
    if not misled:
        return "no lie had two votes" if any(it.differing for it in other) else "nobody lied"
    return f"replaced by step {misled[-1] + 1}," if misled[-1] < other[-1].number else "still stands there"


def try_pair(page: Visitor, tally: Tally, worker: Worker, name: str, step: int) -> str:
    """What two hurt copies come to, as the page has it; it agrees with the texts."""
    page.press("#outcome button")
    says = page.says()
    healthy = lvdc.run(lvdc.Deck.read(says["deck"]).with_faults(), worker=worker)
    other = lvdc.run(says["deck"], through=True, worker=worker)
    kind = seen(healthy, other)
    if kind == "words":
        tally.expect(f"{name}: the first wrong word", told_words(says["marked"]), first_words(healthy, other))
    else:
        due = {"end": ENDS, "inside": HOLDS}.get(kind) or reason(worker, says["deck"], step)
        tally.expect(f"{name}: what is said: {due}", due in says["parting"], True)
    return kind


def try_pairs(lab: Lab, tally: Tally, worker: Worker) -> None:
    """All of it. Whoever lies, which is what a press does at first, is seen to do so."""
    with Visitor() as page:
        page.size(1366, 768)
        page.visit(lab.address)
        page.wait()
        try_all_pairs(page, tally, worker)


def try_all_pairs(page: Visitor, tally: Tally, worker: Worker) -> None:
    """Each pair, in each way."""
    found: dict[str, list[str]] = {}
    step = page.says()["step"]
    for kind, (module, copies) in itertools.product(KINDS, PAIRS):
        page.press("#again")
        page.go_to(step)
        page.set("kind", kind, "change")
        for copy in copies:
            page.press_lamp(module, copy)
        name = f"{kind}, copies {copies} of module {module}"
        tally.expect(f"{name}: its end", page.says()["kind"], "logic")
        found.setdefault(try_pair(page, tally, worker, name, step), []).append(name)
    print("lab: pairs at the opening step by what is seen: " + ", ".join(f"{kind} {len(names)}" for kind, names in sorted(found.items())), flush=True)
    hidden = [it for kind in ("inside", "nothing") for it in found.get(kind, []) if it.startswith("FLIP")]
    tally.expect("pairs of lies at the opening step that send nothing else", hidden, [])
