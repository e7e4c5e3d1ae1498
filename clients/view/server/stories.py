"""What an exhibit shows beside its deck's own run: the run of a healthy machine, the one through every fault, answers about faults that a
visitor chooses, and the story of a kiosk. Every text is the program's; here it is only chosen what is asked."""
import itertools
from typing import TypeAlias

from lvdc.commands import ask, trace
from lvdc.decks import Deck, Source
from lvdc.ends import Inadmissible
from lvdc.faults import Damage, Fault, Flip
from lvdc.reports import Report
from lvdc.rows import Differs, StudyRow
from lvdc.scripts import Script
from lvdc.steps import MemoryExchange, Step
from lvdc.studies import study
from lvdc.traces import Trace
from lvdc.values import COPIES, MODULES

# what the page is given: texts by their names
Texts: TypeAlias = dict[str, "str | int | list[int] | Texts | None"]

MOST_MOMENTS = 9
MOST_TIMES_ANSWERED = 1000
STEPS_AFTER = 12
ACCUMULATOR, DECODER = 5, 3
MOST_STEPS_TRIED = 40

# The lies that a copy of each module can tell: a latch, and the bits of it that are turned over. A multiplier that is idle can be made to land a
# product. clients/view/page/js/lab/hurts.js has the same.
LIES = {
    1: [(0, 0o1), (0, 0o2), (1, 0o1)], 2: [(0, 0o2000), (0, 0o4000), (0, 0o2000000), (1, 0o2000)],
    3: [(0, 0o1000), (0, 0o2000), (0, 0o4000), (0, 0o1)], 4: [(0, 0o10), (0, 0o400)],
    5: [(0, 0o10), (0, 0o20), (1, 0o10), (0, 0o100), (1, 0o100)],
    6: [(0, 0o100), (3, 0o1), (4, 0o100), (1, 0o6), (1, 0o12), (1, 0o36), (1, 0o62)], 7: [(1, 0o1), (1, 0o3), (0, 0o1)]}
CELL_MASK = 1

# how much of a difference is seen; where there is none, nothing
SEEN = {"PORT": 3, "END": 2}

# a lie: a latch, and the mask of its bits
Lie: TypeAlias = tuple[int, int]


def run_texts(deck: Deck, steps: int, through: bool = False) -> Texts:
    """The report of a run, and the trace of so many of its steps."""
    flags = ["--through"] * through
    return {"report": ask(["run", *flags], deck), "trace": ask(["trace", *flags, "0", str(steps)], deck)}


def listing_of(deck: Deck) -> str | None:
    """What the assembler made of the deck's source, where it has one."""
    return ask(["asm"], deck.program.text) if isinstance(deck.program, Source) else None


def through_texts(deck: Deck, report: str, steps: int) -> Texts | None:
    """The run through every fault, where the judged one ended as inadmissible."""
    return run_texts(deck, steps, True) if isinstance(Report.read(report).end, Inadmissible) else None


# ---- answers

def flip(module: int, copy: int, step: int, lie: Lie) -> Flip:
    """A visitor's fault: a copy tells a lie in one step."""
    return Flip(module, copy, step, step, *lie)


def seen(row: StudyRow) -> int:
    """How much is seen of what a script changed: most, where another word goes out."""
    return SEEN.get(row.outcome.what or "", 1) if isinstance(row.outcome, Differs) else 0


def marks_at(deck: Deck, step: int) -> dict[int, dict[Lie, int]]:
    """Of each module how much is seen of each lie in a step, where two copies tell it."""
    asked = [(module, lie) for module in MODULES for lie in LIES[module]]
    rows = study(deck, [Script((flip(module, 1, step, lie), flip(module, 2, step, lie))) for module, lie in asked], progress=False)
    marks: dict[int, dict[Lie, int]] = {module: {} for module in MODULES}
    for (module, lie), row in zip(asked, rows):
        marks[module][lie] = seen(row)
    return marks


def lies_at(deck: Deck, step: int) -> dict[int, Lie]:
    """Of each module the lie that is seen best in a step; of those that are seen as well the first."""
    return {module: max(marks, key=marks.__getitem__) for module, marks in marks_at(deck, step).items()}


def are_all_seen(deck: Deck, step: int) -> bool:
    """Whether of each module there is a lie by which another word goes out."""
    return all(max(marks.values()) == SEEN["PORT"] for marks in marks_at(deck, step).values())


def scripts_at(deck: Deck, step: int) -> list[Script]:
    """Each copy alone, and then each two, that lie in a step."""
    lies = lies_at(deck, step)
    faults = [flip(module, copy, step, lies[module]) for module in MODULES for copy in COPIES]
    return [Script((it,)) for it in faults] + [Script(it) for it in itertools.combinations(faults, 2)]


def moments_of(told: Trace, chosen: int | None) -> list[int]:
    """The steps at which a visitor may hurt copies: some over the whole run, and the one that the story is about."""
    count = len(told.steps)
    steps = {at * (count - 1) // (MOST_MOMENTS - 1) for at in range(MOST_MOMENTS)} if count > MOST_MOMENTS else set(range(count))
    if chosen is not None and chosen not in steps:
        nearest = min((abs(it - chosen), it) for it in steps)[1]
        steps = steps - {nearest} | {chosen}
    return sorted(steps)


def answers_of(deck: Deck, told: Trace, chosen: int | None) -> Texts | None:
    """The rows of all single and double faults at some steps; none where the run is long."""
    steps = moments_of(told, chosen)
    if deck.count > MOST_TIMES_ANSWERED or not steps:
        return None
    scripts = [script for step in steps for script in scripts_at(deck, step)]
    return {"steps": list(steps), "rows": "".join(f"{it}\n" for it in study(deck, scripts, progress=False))}


def turns_of(deck: Deck, step: int) -> Texts:
    """What happens where a visitor has hurt one or two copies in a step, by the copies: the trace of the step through every fault, and where two
    are of one module, the report of the run through every fault."""
    traces: Texts = {}
    reports: Texts = {}
    for script in scripts_at(deck, step):
        copies = [it for it in script.faults if isinstance(it, Flip)]
        key, hurt = " ".join(f"{it.module}-{it.copy}" for it in copies), deck.with_faults(*copies)
        traces[key] = ask(["trace", "--through", str(step), "1"], hurt)
        if len(copies) > len({it.module for it in copies}):
            reports[key] = ask(["run", "--through"], hurt)
    return {"traces": traces, "reports": reports}


# ---- the story of a kiosk

def changes(step: Step, module: int) -> bool:
    """Whether the votes of a module change in a step after the first time."""
    return step.number > 2 and module in step.votes


def chosen_step(deck: Deck, told: Trace) -> tuple[int, int] | None:
    """The module and the step that the story hurts, which is a visitor's turn too: the accumulator, else the decoder, where it changes and lies of
    all modules are seen; else where it first changes."""
    for module in (ACCUMULATOR, DECODER):
        steps = [it.number for it in told.steps if changes(it, module)][:MOST_STEPS_TRIED]
        if steps:
            return module, next((it for it in steps if are_all_seen(deck, it)), steps[0])
    return None


def damage_of(deck: Deck, told: Trace) -> Damage | None:
    """Damage to a cell of a duplex pair one step before it is read: that of an operand, else that of an instruction."""
    reads = [(it.number, it.exchange) for it in told.steps if isinstance(it.exchange, MemoryExchange) and it.exchange.kind != "STORE"]
    reads.sort(key=lambda it: (it[1].kind != "OPERAND", it[0]))
    for number, exchange in reads:
        address = exchange.address
        if number > 3 and address.bank < 4 and address.bank not in deck.simplex:
            return Damage(0, address.bank, address.sector, address.location, number - 1, CELL_MASK)
    return None


def chapter(deck: Deck, faults: list[Fault], step: int) -> Texts:
    """The deck with these faults, its report, its trace up to some steps after one of them, and that through every fault."""
    hurt = deck.with_faults(*faults)
    count = str(step + STEPS_AFTER)
    return {"deck": str(hurt), "step": step, "report": ask(["run"], hurt), "trace": ask(["trace", "0", count], hurt),
            "through": ask(["trace", "--through", "0", count], hurt)}


def story_of(deck: Deck, told: Trace) -> Texts | None:
    """A wrong copy, two wrong copies, a damaged cell; none where the program is too short for it."""
    chosen, damage = chosen_step(deck, told), damage_of(deck, told)
    if chosen is None or damage is None:
        return None
    module, step = chosen
    lie = lies_at(deck, step)[module]
    one, other = flip(module, 1, step, lie), flip(module, 2, step, lie)
    return {"one": chapter(deck, [other], step), "two": chapter(deck, [one, other], step), "cell": chapter(deck, [damage], damage.step), "step": step}


def exhibit_of(name: str, text: str, steps: int, answers: bool) -> Texts:
    """All texts of an exhibit of a deck: as many steps of it as are asked for, with answers or without."""
    deck = Deck.read(text)
    report = ask(["run"], text)
    healthy = deck.with_faults()
    told = trace(healthy, 0, steps)
    story = story_of(healthy, told)
    step = story["step"] if story else None
    if story and answers and isinstance(step, int):
        story["turns"] = turns_of(healthy, step)
    return {
        "name": name, "deck": text, "report": report, "trace": ask(["trace", "0", str(steps)], text), "listing": listing_of(deck),
        "form": ask(["form"], text), "healthy": run_texts(healthy, steps), "through": through_texts(deck, report, steps),
        "answers": answers_of(healthy, told, step if isinstance(step, int) else None) if answers else None, "story": story}
