"""What texts of lvdc say, read anew for the tests of the page, in the words and forms that the page has to show."""
import itertools
from dataclasses import dataclass, field
from typing import Any

MANY = {1: "timers", 2: "locators", 3: "decoders", 4: "selectors", 5: "accumulators", 6: "multipliers", 7: "copies of the exchange"}
LANES = [f"copy-{module}-{copy}" for module in range(1, 8) for copy in range(1, 4)] + ["memory-0", "memory-1", "ports", "end"]
COPY_FAULTS = ["FLIP", "FORCE", "LAG", "DEAF"]
SECTIONS = ["START", "SIMPLEX", "PORTS", "FAULTS", "ORDER", "RUN", "DEBUG", "CAMPAIGN"]
REGISTERS = ["TIMES", "PLACE", "DATA", "DUP", "A", "PQ", "SAVER"]
WORDS = ["A", "PQ", "SAVER"]
VERDICTS = ["ADMISSIBLE", "LOGIC", "MEMORY"]


def end_sentence(line: str, times: str) -> str:
    """The sentence for an END line."""
    match line.split():
        case ["END", "DONE"]:
            return f"The run came to its end, after {3 * int(times)} steps."
        case ["END", "DEVICE", step, port]:
            return f"At step {step} the device at port {port} failed. The run ends there."
        case ["END", "STOPPED", step, "SHIFT"]:
            return f"At step {step} the program came to a shift that has no meaning. That stops the machine."
        case ["END", "STOPPED", step, "EXM"]:
            return f"At step {step} the program came to EXM, an instruction that stops this machine."
        case ["END", "STOPPED", step, "MEMORY", *place]:
            return f"At step {step} a read of the word at {' '.join(place)} found no good copy of it. The machine stops there."
        case ["END", "INADMISSIBLE", step, "LOGIC", module]:
            return (f"At step {step} two of the three {MANY[int(module)]} were wrong. "
                    "The run ends there: from then on the vote can't be relied on.")
        case ["END", "INADMISSIBLE", step, "MEMORY", *place]:
            return (f"At step {step} the word at {' '.join(place)} was to be read, and it can't be recovered any more. "
                    "The run ends there: what the twins still show of it can't be relied on.")
    raise ValueError(line)


def decimal(word: str) -> str:
    """A word as a signed number, as the page writes it."""
    value = int(word, 8)
    return f"{value - 2 ** 26 if value >= 2 ** 25 else value:,}".replace("-", "−")


def sections(deck: str) -> dict[str, list[list[str]]]:
    """The words of the lines of a deck after its program, by the section that they stand in."""
    lines = [it.split() for it in deck.split("\n") if not it.startswith("*")]
    found: dict[str, list[list[str]]] = {}
    section = ""
    for words in lines[lines.index(["END"]) + 1:]:
        if words and words[0] in SECTIONS and section != "DEBUG":
            section = words[0]
        elif words:
            found.setdefault(section, []).append(words)
    return found


def faults(deck: str) -> list[list[str]]:
    """The words of the fault lines."""
    return sections(deck).get("FAULTS", [])


def copy_faults(deck: str) -> int:
    """How many fault lines name a copy."""
    return sum(words[0] in COPY_FAULTS for words in faults(deck))


def lanes(deck: str, report: list[str]) -> dict[str, int]:
    """How many marks each lane has: fault lines, unplug lines, repairs, exchanges, the end."""
    found = dict.fromkeys(LANES, 0)
    for words in faults(deck):
        found[f"copy-{words[1]}-{words[2]}" if words[0] in COPY_FAULTS else f"memory-{words[1]}"] += 1
    found["ports"] += sum(words[0] == "UNPLUG" for words in sections(deck).get("PORTS", []))
    for words in map(str.split, report):
        if words[0] == "REPAIR":
            found[f"memory-{words[5]}"] += 1
        elif words[0] in ("IN", "OUT"):
            found["ports"] += 1
        elif words[0] == "END":
            found["end"] += 1
    return found


def place_of(words: list[str]) -> str:
    """The place that a fault line of a memory names."""
    if words[0] == "DEAD":
        return f"all of pair {words[2]}"
    return f"{words[2]} {words[3].zfill(2)} {words[4].zfill(3)}"


def places(deck: str, report: list[str]) -> list[str]:
    """The places of the memories at which anything happened, where every pair is duplex."""
    told = told_of(report)
    named = {place_of(words) for words in faults(deck) if words[0] not in COPY_FAULTS}
    return sorted(named | {it[1] for it in told["repairs"]} | set(told["lost"]))


def exchange(words: list[str]) -> list[str]:
    """A line IN or OUT."""
    return [words[1], "read" if words[0] == "IN" else "written", words[2], words[3], decimal(words[3])]


def repair(words: list[str]) -> list[str]:
    """A line REPAIR."""
    return [words[1], " ".join(words[2:5]), words[5], "the other from then on" if words[6:] else "as before"]


def told_of(report: list[str]) -> dict[str, Any]:
    """What the lines of a report say."""
    rows = [it.split() for it in report]
    registers = [it.split(" ", 1) for it in report if it.split()[0] in REGISTERS]
    words = [(" ".join(it[1:4]), it[4]) for it in rows if it[0] == "MEM"]
    return {
        "end": end_sentence(report[1], next(value for name, value in registers if name == "TIMES")),
        "asWritten": report[1],
        "registers": [[name, value, decimal(value) if name in WORDS else ""] for name, value in registers],
        "log": [exchange(it) for it in rows if it[0] in ("IN", "OUT")],
        "memory": [[address, word, decimal(word)] for address, word in words if word != "?"],
        "lost": [address for address, word in words if word == "?"],
        "counts": [it[1:] for it in rows if it[0] == "WRONG"],
        "repairs": [repair(it) for it in rows if it[0] == "REPAIR"],
        "unread": 0,
    }


def answers(session: str) -> list[list[str]]:
    """The commands of a session, each with its answer."""
    return [it.rstrip("\n").split("\n", 1) for it in session.split("\n> ")[1:]]


def cells(rows: list[str]) -> list[list[str]]:
    """The marks of a campaign by verdict: the verdict, whether the program comes to the same, and the name."""
    words = [it.split() for it in rows]
    return sorted(([it[2], str(it[-1] == "SAME").lower(), it[1]] for it in words), key=lambda it: VERDICTS.index(it[0]))


# ---- traces

@dataclass
class Step:
    """What a trace says of a step: the latch PLACE as voted, the words of its exchange and its repair, the copies that the script makes
    wrong, and those that differ."""

    number: int
    place: str
    exchange: list[str] = field(default_factory=list)
    repair: list[str] = field(default_factory=list)
    wrong: set[str] = field(default_factory=set)
    differing: set[str] = field(default_factory=set)


def steps(trace: str) -> list[Step]:
    """The steps of a trace."""
    found: list[Step] = []
    for words in map(str.split, trace.split("\n")[1:-2]):
        match words:
            case ["STEP", number]:
                found.append(Step(int(number), found[-1].place if found else ""))
            case ["VOTE", "2", latch, _]:
                found[-1].place = latch
            case ["FAULT", module, copy]:
                found[-1].wrong.add(f"{module}-{copy}")
            case ["COPY", module, copy, *_]:
                found[-1].differing.add(f"{module}-{copy}")
            case ["REPAIR", *_]:
                found[-1].repair = words
            case ["FETCH" | "OPERAND" | "STORE" | "IN" | "OUT", *_]:
                found[-1].exchange = words
    return found


def lamps(told: list[Step], at: int) -> dict[str, str]:
    """What the lamps show that aren't well."""
    before = told[at - 1].differing if at else set()
    back = {key: "healed" for key in before - told[at].differing - told[at].wrong}
    return back | {key: "hurt" for key in told[at].wrong} | {key: "differed" for key in told[at].differing}


def place(words: list[str]) -> str:
    """The place of an address in a pair."""
    return f"{int(words[0]) % 4} {words[1]} {words[2]}"


def said(step: Step) -> list[str]:
    """What the words of a step's exchange have to name: a number and a port, or of a fetch nothing but that it is told."""
    match step.exchange:
        case [("OPERAND" | "STORE"), *_, word]:
            return [decimal(word)]
        case [("IN" | "OUT"), port, word]:
            return [decimal(word), port]
    return []


# Where the first and the last step stand in a fault line.
STEPS_OF_FAULT = {"DAMAGE": (5, 5), "STICK": (5, 6)}


def acts(words: list[str], step: int) -> bool:
    """Whether a fault line acts in a step."""
    first, last = STEPS_OF_FAULT.get(words[0], (3, 4))
    return int(words[first]) <= step <= int(words[last])


def results(trace: str) -> list[str]:
    """The words that were stored, sent and taken, each with its step."""
    return [" ".join([str(it.number), *it.exchange]) for it in steps(trace) if it.exchange and it.exchange[0] in ("STORE", "IN", "OUT")]


def first_wrong(healthy: str, through: str) -> int | None:
    """The step of the first result that isn't that of a healthy machine."""
    pairs = itertools.zip_longest(results(healthy), results(through), fillvalue="")
    steps_of_pair = [min(int(it.split()[0]) for it in pair if it) for pair in pairs if pair[0] != pair[1]]
    return steps_of_pair[0] if steps_of_pair else None
