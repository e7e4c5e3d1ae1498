"""Inputs that are drawn at random: decks with faults of every kind, sources, saved states, campaigns, messages, and cases of catalogue/
that are changed by a line or a byte or a few. A number draws the same inputs again.

Each file draws one kind of text, on top of those before it: numbers, fault lines (`scripts`), programs, sources, decks, the other
`texts`, and what is changed (`changing`)."""
import functools
import importlib
import re
from collections.abc import Iterator, Sequence

from catalogue import Case
from simulator import answer

from .changing import Changing
from .decks import MOST_OF_A_CAMPAIGN, MOST_TIMES, text_of

GROUPS = ("instructions delays modules faults memory devices refusals images sources listings debugger saved_runs campaigns uplinks"
          " macros usage").split()
WORKER_GROUPS = ["traces", "forms", "studies"]
LONG = 20_000  # bytes

# words and an input
Input = tuple[list[str], str]


class Draw(Changing):
    """Draws words of a command line, and an input for them."""

    def words_of(self, command: str) -> list[str]:
        """The words of a command, with the numbers of a trace."""
        if command != "trace":
            return command.split()
        first = self.choice([0, 0, 0, self.randrange(12), self.randrange(12), self.randrange(200)])
        return ["trace", *["--through"] * self.chance(0.5), str(first), str(self.choice([1, 2, 3, 9, 30, 60, 100_000]))]

    def drawn(self, words: list[str]) -> str:
        """An input for these words."""
        command = words[0] if words else ""
        if command in ("asm", "macro"):
            if command == "macro" and self.chance(0.6):
                return text_of(self.source_of_calls())
            return text_of(self.with_macros(self.source()) if command == "macro" else self.source())
        if command in ("campaign", "study", "uplink", "resume"):
            return {"campaign": self.campaign, "study": self.study, "uplink": self.uplink, "resume": self.saved}[command]()
        if command == "form" and self.chance(0.8):
            return self.formed()
        return self.session() if command == "debug" else self.deck()

    def at_a_limit(self, of_a_worker: bool) -> Input:
        """Words and an input that is as large as it may be, or larger."""
        scripts = self.choice(["campaign", "campaign", "study"]) if of_a_worker else "campaign"
        how = self.randrange(15)
        if how < 4:
            return ["run"], self.stopping_deck(MOST_TIMES)
        if how < 8:
            return ["campaign"], self.stopping_deck(MOST_OF_A_CAMPAIGN) + "CAMPAIGN\n" * self.chance(0.6)
        if how < 11:
            return [scripts], self.many_times() if scripts == "study" else self.many_scripts()
        if how < 14:
            return ["macro"], text_of(self.many_calls())
        case = self.choice(long_cases(of_a_worker))
        return case.words, "\n".join(self.changed_lines(case.given.split("\n")))


# How often each is drawn, of all that are.
SHARES = {"run": 3, "run --through": 3, "run --plain": 6, "debug": 3, "save 2": 1, "save 1": 1, "asm": 4, "asm --image": 3, "resume": 6,
          "campaign": 3, "uplink": 2, "macro": 1, "macro --image": 2}
COMMANDS = [command for command, share in SHARES.items() for _ in range(share)]
REQUESTS = ["trace"] * 4 + ["form"] * 4 + ["study"] * 5
OTHER_WORDS = ("run run,run --plain --through,asm --plain,macro --plain,resume 2,save,save -1,save 0000002,save 00000002,soak,soak 4294967296"
               ",soak 00000000001,campaign --through,uplink 1,debug debug").split(",")
OTHER_REQUESTS = "trace,trace 0,trace 00 1,trace 0 0,trace 3000001 1,trace 0 100001,trace --plain 0 1,form 1,form --through".split(",")


def alone(draw: Draw, count: int, words: list[str]) -> Iterator[Input]:
    """So many inputs for these words; `trace` alone gets its numbers."""
    while count:
        text = draw.drawn(words)
        text = draw.changed(text) if draw.chance(0.15) else text
        if not is_slow(text):
            yield draw.words_of(" ".join(words)), text
            count -= 1


def cases_of(groups: Sequence[str]) -> list[Case]:
    """The cases of these groups but for soak runs."""
    modules = [importlib.import_module("catalogue." + group) for group in groups]
    return [case for module in modules for case in module.CASES if case.words[:1] != ["soak"]]


@functools.cache
def long_cases(of_a_worker: bool) -> list[Case]:
    """The cases of long inputs."""
    return [case for case in cases_of(GROUPS + WORKER_GROUPS * of_a_worker) if len(case.given) >= LONG]


def is_slow(text: str) -> bool:
    """May a text that was changed ask for a run of many times? The simulator would take long."""
    return any(1000 <= int(found) <= 1_000_000 for found in re.findall(r"(?m)^[ \t]*(?:RUN|COUNT)[ \t]+([0-9]{4,9})", text))


def inputs(draw: Draw, count: int, of_a_worker: bool = False) -> Iterator[Input]:
    """So many pairs of words and an input; requests of a worker alone among them where that is wanted."""
    cases = [case for case in cases_of(GROUPS + WORKER_GROUPS * of_a_worker) if len(case.given) < LONG]
    commands, others = COMMANDS + REQUESTS * of_a_worker, OTHER_WORDS + OTHER_REQUESTS * of_a_worker
    waiting = draw.sample(cases, len(cases))
    while count:
        is_at_a_limit = draw.chance(0.02)
        if is_at_a_limit:
            words, text = draw.at_a_limit(of_a_worker)
        elif draw.chance(0.45):
            waiting = waiting or draw.sample(cases, len(cases))
            case = waiting.pop()
            words, text = case.words, draw.changed(case.given)
        else:
            words = draw.words_of(draw.choice(commands))
            text = draw.drawn(words if draw.chance(0.97) else draw.choice(commands).split())
            if draw.chance(0.5 if words[0] == "resume" else 0.25 if words[0] in ("macro", "campaign", "study") else 0.12):
                text = draw.changed(text)
        if is_slow(text) and not is_at_a_limit:
            continue
        words = draw.choice(others).split() if draw.chance(0.02) else words
        yield words, text
        count -= 1
        if words[:1] == ["save"] and count:
            status, saved = answer(words, text)
            if saved.startswith("LVDC SAVE"):
                yield ["resume"], draw.changed(saved) if draw.chance(0.5) else saved
                count -= 1
