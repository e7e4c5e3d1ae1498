"""The rules on which cases rest. docs/MACHINE.md says of each whether it was published or is this project's profile."""
import re
from collections.abc import Sequence
from typing import NamedTuple


class Rule(NamedTuple):
    """A rule: its label, and what it says. A form is how things are written, which a program may translate."""
    label: str
    says: str
    is_form: bool = False


RULES = {
    "two's-complement": Rule("published", "A word has 26 bits in two's complement."),
    "two-syllables": Rule("published", "A word is two syllables of 13 bits, each with one parity bit."),
    "module": Rule("published", "A module has 4,096 words in sixteen sectors of 256; there are at most eight."),
    "duplex": Rule("published", "In duplex use two modules hold the same words."),
    "residual-sector": Rule("published", "One operand bit chooses sector 17 in place of the data sector."),
    "hop-constant": Rule("published", "A HOP constant names the next instruction's module, sector, syllable and location, and the data place."),
    "voters": Rule("published", "The logic is seven modules in three copies each, with voters between them."),
    "repair": Rule("published", "On a parity error the word is taken from the other module, and rewritten."),
    "layout": Rule("profile", "Where bits, codes and fields stand; the start constant.", True),
    "texts": Rule("profile", "Command lines, decks, images, reports and their refusals.", True),
    "effects": Rule("profile", "What each of the eighteen instructions does, SUB, RSU, HOP and the saver among them."),
    "operands": Rule("profile", "775 is PQ, 776 and 777 take the saver of STO."),
    "shifts": Rule("profile", "Five shift patterns; any other one stops the machine."),
    "stops": Rule("profile", "EXM and a shift without meaning stop the machine, with their step."),
    "delays": Rule("profile", "When products and quotients land, and what MPH holds."),
    "results": Rule("profile", "Products and quotients, bit by bit."),
    "ports": Rule("profile", "Ports, the four kinds of devices, the log."),
    "steps": Rule("profile", "Three steps an instruction time, and what each exchanges."),
    "latches": Rule("profile", "The latches of the seven modules, and what each takes in each phase."),
    "copies": Rule("profile", "How copies latch and differ, and what a fault does to one."),
    "twins": Rule("profile", "Which twin a read takes, what switches, what is stored where."),
    "simplex": Rule("profile", "Pairs whose modules hold words of their own."),
    "admission": Rule("profile", "Which steps are admissible, and which words are told."),
    "sources": Rule("profile", "The assembler's language, placement and listing.", True),
    "macros": Rule("profile", "Macros and their expansion.", True),
    "sessions": Rule("profile", "The debugger's commands.", True),
    "saved-texts": Rule("profile", "Saved texts and what goes on from them."),
    "scripts": Rule("profile", "Campaigns, forms and studies: what became of each script."),
    "messages": Rule("profile", "Messages of an uplink."),
    "traces": Rule("profile", "The text of each step."),
}

# what the cases of a group rest on, where nothing else is said
OF_GROUP = {
    "instructions": "effects operands", "delays": "delays results effects", "devices": "ports effects", "plain": "effects delays results ports",
    "programs": "effects operands delays results steps", "shifts": "shifts stops", "banks": "effects simplex twins admission",
    "limits": "", "long-runs": "effects ports copies twins admission", "states": "latches copies steps",
    "modules": "latches steps", "faults": "copies admission", "meetings": "copies twins admission", "memory": "twins admission",
    "refusals": "", "deck-lines": "", "images": "", "sources": "sources",
    "listings": "sources", "debugger": "sessions", "saved-runs": "saved-texts admission", "saved-lines": "saved-texts",
    "campaigns": "scripts admission", "uplinks": "messages", "macros": "macros", "usage": "", "traces": "traces steps latches copies",
    "saved-traces": "traces saved-texts steps latches copies admission", "forms": "scripts",
    "studies": "scripts copies admission",
}

# what rests on published rules alone, beside the forms
PUBLISHED = {
    "two's-complement": "instructions/the-start-without-a-time instructions/a-sum-wraps-at-the-sign instructions/a-sum-on-the-plain-machine"
                        " instructions/sums-are-modulo-2-to-the-26",
    "two-syllables": "instructions/both-syllables-of-a-word instructions/code-is-data instructions/any-syllable-is-an-instruction",
    "residual-sector": "instructions/the-residual-sector",
    "hop-constant": "instructions/hop-to-another-sector-and-syllable instructions/code-in-sector-17",
}


def rules_of(name: str) -> list[str]:
    """The rules on which a case rests, by its name with its group."""
    forms = ["layout", "texts"]
    published = [rule for rule, names in PUBLISHED.items() if name in names.split()]
    return (published or OF_GROUP[name.split("/", maxsplit=1)[0]].split()) + forms


def is_published(rules: Sequence[str]) -> bool:
    """Are all of these rules published, but for forms?"""
    substance = [RULES[rule] for rule in rules if not RULES[rule].is_form]
    return bool(substance) and all(rule.label == "published" for rule in substance)


# ---- what a program needs to take a case

FEATURES = {
    "source": "(?m)^[ \t]*SOURCE[ \t\r]*$", "image-2": "(?m)^LVDC 2\r?$", "simplex": "(?m)^[ \t]*SIMPLEX ", "ports": "(?m)^[ \t]*PORTS[ \t\r]*$",
    "faults": "(?m)^[ \t]*(FLIP|FORCE|LAG|DEAF|DAMAGE|STICK|DEAD) ", "order": "(?m)^[ \t]*ORDER[ \t\r]*$", "saved": "^LVDC SAVE 1\r?\n",
}
COMMANDS = {
    "run": "run", "plain": "run --plain", "through": "run --through", "asm": "asm", "debug": "debug", "soak": "soak", "save": "save",
    "resume": "resume", "campaign": "campaign", "uplink": "uplink", "macro": "macro", "trace": "trace", "form": "form", "study": "study",
}
OF_WORKER = ("trace", "form", "study")


def command_of(words: Sequence[str], status: int) -> str:
    """The command that a program needs for these words; `usage` where they are no command line."""
    if words and words[0] in OF_WORKER:
        return words[0]  # whose usage text another program hasn't
    if status == 1 or not words:
        return "usage"
    two = " ".join(words[:2])
    return next((name for name, line in COMMANDS.items() if line == two), words[0])


def needs_of(words: Sequence[str], given: str, status: int) -> list[str]:
    """What a program needs to take a case: a command, and features of the input."""
    command = command_of(words, status)
    found = [name for name, form in FEATURES.items() if re.search(form, given)]
    is_text = command in ("asm", "macro") and "source" not in found
    refusal = ["refusal"] if status in (2, 3, 4, 11) else []
    usage = ["usage"] if status == 1 and command != "usage" else []
    return [command, *usage, *["source"] * is_text, *found, *refusal]
