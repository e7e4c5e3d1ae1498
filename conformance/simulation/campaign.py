"""Campaigns (docs/FORMATS.md, "Campaigns")."""
import re

from .assembler import NAME
from .decks import MOST_EVENTS, Deck, read_deck
from .devices import of_the_program
from .ends import End
from .faults import Event, read_fault
from .lines import BLANKS, LIMIT, Refused, find_end, is_comment, spot, tokens_of
from .plain import Plain
from .voted import Voted

MOST_TIMES, MOST_SCRIPTS = 10_000, 256

Script = tuple[str, list[Event]]


def find_campaign(lines: list[str]) -> int:
    """The index of the line CAMPAIGN, or how many lines there are."""
    begin = next((k for k, line in enumerate(lines) if not is_comment(line)), len(lines))
    end = find_end(lines, begin)
    if end is None:
        return len(lines)
    found = (k for k in range(end + 1, len(lines)) if lines[k].strip(BLANKS) == "CAMPAIGN" and len(lines[k]) <= LIMIT)
    return next(found, len(lines))


def read_campaign(lines: list[str]) -> tuple[Deck, list[Script]]:
    """The deck before CAMPAIGN, and (name, script) of each script."""
    at = find_campaign(lines)
    deck = read_deck(lines[:at], of_the_program())
    barred = [deck.headings[word] for word in ("PORTS", "FAULTS", "DEBUG") if word in deck.headings]
    if barred:
        raise Refused("BadSection", min(barred))
    if deck.count > MOST_TIMES:
        raise Refused("CountTooLarge", deck.headings["RUN"])
    if at == len(lines):
        raise Refused("BadSection", len(lines) + 1)
    return deck, read_scripts(lines, at + 1, MOST_SCRIPTS)


def read_scripts(lines: list[str], first: int, most: int) -> list[Script]:
    """(name, script) of each script in the lines from an index on, at most so many."""
    scripts: dict[str, list[Event]] = {}
    events = 0
    for k in range(first, len(lines)):
        if len(lines[k]) > LIMIT:
            raise Refused("BadLine", k + 1)
        if is_comment(lines[k]):
            continue
        events += read_line(scripts, lines[k], k + 1, events, most)
    return list(scripts.items())


def read_line(scripts: dict[str, list[Event]], line: str, number: int, events: int, most: int) -> int:
    """Reads a line after CAMPAIGN. Answers how many events it is."""
    tokens = tokens_of(line)
    if tokens[0] == "SCRIPT":
        if len(tokens) != 2 or not re.fullmatch(NAME, tokens[1]) or tokens[1] in scripts:
            raise Refused("BadLine", number)
        if len(scripts) == most:
            raise Refused("TooManyScripts", number)
        scripts[tokens[1]] = []
        return 0
    event = read_fault(line)
    if event is None or not scripts:
        raise Refused("BadLine", number)
    if events == MOST_EVENTS:
        raise Refused("TooManyEvents", number)
    scripts[next(reversed(scripts))].append(event)
    return 1


def is_same(voted: Voted, plain: Plain) -> bool:
    """Has the voted machine come to what the plain one has come to?"""
    words = set(voted.words) | set(plain.memory)
    return (voted.end == plain.end and voted.times == plain.times and voted.registers() == plain.registers()
            and voted.log == plain.log and all(voted.intended(at) == plain.intended(at) for at in words))


def verdict(end: End | None) -> str:
    """The verdict of a script whose guarded run ended so."""
    if end is None or end.word != "INADMISSIBLE":
        return "ADMISSIBLE"
    return "%s %d %s" % (end.cause, end.step, spot(end.at) if end.cause == "MEMORY" else end.module)


def campaign(lines: list[str]) -> str:
    """The rows of a campaign and their total."""
    deck, scripts = read_campaign(lines)
    plain = Plain(deck.opening, [])
    plain.run(deck.count)
    rows, admissible, same = [], 0, 0
    for name, script in scripts:
        guarded = Voted(deck.opening, script, [], True)
        guarded.run(deck.count)
        through = Voted(deck.opening, script, [], False)
        through.run(deck.count)
        told, is_like = verdict(guarded.end), is_same(through, plain)
        rows.append("SCRIPT %s %s %s" % (name, told, "SAME" if is_like else "DIFFERS"))
        admissible += told == "ADMISSIBLE"
        same += is_like
    rows.append("CAMPAIGN %d ADMISSIBLE %d SAME %d" % (len(scripts), admissible, same))
    return "".join(row + "\n" for row in rows)
