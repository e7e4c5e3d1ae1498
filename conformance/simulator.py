#!/usr/bin/env python3
"""A simulator of the same machine, with the same command lines and texts, and the requests `trace`, `form` and
`study` of the worker. It is
written from docs/MACHINE.md and docs/FORMATS.md and apart from the programs.

It is slow and proves nothing. The wanted texts of the cases come from it where they don't come from worked examples, so that no
text comes from the program that the cases try. usage: simulator.py WORDS.. <INPUT"""
import re
import sys
from collections.abc import Callable, Sequence

sys.dont_write_bytecode = True

from simulation.account import Account
from simulation.assembler import assemble, listing
from simulation.campaign import campaign
from simulation.decks import Deck, read_deck, soak_deck
from simulation.devices import Device, of_the_program, supplied
from simulation.form import first_unmet
from simulation.lines import Refused, lines_of, print_image
from simulation.macros import expansion, image_of_expansion
from simulation.plain import Plain
from simulation.report import Session, front, report, soak_text, status_of, text_of
from simulation.saved import begins_saved, print_saved, read_saved
from simulation.study import study
from simulation.trace import trace
from simulation.uplink import uplink
from simulation.voted import Voted

USAGE = """usage: lvdc run [--plain | --through]
       lvdc asm [--image]
       lvdc debug
       lvdc soak NUMBER
       lvdc save NUMBER
       lvdc resume
       lvdc campaign
       lvdc uplink
       lvdc macro [--image]
"""
WORKER_USAGE = """usage: lvdc-worker
requests: the commands of lvdc
          trace [--through] FIRST COUNT
          form
          study
"""
REQUESTS = [["trace"], ["form"], ["study"]]
MOST_BYTES, MOST_SAVED_BYTES = 1_048_576, 134_217_728

# a status and a text
Answer = tuple[int, str]


def opened(lines: list[str], debugging: bool = False) -> tuple[Deck, list[Device]]:
    """A deck, and the program's devices with the words of its TAPE lines."""
    devices = of_the_program()
    deck = read_deck(lines, devices, debugging)
    return deck, supplied(devices, deck.supplies)


def run_plain(lines: list[str]) -> Answer:
    """run --plain"""
    deck, devices = opened(lines)
    plain = Plain(deck.opening, devices)
    plain.run(deck.count)
    return status_of(plain), front("LVDC PLAIN", plain)


def run_through(lines: list[str]) -> Answer:
    """run --through"""
    deck, devices = opened(lines)
    machine = Voted(deck.opening, deck.script, devices, False)
    machine.run(deck.count)
    return status_of(machine), report("LVDC THROUGH", machine)


def held(devices: Sequence[Device]) -> list[tuple[int, list[int]]]:
    """The words that the devices hold, by their ports."""
    return [(device.port, device.words) for device in devices]


def run_guarded(lines: list[str]) -> Answer:
    """The report of a guarded run. All but its last two parts is found twice: by the votes, and by the plain run and the script."""
    deck, devices = opened(lines)
    machine = Voted(deck.opening, deck.script, devices, True)
    machine.run(deck.count)
    account = Account(deck.opening, deck.script, opened(lines)[1])
    account.run(deck.count)
    text = report("LVDC RUN", machine)
    assert text.startswith(front("LVDC RUN", account)), "the votes come to another report than the plain run and the script"
    assert held(devices) == held(account.plain.devices), "the devices hold something else"
    return status_of(machine), text


def debugged(lines: list[str]) -> Answer:
    """debug"""
    deck, devices = opened(lines, True)
    machine = Voted(deck.opening, deck.script, devices, True)
    text = Session(machine, deck.count).text(deck.commands)
    return status_of(machine), text


def traced(lines: list[str], guarded: bool, first: int, told: int) -> Answer:
    """trace, a request of the worker, over a deck, or guarded over a saved text: the status is that of a run that is cut behind the
    last step asked for."""
    if guarded and begins_saved(lines):
        machine, count = read_saved(lines, of_the_program())
    else:
        deck, devices = opened(lines)
        machine, count = Voted(deck.opening, deck.script, devices, guarded), deck.count
    text = trace(machine, count, first, told)
    return status_of(machine), text


def formed(lines: list[str]) -> Answer:
    """form, a request of the worker: it runs nothing."""
    deck, _ = opened(lines)
    unmet = first_unmet(deck.opening, deck.script, deck.count)
    return 0, "FORM YES\n" if unmet is None else "FORM NO %d\n" % unmet


def soaked(number: int) -> Answer:
    """soak"""
    deck = soak_deck(number)
    machine = Voted(deck.opening, deck.script, of_the_program(), True)
    machine.run(deck.count)
    return status_of(machine), soak_text(number, machine)


def saved(lines: list[str], times: int) -> Answer:
    """save"""
    deck, devices = opened(lines)
    if times > deck.count:
        raise Refused("CountTooLarge", deck.headings["RUN"])
    machine = Voted(deck.opening, deck.script, devices, True)
    machine.run(times)
    if machine.end:
        return status_of(machine), report("LVDC RUN", machine)
    return 0, print_saved(machine, deck)


def resumed(lines: list[str]) -> Answer:
    """resume"""
    machine, count = read_saved(lines, of_the_program())
    machine.run(count)
    return status_of(machine), report("LVDC RUN", machine)


def reader_of(words: list[str]) -> Callable[[list[str]], Answer] | None:
    """What answers these words over the lines of an input: a status and a text. None for words that are no command line."""
    commands: dict[tuple[str, ...], Callable[[list[str]], Answer]] = {
        ("run",): run_guarded,
        ("run", "--through"): run_through,
        ("run", "--plain"): run_plain,
        ("asm",): lambda lines: (0, listing(lines)),
        ("asm", "--image"): lambda lines: (0, print_image(assemble(lines).image())),
        ("debug",): debugged,
        ("resume",): resumed,
        ("campaign",): lambda lines: (0, campaign(lines)),
        ("uplink",): lambda lines: (0, uplink(lines)),
        ("macro",): lambda lines: (0, text_of(expansion(lines).out)),
        ("macro", "--image"): lambda lines: (0, image_of_expansion(lines)),
        ("form",): formed,
        ("study",): lambda lines: (0, study(lines)),
    }
    if len(words) == 2 and words[0] == "save" and re.fullmatch("[0-9]{1,7}", words[1]):
        return lambda lines: saved(lines, int(words[1]))
    window = re.fullmatch(r"trace( --through)? (0|[1-9][0-9]{0,6}) ([1-9][0-9]{0,5})", " ".join(words))
    if window and int(window[2]) <= 3_000_000 and int(window[3]) <= 100_000:
        guarded, first, told = window[1] is None, int(window[2]), int(window[3])
        return lambda lines: traced(lines, guarded, first, told)
    return commands.get(tuple(words))


def answer(words: list[str], text: str) -> Answer:
    """The status and the text that are due for these words and this input; of both texts each character is a byte."""
    if len(words) == 2 and words[0] == "soak" and re.fullmatch("[0-9]{1,10}", words[1]) and int(words[1]) < 2**32:
        return soaked(int(words[1]))
    reader = reader_of(words)
    if reader is None:
        return 1, WORKER_USAGE if words[:1] in REQUESTS else USAGE
    if len(text) > (MOST_SAVED_BYTES if words == ["resume"] else MOST_BYTES):
        return 11, "REFUSED TooLong\n"
    try:
        return reader(lines_of(text))
    except Refused as refused:
        return refused.status, refused.text()


if __name__ == "__main__":
    is_read = reader_of(sys.argv[1:]) is not None
    status, text = answer(sys.argv[1:], sys.stdin.buffer.read().decode("latin-1") if is_read else "")
    sys.stdout.buffer.write(text.encode("latin-1"))
    sys.exit(status)
