"""What `run` answers of the plain machine alone: the decks of three groups by `run --plain`."""
from . import Case, delays, devices, instructions

TITLE = "the plain machine"
SHOWS = """The decks of the groups instructions, delays and devices that `run` answers, by `run --plain`: the same but for the first line and
what the redundancy did. An emulator of the plain machine alone is tried by these (`conformance/run --plain`)."""

CASES = [Case(case.name, case.shows, "run --plain", case.given, case.status)
         for group in (instructions, delays, devices) for case in group.CASES if case.words == ["run"] and case.status in (0, 6)]
