"""Every shift pattern."""
from simulation.words import SHIFTS

from . import Case, deck

TITLE = "shifts"
SHOWS = """Each of the 128 shift patterns: five shift A, each other one stops the machine. All are tried on the plain machine, one by one; on the
voted one in a single run, in which two copies of EXCHANGE are kept from stopping and the third shows that it would."""

PLACES = [pattern for pattern in range(1, 128)]


def alone(pattern: int) -> Case:
    """A pattern that has no meaning, on the plain machine."""
    return Case("pattern-%03o" % pattern, "SHF with the pattern %03o stops the machine; A and the place stay." % pattern, "run --plain",
                deck("CLA 000, and then SHF %03o." % (0o200 | pattern), "17000 %05o" % (0o16200 | pattern), "252525251", 5), 6,
                has="END STOPPED 5 SHIFT\nTIMES 2\nPLACE 0 00 0 001\nA 252525251")


def meant(pattern: int, word: str, result: str) -> Case:
    """A pattern that has a meaning, on the plain machine."""
    name = "pattern-%03o-of-%s" % (pattern, "a-negative-word" if word[0] in "23" else "a-word")
    return Case(name, "SHF with the pattern %03o." % pattern, "run --plain",
                deck("CLA 000, and then SHF %03o." % (0o200 | pattern), "17000 %05o" % (0o16200 | pattern), word, 2), has="A " + result)


def all_forced(words: str, shows: str) -> Case:
    """All patterns in one run: INSTR is forced in each phase A, and copies 1 and 2 of EXCHANGE can't stop."""
    faults = ["FORCE 7 1 0 386 0 000000003 000000000", "FORCE 7 2 0 386 0 000000003 000000000"]
    for k, pattern in enumerate(PLACES, 2):
        faults += ["FORCE 3 %d %d %d 0 000017777 %09o" % (copy, 3 * k, 3 * k, 0o16200 | pattern) for copy in (1, 2, 3)]
    name = "every-pattern" + "-step-by-step" * words.startswith("trace")
    return Case(name, shows, words,
                deck("Each time k from 2 on is the shift with the pattern k - 1, by FORCE on all copies of DECODER.", "16200 17000", "252525252",
                     129, faults="\n".join(faults)),
                has="WRONG 7 3 123\nA 252525250" if words.startswith("run") else ())


CASES = [
    *(alone(pattern) for pattern in range(128) if pattern not in SHIFTS),
    meant(0o000, "123456701", "000000000"), meant(0o000, "323456701", "000000000"),
    meant(0o001, "123456701", "051627340"), meant(0o001, "323456701", "351627340"),
    meant(0o002, "123456701", "024713560"), meant(0o002, "323456701", "364713560"),
    meant(0o020, "123456701", "247135602"), meant(0o020, "323456701", "247135602"),
    meant(0o040, "123456701", "116273404"), meant(0o040, "323456701", "116273404"),
    all_forced("run --through", "Copy 3 of EXCHANGE differs in the 123 times whose pattern has no meaning, and A is shifted in the four others."),
    all_forced("trace --through 0 387", "The same step by step: copy 3 of EXCHANGE shows which patterns would stop."),
]
