"""Each bank, each pair, each twin."""
from collections.abc import Iterable, Sequence

from . import Case, comment
from .programs import both, image_of

TITLE = "banks"
SHOWS = """Instructions, operands and stores in each of the eight banks; and damage, stuck bits and dead twins in each pair and each twin, beside
pairs of the other sort. An emulator that knows one pair alone differs here."""

ALL = [0, 1, 2, 3]
SECTORS = [1, 5, 12, 15, 0, 7, 10, 3]  # of a bank's code; its words stand in the sector after it
FIRST_WORDS = [0o3777 * (k + 1) * 8191 % 2**25 for k in range(8)]


def constant(module: int, sector: int) -> int:
    """A HOP constant of location 000, whose data sector is the next one."""
    return module << 23 | sector << 19 | 4 | module << 7 | (sector + 1) % 16 << 3 | 2


def chain(modules: Sequence[int], simplex: Sequence[int], words: dict[tuple[int, int, int], int] | None = None) -> str:
    """The image of code in the banks of these modules, from each to the next one; and its start."""
    found: dict[tuple[int, int, int], int] = {}
    banks = [module // 2 + (4 * (module % 2) if module // 2 in simplex else 0) for module in modules]
    for k, bank in enumerate(banks):
        sector, after = SECTORS[bank], (k + 1) % len(banks)
        for location, syllable in enumerate([0o17000, 0o07001, 0o13002, 0o00003]):
            found[bank, sector, location] = syllable
        data = (sector + 1) % 16
        found |= {(bank, data, 0): FIRST_WORDS[k], (bank, data, 1): k + 1, (bank, data, 3): constant(modules[after], SECTORS[banks[after]])}
    return image_of(found | (words or {}), constant(modules[0], SECTORS[banks[0]]), simplex)


def code_place(bank: int) -> str:
    """The place of the first instruction of a bank's code, as fields."""
    return "%o %02o 000" % (bank % 4, SECTORS[bank])


def data_place(bank: int, location: int) -> str:
    """The place of a bank's word, as fields."""
    return "%o %02o %03o" % (bank % 4, (SECTORS[bank] + 1) % 16, location)


def faulted(name: str, shows: str, given: str, faults: Iterable[str], run: int = 32, words: str = "run", status: int = 0, has: str = "") -> Case:
    """A chain with faults."""
    return Case(name, shows, words, given + "FAULTS\n" + "".join(line + "\n" for line in faults) + "RUN %d\n" % run, status, has=has)


DUPLEX, SIMPLEX = chain([0, 3, 4, 7], []), chain([0, 1, 2, 3, 4, 5, 6, 7], ALL)
MASKS = {"DAMAGE": "%d 0000000001", "STICK": "%d 2999999 0000000100 0000000100"}
# in its first round the chain fetches, reads and stores in each of its banks
CELL = {"a-fetch": code_place, "an-operand": lambda bank: data_place(bank, 1)}


def hit(kind: str, twin: int, place: str) -> str:
    """A fault line that hurts a cell of the word there from the start."""
    if kind == "DEAD":
        return "DEAD %d %s 0 2999999" % (twin, place[0])
    return ("%s %d %s " + MASKS[kind]) % (kind, twin, place, 0)


def of_duplex_pairs() -> list[Case]:
    """Each twin of each duplex pair."""
    cases = []
    for kind in ("DAMAGE", "STICK"):
        for what, place in CELL.items():
            for twin in (0, 1):
                faults = [hit(kind, twin, place(pair)) for pair in range(4)]
                cases.append(faulted("%s-of-%s-in-twin-%d" % (kind.lower(), what, twin),
                                     "%s of the cell of %s in twin %d of each pair; the pairs are duplex." % (kind, what.replace("-", " "), twin),
                                     comment("Each pair's cell is repaired when it is read.") + DUPLEX, faults, has="END DONE"))
    for twin in (0, 1):
        for pair in range(4):
            cases.append(faulted("dead-twin-%d-of-pair-%d" % (twin, pair), "A dead twin of one duplex pair; the others are whole.",
                                 comment("Twin %d of pair %d is dead in the second round, from step 48 on." % (twin, pair)) + DUPLEX,
                                 ["DEAD %d %d 48 2999999" % (twin, pair)], has="END DONE"))
    return cases


def of_simplex_pairs() -> list[Case]:
    """Each bank of simplex pairs."""
    cases = []
    for turn, bank in enumerate([0, 4, 1, 5, 2, 6, 3, 7]):
        for way, kind in enumerate(("DAMAGE", "STICK")):
            words, status = [("run", 5), ("run --through", 6)][(bank + way) % 2]
            cases.append(faulted("%s-in-bank-%d" % (kind.lower(), bank), "%s in one bank of eight: a simplex pair has no other twin." % kind,
                                 comment("All pairs are simplex. ADD 001 reads the bank in step %d." % (12 * turn + 4)) + SIMPLEX,
                                 [hit(kind, bank // 4, data_place(bank, 1))], words=words, status=status,
                                 has="%s %d MEMORY %o %s\nTIMES %d" % ("END STOPPED" if status == 6 else "END INADMISSIBLE", 12 * turn + 4, bank,
                                                                     data_place(bank, 1)[2:], 4 * turn + 1)))
        cases.append(faulted("a-store-into-dead-bank-%d" % bank, "A store into a simplex bank that is dead in this step is lost.",
                             comment("STO 002 stores there in step %d." % (12 * turn + 8)) + SIMPLEX,
                             ["DEAD %d %d %d %d" % (bank // 4, bank % 4, 12 * turn + 8, 12 * turn + 8)],
                             words=["run --through", "run"][bank % 2], has="END DONE\nMEM %o %s ?" % (bank, data_place(bank, 2)[2:])))
    return cases


def mixed() -> list[Case]:
    """Simplex pairs beside damaged duplex ones."""
    cases = []
    for pair in ALL:
        others = [other for other in ALL if other != pair]
        faults = [hit("DAMAGE", other % 2, data_place(other, 1)) for other in others]
        faults.append(hit("STICK", 1 - others[0] % 2, data_place(others[0], 1)).replace(" 0 2999999", " 48 2999999"))
        cases.append(faulted("simplex-pair-%d-beside-damaged-ones" % pair, "One pair is simplex; the three others are duplex, and damaged.",
                             comment("The chain goes through both modules of pair %d." % pair)
                             + chain([2 * pair, 2 * pair + 1, *(2 * other + 1 for other in others)], [pair]), faults, 40, has="END DONE"))
        cases.append(faulted("duplex-pair-%d-damaged-beside-simplex-ones" % pair, "Three pairs are simplex; the one that is duplex is damaged.",
                             comment("The chain goes through the eight modules.")
                             + chain([0, 1, 2, 3, 4, 5, 6, 7], others),
                             [hit("DAMAGE", 0, data_place(pair, 1)), hit("DAMAGE", 1, data_place(pair, 0)), hit("DEAD", pair % 2, data_place(pair, 1))
                              .replace("0 2999999", "96 150")], 64, "run --through", has="END DONE"))
    return cases


def far_from_the_start() -> list[Case]:
    """Faults at the corners of a pair."""
    cases = []
    for kind in ("DAMAGE", "STICK"):
        for pair, sector, location in ((0, 0, 255), (3, 15, 0), (1, 8, 128), (2, 7, 127)):
            words = {(0, 0, 0): 0o16000 | 2 * pair << 4 | sector, (0, 0, 1): 0o17000 | location, (0, 0, 2): 0o10002,
                     (pair, sector, location): 0o123454221}
            cases.append(faulted("%s-at-%o-%02o-%03o" % (kind.lower(), pair, sector, location), "%s of one cell, in both twins at other bits." % kind,
                                 comment("CLA reads the cell in step 4.") + image_of(words),
                                 [hit(kind, 0, "%o %02o %03o" % (pair, sector, location)),
                                  ("%s 1 %o %02o %03o " + MASKS[kind]) % (kind, pair, sector, location, 9)], 6,
                                 has="END DONE\nA 123454221"))
    return cases


CASES = [
    *both("code-in-four-banks", "Four duplex pairs, by odd and even module numbers.", DUPLEX + "RUN 32\n"),
    *both("code-in-eight-banks", "Four simplex pairs: eight banks.", SIMPLEX + "RUN 64\n"),
    *both("code-in-banks-of-both-sorts", "Pairs 1 and 2 are simplex.", chain([1, 2, 3, 4, 5, 6], [1, 2]) + "RUN 48\n"),
    *of_duplex_pairs(), *of_simplex_pairs(), *mixed(), *far_from_the_start(),
]
