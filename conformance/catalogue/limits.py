"""Every number at its limit, and one above."""
from . import Case, comment, state

TITLE = "limits"
SHOWS = """Each number of a deck, an image, a fault line and a saved text at its limit, where it is taken, and one above, where it is refused. The
first refusal of a text is the answer, so each number above its limit has a case of its own."""

STOP = "0 00 000 000016600"  # EXM: what is asked for ends in the first time
END_AT_ONCE = "END STOPPED 2 EXM"


def image_deck(lines: str = STOP, after: str = "", run: str = "1") -> str:
    """A deck of an image's lines, sections, and RUN."""
    return "IMAGE\nLVDC 1\n%s\nEND\n%sRUN %s\n" % (lines, after, run)


def section(word: str, line: str) -> str:
    """A section of one line."""
    return "%s\n%s\n" % (word, line)


# the name of a field, what stands before and behind it on a line, its limit, and one above
FAULTS = [(word + " " + field, line, *numbers) for word, field, line, *numbers in [
    ("FLIP", "module", "FLIP {} 1 0 0 0 1", "7", "8"), ("FLIP", "copy", "FLIP 1 {} 0 0 0 1", "3", "4"),
    ("FLIP", "first step", "FLIP 1 1 {} 2999999 0 1", "2999999", "3000000"), ("FLIP", "last step", "FLIP 1 1 0 {} 0 1", "2999999", "3000000"),
    *(("FLIP", "latch of module %d" % m, "FLIP %d 1 9 9 {} 1" % m, str(n - 1), str(n)) for m, n in enumerate((2, 2, 1, 1, 2, 5, 2), 1)),
    ("FLIP", "mask", "FLIP 5 1 9 9 0 {}", "377777777", "400000000"),
    ("FORCE", "module", "FORCE {} 1 9 9 0 1 1", "7", "8"), ("FORCE", "copy", "FORCE 1 {} 9 9 0 1 1", "3", "4"),
    ("FORCE", "last step", "FORCE 1 1 9 {} 0 1 0", "2999999", "3000000"), ("FORCE", "latch", "FORCE 6 1 9 9 {} 1 1", "4", "5"),
    ("FORCE", "mask", "FORCE 5 1 9 9 0 {} 0", "377777777", "400000000"), ("FORCE", "value", "FORCE 5 1 9 9 0 0 {}", "377777777", "400000000"),
    *((word, field, word + " " + rest, *numbers) for word in ("LAG", "DEAF") for field, rest, *numbers in [
        ("module", "{} 1 9 9", "7", "8"), ("copy", "1 {} 9 9", "3", "4"), ("last step", "1 1 9 {}", "2999999", "3000000")]),
    ("DAMAGE", "twin", "DAMAGE {} 3 17 377 9 1", "1", "2"), ("DAMAGE", "pair", "DAMAGE 0 {} 17 377 9 1", "3", "4"),
    ("DAMAGE", "sector", "DAMAGE 0 3 {} 377 9 1", "17", "20"), ("DAMAGE", "location", "DAMAGE 0 3 17 {} 9 1", "377", "400"),
    ("DAMAGE", "step", "DAMAGE 0 3 17 377 {} 1", "2999999", "3000000"), ("DAMAGE", "mask", "DAMAGE 0 3 17 377 9 {}", "1777777777", "2000000000"),
    ("STICK", "twin", "STICK {} 3 17 377 9 9 1 1", "1", "2"), ("STICK", "pair", "STICK 0 {} 17 377 9 9 1 1", "3", "4"),
    ("STICK", "sector", "STICK 0 3 {} 377 9 9 1 1", "17", "20"), ("STICK", "location", "STICK 0 3 17 {} 9 9 1 1", "377", "400"),
    ("STICK", "last step", "STICK 0 3 17 377 9 {} 1 0", "2999999", "3000000"),
    ("STICK", "mask", "STICK 0 3 17 377 9 9 {} 0", "1777777777", "2000000000"),
    ("STICK", "value", "STICK 0 3 17 377 9 9 0 {}", "1777777777", "2000000000"),
    ("DEAD", "twin", "DEAD {} 3 9 9", "1", "2"), ("DEAD", "pair", "DEAD 0 {} 9 9", "3", "4"),
    ("DEAD", "last step", "DEAD 0 3 9 {}", "2999999", "3000000"),
]]
BELOW = [("FLIP module", "FLIP 0 1 0 0 0 1"), ("FLIP copy", "FLIP 1 0 0 0 0 1"), ("FLIP steps", "FLIP 1 1 10 9 0 1"),
         ("LAG steps", "LAG 1 1 1000 999"), ("DEAF module", "DEAF 0 1 9 9"), ("STICK steps", "STICK 0 3 17 377 10 9 1 1"),
         ("DEAD steps", "DEAD 0 3 10 9"), ("FORCE copy", "FORCE 1 0 9 9 0 1 1"),
         ("LAG module", "LAG 0 1 9 9"), ("LAG copy", "LAG 1 0 9 9"), ("DEAF copy", "DEAF 1 0 9 9"), ("FORCE module", "FORCE 0 1 9 9 0 1 1"),
         ("FORCE steps", "FORCE 1 1 10 9 0 1 1"), ("DEAF steps", "DEAF 1 1 10 9")]
LONG = [("FLIP mask", "FLIP 5 1 9 9 0 0000000001"), ("FORCE mask", "FORCE 5 1 9 9 0 0000000001 1"), ("FORCE value", "FORCE 5 1 9 9 0 1 0000000001"),
        ("DAMAGE pair", "DAMAGE 0 03 17 377 9 1"), ("DAMAGE sector", "DAMAGE 0 3 017 377 9 1"), ("DAMAGE location", "DAMAGE 0 3 17 0377 9 1"),
        ("DAMAGE mask", "DAMAGE 0 3 17 377 9 00000000001"), ("STICK value", "STICK 0 3 17 377 9 9 1 00000000001"), ("DEAD pair", "DEAD 0 03 9 9")]
SECTIONS = [
    ("TAPE port", "PORTS", "TAPE {} 1", "13", "14", "NoDevice"), ("TAPE port out of range", "PORTS", "TAPE {} 1", "13", "400", "BadLine"),
    ("TAPE word", "PORTS", "TAPE 0 {}", "377777777", "400000000", "BadLine"), ("UNPLUG port", "PORTS", "UNPLUG {} 9", "17", "20", "NoDevice"),
    ("UNPLUG time", "PORTS", "UNPLUG 0 {}", "1000000", "1000001", "BadLine"), ("TAPE last port", "PORTS", "TAPE {} 1", "13", "377", "NoDevice"),
    ("UNPLUG last port", "PORTS", "UNPLUG {} 9", "17", "377", "NoDevice"),
    ("UNPLUG port out of range", "PORTS", "UNPLUG {} 9", "17", "400", "BadLine"),
]
IMAGES = [("bank", "{} 17 377 000000001", "3", "4"), ("sector", "3 {} 377 000000001", "17", "20"), ("location", "3 17 {} 000000001", "377", "400"),
          ("word", "3 17 377 {}", "377777777", "400000000")]
PLAIN = {"START": ("START {}\n", "377777777", "400000000"), "SIMPLEX": ("SIMPLEX {}\n", "3", "4")}


def slug(name: str) -> str:
    """A case's name."""
    return "-".join(name.lower().split())


def refused(name: str, line: str, given: str, cause: str, words: str = "run", status: int = 2) -> Case:
    """A number out of its limits."""
    number = next(k for k, text in enumerate(given.split("\n"), 1) if text == line)
    return Case(slug(name), "%s: `%s` is refused." % (name, line), words, given, status, text="REFUSED %s %d\n" % (cause, number))


def faults_above() -> list[Case]:
    """Each number of a fault line one above its limit, some below, and octal ones with a digit more than there may be."""
    cases = [refused(name + " above", line.replace("{}", above), image_deck(after=section("FAULTS", line.replace("{}", above))), "BadLine")
             for name, line, _, above in FAULTS]
    return cases + [refused(name + wrong, line, image_deck(after=section("FAULTS", line)), "BadLine")
                    for wrong, lines in ((" below", BELOW), (" with a digit more", LONG)) for name, line in lines]


def decks_above() -> list[Case]:
    """Each other number of a deck one above its limit."""
    cases = [refused(name + " above", line.replace("{}", above), image_deck(after=section(word, line.replace("{}", above))), cause)
             for name, word, line, _, above, cause in SECTIONS]
    cases += [refused("image %s above" % name, line.replace("{}", above), image_deck(STOP + "\n" + line.replace("{}", above)),
                      "BadWord" if name == "word" else "BadImageLine", status=4)
              for name, line, _, above in IMAGES]
    cases += [refused(word + " above", line.replace("{}", above).strip(), image_deck(after=line.replace("{}", above)), "BadLine")
              for word, (line, _, above) in PLAIN.items()]
    return cases + [refused("RUN above", "RUN 1000001", image_deck(run="1000001"), "CountTooLarge")]


def accepted() -> list[Case]:
    """All numbers at their limits."""
    lines = [line.replace("{}", limit) for _, line, limit, _ in FAULTS if not line.startswith(("FLIP 1 1 0", "FLIP 1 1 {}"))]
    faults = "FAULTS\n" + "".join(line + "\n" for line in lines)
    ports = "PORTS\nTAPE 13 377777777\nTAPE 0 377777777\nUNPLUG 17 9\nUNPLUG 0 1000000\n"
    start = "START 000000017\nSIMPLEX 3\n"
    return [
        Case("all-at-their-limits", "Each number of a deck at its limit is taken.", "run",
             image_deck(STOP + "\n3 17 377 377777777", start + ports + faults, "1000000"), 6, has=END_AT_ONCE + "\nMEM 3 17 377 377777777"),
        Case("a-start-at-its-limit", "The greatest start constant: its spare bit is dropped.", "run",
             image_deck("3 17 377 377777777", "START 377777777\n", "1"), has="PLACE 7 17 1 000\nDATA 7 17\nDUP 1 1"),
        *(Case(slug("FLIP in steps up to 2999999 %d" % k), "A fault of all steps that there are.", "run",
               image_deck(after=section("FAULTS", line)), 6, has="END STOPPED 2 EXM\n" + has)
          for k, (line, has) in enumerate([("FLIP 1 1 0 2999999 1 000000001", "WRONG 1 1 3"), ("FLIP 1 1 2 2999999 1 000000001", "WRONG 1 1 1"),
                                          ("FLIP 1 1 3 2999999 1 000000001", "TIMES 1"), ("FLIP 7 3 2 2 1 400000", "WRONG 7 3 1")], 1)),
    ]


# ---- saved texts

STANDS = state({}, [STOP], 1)


def saved(name: str, old: str, limit: str, above: str, cause: str = "BadSave") -> list[Case]:
    """A line of a saved text that is changed, at its limit and above."""
    cases = []
    for word, new in (("at", limit), ("above", above)):
        given = changed(STANDS, old, new)
        line = new.split("\n")[-1]
        if word == "at":
            cases.append(Case(slug("saved %s at its limit" % name), "`%s` of a saved text is taken." % line, "resume", given, status_at(given)))
        else:
            cases.append(refused("saved %s above" % name, line, given, cause, "resume"))
    return cases


def changed(text: str, old: str, new: str) -> str:
    """A text with one line that is another one."""
    assert text.count(old + "\n") == 1, old
    return text.replace(old + "\n", new + "\n")


def status_at(given: str) -> int:
    """The status of a text at its limit: it goes on to EXM, or has no time left."""
    steps, count = (int(line.split()[1]) for line in given.split("\n")[1:3])
    return 6 if steps < 3 * count else 0


FIRST_ORDER, LAST_CELL = "ABCDEFGHIJKLMNOPQRSTU", "CELL 1 0 00 000 1000016600"
SAVED = [
    ("STEPS", "STEPS 3", "STEPS 3000000", "STEPS 3000003"),
    ("COUNT", "COUNT 1", "COUNT 1000000", "COUNT 1000001"),
    ("COPY count", "COPY 3 2 0 000000000", "COPY 3 2 3 000000000", "COPY 3 2 4 000000000"),
    ("COPY count with a digit more", "COPY 3 2 0 000000000", "COPY 3 2 3 000000000", "COPY 3 2 00 000000000"),
    ("COPY latch", "COPY 3 2 0 000000000", "COPY 3 2 0 377777777", "COPY 3 2 0 400000000"),
    ("SELECT", "SELECT 0 0 0 0", "SELECT 1 1 1 1", "SELECT 1 1 1 2"),
    ("CELL twin", LAST_CELL, LAST_CELL + "\nCELL 1 3 17 377 0000000001", LAST_CELL + "\nCELL 2 0 00 000 0000000001"),
    ("CELL word", "CELL 1 0 00 000 1000016600", "CELL 1 0 00 000 1777777777", "CELL 1 0 00 000 2000000000"),
    ("WORD", "WORD " + STOP, "WORD " + STOP + "\nWORD 3 17 377 377777777", "WORD " + STOP + "\nWORD 3 17 377 400000000"),
    ("WORD bank", "WORD " + STOP, "WORD " + STOP + "\nWORD 3 17 377 000000001", "WORD " + STOP + "\nWORD 4 00 000 000000001"),
    ("IN time", FIRST_ORDER, "IN 0 377 377777777\n" + FIRST_ORDER, "IN 1 377 377777777"),
    ("IN port", FIRST_ORDER, "IN 0 377 377777777\n" + FIRST_ORDER, "IN 0 400 377777777"),
    ("IN word", FIRST_ORDER, "IN 0 377 377777777\n" + FIRST_ORDER, "IN 0 377 400000000"),
    ("REPAIR step", FIRST_ORDER, "REPAIR 2 3 17 377 1 SWITCH\n" + FIRST_ORDER, "REPAIR 3 3 17 377 1 SWITCH"),
    ("CELL sector", LAST_CELL, LAST_CELL + "\nCELL 1 3 17 377 0000000001", LAST_CELL + "\nCELL 1 3 20 377 0000000001"),
    ("CELL location", LAST_CELL, LAST_CELL + "\nCELL 1 3 17 377 0000000001", LAST_CELL + "\nCELL 1 3 17 400 0000000001"),
    ("WORD sector", "WORD " + STOP, "WORD " + STOP + "\nWORD 3 17 377 000000001", "WORD " + STOP + "\nWORD 3 20 377 000000001"),
    ("WORD location", "WORD " + STOP, "WORD " + STOP + "\nWORD 3 17 377 000000001", "WORD " + STOP + "\nWORD 3 17 400 000000001"),
    ("REPAIR sector", FIRST_ORDER, "REPAIR 2 3 17 377 1 SWITCH\n" + FIRST_ORDER, "REPAIR 2 3 20 377 1 SWITCH"),
    ("REPAIR location", FIRST_ORDER, "REPAIR 2 3 17 377 1 SWITCH\n" + FIRST_ORDER, "REPAIR 2 3 17 400 1 SWITCH"),
    ("REPAIR bank", FIRST_ORDER, "REPAIR 2 3 17 377 1 SWITCH\n" + FIRST_ORDER, "REPAIR 2 4 17 377 1 SWITCH"),
    ("STATE word", FIRST_ORDER, "STATE 000 377777777\n" + FIRST_ORDER, "STATE 000 400000000"),
    ("UNPLUG time", FIRST_ORDER, "UNPLUG 000 1000000\n" + FIRST_ORDER, "UNPLUG 000 1000001"),
    ("DAMAGE step", FIRST_ORDER, "DAMAGE 0 3 17 377 2999999 1777777777\n" + FIRST_ORDER, "DAMAGE 0 3 17 377 3000000 1777777777"),
    ("FLIP step", FIRST_ORDER, "FLIP 6 3 2999999 2999999 4 377777777\n" + FIRST_ORDER, "FLIP 6 3 2999999 3000000 4 377777777"),
]


def saved_cases() -> list[Case]:
    """Each number of a saved text."""
    cases: list[Case] = []
    for name, old, limit, above in SAVED:
        if name == "STEPS":
            at = changed(changed(STANDS, "STEPS 3", "STEPS 3000000"), "COUNT 1", "COUNT 1000000")
            cases.append(Case("saved-steps-at-its-limit", "`STEPS 3000000` of a saved text is taken: no time is left.", "resume", at,
                              has="END DONE\nTIMES 1000000"))
            cases.append(refused("saved STEPS above", "STEPS 3000003", changed(STANDS, "STEPS 3", "STEPS 3000003"), "BadSave", "resume"))
            continue
        cases += saved(name, old, limit, above)
    return cases


def ports() -> list[Case]:
    """Devices at the limits of their ports."""
    return [refused("saved STATE port above", "STATE 020 000000001", changed(STANDS, FIRST_ORDER, "STATE 020 000000001"), "NoDevice", "resume"),
            refused("saved UNPLUG port above", "UNPLUG 020 1", changed(STANDS, FIRST_ORDER, "UNPLUG 020 1"), "NoDevice", "resume"),
            refused("saved STATE port out of range", "STATE 400 000000001", changed(STANDS, FIRST_ORDER, "STATE 400 000000001"), "BadSave", "resume"),
            refused("saved UNPLUG port out of range", "UNPLUG 400 1", changed(STANDS, FIRST_ORDER, "UNPLUG 400 1"), "BadSave", "resume"),
            refused("saved UNPLUG last port above", "UNPLUG 377 1", changed(STANDS, FIRST_ORDER, "UNPLUG 377 1"), "NoDevice", "resume")]


def windows() -> list[Case]:
    """The numbers of words."""
    given = comment("EXM is the first instruction.") + image_deck(run="1000000")
    return [
        Case("the-last-step-of-a-trace", "FIRST is at most 3,000,000, COUNT at most 100,000.", "trace 3000000 100000", given, 6,
             text="LVDC TRACE\nEND STOPPED 2 EXM\n"),
        Case("a-step-beyond-the-last-of-a-trace", "FIRST 3000001 is no request.", "trace 3000001 1", given, 1),
        Case("too-many-steps-of-a-trace", "COUNT 100001 is no request.", "trace 0 100001", given, 1),
        Case("save-one-time-beyond", "`save` of more times than RUN has is refused.", "save 1000000", image_deck(run="999999"), 2,
             text="REFUSED CountTooLarge 5\n"),
        Case("save-the-last-time", "`save` of all times of a run that ends before is its report.", "save 1000000", image_deck(run="1000000"), 6,
             has=END_AT_ONCE),
    ]


CASES = [*accepted(), *faults_above(), *decks_above(), *saved_cases(), *ports(), *windows()]
