"""Saved texts, campaigns and messages at random."""
from catalogue import state
from simulation.modules import LATCHES
from simulation.uplink import check_of

from .decks import LETTERS, STOPPING, Decks, text_of


class Texts(Decks):
    """Draws what isn't a deck or a source."""

    # ---- saved texts

    def latches(self) -> dict[int, str]:
        """The latches of some modules; the first ones of modules 1 and 7 are 0 modulo 4."""
        drawn = {m: [self.choice([0, 0, self.word(), self.randrange(128)]) for _ in range(LATCHES[m - 1])]
                 for m in range(1, 8) if self.chance(0.6)}
        for m in {1, 7} & set(drawn):
            drawn[m][0] &= ~3
        return {m: " ".join("%09o" % latch for latch in words) for m, words in drawn.items()}

    def saved_lists(self) -> str:
        """The log, the repairs, the devices' words, the script and the orders."""
        ports = (0, 0, 1, 0o14, 0o17)
        lines = ["%s %d 000 %09o" % (self.choice(["IN", "OUT"]), time, self.word()) for time in (0, 0, 1) if self.chance(0.3)]
        lines += ["REPAIR %d 0 00 000 1" % step for step in (1, 4) if self.chance(0.2)]
        lines += ["STATE %03o %09o" % (port, self.word()) for port in ports if self.chance(0.2)]
        lines += ["UNPLUG %03o %d" % (port, self.randrange(9)) for port in (1, 0, 0o14, 1, 0o20) if self.chance(0.07)]
        lines += self.choice([[], [], [], self.script(60, [1, 3])])
        lines += ["".join(self.sample(LETTERS, 21)) for _ in range(self.choice([14, 15, 16]))] if self.chance(0.05) else []
        return text_of(lines)

    def saved(self) -> str:
        """A saved text of any latches."""
        self.home, self.is_busy, self.is_orderly = (0, 0), self.chance(0.5), self.chance(0.5)
        stored = self.words([0] if self.chance(0.03) else [])
        if self.chance(0.02):
            stored[3, 15, 255] = self.choice([2**26, 2**26 + 5])
        words = ["%o %02o %03o %09o" % (*at, word) for at, word in sorted(stored.items()) if word]
        return state(self.latches(), words, self.choice([2, 3, 9, 20]), self.saved_lists(), 6)

    # ---- campaigns and studies

    def scripts(self, times: int) -> list[str]:
        """The line CAMPAIGN, and scripts."""
        lines = ["CAMPAIGN"] if self.chance(0.98) else []
        for k in range(self.choice([1, 2, 4, 8])):
            name = "SCRIPT S%d" % k if self.chance(0.95) else self.choice(["SCRIPT S0", "SCRIPT S8 S9", "SCRIPT"])
            lines += [name, *self.choice([self.faults, self.outvoting])(3 * times - 1)]
        return lines

    def barred(self, sections: list[str]) -> list[str]:
        """Sections that may not be there, now and then."""
        return self.sample(sections, self.choice([1, 1, 2])) if self.chance(0.1) else []

    def campaign(self) -> str:
        """A campaign."""
        times = self.choice([1, 3, 10, 20])
        run = "RUN %s" % (times if self.chance(0.95) else self.choice(["10001", "1000001"]))
        return text_of([*self.open_deck(times), *self.barred(["PORTS", "FAULTS"]), run, *self.scripts(times)])

    def study(self) -> str:
        """A study, of which most have ports."""
        times = self.choice([0, 1, 3, 10, 20])
        ports = self.ports(times) if self.chance(0.6) else []
        debug = ["DEBUG", "REGS"] if self.chance(0.05) else []
        return text_of([*self.open_deck(times), *ports, *self.barred(["FAULTS", "ORDER"]), "RUN %d" % times, *debug, *self.scripts(times)])

    def many_scripts(self) -> str:
        """A campaign with as many scripts as there may be, or one more."""
        scripts = ["SCRIPT S%d" % k for k in range(self.choice([255, 256, 257]))]
        scripts += ["SCRIPT%s" % self.choice(["", " S0"])] * self.chance(0.4)
        return text_of(["IMAGE", "LVDC 1", "END", "RUN 0", "CAMPAIGN", *scripts])

    def many_times(self) -> str:
        """A study that stops at once, of 100,000,000 times in all or somewhat more."""
        scripts = ["SCRIPT S%d" % k for k in range(self.choice([100, 101]))]
        scripts += ["SCRIPT S0"] * self.chance(0.2)
        return text_of([*STOPPING, "RUN 1000000", "CAMPAIGN", *scripts])

    # ---- uplinks

    def message(self) -> str:
        """A message, mostly one that has its form and its check word."""
        load, number = self.choice([1, 1, 1, 2, 3]), self.choice([1, 1, 2, 3, 64])
        at = self.choice([0, 0, 0, 3, 3, 4]), self.choice([0, 1, 15]), self.choice([0, 1, 254, 255])
        words = [self.choice([0, 1, self.word()]) for _ in range(self.choice([1, 1, 2, 8, 9]))]
        check = check_of(load, number, at, words) if self.chance(0.9) else self.word()
        frame = "FRAME %d %d %o %o %o %s %o" % (load, number, *at, " ".join("%o" % word for word in words), check)
        self.sums[load] = (self.sums.get(load, 0) + check) % 2**26
        commit = "COMMIT %d %o" % (load, self.sums[load])
        opened = self.choice(["OPEN %d %d", "OPEN %06d %d", "OPEN %07d %d", "OPEN %d %d 1"]) if self.chance(0.2) else "OPEN %d %d"
        return self.choice([opened % (load, number), frame, frame, frame, commit, "ABANDON %d" % load, "OPEN 1 1", "* A COMMENT"])

    def load(self, load: int) -> list[str]:
        """A load that is right: frames that lie one over the other now and then, in any order."""
        count, pair, sector, loc = self.choice([1, 2, 3]), self.randrange(4), self.randrange(16), self.randrange(248)
        frames, total = [], 0
        for number in range(1, count + 1):
            at, words = (pair, sector, loc + self.randrange(4)), [self.word() for _ in range(self.randrange(1, 5))]
            check = check_of(load, number, at, words)
            frames.append("FRAME %d %d %o %o %o %s %o" % (load, number, *at, " ".join("%o" % word for word in words), check))
            total += check
        return ["OPEN %d %d" % (load, count), *self.sample(frames, count), "COMMIT %d %o" % (load, total % 2**26)]

    def uplink(self) -> str:
        """An image and messages, after which short loads that are right; a line is as long as it may be, or longer, now and then."""
        self.sums: dict[int, int] = {}
        lines = ["IMAGE", *self.choice([["LVDC 1"], ["LVDC 2", "START 000000016", "SIMPLEX 0"]]), "0 00 000 %09o" % self.word(), "END"]
        messages = [self.message() for _ in range(self.choice([2, 5, 20, 40]))]
        for load in range(4, 4 + self.randrange(3)):
            messages += ["ABANDON %d" % k for k in (1, 2, 3)] + self.load(load)
        comment = ["*"] * self.chance(0.7)
        every = [*comment, *lines, *comment, "UPLINK", *messages, *(self.choice(messages) for _ in range(3))]
        if self.chance(0.3):
            at = self.choice([0, len(lines) + len(comment), self.randrange(len(every))])
            every[at] = every[at].ljust(self.choice([120, 121]))
        return text_of(every)
