"""What lvdb must answer, worked out from a whole trace by plain loops; nothing of lvdb is used."""
from collections.abc import Callable, Iterator

import lvdc
from lvdc import Address, Deck, Hop, Place, Trace, Word
from lvdc.steps import Latches, MemoryExchange
from lvdc.workers import Asker

Votes = dict[int, Latches]
At = Place | Address


class Model:
    """A short run of a deck, told step by step. All pairs are duplex."""

    def __init__(self, deck: Deck, is_through: bool, worker: Asker) -> None:
        self.trace: Trace = lvdc.trace(deck, through=is_through, worker=worker)
        start = lvdc.debug(deck, [f"COPIES {it}" for it in range(1, 8)], worker=worker)
        first: Votes = {}
        for turn in start.turns:
            assert isinstance(turn.answer, lvdc.sessions.Copies)
            first[turn.answer.module] = turn.answer.copies[1]
        self.votes: list[Votes] = [first, *(dict(votes) for _, votes in self.trace.votes())]
        self.end = len(self.trace.steps)
        assert self.trace.end is not None, "the run is too long for a model"
        image = deck.program if isinstance(deck.program, lvdc.Image) else lvdc.assemble_image(deck.program, worker=worker)
        self._backs: list[Place] = []
        self.words: list[dict[Address, Word]] = [{at: Word(it) for at, it in image.words.items()}]
        for step in self.trace.steps:
            last = self.words[-1]
            exchange = step.exchange
            stored = isinstance(exchange, MemoryExchange) and exchange.kind == "STORE"
            self.words.append({**last, exchange.address: exchange.word} if stored and isinstance(exchange, MemoryExchange) else last)

    def place(self, position: int) -> Place:
        """The place of the next instruction, by its pair."""
        hop = Hop.of(self.votes[position][2][0] & ~1)
        return Place(hop.module // 2, hop.sector, hop.syllable, hop.location)

    def word(self, position: int, address: Address) -> Word:
        """The intended word."""
        return self.words[position].get(address, Word(0))

    def is_arrival(self, position: int, places: set[Place]) -> bool:
        """Whether a breakpoint at one of the places is met there."""
        held = self.votes[position][1][1] % 8
        return position % 3 == 0 and not held and self.place(position) in places

    def is_change(self, position: int, addresses: set[Address]) -> bool:
        """Whether the last step stored another word at one of the addresses."""
        return any(self.word(position - 1, it) != self.word(position, it) for it in addresses)

    def next(self, position: int) -> int:
        """Where `next` stops, where no breakpoint is on the way."""
        after = min(self.end, (position // 3 + 1) * 3)
        if position % 3 or after % 3 or self.votes[position][1][1] % 8:
            return after if position % 3 else min(self.end, after + 3 * (self.votes[after][1][1] % 8))
        saver, code = self.votes[after][2][1], self.votes[after][3][0] >> 9 & 15
        is_hop, is_transfer = code == 0, saver != self.votes[position][2][1] and code in (4, 8, 12)
        entry, keeps = self.place(after), self.trace.steps[after + 2].exchange if after + 2 < self.end else None
        is_kept = isinstance(keeps, MemoryExchange) and keeps.kind == "STORE" and keeps.word == saver and self.votes[after + 1][3][0] & 0o776 == 0o776
        if is_hop and entry not in self.backs(position) or is_transfer and is_kept:
            back = _place(saver)
            returned = [it for it in range(after + 3, self.end + 1, 3) if self.is_arrival(it, {back}) and self.votes[it][3][0] & 0o17777 < 0o1000]
            return returned[0] if returned else after
        return min(self.end, after + 3 * (self.votes[after][1][1] % 8))

    def onward(self, position: int, is_wanted: Callable[[int], bool]) -> int:
        """The first later position that is wanted, else the end."""
        return next((it for it in range(position + 1, self.end + 1) if is_wanted(it)), self.end)

    def proceed(self, position: int, breaks: set[At]) -> int:
        """Where `continue` stops."""
        places = {it for it in breaks if isinstance(it, Place)}
        addresses = {it for it in breaks if isinstance(it, Address)}
        return self.onward(position, lambda it: self.is_arrival(it, places) or self.is_change(it, addresses))

    def reverse(self, position: int, breaks: set[At]) -> int:
        """Where `reverse-continue` stops."""
        places = {it for it in breaks if isinstance(it, Place)}
        addresses = {it for it in breaks if isinstance(it, Address)}
        arrivals = [it for it in range(position) if self.is_arrival(it, places)]
        changes = [(it - 1) // 3 * 3 for it in range(1, position + 1) if self.is_change(it, addresses)]
        return max([0, *arrivals[-1:], *changes[-1:]])

    def behind(self, position: int) -> int:
        """Where `until` stops."""
        here = Hop.of(self.votes[position][2][0] & ~1)

        def is_behind(it: int) -> bool:
            hop = Hop.of(self.votes[it][2][0] & ~1)
            same = (hop.module, hop.sector, hop.syllable) == (here.module, here.sector, here.syllable)
            return it % 3 == 0 and not self.votes[it][1][1] % 8 and same and hop.location > here.location
        return self.onward(position, is_behind)

    def calls(self, position: int) -> list[Place]:
        """Where each HOP that hasn't returned stands, the outermost first."""
        found: list[tuple[Place, Place]] = []
        for time in range(position // 3):
            before, after = self.votes[3 * time], self.votes[3 * time + 3]
            if not before[1][1] % 8 and after[3][0] & 0o17777 < 0o1000:
                backs = [it for _, it in found]
                entry, back = self.place(3 * time + 3), _place(after[2][1])
                if entry in backs:
                    del found[len(backs) - 1 - backs[::-1].index(entry):]
                else:
                    found.append((self.place(3 * time), back))
        self._backs = [back for _, back in found]
        return [caller for caller, _ in found]

    def backs(self, position: int) -> list[Place]:
        """Where each of those goes back to."""
        self.calls(position)
        return self._backs

    def differing(self, position: int) -> Iterator[tuple[tuple[int, int], Latches]]:
        """The copies that differ after so many steps."""
        if position:
            yield from self.trace.steps[position - 1].differing.items()


def _place(word: int) -> Place:
    """The place that a HOP constant names, by its pair."""
    hop = Hop.of(word & ~1)
    return Place(hop.module // 2, hop.sector, hop.syllable, hop.location)
