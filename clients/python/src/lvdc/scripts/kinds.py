"""What a script is, and what a kind of scripts is."""
import itertools
import random
from abc import ABC, abstractmethod
from collections.abc import Callable, Iterable, Iterator, Mapping, Sequence
from dataclasses import dataclass, field
from typing import Any, ClassVar, TypeAlias

from lvdc.decks import Deck
from lvdc.faults import END_OF_STEPS, Fault, first_step
from lvdc.lazy import Lazy
from lvdc.populations import Population
from lvdc.values import check

Below: TypeAlias = Callable[[int], int]  # `below(n)` draws a number below n
About: TypeAlias = dict[str, int | str]
Steps: TypeAlias = Deck | Iterable[int]


@dataclass(frozen=True, slots=True)
class Script(Lazy):
    """Faults, and what they were made from.

    >>> from lvdc import Flip, Script
    >>> print(Script((Flip(5, 1, 3, 3, 0, 1),)), end="")
    FLIP 5 1 3 3 0 000000001
    """

    faults: tuple[Fault, ...]
    about: Mapping[str, int | str] = field(default_factory=dict)
    _makers: ClassVar[Mapping[str, Callable[[Any], Any]]] = {
        "faults": lambda of: of.kind.faults_of(of.step, of.number), "about": lambda of: of.kind.about_of(of.step, of.number)}

    @property
    def first_steps(self) -> Sequence[int]:
        """The steps at which its faults begin to act, those of several at one step once or more."""
        return [first_step(it) for it in self.faults] if self._is_made_of_fields() else (self._found.step,)

    def __hash__(self) -> int:
        return hash(self.faults)

    def __str__(self) -> str:
        if self._is_made_of_fields():
            return "".join([f"{it}\n" for it in self.faults])
        text: str = self._found.kind.text_of(self._found.step, self._found.number)
        return text


class Drawable(ABC):
    """Scripts that can be drawn."""

    @property
    @abstractmethod
    def population(self) -> Population:
        """What they are, and how many there are."""

    @abstractmethod
    def draw(self, below: Below) -> Script:
        """One of them."""

    def drawn(self, count: int, seed: int = 1) -> "Drawn":
        """So many of them, drawn with a seed. Raises ValueError where there is none, TypeError where count or seed is no whole number."""
        return Drawn(self, count, seed)


class Drawn:
    """So many scripts that are drawn from a kind with a seed: each time that they are gone through they are the same."""

    def __init__(self, kind: Drawable, count: int, seed: int) -> None:
        check("a count of scripts", count, 1 << 63)
        check("a seed", seed, 1 << 63, -1 << 63)
        if kind.population.size == 0:
            raise ValueError("there is no such script")
        self.kind, self.count, self.seed = kind, count, seed

    def __iter__(self) -> Iterator[Script]:
        return itertools.islice(drawn_by(self.kind, self.seed), self.count)

    def __len__(self) -> int:
        return self.count

    def __add__(self, other: "Scripts | Drawn | Several") -> "Several":
        return Several(self, other)

    @property
    def population(self) -> Population:
        """What they were drawn from."""
        whole = self.kind.population
        return Population(whole.each, whole.size, self.count, self.seed)

    def __repr__(self) -> str:
        return f"<{self.population}>"


class Scripts(Drawable):
    """All scripts of a kind."""

    each = "a script"

    @abstractmethod
    def __iter__(self) -> Iterator[Script]:
        """All of them, in their order."""

    @abstractmethod
    def __len__(self) -> int:
        """How many there are."""

    def __add__(self, other: "Scripts | Drawn | Several") -> "Several":
        return Several(self, other)

    @property
    def population(self) -> Population:
        """All of them."""
        return Population(self.each, len(self))

    def __repr__(self) -> str:
        return f"<{self.population}>"


class Several:
    """Scripts of one kind after those of another; each keeps its population."""

    def __init__(self, *parts: "Scripts | Drawn | Several") -> None:
        self.parts = parts

    def __iter__(self) -> Iterator[Script]:
        return itertools.chain.from_iterable(self.parts)

    def __len__(self) -> int:
        return sum(map(len, self.parts))

    def __add__(self, other: "Scripts | Drawn | Several") -> "Several":
        return Several(self, other)

    @property
    def populations(self) -> tuple[Population, ...]:
        """The population of each."""
        return tuple(itertools.chain.from_iterable(it.populations if isinstance(it, Several) else (it.population,) for it in self.parts))

    def __repr__(self) -> str:
        return f"<{'; '.join(map(str, self.populations))}>"


class Indexed(Scripts):
    """Scripts that have numbers from 0."""

    @abstractmethod
    def script(self, index: int) -> Script:
        """The script of this number."""

    def __iter__(self) -> Iterator[Script]:
        return map(self.script, range(len(self)))

    def draw(self, below: Below) -> Script:
        """One of them, each as likely."""
        return self.script(below(len(self)))


class ByStep(Indexed):
    """Scripts that begin at steps, as many at each: `steps` rise, and `each_step` is how many begin at one."""

    steps: list[int]
    each_step: int

    @abstractmethod
    def at(self, step: int, index: int) -> Script:
        """The script of this number among those that begin at a step, which may be one that isn't among `steps`."""

    def __len__(self) -> int:
        return len(self.steps) * self.each_step

    def script(self, index: int) -> Script:
        """The script of this number."""
        at, rest = divmod(index, self.each_step)
        return self.at(self.steps[at], rest)


def drawn_by(kind: Drawable, seed: int) -> Iterator[Script]:
    """Scripts that are drawn from a kind with a seed, without an end."""
    chance = random.Random(seed).random

    def below(end: int) -> int:
        """A number below another one."""
        return int(chance() * end)

    return map(kind.draw, itertools.repeat(below))


def steps_of(steps: Steps) -> list[int]:
    """The steps of a deck, or those that are given, which rise. Raises ValueError where they don't."""
    if isinstance(steps, Deck):
        return list(steps.steps)
    if isinstance(steps, (str, bytes)) or not isinstance(steps, Iterable):
        raise TypeError(f"steps are a Deck or numbers, as deck.steps, not {steps!r}")
    found = list(steps)
    for step in found:
        check("a step", step, END_OF_STEPS)
    if any(not one < two for one, two in itertools.pairwise(found)):
        raise ValueError("the steps rise")
    return found


def end_of(steps: Steps) -> int:
    """One more than the last step of a deck; of other steps, one more than the last of any run."""
    return len(steps.steps) if isinstance(steps, Deck) else END_OF_STEPS
