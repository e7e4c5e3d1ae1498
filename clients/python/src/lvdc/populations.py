"""What the scripts of a study stand for: all there are of a kind, so many that were drawn of them, or those that somebody gave."""
from dataclasses import dataclass


@dataclass(frozen=True, slots=True)
class Population:
    """`each` says what one script is, each as likely as another; `size` is how many there are, None where there is no end of them or where
    nobody said; `drawn` how many were drawn, None where all are there; and `seed` by which seed they were."""

    each: str
    size: int | None = None
    drawn: int | None = None
    seed: int | None = None

    @property
    def is_census(self) -> bool:
        """Whether all are there, so that a share is no estimate and has no interval."""
        return self.size is not None and self.drawn is None

    def __str__(self) -> str:
        if self.size is None:
            return self.each if self.drawn is None else f"{self.drawn} drawn with seed {self.seed}: {self.each}"
        return f"all {self.size}: {self.each}" if self.drawn is None else f"{self.drawn} of {self.size}, drawn with seed {self.seed}: {self.each}"


GIVEN = Population("scripts that were given")
