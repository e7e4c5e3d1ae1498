"""Objects of which each field is made when it is first looked at."""
import gc
from collections.abc import Callable, Iterable, Mapping
from typing import TYPE_CHECKING, Any, ClassVar, Self, TypeVar

Given = TypeVar("Given")
Made = TypeVar("Made")


def made_of(make: Callable[[Given], Made], given: Iterable[Given]) -> tuple[Made, ...]:
    """What is made of each, without a stop of the garbage collector, which would search them again and again and find nothing."""
    was_enabled = gc.isenabled()
    gc.disable()
    try:
        return tuple(map(make, given))
    finally:
        if was_enabled:
            gc.enable()


class Lazy:
    """What keeps in `_found` what it is to be made of; `_makers` says how each field that isn't there yet is made of that. A dataclass beside
    it has the fields; an object that is made of these has nothing else."""

    __slots__ = ("_found",)
    _found: Any
    _makers: ClassVar[Mapping[str, Callable[[Any], Any]]] = {}

    @classmethod
    def _of(cls, found: object) -> Self:
        """An object that is to be made of this."""
        made = cls.__new__(cls)
        object.__setattr__(made, "_found", found)
        return made

    def _is_made_of_fields(self) -> bool:
        """Whether all fields were given."""
        return self._found is None

    if not TYPE_CHECKING:
        def __getattr__(self, name: str) -> Any:
            """A field that isn't there yet; of an object that is made of its fields nothing is to be made."""
            if name == "_found":
                return None
            if name not in self._makers:
                raise AttributeError(f"{type(self).__name__!r} object has no attribute {name!r}")
            value = self._makers[name](self._found)
            object.__setattr__(self, name, value)
            return value


class Read(Lazy):
    """What a text was read into, of the parts that were found in it. The dataclass has the text as its field `text`, and reads it by `read`;
    where it was read it is pickled and copied as that."""

    __slots__ = ()

    @classmethod
    def _of_text(cls, text: str, found: object, **fields: object) -> Self:
        """What a text was read into, with the fields that are there at once."""
        made = cls._of(found)
        object.__setattr__(made, "text", text)
        for name, value in fields.items():
            object.__setattr__(made, name, value)
        return made

    if not TYPE_CHECKING:
        def __reduce_ex__(self, protocol: int) -> Any:
            """How it is pickled and copied."""
            return super().__reduce_ex__(protocol) if self._is_made_of_fields() else (type(self).read, (self.text,))
