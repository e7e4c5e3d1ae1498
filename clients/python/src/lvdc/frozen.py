"""A mapping that doesn't change: it can be hashed, copied, pickled and compared, in the order in which it was made."""
from collections.abc import Iterator, Mapping
from typing import Any, Generic, TypeVar

Key = TypeVar("Key")
Value = TypeVar("Value")


class Frozen(Mapping[Key, Value], Generic[Key, Value]):
    """Values by their keys.

    >>> from lvdc.frozen import Frozen
    >>> found = Frozen({1: "one"})
    >>> found[1], hash(found) == hash(Frozen({1: "one"})), found == {1: "one"}
    ('one', True, True)
    """

    __slots__ = ("_values",)

    def __init__(self, values: Mapping[Key, Value]) -> None:
        self._values = dict(values)

    def __getitem__(self, key: Key) -> Value:
        return self._values[key]

    def __iter__(self) -> Iterator[Key]:
        return iter(self._values)

    def __len__(self) -> int:
        return len(self._values)

    def __contains__(self, key: object) -> bool:
        return key in self._values

    def __hash__(self) -> int:
        return hash(frozenset(self._values.items()))

    def __eq__(self, other: object) -> bool:
        return self._values == (other._values if isinstance(other, Frozen) else other)

    def __repr__(self) -> str:
        return repr(self._values)

    def __reduce__(self) -> tuple[Any, ...]:
        return Frozen, (self._values,)
