"""What every exception of this package is."""
from typing import Any, TypeVar

AnyError = TypeVar("AnyError", bound="Error")


class Error(Exception):
    """An exception of this package. It can be pickled, whatever it was made of, so that it comes back from another process."""

    def __reduce__(self) -> tuple[Any, ...]:
        return _again, (type(self), self.args, self.__dict__)


def _again(kind: type[AnyError], arguments: tuple[Any, ...], names: dict[str, Any]) -> AnyError:
    """The same exception once more."""
    found = kind.__new__(kind, *arguments)
    found.args = arguments
    found.__dict__.update(names)
    return found
