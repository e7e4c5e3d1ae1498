"""A bar on standard error for what takes long."""
import importlib
import sys
from collections.abc import Callable, Iterable, Iterator
from typing import Any, TypeVar

Item = TypeVar("Item")


def one(_: object) -> int:
    """An item counts as one."""
    return 1


def shown(items: Iterable[Item], show: bool | None, what: str, total: int | None = None, count: Callable[[Item], int] = one) -> Iterator[Item]:
    """The items, with a bar that counts them where that is asked for, or by default where standard error is a terminal. `count` is as how
    many an item counts, of `total`. The bar is tqdm's where tqdm is there, else a line with the count."""
    if not (sys.stderr.isatty() if show is None else show):
        return iter(items)
    try:
        tqdm: Any = importlib.import_module("tqdm.auto").tqdm
    except ImportError:
        return _counted(items, what, total, count)
    return _barred(items, tqdm(desc=what, total=total, unit=" scripts"), count)


def _barred(items: Iterable[Item], bar: Any, count: Callable[[Item], int]) -> Iterator[Item]:
    """The items, counted by tqdm."""
    with bar:
        for item in items:
            bar.update(count(item))
            yield item


def _counted(items: Iterable[Item], what: str, total: int | None, count: Callable[[Item], int]) -> Iterator[Item]:
    """The items, counted on one line."""
    done, of = 0, "" if total is None else f" of {total}"
    try:
        for item in items:
            done += count(item)
            print(f"\r{what}: {done}{of}", end="", file=sys.stderr, flush=True)
            yield item
    finally:
        print(file=sys.stderr)
