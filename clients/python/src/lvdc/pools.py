"""As many workers as processors; or those of any executor of concurrent.futures, as one over processes or over other machines."""
import functools
import itertools
import os
import queue
import threading
from collections import deque
from collections.abc import Iterable, Iterator, Sequence
from concurrent.futures import Executor, Future, ThreadPoolExecutor
from dataclasses import dataclass
from types import TracebackType
from typing import Any, Self

from lvdc.progress import shown
from lvdc.values import check
from lvdc.workers import Closed, Reply, Worker, checked_limit

_AHEAD = 2  # requests that wait for each worker


@dataclass(frozen=True, slots=True)
class Request:
    """Words, and an input."""

    words: tuple[str, ...]
    given: bytes = b""


class Pool:
    """Workers that answer requests side by side: so many, else one for each processor that this process may use.

    A Pool may be asked wherever a Worker may, from any number of threads. `limit` is the time in seconds that each request has. Its
    processes end with this object at the latest; as a context manager it ends them at once where an exception comes, an interrupt too; else
    `close` does. A worker that was killed is replaced.

    With `executor` the requests are given to that, which stays its owner's: each of its processes or threads asks a worker of its own,
    `program` or the one that is found there. `workers` is then how many it has.

    >>> import lvdc
    >>> deck = "IMAGE\\nLVDC 1\\nEND\\nRUN 2\\n"
    >>> with lvdc.Pool(2) as pool:
    ...     replies = pool.ask_each(lvdc.Request((word,), deck.encode()) for word in ("run", "form"))
    ...     print([it.status for it in replies])
    [0, 0]
    """

    def __init__(self, workers: int | None = None, *, program: str | os.PathLike[str] | None = None, limit: float | None = None,
                 executor: Executor | None = None) -> None:
        if workers is not None:
            check("a count of workers", workers, 1 << 16, 1)
        self._count = workers or len(os.sched_getaffinity(0))
        self._is_closed = False
        self._own: ThreadPoolExecutor | None = None
        self._limit, self._program = checked_limit(limit), program
        if executor is not None:
            if not hasattr(executor, "submit"):
                raise TypeError(f"an executor is one of concurrent.futures, as ProcessPoolExecutor(4), not {executor!r}")
            self._executor: Executor = executor
            self._count = workers or getattr(executor, "_max_workers", None) or self._count
            return
        self._free: queue.LifoQueue[Worker] = queue.LifoQueue()
        self._workers = [Worker(program, limit=limit) for _ in range(self._count)]
        for worker in self._workers:
            self._free.put(worker)
        self._executor = self._own = ThreadPoolExecutor(self._count, thread_name_prefix="lvdc")

    def __enter__(self) -> Self:
        return self

    def __exit__(self, kind: type[BaseException] | None, error: BaseException | None, trace: TracebackType | None) -> None:
        if error is not None and self._own is not None:
            for worker in self._workers:
                worker.kill()
        self.close()

    def __len__(self) -> int:
        return self._count

    def __repr__(self) -> str:
        return f"<Pool of {self._count} workers{', closed' * self._is_closed}>"

    def __reduce__(self) -> tuple[Any, ...]:
        if self._own is None:
            raise TypeError("a pool over an executor can't be pickled: make one there")
        return functools.partial(Pool, program=self._program, limit=self._limit), (self._count,)

    def ask(self, words: Sequence[str], given: bytes = b"", limit: float | None = None) -> Reply:
        """Asks a worker that is free, as Worker.ask does; waits until one is."""
        self._want_open()
        if self._own is None:
            return self._executor.submit(_asked_there, self._program, limit or self._limit, [Request(tuple(words), given)]).result()[0]
        worker = self._free.get()
        try:
            if worker.is_ended:
                self._want_open()
                worker = self._replaced(worker)
            return worker.ask(words, given, limit)
        finally:
            self._free.put(worker)

    def ask_each(self, requests: Iterable[Request], *, chunk: int = 1, progress: bool | None = False) -> Iterator[Reply]:
        """The replies of requests, in their order. Requests are taken as workers become free, so there may be any number of them; `chunk`
        of them go to one worker together, which costs less where they are small."""
        self._want_open()
        check("a chunk", chunk, 1 << 31, 1)
        return shown(self._replies(iter(requests), chunk), progress, "requests")

    def close(self) -> None:
        """Ends the workers, once what was asked is answered. Nothing can be asked afterwards. An executor that was given stays open."""
        self._is_closed = True
        if self._own is not None:
            self._own.shutdown(cancel_futures=True)
            for worker in self._workers:
                worker.close()

    def _want_open(self) -> None:
        """Wants that the pool isn't closed."""
        if self._is_closed:
            raise Closed("this pool was closed: make another one, as lvdc.Pool()")

    def _replaced(self, worker: Worker) -> Worker:
        """Another worker in the place of one that was killed."""
        another = Worker(self._program, limit=self._limit)
        self._workers[self._workers.index(worker)] = another
        return another

    def _submit(self, requests: Sequence[Request]) -> Future[list[Reply]]:
        """The replies of some requests, once they are there."""
        if self._own is not None:
            return self._own.submit(self._ask_all, requests)
        return self._executor.submit(_asked_there, self._program, self._limit, requests)

    def _ask_all(self, requests: Sequence[Request]) -> list[Reply]:
        """The replies of some requests."""
        return [self.ask(it.words, it.given) for it in requests]

    def _replies(self, requests: Iterator[Request], chunk: int) -> Iterator[Reply]:
        """The replies, with some requests ahead of them."""
        waiting: deque[Future[list[Reply]]] = deque()
        try:
            while some := list(itertools.islice(requests, chunk)):
                waiting.append(self._submit(some))
                if len(waiting) >= (1 + _AHEAD) * len(self):
                    yield from waiting.popleft().result()
            while waiting:
                yield from waiting.popleft().result()
        finally:
            for future in waiting:
                future.cancel()


_THERE = threading.local()


def _asked_there(program: str | os.PathLike[str] | None, limit: float | None, requests: Sequence[Request]) -> list[Reply]:
    """The replies of some requests by the worker of the thread that this runs in, wherever that is."""
    workers: dict[Any, Worker] = _THERE.__dict__.setdefault("workers", {})
    worker = workers.get(program)
    if worker is None or worker.is_ended:
        worker = workers[program] = Worker(program)
    return [worker.ask(it.words, it.given, limit) for it in requests]
