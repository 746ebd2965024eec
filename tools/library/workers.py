"""Shares what is to be done of a shake among processes. The results do not depend on how many there are."""

import multiprocessing
import os
import signal
from concurrent.futures import ProcessPoolExecutor
from concurrent.futures.process import BrokenProcessPool
from types import TracebackType
from typing import Any, Callable, List, Optional, Sequence, Tuple, Type

from library import progress
from library.ending import Failed
from library.pausing import Changes
from library.shaking import Look, Shake, Sign
from library.shrinking import Small, small_of

_shake: Optional[Shake] = None  # of this process


def processors() -> int:
    """How many processors this process may use."""
    return len(os.sched_getaffinity(0))


class Workers:
    """Processes that play schedules of one shake. They are copies of this one, so each has the shake as it is here."""

    def __init__(self, shake: Shake, count: int):
        _prepare(shake)
        context = multiprocessing.get_context("fork")
        self._pool = ProcessPoolExecutor(count, context, _begin, (shake,)) if count > 1 else None

    def __enter__(self) -> "Workers":
        return self

    def __exit__(
        self, kind: Optional[Type[BaseException]], error: Optional[BaseException], trace: Optional[TracebackType]
    ) -> None:
        if self._pool is not None:
            self._pool.shutdown(cancel_futures=True)

    def looks(self, numbers: Sequence[int]) -> List[Look]:
        """What the schedules of some numbers show."""
        return self._done(_look, numbers, "playing schedules")

    def smalls(self, found: Sequence[Tuple[Sign, Changes]]) -> List[Small]:
        """Small schedules for findings, each with changes that show it."""
        return self._done(_small, found, "making findings small")

    def _done(self, work: Callable[[Any], Any], values: Sequence[Any], what: str) -> List[Any]:
        """The results of some work for each value, in the order of the values."""
        found = []
        try:
            # A process that ends while the values are handed out breaks the pool here already.
            results = map(work, values) if self._pool is None else self._pool.map(work, values)
            with progress.shown(what, len(values)) as shown:
                for shown.done, result in enumerate(results, 1):
                    found.append(result)
        except BrokenProcessPool:
            raise Failed("a process that played schedules has ended early; is there memory for --processes?") from None
        return found


def _prepare(shake: Shake) -> None:
    """Says of which shake the schedules are."""
    global _shake
    _shake = shake


def _begin(shake: Shake) -> None:
    """Begins a process. If the user interrupts the tool, the first process ends the others."""
    signal.signal(signal.SIGINT, signal.SIG_IGN)
    progress.silence()
    _prepare(shake)


def _look(number: int) -> Look:
    """What one schedule shows."""
    assert _shake is not None
    return _shake.look(number)


def _small(found: Tuple[Sign, Changes]) -> Small:
    """A small schedule for a finding."""
    assert _shake is not None
    return small_of(_shake, *found)
