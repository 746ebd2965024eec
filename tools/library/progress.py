"""A line on the standard error that says what a tool is doing, if that takes longer than two seconds.

It is there only if the standard error is a terminal. Once the work is done, or fails, the line is erased.
"""

import contextlib
import os
import sys
import threading
import time
from typing import Iterator

PATIENCE = 2.0  # the seconds from the start of the tool on in which nothing is shown
PAUSE = 0.5  # those between two changes of the line
_USUAL_COLUMNS = 80
_START = time.monotonic()
_line = threading.Lock()  # there is one line


class Work:
    """What is being done, and how many of its steps are done, if they are counted."""

    def __init__(self, text: str, steps: int = 0):
        self.text = text
        self.steps = steps
        self.done = 0

    def __str__(self) -> str:
        share = ", %d %%" % (100 * self.done // self.steps) if self.steps else ""
        return "%s%s, %d s" % (self.text, share, time.monotonic() - _START)


@contextlib.contextmanager
def shown(text: str, steps: int = 0) -> Iterator[Work]:
    """Shows some work while it is done. Work within other work has no line of its own."""
    work = Work(text, steps)
    is_seen = sys.stderr is not None and sys.stderr.isatty()
    if not is_seen or not _line.acquire(blocking=False):
        yield work
        return
    is_done = threading.Event()
    writer = threading.Thread(target=_write_until, args=(is_done, work), daemon=True)
    writer.start()
    try:
        yield work
    finally:
        is_done.set()
        writer.join()
        _line.release()


def silence() -> None:
    """Shows nothing in this process from now on: for one that works for another, which shows what all do."""
    _line.acquire(blocking=False)


def _write_until(is_done: threading.Event, work: Work) -> None:
    """Writes the line again and again until the work is done, and then erases it."""
    width = 0
    pause = max(PATIENCE - (time.monotonic() - _START), PAUSE)
    while not is_done.wait(pause):
        # A line that is wrapped could not be erased.
        text = str(work)[: _columns() - 1]
        _write("\r" + text.ljust(width))
        width, pause = len(text), PAUSE
    if width:
        _write("\r" + " " * width + "\r")


def _columns() -> int:
    """How many columns the terminal has."""
    try:
        return os.get_terminal_size(sys.stderr.fileno()).columns or _USUAL_COLUMNS
    except OSError:
        return _USUAL_COLUMNS


def _write(text: str) -> None:
    """Writes to the terminal, if it is still there."""
    with contextlib.suppress(OSError):
        sys.stderr.write(text)
        sys.stderr.flush()
