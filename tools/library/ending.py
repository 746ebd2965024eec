"""How a tool ends: with what it prints, or with a line that says why it prints nothing."""

import contextlib
import errno
import os
import signal
import sys
from typing import BinaryIO, Callable, Iterator

STANDARD_INPUT = "-"


class Failed(Exception):
    """Why a tool has nothing to print: lines for the standard error."""


@contextlib.contextmanager
def opened(path: str) -> Iterator[BinaryIO]:
    """A file to read, or the standard input for `-`."""
    if path != STANDARD_INPUT:
        with open(path, "rb") as file:
            yield file
    elif sys.stdin is None:
        raise OSError(errno.EBADF, "the standard input is closed")
    else:
        yield sys.stdin.buffer


def read(path: str, takes_input: bool = False) -> bytes:
    """The bytes of a file; if that is wanted, those of the standard input for `-`."""
    try:
        with opened(path) if takes_input else open(path, "rb") as file:
            return file.read()
    except OSError as error:
        raise Failed("%s: cannot be read: %s" % (path, error.strerror)) from None


def save(path: str, text: str) -> None:
    """Writes a text to a file."""
    try:
        with open(path, "w", encoding="utf-8") as file:
            file.write(text)
    except OSError as error:
        raise Failed("%s: cannot be written: %s" % (path, error.strerror)) from None


def write(text: str) -> None:
    """Writes a text to the standard output."""
    if sys.stdout is None:
        raise Failed("the standard output is closed")
    try:
        sys.stdout.write(text)
        sys.stdout.flush()
    except OSError as error:
        # Python would write what is left at its end, and fail again.
        os.dup2(os.open(os.devnull, os.O_WRONLY), sys.stdout.fileno())
        raise Failed("the standard output took no more: %s" % error.strerror) from None


def ended(main: Callable[[], int]) -> int:
    """Runs a tool. What it fails for is a line on the standard error, and status 1."""
    # A reader that ends early, as `head` does, ends the script without a word.
    signal.signal(signal.SIGPIPE, signal.SIG_DFL)
    if sys.stdout is not None:
        # Wherever it runs; a path may have bytes that are no text.
        sys.stdout.reconfigure(encoding="utf-8", errors="backslashreplace")
    try:
        return main()
    except Failed as failed:
        print(failed, file=sys.stderr)
        return 1
