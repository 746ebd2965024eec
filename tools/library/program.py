"""Runs the program `mcos`, and takes what it prints."""

import os
import shutil
import subprocess
from dataclasses import dataclass
from typing import Optional, Sequence

from library.ending import Failed

ROOT = os.path.dirname(os.path.dirname(os.path.dirname(os.path.abspath(__file__))))
BUILT = os.path.join(ROOT, "crates", "mcos", "out", "mcos")
STALLED = 3


@dataclass(frozen=True)
class Printed:
    """What a command printed on its standard output, and whether it was a run that stalled."""

    text: str
    is_stalled: bool


def program_of(word: Optional[str]) -> str:
    """The program: the given one, that of the environment variable MCOS, that of the path, or the built one."""
    return word or os.environ.get("MCOS") or shutil.which("mcos") or BUILT


def printed(program: str, *words: str) -> Printed:
    """Runs a command that has to succeed; a run may stall."""
    try:
        done = subprocess.run([program, *words], capture_output=True, encoding="utf-8", errors="backslashreplace")
    except OSError as error:
        raise Failed("%s: cannot be run: %s" % (program, error.strerror)) from None
    if done.returncode not in (0, STALLED):
        raise Failed(_reason(done.stderr.strip() or "status %d" % done.returncode, program, words))
    return Printed(done.stdout, done.returncode == STALLED)


def _reason(text: str, program: str, words: Sequence[str]) -> str:
    """Why a command failed; a fault says neither its file nor its place."""
    hint = "; tools/explain says where a fault is" if text.startswith("fault ") else ""
    return "%s %s: %s%s" % (program, " ".join(words), text, hint)
