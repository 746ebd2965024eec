"""The lines of a run that show that something was refused or lost, without its log: how often each core prints each."""

from collections import Counter
from typing import Dict, NamedTuple, Optional, Sequence

_HOOK = "hook "
_ERROR_HOOK = "hook Error "
_CALLS = ("stat", "in", "start")
_EXPIRIES = ("alarm", "point")
_ACTIONS = ("act", "ev", "free", "out", "hook")  # what the lines of an expiry's actions begin with
_ENDS = ("E_OS_MISSINGEND", "E_OS_DISABLEDINT")  # how a script ended: what ends stands behind them


class ErrorLine(NamedTuple):
    """A line of a core's block; where it does not say who was refused, with the line that does."""

    core: int
    text: str


def error_lines(blocks: Dict[int, Sequence[str]]) -> Dict[ErrorLine, int]:
    """How often each core prints each of its error lines."""
    found: Dict[ErrorLine, int] = Counter()
    for core, lines in blocks.items():
        for place, line in enumerate(lines):
            text = _error(lines, place) if "E_OS_" in line or line.startswith("lost ") else None
            if text is not None:
                found[ErrorLine(core, text)] += 1
    return found


def _error(lines: Sequence[str], place: int) -> Optional[str]:
    """A line as it is counted; a call of ErrorHook behind the line that has the status is not."""
    line = lines[place]
    if not line.startswith(_HOOK):
        return line
    before = lines[place - 1].split(" ") if place else [""]
    if line.startswith(_ERROR_HOOK) and before[0] in _CALLS and line.split(" ")[2] in before:
        return None
    beside = _beside(lines, place)
    return "%s, %s" % (line, beside) if beside else line


def _beside(lines: Sequence[str], place: int) -> str:
    """The line that says whose the status of a hook is: the expiry before it, or what ends behind it."""
    if lines[place].startswith(_ERROR_HOOK) and not lines[place].endswith(_ENDS):
        return _expiry_before(lines, place)
    behind = lines[place + 1 : place + 3]
    return next((line for line in behind if line.startswith(("end ", "leave "))), "")


def _expiry_before(lines: Sequence[str], place: int) -> str:
    """The alarm or the point whose action a call of ErrorHook is of."""
    for line in reversed(lines[:place]):
        word = line.split(" ", 1)[0]
        if word in _EXPIRIES:
            return line
        if word not in _ACTIONS:
            break
    return ""
