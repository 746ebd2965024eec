"""What an import says of what has no place in the configuration: lines with what, where and why.

Whatever nobody asked a container for is named here, so nothing is dropped without a word. Of several containers of a
kind of which the same is to be said, the first one is shown, and the others are counted.
"""

import re
from dataclasses import dataclass
from typing import Dict, Iterable, Iterator, List, Optional, Tuple, Union

from library.ecuc import Node, Spot, Value, truth
from library.not_json import printable

# Values that say no more than what is always so here.
AS_HERE = {
    "OsCounterTicksPerBase": ("1",),
    "OsErrorHook": (True,),
    "OsPostTaskHook": (True,),
    "OsPreTaskHook": (True,),
    "OsProtectionHook": (True,),
    "OsScheduleTableSync": (False,),
    "OsShutdownHook": (True,),
    "OsSpinlockLockMethod": ("LOCK_NOTHING",),
    "OsStartupHook": (True,),
    "OsStatus": ("EXTENDED",),
    "OsTrusted": (True,),
    "OsUseGetServiceId": (False,),
    "OsUseParameterAccess": (False,),
    "OsUseResScheduler": (True, False),
}
_NO_ACCESS = "each object may be used by each task and ISR"
_NO_INTERRUPT_LOCK = "there are no time limits on suspended interrupts"
_LOCK_AT_RESOURCE = "a lock budget stands at the resource here, for all tasks that take it: write `lock` there"
_HOOK = "this hook is always called"
# Why a parameter, a reference or a container has no place.
REASONS = {
    "OsAlarmAccessingApplication": _NO_ACCESS,
    "OsAlarmCallback": "an alarm has no callback",
    "OsAlarmIncrementCounter": "an alarm increments no counter",
    "OsAppErrorHook": "there are no hooks of OS-Applications",
    "OsAppShutdownHook": "there are no hooks of OS-Applications",
    "OsAppStartupHook": "there are no hooks of OS-Applications",
    "OsApplicationHooks": "there are no hooks of OS-Applications",
    "OsApplicationTrustedFunction": "there are no trusted functions",
    "OsAppEcucPartitionRef": "there are no partitions",
    "OsCounterAccessingApplication": _NO_ACCESS,
    "OsCounterTicksPerBase": "each `tick` increments a counter by one",
    "OsDriver": "each `tick` increments a counter that is no software counter",
    "OsErrorHook": _HOOK,
    "OsIoc": "there is no IOC",
    "OsIsrTimeFrame": "there are no time frames",
    "OsMemoryMappingCodeLocationRef": "there is no memory",
    "OsNumberOfCores": "the cores are those of the OsApplications",
    "OsPeripheralArea": "there is no memory protection",
    "OsPostTaskHook": _HOOK,
    "OsPreTaskHook": _HOOK,
    "OsProtectionHook": _HOOK,
    "OsResourceAccessingApplication": _NO_ACCESS,
    "OsRestartTask": "OS-Applications do not restart",
    "OsScheduleTableSync": "there are no synchronised schedule tables",
    "OsScheduleTblAdjustableExpPoint": "there are no synchronised schedule tables",
    "OsSchTblAccessingApplication": _NO_ACCESS,
    "OsShutdownHook": _HOOK,
    "OsSpinlockAccessingApplication": _NO_ACCESS,
    "OsSpinlockLockMethod": "GetSpinlock locks nothing else: call SuspendAllInterrupts before it",
    "OsStartupHook": _HOOK,
    "OsStatus": "the checks of a service are those of EXTENDED",
    "OsTaskAccessingApplication": _NO_ACCESS,
    "OsTaskTimeFrame": "there are no time frames",
    "OsTimeConstant": "scripts name no times",
    "OsTrusted": "there is no memory protection",
    "OsTrustedApplicationWithProtection": "there is no memory protection",
}
# The time limits on locks that tasks and ISRs have, in the words of ARXML and of OIL.
_LOCKS = (
    (re.compile(r"LOCKINGTIME|\w*ResourceLock(Budget|Time)?", re.IGNORECASE), _LOCK_AT_RESOURCE),
    (re.compile(r"\w*Lock(Budget|Time)", re.IGNORECASE), _NO_INTERRUPT_LOCK),
)
NO_PLACE = "no place in the configuration"
NO_NAME = "a name is a letter, and up to 127 letters, digits and underscores"


def reason_of(key: str) -> str:
    """Why a parameter, a reference or a container has no place."""
    lock = next((reason for pattern, reason in _LOCKS if pattern.fullmatch(key)), NO_PLACE)
    return REASONS.get(key, lock)


@dataclass
class _Note:
    """A note, and how many more containers it stands for."""

    spot: Spot
    text: str
    kind: str = ""
    more: int = 0

    @property
    def line(self) -> str:
        more = "; so for %d more %s" % (self.more, self.kind) if self.more else ""
        return "%s: note: %s%s" % (self.spot, printable(self.text), more)


class Notes:
    """The notes of an import, as they are found."""

    def __init__(self, paths: Iterable[str]) -> None:
        self.order = {path: number for number, path in enumerate(paths)}
        self.notes: List[_Note] = []
        self.alike: Dict[Tuple[str, ...], _Note] = {}

    def note(self, spot: Spot, text: str) -> None:
        """One note."""
        self.notes.append(_Note(spot, text))

    def of(self, node: Node, text: str, spot: Optional[Spot] = None) -> None:
        """A note on a container."""
        self.note(spot or node.spot, "%s: %s" % (node.title, text))

    def alike_of(self, node: Node, said: str, text: str, spot: Optional[Spot] = None) -> None:
        """A note on a container which can be the same for many of its kind: `said` is what they have in common."""
        key = (node.kind, said)
        if key in self.alike:
            self.alike[key].more += 1
            return
        self.alike[key] = _Note(spot or node.spot, "%s: %s" % (node.title, text), node.word)
        self.notes.append(self.alike[key])

    def left(self, node: Node) -> None:
        """Notes on all that nobody asked a container for, and what stands in it."""
        for owner, value in _unread(node):
            text = "%s %s: %s" % (value.word, value.shown, reason_of(value.key))
            self.alike_of(owner, value.key, text, value.spot)

    def lines(self) -> List[str]:
        """All lines, by the order of the files and of the places in them."""
        return [note.line for note in sorted(self.notes, key=self._place)]

    def _place(self, note: _Note) -> Tuple[int, int, int]:
        return self.order.get(note.spot.path, len(self.order)), note.spot.line, note.spot.column


def _unread(owner: Node) -> Iterator[Tuple[Node, Union[Value, Node]]]:
    """What nobody asked for, each with the container that has it."""
    for value in owner.values:
        if value.key not in owner.read and not _is_as_here(value):
            yield owner, value
    for part in owner.parts:
        if part.kind in owner.read:
            yield from _unread(part)
        else:
            yield owner, part


def _is_as_here(value: Value) -> bool:
    """Whether a parameter says what is always so."""
    return any(same in (value.text, truth(value.text)) for same in AS_HERE.get(value.key, ()))
