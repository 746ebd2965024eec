"""Why a run stalled: for what each core waits that has not ended, who waits in a circle, and whose stimuli are short.

By the default schedule that is how it stays, since a whole round changed nothing. A listed schedule may only end too
early. A core that waits for a spinlock still serves the others, so each reply comes with further turns. A circle is
therefore one of spinlocks alone.
"""

from dataclasses import dataclass
from typing import Any, Dict, List, NamedTuple, Optional, Tuple

from library.findings import listed
from library.items import OK, Item, Runner
from library.jobs import SPINLOCK, TERMINATE, Job, Jobs
from library.timeline import mailbox_levels

# For what a core waits.
REPLY = "reply"
MAILBOX = "mailbox"
BARRIER = "barrier"
START_OF_CORE = "start"
TURN = "turn"  # for nothing: the schedule ended before the core could go on
# The barriers: which item reaches one, and which one passes it.
_BARRIERS = (("entered", "pass1", "first"), ("readied", "pass2", "second"), ("drained", "passend", "last"))


@dataclass(frozen=True)
class Wait:
    """A core that has not ended, for what it waits, and for which cores.

    `name` is the spinlock, the operation whose reply is awaited, or the barrier: `first`, `second` or `last`. Of a call
    there are whose job made it, and the number of the operation; of a spinlock that a live job holds, its `holder`.
    """

    core: int
    kind: str
    name: str = ""
    cores: Tuple[int, ...] = ()
    runner: Optional[Runner] = None
    place: Optional[int] = None
    holder: Optional[Runner] = None

    def __str__(self) -> str:
        return "core %d: %s" % (self.core, _TEXTS[self.kind](self))


class Kept(NamedTuple):
    """A spinlock for which a core waits, and which a job of a core holds that has used up its stimuli."""

    core: int
    holder: Runner
    spinlock: str

    def __str__(self) -> str:
        text = "the stimuli of core %d end while %s holds %s: they may be too short, and this is no circle"
        return text % (self.core, named(self.holder), self.spinlock)


Circle = Tuple[Wait, ...]  # each waits for a spinlock of the next one's core, and the last for one of the first's


@dataclass(frozen=True)
class Stall:
    """All cores that have not ended by ascending number, the spinlocks that drained cores keep, and the circles."""

    waits: Tuple[Wait, ...]
    kept: Tuple[Kept, ...]
    circles: Tuple[Circle, ...]

    @property
    def figures(self) -> Dict[str, Any]:
        """It as a plain value, each part with its text."""
        return {
            "waits": [_plain_wait(wait) for wait in self.waits],
            "kept": [
                {"core": each.core, "who": each.holder.name, "spinlock": each.spinlock, "text": str(each)}
                for each in self.kept
            ],
            "circles": [
                {
                    "cores": [wait.core for wait in circle],
                    "spinlocks": [wait.name for wait in circle],
                    "text": text_of_circle(circle),
                }
                for circle in self.circles
            ],
        }


def stall_of(jobs: Jobs) -> Optional[Stall]:
    """Why a run stalled; None if it ended."""
    if jobs.timeline.run.has_ended:
        return None
    waits = _End(jobs).waits()
    return Stall(tuple(waits), tuple(_kept(jobs, waits)), tuple(_circles(waits)))


def named(runner: Runner) -> str:
    """A task or an ISR with its name."""
    return "%s %s" % runner


def text_of_circle(circle: Circle) -> str:
    """A circle, in order."""
    text = "core %d waits for %s of %s of core %d"
    waits = [text % (each.core, each.name, named(each.holder), each.cores[0]) for each in circle if each.holder]
    return "a circle of spinlocks: " + ", ".join(waits)


def _plain_wait(wait: Wait) -> Dict[str, Any]:
    """A wait as a plain value."""
    return {
        "core": wait.core,
        "for": wait.kind,
        "name": wait.name,
        "cores": list(wait.cores),
        "who": wait.runner.name if wait.runner is not None else None,
        "operation": wait.place,
        "holder": wait.holder.name if wait.holder is not None else None,
        "text": str(wait),
    }


# ---------------------------------------------------------------------------------------------------------------------
# The texts
# ---------------------------------------------------------------------------------------------------------------------


def _call(wait: Wait) -> str:
    """Who has made a call."""
    return "%s, operation %d" % (named(wait.runner), wait.place) if wait.runner else ""


def _cores(wait: Wait) -> str:
    """For which cores it waits."""
    return "%s %s" % ("core" if len(wait.cores) == 1 else "cores", listed(map(str, wait.cores)))


def _of_spinlock(wait: Wait) -> str:
    """It waits for a spinlock."""
    core = wait.cores[0]
    held = "%s of core %d holds" % (named(wait.holder), core) if wait.holder else "core %d has to give back" % core
    return "%s, waits for the spinlock %s, which %s" % (_call(wait), wait.name, held)


def _of_reply(wait: Wait) -> str:
    """It waits for a reply."""
    return "%s, waits for the reply of %s to %s" % (_call(wait), _cores(wait), wait.name)


def _of_barrier(wait: Wait) -> str:
    """It waits at a barrier."""
    drained = "has drained, and " if wait.name == "last" else ""
    return "%swaits at the %s barrier for %s" % (drained, wait.name, _cores(wait))


_TEXTS = {
    SPINLOCK: _of_spinlock,
    REPLY: _of_reply,
    BARRIER: _of_barrier,
    START_OF_CORE: lambda wait: "is not started yet, and waits for %s" % _cores(wait),
    MAILBOX: lambda wait: "waits for room in the mailbox to %s" % _cores(wait),
    TURN: lambda wait: "waits for no other core: the schedule ends before its next turn",
}

# ---------------------------------------------------------------------------------------------------------------------
# The waits
# ---------------------------------------------------------------------------------------------------------------------


class _End:
    """The cores at the end of a run."""

    def __init__(self, jobs: Jobs):
        self.jobs = jobs
        self.items = jobs.timeline.by_core
        self.logs = {core: [item.words for item in items] for core, items in self.items.items()}
        self.holders = _holders(jobs)
        begun = {int(words[1]) for log in self.logs.values() for words in log if words[0] == "began" and words[2] == OK}
        self.started = {jobs.timeline.run.draft["master"]} | begun

    def waits(self) -> List[Wait]:
        """The waits of the cores that have not ended; also of those that were yet to be started."""
        draft = self.jobs.timeline.run.draft
        return [self._wait(core) for core in sorted(draft.started()) if not self._has_ended(core)]

    def _has(self, core: int, *start: str) -> bool:
        """Whether a core took an item that begins with some words."""
        return any(words[: len(start)] == list(start) for words in self.logs[core])

    def _has_ended(self, core: int) -> bool:
        """Whether a core ended; with modes in conflict it does so at once."""
        return self._has(core, "last") or self._has(core, "pass1", "conflict")

    def _wait(self, core: int) -> Wait:
        """For what a core waits."""
        if core not in self.started:
            return Wait(core, START_OF_CORE, cores=self._starters(core))
        for reaches, passes, name in _BARRIERS:
            if self._has(core, reaches) and not self._has(core, passes):
                others = tuple(each for each in sorted(self.started) if not self._has(each, reaches))
                return Wait(core, BARRIER, name, others) if others else Wait(core, TURN)
        return self._wait_of_call(core) or self._wait_of_mailbox(core) or Wait(core, TURN)

    def _starters(self, core: int) -> Tuple[int, ...]:
        """The cores that have a core in their start lists."""
        cores = sorted(self.jobs.timeline.run.draft.cores, key=lambda each: each.id)
        return tuple(each.id for each in cores if core in each["start"])

    def _wait_of_call(self, core: int) -> Optional[Wait]:
        """For what a core waits by a call of its job that is open."""
        item = open_call(self.items[core])
        if item is None:
            return None
        if item.waits is None:
            sent = next(each for each in self.jobs.envelopes if each.sent is item and each.deed.is_of_job)
            return Wait(core, REPLY, sent.deed.operation, (sent.receiver,), item.runner, item.place)
        service, name = item.waits.split(" ")[:2]
        if service != "GetSpinlock" or name not in self.holders:
            return None
        job = self.holders[name]
        is_live = job.changes[-1].event != TERMINATE and job.core not in self.jobs.timeline.down
        return Wait(core, SPINLOCK, name, (job.core,), item.runner, item.place, _runner(job) if is_live else None)

    def _wait_of_mailbox(self, core: int) -> Optional[Wait]:
        """Whether the oldest envelope of a core's outbox has no room in its mailbox."""
        receivers = [receiver for item in self.items[core] for receiver in _receivers(item)]
        left = receivers[sum(words[0] == "post" for words in self.logs[core]) :]
        levels = mailbox_levels(self.jobs.timeline).get((core, left[0])) if left else None
        is_full = levels is not None and levels[-1][1] == self.jobs.timeline.run.draft["cap"]
        return Wait(core, MAILBOX, cores=(left[0],)) if is_full else None


def _receivers(item: Item) -> List[int]:
    """For which cores an item puts envelopes in the outbox: a reply, or requests and actions."""
    words = item.words
    if words[0] == "in" and words[3] == "req":
        return [int(words[1])]
    return [int(line.split(" ")[1]) for line in item.lines if line.startswith("out ")]


def open_call(items: List[Item]) -> Optional[Item]:
    """Of a core's items the one in which a job made a call that is not answered."""
    for item in reversed(items):
        if item.called is not None or item.words[0] == "halt":
            return None
        if item.is_op:
            is_sent = any(deed.is_of_job and deed.status is None for deed in item.deeds)
            return item if is_sent or item.waits is not None else None
    return None


def _holders(jobs: Jobs) -> Dict[str, Job]:
    """The spinlocks that were not given back, each with the job that got it."""
    return {hold.name: job for job in jobs.jobs for hold in job.holds if hold.kind == SPINLOCK and hold.is_kept}


def _runner(job: Job) -> Runner:
    """Whose job it is."""
    return Runner(job.kind, job.name)


def _kept(jobs: Jobs, waits: List[Wait]) -> List[Kept]:
    """The spinlocks for which a core waits, and which a drained core keeps."""
    drained = {core for core, items in jobs.timeline.by_core.items() if any(item.text == "drained" for item in items)}
    found = [Kept(each.cores[0], each.holder, each.name) for each in waits if each.holder and each.cores[0] in drained]
    return list(dict.fromkeys(found))


def _circles(waits: List[Wait]) -> List[Circle]:
    """The circles, each from its least core on."""
    behind = {each.core: each for each in waits if each.holder is not None}
    found = []
    for core in sorted(behind):
        way = [core]
        while way[-1] in behind and behind[way[-1]].cores[0] not in way:
            way.append(behind[way[-1]].cores[0])
        if way[-1] in behind and behind[way[-1]].cores[0] == core == min(way):
            found.append(tuple(behind[each] for each in way))
    return found
