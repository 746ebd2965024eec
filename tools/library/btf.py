"""A run in the Best Trace Format (BTF 2.2), which Trace Compass and the tools of Timing-Architects read.

A row is `time,source,source instance,type,target,target instance,event`. The time is the number of the turn. A job is
an instance of its task (T) or of its ISR (I). What activates a job, or would have, is a stimulus (STI), which another
job or the simulation triggers. A job that is interrupted is one that is preempted here.

A resource or a spinlock is a semaphore (SEM), which jobs request, get and release. A job polls while it waits for a
spinlock that another core has: it keeps its core, which dispatches nothing meanwhile, so it is never parked. Each event
of a task is one of the operating system (EVENT), named after the task and the mask of this event alone.
"""

import os
from bisect import bisect_right
from collections import Counter
from datetime import datetime, timezone
from typing import Dict, Iterator, List, NamedTuple, Optional, Tuple, Union

from library.ending import Failed
from library.formats import is_decimal
from library.items import Item
from library.jobs import (
    ACTIVATE,
    CONTINUE,
    INTERRUPT,
    LOST,
    PREEMPT,
    RESUME,
    SPINLOCK,
    Cause,
    Change,
    EventDeed,
    Hold,
    Job,
    Jobs,
    Mark,
    Part,
    Refusal,
)
from library.model import ISR, TASK

SIMULATION = "SIM"
AUTOSTART = "autostart"
INTERRUPTS = "interrupt"  # what triggers the stimulus of an ISR
BEYOND = "mtalimitexceeded"
_LIMIT = "E_OS_LIMIT"
_TYPES = {TASK: "T", ISR: "I"}
_EVENTS = {INTERRUPT: PREEMPT, CONTINUE: RESUME}
# What a job does with a semaphore, in the order in which it shows within a turn; and what it does itself meanwhile.
RELEASED = "released"
REQUESTED = "requestsemaphore"
ASSIGNED = "assigned"
WAITING = "waiting"
_STEPS = (RELEASED, REQUESTED, ASSIGNED, WAITING)
POLL = "poll"
RUN = "run"
_CREATED = "SOURCE_DATE_EPOCH"

Row = Tuple[object, ...]


class Step(NamedTuple):
    """What a job does with a semaphore in a turn; and what it does itself then, if anything."""

    turn: int
    job: Job
    name: str
    event: str
    of_job: Optional[str] = None


Shown = Union[Change, EventDeed, Step, Refusal, Mark]


def text(jobs: Jobs, source: str) -> str:
    """The whole text; the source says what it was made from."""
    lines = ["#version 2.2.0", "#creator mcos tools/export", *_creation_date(), "#inputFile %s" % source]
    lines += ["#timeScale us", "# a time is the number of a turn of the %s schedule" % jobs.timeline.run.schedule]
    return "\n".join(lines + [",".join(map(str, row)) for row in rows(jobs)]) + "\n"


def _creation_date() -> List[str]:
    """When the text was made, if the environment says so. A clock would make each text another one."""
    seconds = os.environ.get(_CREATED)
    if seconds is None:
        return []
    try:
        moment = datetime.fromtimestamp(int(seconds), timezone.utc) if is_decimal(seconds) else None
    except (OverflowError, ValueError, OSError):
        moment = None
    if moment is None:
        raise Failed("%s is %r, which is no number of seconds since 1970" % (_CREATED, seconds))
    return [moment.strftime("#creationDate %Y-%m-%dT%H:%M:%SZ")]


def rows(jobs: Jobs) -> Iterator[Row]:
    """The rows by ascending times."""
    numbers: Dict[str, int] = Counter()
    for _, _, each in sorted(_shown(jobs), key=lambda entry: entry[:2]):
        yield from _ROWS[type(each)](numbers, each)


def _shown(jobs: Jobs) -> Iterator[Tuple[int, float, Shown]]:
    """All that is shown, each with its turn and its place within it. What has the same place keeps its order."""
    for step in _steps(jobs):
        yield step.turn, _STEPS.index(step.event) - len(_STEPS), step
    for place, change in enumerate(jobs.changes):
        yield change.item.turn, place, change
    for deed in jobs.events:
        yield deed.item.turn, deed.before - 0.5, deed
    behind = len(jobs.changes)
    for refusal in filter(_is_limit, jobs.refusals):
        yield refusal.item.turn, behind, refusal
    for mark in jobs.marks:
        if mark.kind == LOST:
            yield mark.item.turn, behind, mark


def _is_limit(refusal: Refusal) -> bool:
    """Whether a task had too many activations."""
    return refusal.actor.activates is not None and refusal.status == _LIMIT


# ---------------------------------------------------------------------------------------------------------------------
# Semaphores
# ---------------------------------------------------------------------------------------------------------------------


def _steps(jobs: Jobs) -> Iterator[Step]:
    """What jobs do with resources and spinlocks."""
    owners = _Owners(jobs)
    for job in jobs.jobs:
        # The newest one is released first.
        for hold in reversed(job.holds):
            polls = owners.polls_from(job, hold)
            yield Step(hold.called.turn, job, hold.name, REQUESTED)
            if polls is not None:
                yield Step(polls, job, hold.name, WAITING, POLL)
            if hold.taken is not None:
                yield Step(hold.taken.turn, job, hold.name, ASSIGNED, RUN if polls is not None else None)
            if hold.given is not None:
                yield Step(hold.given.turn, job, hold.name, RELEASED)


class _Owners:
    """Who had each spinlock, in the order of the turns."""

    def __init__(self, jobs: Jobs):
        self.down = jobs.timeline.down
        self.holds: Dict[str, List[Hold]] = {}
        for job in jobs.jobs:
            for hold in job.holds:
                if hold.kind == SPINLOCK and hold.taken is not None:
                    self.holds.setdefault(hold.name, []).append(hold)
        for holds in self.holds.values():
            holds.sort(key=_taken)
        self.turns = {name: list(map(_taken, holds)) for name, holds in self.holds.items()}

    def polls_from(self, job: Job, hold: Hold) -> Optional[int]:
        """The first turn in which a job waits for a spinlock while another core has it; None if it need not.

        A TryToGetSpinlock never waits.
        """
        if hold.called.waits is None or not hold.called.waits.startswith("GetSpinlock "):
            return None
        called, holds = hold.called.turn, self.holds.get(hold.name, [])
        at = bisect_right(self.turns.get(hold.name, []), called)
        if at and (holds[at - 1].given is None or holds[at - 1].given.turn > called):
            return called
        if at == len(holds) or holds[at] is hold:
            return None
        # A core that was halted has dropped the call.
        is_halted = job.core in self.down and self.down[job.core].turn < _taken(holds[at])
        return None if is_halted else _taken(holds[at])


def _taken(hold: Hold) -> int:
    """The turn in which it was got."""
    return hold.taken.turn


# ---------------------------------------------------------------------------------------------------------------------
# Rows
# ---------------------------------------------------------------------------------------------------------------------


def _of_step(_: Dict[str, int], step: Step) -> Iterator[Row]:
    """The rows of what a job does with a semaphore."""
    yield step.turn, step.job.name, step.job.number, "SEM", step.name, 0, step.event
    if step.of_job is not None:
        yield _of_job(step.turn, step.job, step.of_job)


def _of_job(turn: int, job: Job, event: str) -> Row:
    """The row of what a job does on its core."""
    return turn, "Core_%d" % job.core, 0, _TYPES[job.kind], job.name, job.number, event


def _of_change(numbers: Dict[str, int], change: Change) -> Iterator[Row]:
    """The rows of an event of a job."""
    job, item = change.job, change.item
    if change.event != ACTIVATE:
        yield _of_job(item.turn, job, _EVENTS.get(change.event, change.event))
        return
    target = _TYPES[job.kind], job.name, job.number
    yield from _stimulus(numbers, item, job.parts[0].parent, target, ACTIVATE)


def _of_event(_: Dict[str, int], deed: EventDeed) -> Iterator[Row]:
    """The rows of what is done with events: one for each."""
    for bit in range(deed.mask.bit_length()):
        if deed.mask >> bit & 1:
            name = "EVENT_%s_%d" % (deed.task, 1 << bit)
            yield (deed.item.turn, *_source(deed.cause), "EVENT", name, 0, deed.kind)


def _of_refusal(numbers: Dict[str, int], refusal: Refusal) -> Iterator[Row]:
    """The rows of a lost activation. It is of no job, and bears the number that the next one will have."""
    target = _TYPES[TASK], refusal.actor.activates or "", refusal.before
    yield from _stimulus(numbers, refusal.item, refusal.cause, target, BEYOND)


def _of_lost(numbers: Dict[str, int], mark: Mark) -> Iterator[Row]:
    """The rows of a lost interrupt, with the number that the next one will have."""
    yield from _stimulus(numbers, mark.item, None, (_TYPES[ISR], mark.name, mark.before), BEYOND)


_ROWS = {Step: _of_step, Change: _of_change, EventDeed: _of_event, Refusal: _of_refusal, Mark: _of_lost}


def _source(cause: Optional[Cause]) -> Tuple[str, int]:
    """The job that does something; of an alarm, a table or an autostart it is the simulation."""
    return (cause.name, cause.number) if isinstance(cause, Part) else (SIMULATION, 0)


def _stimulus(
    numbers: Dict[str, int], item: Item, cause: Optional[Cause], target: Tuple[str, str, int], event: str
) -> Iterator[Row]:
    """A stimulus is triggered, and has an effect on a task or an ISR, whose type, name and instance are given."""
    alone = AUTOSTART if target[0] == _TYPES[TASK] else INTERRUPTS
    name = "STI_%s_%s" % (cause.name if cause is not None else alone, target[1])
    yield (item.turn, *_source(cause), "STI", name, numbers[name], "trigger")
    yield (item.turn, name, numbers[name], *target, event)
    numbers[name] += 1
