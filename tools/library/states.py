"""In which state each task and each ISR is, from turn to turn; what the exports and the picture show.

One is in the state of its oldest live job, since jobs of one task or ISR run one after another.
"""

from typing import Dict, List, NamedTuple

from library.jobs import SPINLOCK, STATES, Job, Jobs
from library.timeline import Timeline


class Stretch(NamedTuple):
    """A state of the oldest job of a task or an ISR from a turn to another one."""

    job: Job
    state: str
    begin: int
    end: int


class Held(NamedTuple):
    """A resource or a spinlock that a job holds from a turn to another one."""

    job: Job
    name: str
    begin: int
    end: int


def end_of(timeline: Timeline) -> int:
    """The turn up to which what does not end is shown."""
    return timeline.turns + 1


def _last_turns(timeline: Timeline) -> Dict[int, int]:
    """The turn up to which a job of each core is shown that does not end; a core that was shut down runs none."""
    found = {core: end_of(timeline) for core in timeline.run.cores}
    found.update({core: item.turn for core, item in timeline.down.items()})
    return found


def stretches_by_name(jobs: Jobs) -> Dict[str, List[Stretch]]:
    """The states of each task and ISR that has a job, in their order.

    A state that is over in the same turn is left out, as the running one between two ISRs.
    """
    found: Dict[str, List[Stretch]] = {}
    last = _last_turns(jobs.timeline)
    for job in jobs.jobs:
        earlier = found.setdefault(job.name, [])
        free = earlier[-1].end if earlier else 0
        earlier += _stretches(job, free, last[job.core])
    return found


def _stretches(job: Job, free: int, last: int) -> List[Stretch]:
    """The states of a job, behind the turn in which the jobs before it have ended."""
    found: List[Stretch] = []
    ends = [change.item.turn for change in job.changes[1:]] + [last]
    for change, end in zip(job.changes, ends):
        begin = max(change.item.turn, free)
        if change.event in STATES and begin < end:
            if found and found[-1].state == STATES[change.event]:
                begin = found.pop().begin
            found.append(Stretch(job, STATES[change.event], begin, end))
    return found


def held_by_task(jobs: Jobs) -> Dict[str, List[Held]]:
    """The resources and the spinlocks that the jobs of each task and ISR hold.

    A core that was shut down gives no resource back, and its spinlocks in later turns.
    """
    found: Dict[str, List[Held]] = {}
    last = _last_turns(jobs.timeline)
    for job in jobs.jobs:
        for hold in (each for each in job.holds if each.taken is not None):
            end = end_of(jobs.timeline) if hold.kind == SPINLOCK else last[job.core]
            end = hold.given.turn if hold.given is not None else end
            found.setdefault(job.name, []).append(Held(job, hold.name, hold.taken.turn, end))
    return found


class Row(NamedTuple):
    """A task or an ISR, as rows show it."""

    core: int
    name: str
    rank: str  # its priority or its level


def rows_of(timeline: Timeline) -> List[Row]:
    """By core the ISRs by descending level, and the tasks by descending priority; equal ones as they are configured."""
    rows = []
    for core in sorted(timeline.run.draft.cores, key=lambda core: core.id):
        for kind, rank in (("isrs", "level"), ("tasks", "prio")):
            ranked = sorted(core.named[kind], key=lambda each, rank=rank: -each[rank])
            rows += [Row(core.id, each.name, "%s %d" % (rank, each[rank])) for each in ranked]
    return rows
