"""What a run amounts to in numbers: a plain value, which is printed as JSON, as tables, and held to requirements."""

from collections import Counter
from typing import Any, Callable, Dict, Iterator, List, Optional, Sequence, Tuple

from library.drafts import Core, Named
from library.items import START, Deed, Item
from library.jobs import (
    LOST,
    PROTECTION,
    PROTECTION_TIME,
    RESOURCE,
    SHUTDOWN,
    SPINLOCK,
    TERMINATE,
    Hold,
    Job,
    Jobs,
    Mark,
    Part,
    Preemption,
)
from library.model import TABLE, model_of
from library.stalls import stall_of
from library.timeline import mailbox_levels

Figures = Dict[str, Any]

TICKS = "ticks"
STIMULI = "stimuli"
ROUNDS = "rounds"
TURNS = "turns"
_MEASURES: Dict[str, Callable[[Item], int]] = {
    TICKS: lambda item: item.tick,
    STIMULI: lambda item: item.stimulus,
    ROUNDS: lambda item: item.round,
    TURNS: lambda item: item.turn,
}
ARROW = " > "


def units_of(figures: Figures) -> Tuple[str, ...]:
    """In what a time is measured: ticks and stimuli of its core, and rounds or, of a listed schedule, turns."""
    return TICKS, STIMULI, TURNS if figures["run"][ROUNDS] is None else ROUNDS


def tasks_and_isrs(figures: Figures) -> Iterator[Tuple[str, Figures]]:
    """The tasks and then the ISRs, each with its name."""
    for kind in ("task", "isr"):
        for each in figures[kind + "s"]:
            yield each[kind], each


def figures_of(jobs: Jobs) -> Figures:
    """All figures of a run."""
    run, items = jobs.timeline.run, jobs.timeline.items
    last = items[-1] if items else None
    found: Figures = {
        "run": {
            "ended": run.has_ended,
            "conflict": run.has_conflict,
            "schedule": run.schedule,
            TURNS: last.turn if last else 0,
            ROUNDS: (last.round if last else 0) if run.has_rounds else None,
        }
    }
    stall = stall_of(jobs)
    if stall is not None:
        found["stalled"] = stall.figures
    refusals = _refusals(jobs)
    found["cores"] = _cores(jobs, refusals)
    with_jobs = _Owners(jobs, refusals, units_of(found))
    found["tasks"] = _tasks(with_jobs)
    found["isrs"] = _isrs(with_jobs)
    found["refused"] = refusals
    found["preemptions"] = _preemptions(jobs.preemptions, "task")
    found["interruptions"] = _preemptions(jobs.interruptions, "who")
    found["lock_budgets"] = _lock_budgets(with_jobs)
    found["resources"] = _resources(jobs, units_of(found))
    found["spinlocks"] = _spinlocks(jobs, units_of(found))
    found["chains"] = _chains(jobs, units_of(found))
    found["crossings"] = _crossings(jobs)
    found["mailboxes"] = _mailboxes(jobs)
    return found


# ---------------------------------------------------------------------------------------------------------------------
# Counts
# ---------------------------------------------------------------------------------------------------------------------


def who(deed: Deed) -> str:
    """What does an operation, and where: `task Com, operation 3`."""
    if deed.place is None:
        return "the start list" if deed.kind == START else "%s %s" % (deed.kind, deed.name)
    return "%s %s, %s %d" % (deed.kind, deed.name, "offset" if deed.kind == TABLE else "operation", deed.place)


def _refusals(jobs: Jobs) -> List[Figures]:
    """The refused operations, each with how often it was."""
    counts: Dict[tuple, int] = Counter()
    for refusal in jobs.refusals:
        deed = refusal.actor
        caller = deed.name if deed.is_of_job else None
        counts[refusal.core, caller, who(deed), deed.operation, refusal.status, deed.activates] += 1
    names = ("core", "caller", "who", "operation", "status", "lost", "times")
    return [dict(zip(names, key + (times,))) for key, times in counts.items()]


def _cores(jobs: Jobs, refusals: List[Figures]) -> List[Figures]:
    """What each core took."""
    model = model_of(jobs.timeline.run.draft)
    found = []
    marks = _marks(jobs, lambda mark: mark.core)
    for core, items in jobs.timeline.by_core.items():
        stimuli, ticks = (items[-1].stimulus, items[-1].tick) if items else (0, 0)
        total = _op(jobs, core)
        operations = sum(item.runner is not None for item in items)
        lost = sum(each["times"] for each in refusals if each["core"] == core and each["lost"])
        found.append(
            {
                "core": core,
                "standing": model.standing(core),
                "stimuli": stimuli,
                "ticks": ticks,
                "irq": stimuli - ticks - total,
                "op": total,
                "idle": total - operations,
                "load": percent(operations, total),
                "lost": lost + marks[core, LOST],
                "refused": sum(each["times"] for each in refusals if each["core"] == core),
                "errors": sum(len(item.errors) for item in items),
                "protection": marks[core, PROTECTION],
                "down": marks[core, SHUTDOWN],
            }
        )
    return found


def _op(jobs: Jobs, core: int) -> int:
    """How many `op` a core took."""
    return sum(item.is_op for item in jobs.timeline.by_core[core])


def _marks(jobs: Jobs, owner: Callable[[Mark], Any]) -> Dict[tuple, int]:
    """How many marks of each kind each owner has."""
    return Counter((owner(mark), mark.kind) for mark in jobs.marks)


def percent(part: int, whole: int) -> float:
    """A share of a hundred; of nothing it is 0."""
    return 100 * part / whole if whole else 0.0


def _tasks(owners: "_Owners") -> List[Figures]:
    """What became of each task."""
    preempted = Counter(each.job.name for each in owners.whole.preemptions)
    return [
        {
            "task": task.name,
            "core": core.id,
            "prio": task["prio"],
            "activations": len(owners.jobs(task.name)),
            "lost": sum(each["times"] for each in owners.refusals if each["lost"] == task.name),
            "preempted": preempted[task.name],
            **owners.figures(core, task),
        }
        for core, task in owners.configured("tasks")
    ]


def _isrs(owners: "_Owners") -> List[Figures]:
    """What became of each ISR."""
    return [
        {
            "isr": isr.name,
            "core": core.id,
            "level": isr["level"],
            "interrupts": len(owners.jobs(isr.name)),
            "lost": owners.marks[isr.name, LOST],
            **owners.figures(core, isr),
        }
        for core, isr in owners.configured("isrs")
    ]


class _Owners:
    """The tasks and the ISRs with their jobs, and the figures that both have."""

    def __init__(self, jobs: Jobs, refusals: List[Figures], units: Sequence[str]):
        self.whole = jobs
        self.refusals = refusals
        self.units = units
        self.by_name: Dict[str, List[Job]] = {}
        for job in jobs.jobs:
            self.by_name.setdefault(job.name, []).append(job)
        self.operations = Counter(item.runner.name for item in jobs.timeline.items if item.runner is not None)
        self.op = {core: _op(jobs, core) for core in jobs.timeline.run.cores}
        self.interrupted = Counter(each.job.name for each in jobs.interruptions)
        self.marks = _marks(jobs, lambda mark: mark.name)
        # ProtectionHook is called for lock budgets too.
        hooks = (mark for mark in jobs.marks if mark.kind == PROTECTION)
        self.reached = Counter(mark.name for mark in hooks if mark.text.endswith(PROTECTION_TIME))

    def configured(self, kind: str) -> Iterator[Tuple[Core, Named]]:
        """The tasks, the ISRs or the resources, by the name of their list, with their cores, by ascending core."""
        for core in sorted(self.whole.timeline.run.draft.cores, key=lambda core: core.id):
            for each in core.named[kind]:
                yield core, each

    def jobs(self, name: str) -> List[Job]:
        """All jobs of one."""
        return self.by_name.get(name, [])

    def figures(self, core: Core, owner: Named) -> Figures:
        """What became of one, as a task and an ISR have it."""
        own = self.jobs(owner.name)
        ended = sum(job.changes[-1].event == TERMINATE for job in own)
        parts = [part for job in own for part in job.parts]
        return {
            "ended": ended,
            "live": len(own) - ended,
            "interrupted": self.interrupted[owner.name],
            "refused": sum(each["times"] for each in self.refusals if each["caller"] == owner.name),
            "op": self.operations[owner.name],
            "load": percent(self.operations[owner.name], self.op[core.id]),
            "budget": owner["budget"],
            "used": max((part.used for part in parts), default=0),
            "reached": self.reached[owner.name],
            "waiting": _times(self.whole, parts, self.units, lambda part: part.start),
            "response": _times(self.whole, parts, self.units, lambda part: part.finish),
        }


def _lock_budgets(owners: "_Owners") -> List[Figures]:
    """How long tasks held each resource while they ran; of one that none took without a task."""
    taken: Dict[str, List[Tuple[Optional[str], List[Hold]]]] = {}
    for (_, name, task), holds in _holds(owners.whole, RESOURCE):
        taken.setdefault(name, []).append((task, holds))
    return [
        {
            "core": core.id,
            "resource": resource.name,
            "task": task,
            "lock": resource["lock"],
            "used": max((hold.used for hold in holds), default=0),
            "reached": sum(hold.reached for hold in holds),
        }
        for core, resource in owners.configured("resources")
        for task, holds in taken.get(resource.name, [(None, [])])
    ]


def _preemptions(found: Sequence[Preemption], name: str) -> List[Figures]:
    """Who preempts or interrupts whom, by core and in the order of the first time; what the one before is called."""
    counts = Counter((each.job.core, each.job.name, each.by) for each in found)
    names = ("core", name, "by", "times")
    return [dict(zip(names, key + (times,))) for key, times in sorted(counts.items(), key=lambda each: each[0][0])]


def _crossings(jobs: Jobs) -> List[Figures]:
    """What went from core to core: how often it was sent, and how often it was served."""
    sent = Counter((each.sender, each.receiver, each.deed.operation) for each in jobs.envelopes)
    taken = [each for each in jobs.envelopes if each.served and not each.is_dropped]
    served = Counter((each.sender, each.receiver, each.deed.operation) for each in taken)
    names = ("from", "to", "operation", "sent", "served")
    keys = sorted(sent, key=lambda key: key[:2])
    return [dict(zip(names, key + (sent[key], served[key]))) for key in keys]


def _mailboxes(jobs: Jobs) -> List[Figures]:
    """How many envelopes each mailbox took, and the most that were in it at once."""
    cap = jobs.timeline.run.draft["cap"]
    found = []
    for pair, levels in sorted(mailbox_levels(jobs.timeline).items()):
        counts = [count for _, count in levels]
        rises = sum(behind > before for before, behind in zip(counts, counts[1:]))
        found.append(dict(zip(("from", "to", "envelopes", "fullest", "cap"), (*pair, rises, max(counts), cap))))
    return found


# ---------------------------------------------------------------------------------------------------------------------
# Times
# ---------------------------------------------------------------------------------------------------------------------


def _times(
    jobs: Jobs, parts: Sequence[Part], units: Sequence[str], end: Callable[[Part], Optional[Item]]
) -> Dict[str, Figures]:
    """How long it takes from the beginning of parts to an item of theirs, in each unit."""
    return _spans(jobs, [(part.item, end(part)) for part in parts], units)


def _spans(jobs: Jobs, spans: Sequence[Tuple[Item, Optional[Item]]], units: Sequence[str]) -> Dict[str, Figures]:
    """How long it takes from one item to another one of the same core, in each unit; without that it still goes on."""
    found = {}
    for unit in units:
        measure = _MEASURES[unit]
        done = [measure(end) - measure(begin) for begin, end in spans if end is not None]
        last = {core: _last(jobs, core, unit) for core in {begin.core for begin, _ in spans}}
        still = [last[begin.core] - measure(begin) for begin, end in spans if end is None]
        found[unit] = times(done, still)
    return found


def _resources(jobs: Jobs, units: Sequence[str]) -> List[Figures]:
    """How often each task took each resource, and for how long."""
    names = ("core", "resource", "task", "times", "held")
    return [dict(zip(names, key + (len(holds), _held(jobs, holds, units)))) for key, holds in _holds(jobs, RESOURCE)]


def _spinlocks(jobs: Jobs, units: Sequence[str]) -> List[Figures]:
    """How often each task and ISR got each spinlock, how long it waited for it, and for how long it had it."""
    names = ("core", "spinlock", "who", "times", "waited", "held")
    found = []
    for key, holds in _holds(jobs, SPINLOCK):
        waited = _spans(jobs, [(hold.called, hold.taken) for hold in holds], units)
        got = [hold for hold in holds if hold.taken is not None]
        found.append(dict(zip(names, key + (len(got), waited, _held(jobs, got, units)))))
    return found


def _holds(jobs: Jobs, kind: str) -> List[Tuple[Tuple[int, str, str], List[Hold]]]:
    """What was held of a kind, by core, name and holder."""
    found: Dict[Tuple[int, str, str], List[Hold]] = {}
    for job in jobs.jobs:
        for hold in job.holds:
            if hold.kind == kind:
                found.setdefault((job.core, hold.name, job.name), []).append(hold)
    return sorted(found.items(), key=lambda pair: pair[0][:2])


def _held(jobs: Jobs, holds: Sequence[Hold], units: Sequence[str]) -> Dict[str, Figures]:
    """How long something was held, in each unit."""
    return _spans(jobs, [(hold.taken, hold.given) for hold in holds], units)


def times(done: Sequence[int], still: Sequence[int] = ()) -> Figures:
    """The least, the greatest and the mean of some times; and of those that still go on, the greatest so far."""
    return {
        "count": len(done),
        "least": min(done, default=None),
        "greatest": max(done, default=None),
        "sum": sum(done),
        "mean": sum(done) / len(done) if done else None,
        "open": len(still),
        "open_greatest": max(still, default=None),
    }


def _last(jobs: Jobs, core: int, unit: str) -> int:
    """What a unit has come to at the end of the run: its own count of a core, or that of all."""
    items = jobs.timeline.by_core[core] if unit in (TICKS, STIMULI) else jobs.timeline.items
    return _MEASURES[unit](items[-1])


# ---------------------------------------------------------------------------------------------------------------------
# Chains
# ---------------------------------------------------------------------------------------------------------------------


def _chains(jobs: Jobs, units: Sequence[str]) -> List[Figures]:
    """The ways from a first cause to a last part that have two tasks or ISRs, or go to another core."""
    cores, scripted = _homes(jobs)
    ends: Dict[Tuple[str, ...], List[Part]] = {}
    for part in sorted(jobs.parts, key=lambda part: part.item.turn):
        if part.is_last:
            ends.setdefault(part.way, []).append(part)
    broken: Dict[Tuple[str, ...], Dict[str, int]] = {}
    for loose in jobs.loose:
        broken.setdefault(loose.way, Counter())[loose.status] += 1
    under_way = Counter(each.cause.way + (each.target,) for each in jobs.envelopes if each.target and not each.served)
    found = []
    for way in dict.fromkeys([*ends, *broken, *under_way]):
        if len(scripted & set(way)) > 1 or len({cores[name] for name in way}) > 1:
            is_at_home = cores[way[0]] == cores[way[-1]]
            lost = {status or "nobody waited": count for status, count in broken.get(way, {}).items()}
            found.append(_chain(way, ends.get(way, []), lost, under_way[way], units, is_at_home))
    return found


def _homes(jobs: Jobs) -> Tuple[Dict[str, int], set]:
    """The core of each task, ISR, alarm and table, and the names of the tasks and the ISRs."""
    cores = {}
    scripted = set()
    for core in jobs.timeline.run.draft.cores:
        for kind in ("tasks", "isrs", "alarms", "tables"):
            cores.update({each.name: core.id for each in core.named[kind]})
        scripted.update(each.name for each in core.scripted)
    return cores, scripted


def _chain(
    way: Tuple[str, ...],
    parts: List[Part],
    lost: Dict[str, int],
    under_way: int,
    units: Sequence[str],
    is_at_home: bool,
) -> Figures:
    """One chain: how often it came to its end, and how long that took. Ticks and stimuli are those of one core."""
    done = [part for part in parts if part.finish is not None]
    found: Figures = {"chain": ARROW.join(way), "complete": len(done), "open": len(parts) - len(done) + under_way}
    found["lost"] = lost
    for unit in units:
        measure = _MEASURES[unit]
        is_common = unit in (ROUNDS, TURNS) or is_at_home
        lengths = [measure(part.finish) - measure(part.origin) for part in done]
        found[unit] = times(lengths) if is_common else None
    return found
