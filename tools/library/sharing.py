"""Pairs of jobs of one core that get the same spinlock, of which one can preempt the other while that one holds it."""

from dataclasses import dataclass
from functools import cached_property
from typing import Dict, Iterator, List, Set, Tuple

from library.drafts import Core, Draft, Named
from library.formats import GETS_SPINLOCK, ISR, NO_OBJECT
from library.held import Walk
from library.steps import Step, is_action, steps_of

# Above the priorities of tasks those of ISRs by their levels, and above them that of a job with interrupts suspended.
_OF_ISRS = 1000
_OF_SUSPENDED = 10**6
_ACTIVATES = ("ActivateTask", "ChainTask")
# Operations that let an alarm or a table act.
_SETS = {
    "SetRelAlarm": 0,
    "SetAbsAlarm": 0,
    "StartScheduleTableRel": 0,
    "StartScheduleTableAbs": 0,
    "NextScheduleTable": 1,
}


@dataclass(frozen=True)
class Shared:
    """An operation before which a job holds a spinlock, and the tasks and ISRs that can preempt it and ask for that."""

    holder: Named
    step: Step
    spinlock: str
    others: Tuple[Named, ...]


@dataclass(frozen=True)
class Holding:
    """A job that holds a spinlock, and the operation before which its priority is least."""

    scripted: Named
    walk: Walk
    spinlock: str
    step: Step
    priority: int


@dataclass(frozen=True)
class _Cause:
    """An operation or an action that lets a job of a task run, and whose it is: a task's, an ISR's, or another's."""

    source: Named
    step: Step


def shared_spinlocks(draft: Draft, all_walks: Dict[Named, Walk]) -> Iterator[Shared]:
    """Of each job and each spinlock that it holds the others of its core that can ask for it meanwhile.

    The walks are those of the scripts.
    """
    starts = Starts(draft)
    for core in draft.cores:
        walks = {each: all_walks[each] for each in core.scripted if each in all_walks}
        asked = {each: _asked(walk) for each, walk in walks.items()}
        for holder, walk in walks.items():
            for holding in holdings(core, holder, walk):
                asking = (each for each in walks if each is not holder and holding.spinlock in asked[each])
                above = (each for each in asking if priority_of(each) > holding.priority)
                others = [each for each in above if starts.can_come(each, holding)]
                if others:
                    yield Shared(holder, holding.step, holding.spinlock, tuple(others))


def holdings(core: Core, holder: Named, walk: Walk) -> Iterator[Holding]:
    """Each spinlock that a job can hold, where its priority is least."""
    base = priority_of(holder)
    if holder.kind is not ISR and not holder["preemptable"]:
        base = max(task["prio"] for task in core.named["tasks"])
    ceilings = {each.name: each["ceiling"] for each in core.named["resources"]}
    least: Dict[str, Holding] = {}
    for step in walk.steps:
        for state in walk.states(step.number):
            ceiling = max([base] + [ceilings[name] for name in state.resources])
            priority = _OF_SUSPENDED if state.suspended else ceiling
            for spinlock in state.spinlocks:
                if spinlock not in least or priority < least[spinlock].priority:
                    least[spinlock] = Holding(holder, walk, spinlock, step, priority)
    yield from least.values()


def _asked(walk: Walk) -> Set[str]:
    """The spinlocks that a job of a script can ask for, and is not refused for what it holds itself."""
    getting = (step for step in walk.steps if step.operation.name in GETS_SPINLOCK)
    return {step.arguments[0] for step in getting if "" in walk.refusals.get(step.number, {}).values()}


def priority_of(scripted: Named) -> int:
    """The priority of a job that holds nothing and does not run yet."""
    return _OF_ISRS + scripted["level"] if scripted.kind is ISR else scripted["prio"]


class Starts:
    """What can let jobs run, and in which modes."""

    def __init__(self, draft: Draft):
        self.draft = draft
        self.causes: Dict[str, List[_Cause]] = {}
        for core in draft.cores:
            for each in core.scripted + core.named["alarms"] + core.named["tables"]:
                for step in _steps(each):
                    if step.is_in_form and step.operation.name in _ACTIVATES + ("SetEvent",):
                        self.causes.setdefault(step.arguments[0], []).append(_Cause(each, step))

    def can_come(self, other: Named, holding: Holding) -> bool:
        """Whether in one of the modes a job can begin, or be released, while another one holds a spinlock."""
        return any(holding.scripted in live and self._comes(other, holding, live, set()) for live in self.live)

    def _comes(self, other: Named, holding: Holding, live: Set[Named], passed: Set[Named]) -> bool:
        """Whether that can be so in a mode. What only autostarts has run before, since its priority is greater."""
        if other not in live or other.kind is ISR:
            return other in live
        passed.add(other)
        for cause in self.causes.get(other.name, ()):
            source = cause.source
            if source not in live or (cause.step.operation.name == "SetEvent" and not _waits(other)):
                continue
            if source is holding.scripted:
                if _is_done_with(cause.step, holding):
                    return True
            elif source.kind.name in ("alarm", "table") or source.core is not other.core:
                return True
            elif source not in passed and priority_of(source) > holding.priority:
                if self._comes(source, holding, live, passed):
                    return True
        return False

    @cached_property
    def live(self) -> List[Set[Named]]:
        """By mode the tasks and ISRs whose jobs can run, and the alarms and tables that can act."""
        return [self._live_in(mode) for mode in self.draft.modes]

    def _live_in(self, mode: str) -> Set[Named]:
        """What autostarts in a mode, what interrupts, and what these let run."""
        started = self.draft.started()
        left = [each for core in self.draft.cores if core.id in started for each in _beginning(core, mode)]
        found: Set[Named] = set()
        while left:
            each = left.pop()
            if each not in found and each.core.id in started:
                found.add(each)
                left += self._following(each)
        return found

    def _following(self, each: Named) -> Iterator[Named]:
        """The tasks that something activates, the alarms that it sets and the tables that it starts."""
        for step in _steps(each):
            name = step.operation.name if step.is_in_form else ""
            at = 0 if name in _ACTIVATES else _SETS.get(name)
            if at is not None and step.arguments[at] != NO_OBJECT:
                kind = step.operation.arguments[at].kind
                found = self.draft.find(kind, step.arguments[at])
                if found is not None:
                    yield found


def _is_done_with(step: Step, holding: Holding) -> bool:
    """Whether a job does an operation, and goes on behind it, while it holds the spinlock."""
    states = holding.walk.states(step.number)
    return step.operation.name != "ChainTask" and any(holding.spinlock in state.spinlocks for state in states)


def _steps(each: Named) -> List[Step]:
    """The operations of a script, or the actions of an alarm or a table."""
    if each.kind.name == "alarm":
        return [Step(0, each["action"], 0)] if is_action(each["action"]) else []
    if each.kind.name == "table":
        actions = (node.text for point in each.parts("points") for node in point.elements("actions"))
        return [Step(0, text, 0) for text in actions if is_action(text)]
    return steps_of(each["script"])


def _beginning(core: Core, mode: str) -> Iterator[Named]:
    """The tasks, alarms and tables of a core that autostart in a mode, and its ISRs."""
    yield from core.named["isrs"]
    yield from (task for task in core.named["tasks"] if mode in task["auto"])
    for each in core.named["alarms"] + core.named["tables"]:
        if each.auto is not None and mode in each.auto["modes"]:
            yield each


def _waits(task: Named) -> bool:
    """Whether a task waits for events."""
    return task["extended"] and any(step.operation.name == "WaitEvent" for step in steps_of(task["script"]))
