"""From the objects of an Os configuration to the source of a configuration, with the shorthand of `tools/expand`.

Objects stand on their cores, ceilings are computed, seconds are ticks, priorities that are too great are ranks, and
each task and ISR has the given script, or a skeleton.
"""

from dataclasses import dataclass
from fractions import Fraction
from typing import Any, Callable, Dict, List, Optional, Sequence

from library.ecuc import Ecuc, Node, Value, fraction, whole
from library.findings import counted, listed
from library.formats import GREATEST_BUDGET, MODE, MOST_CORES, OBJECTS, Number
from library.import_cores import Cores
from library.import_events import Events
from library.import_limits import note_limits
from library.import_notes import Notes, reason_of
from library.import_objects import Driven, Isr, ObjectReader, Objects, Resource, Task
from library.import_scripts import Scripts

_USUAL_TICK = Fraction(1, 1000)  # in seconds
_PRIORITIES = OBJECTS["task"].member("prio").value
_LEVELS = OBJECTS["ISR"].member("level").value
_CORES = "OsNumberOfCores"
_SCHEDULER = "RES_SCHEDULER"  # the resource of OSEK that each task may take
# The containers that have a place here; of OsOS it is looked at what differs.
_KINDS = (
    "OsAlarm",
    "OsApplication",
    "OsAppMode",
    "OsCounter",
    "OsEvent",
    "OsIsr",
    "OsOS",
    "OsResource",
    "OsScheduleTable",
    "OsSpinlock",
    "OsTask",
)

Source = Dict[str, Any]


@dataclass(frozen=True)
class Choices:
    """What the command line says of an import."""

    scripts: Scripts
    master: Optional[int] = None
    tick: Optional[Fraction] = None  # in seconds


@dataclass(eq=False)
class Placed:
    """An object of a core: its container and its members."""

    node: Node
    members: Dict[str, Any]


def import_os(ecuc: Ecuc, notes: Notes, choices: Choices) -> Source:
    """The source of the configuration in the containers of all files. What has no place is noted."""
    reader = ObjectReader(ecuc, notes)
    objects = reader.whole()
    cores = Cores(ecuc, notes, choices.master)
    source = _Importer(objects, cores, Events(reader.events_of, notes), notes, choices).whole()
    _note_the_rest(ecuc, notes, len(cores.numbers))
    return source


def _note_the_rest(ecuc: Ecuc, notes: Notes, cores: int) -> None:
    """Notes all that nobody asked for."""
    for node in ecuc.objects():
        if node.kind == "OsOS":
            node.parts_of("OsHooks")
            node.read.update(value.key for value in node.values if value.key == _CORES and whole(value.text) == cores)
        if node.kind in _KINDS:
            notes.left(node)
        else:
            notes.alike_of(node, "left out", "left out: %s" % reason_of(node.kind))


class _Importer:
    """Puts the objects on their cores."""

    def __init__(self, objects: Objects, cores: Cores, events: Events, notes: Notes, choices: Choices) -> None:
        self.objects = objects
        self.cores = cores
        self.events = events
        self.notes = notes
        self.scripts = choices.scripts
        self.given_tick = choices.tick
        self.is_tick_said = True
        self.is_tick_noted = False
        self.skeletons: List[Node] = []
        self.links = {each.node: each.linked for each in objects.resources if each.linked is not None}
        self.firsts: Dict[Node, Node] = {}
        self.lists: Dict[int, Dict[str, List[Placed]]] = {}

    def whole(self) -> Source:
        """The source."""
        tasks = _by_core(self.objects.tasks, self.core_of)
        isrs = _by_core(self.objects.isrs, self.core_of)
        counters = _by_core(self.objects.counters, self.core_of)
        alarms = _by_core(self.objects.alarms, self.core_of_driven)
        tables = _by_core(self.objects.tables, self.core_of_driven)
        taken = self.resources_by_core(tasks)
        for core in self.cores.numbers:
            tick = self.tick(core, counters)
            self.lists[core] = {
                "counters": [Placed(each.node, each.members) for each in counters.get(core, [])],
                "alarms": [Placed(each.node, each.members) for each in alarms.get(core, [])],
                "tables": [Placed(each.node, each.members) for each in tables.get(core, [])],
                "isrs": self.isrs(core, isrs.get(core, []), tick),
                **self.tasks(core, tasks.get(core, []), taken.get(core, []), tick),
            }
        self.note_what_is_not_said()
        note_limits(self.notes, self.objects.modes, self.objects.spinlocks, self.lists)
        return self.source()

    def source(self) -> Source:
        """The members of the configuration, those with a default left out if they have it."""
        modes = [mode.name for mode in self.objects.modes]
        head: Source = {"version": 2} if max(self.cores.numbers, default=0) >= MOST_CORES[1] else {}
        head.update({"master": self.cores.master} if self.cores.master else {})
        head["modes"] = modes or [MODE]
        if self.objects.spinlocks:
            head["spinlocks"] = [spinlock.members for spinlock in self.objects.spinlocks]
        head["cores"] = [self.core(core) for core in self.cores.numbers]
        return head

    def core(self, core: int) -> Source:
        """The members of a core."""
        said = self.scripts.of_cores.get(core, {})
        others = [other for other in self.cores.numbers if other != self.cores.master]
        members: Source = {"id": core}
        if core == self.cores.master and others and not self.are_starts_given:
            members["start"] = others
        members.update(said)
        lists = self.lists[core]
        members.update({name: [each.members for each in placed] for name, placed in lists.items() if placed})
        return members

    @property
    def are_starts_given(self) -> bool:
        """Whether the scripts say which core starts which."""
        return any("start" in said for said in self.scripts.of_cores.values())

    # ---- what stands on a core

    def core_of(self, each: Any) -> int:
        """The core of an object that belongs to no other one."""
        return self.cores.place(each.node)

    def core_of_driven(self, driven: Driven) -> int:
        """The core of an alarm or a table: that of its counter."""
        counter = self.cores.place(driven.counter)
        own = self.cores.place(driven.node, driven.counter)
        if own != counter:
            text = "it stands on core %d, and its counter on core %d: it stands there too"
            self.notes.of(driven.node, text % (own, counter))
        return counter

    def resources_by_core(self, tasks: Dict[int, List[Task]]) -> Dict[int, List[Resource]]:
        """The resources that the tasks of each core take; each stands on one core."""
        found: Dict[int, List[Resource]] = {}
        taken = {core: {node for task in tasks[core] for node in task.resources} for core in sorted(tasks)}
        for resource in self.objects.resources:
            users = [core for core in taken if resource.node in taken[core]]
            if not users:
                self.notes.alike_of(resource.node, "no task", "left out: no task takes it")
                continue
            if len(users) > 1:
                text = "tasks of the cores %s take it: it stands on core %d, and each core has resources of its own"
                self.notes.of(resource.node, text % (listed(map(str, users)), users[0]))
            found.setdefault(users[0], []).append(resource)
        return found

    def isrs(self, core: int, isrs: Sequence[Isr], tick: Fraction) -> List[Placed]:
        """The ISRs of a core."""
        levels = [1 if isr.level is None else isr.level for isr in isrs]
        ranks = self.ranks(core, "level", levels, _LEVELS, [isr.node for isr in isrs])
        found = []
        for isr, level in zip(isrs, levels):
            members = {"name": isr.node.name, "level": ranks[level]}
            members.update(self.budget(isr.node, isr.budget, tick))
            members["script"] = self.script(isr.node, "work")
            found.append(Placed(isr.node, members))
        return found

    def tasks(
        self, core: int, tasks: Sequence[Task], resources: Sequence[Resource], tick: Fraction
    ) -> Dict[str, List[Placed]]:
        """The resources and the tasks of a core."""
        priorities = [task.priority for task in tasks]
        ranks = self.ranks(core, "prio", priorities, _PRIORITIES, [task.node for task in tasks])
        own = {resource.node for resource in resources}
        placed = []
        for task in tasks:
            members: Dict[str, Any] = {"name": task.node.name, "prio": ranks[task.priority]}
            events = self.events.names(task.node)
            members.update({"events": events} if events else {})
            members.update({"activations": task.activations} if task.activations > 1 else {})
            members.update({} if task.is_preemptable else {"preemptable": False})
            members.update(self.budget(task.node, task.budget, tick))
            members.update({"auto": task.modes} if task.modes else {})
            takes = [resource.name for resource in task.resources if resource in own]
            members["script"] = self.script(task.node, _skeleton(self.events.own_names(task.node), takes))
            placed.append(Placed(task.node, members))
        return {"resources": self.ceilings(resources, tasks, ranks), "tasks": placed}

    def ceilings(self, resources: Sequence[Resource], tasks: Sequence[Task], ranks: Dict[int, int]) -> List[Placed]:
        """The resources, each with the greatest priority of the tasks that take it, or what it is linked to."""
        greatest: Dict[Node, int] = {}
        for task, node in [(task, node) for task in tasks for node in task.resources]:
            first = self.first_linked(node)
            greatest[first] = max(greatest.get(first, 0), ranks[task.priority])
        found = []
        for resource in resources:
            ceiling = greatest[self.first_linked(resource.node)]
            if resource.node.name == _SCHEDULER:
                ceiling = max(ranks.values())
            found.append(Placed(resource.node, {"name": resource.node.name, "ceiling": ceiling}))
        return found

    def first_linked(self, node: Node) -> Node:
        """The resource to which links lead from one; those that lead to the same one have one ceiling."""
        way: Dict[Node, None] = {}
        while node in self.links and node not in way and node not in self.firsts:
            way.setdefault(node)
            node = self.links[node]
        first = self.firsts.get(node, node)
        self.firsts.update((each, first) for each in way)
        return first

    # ---- numbers

    def ranks(
        self, core: int, member: str, numbers: Sequence[int], bounds: Number, nodes: Sequence[Node]
    ) -> Dict[int, int]:
        """What each number is here: itself, or if one is beyond its bounds the rank of each."""
        steps = sorted(set(numbers))
        if all(bounds.least <= step <= bounds.greatest for step in steps):
            return {step: step for step in steps}
        beyond = next(node for number, node in zip(numbers, nodes) if not bounds.least <= number <= bounds.greatest)
        ranks = {step: rank for rank, step in enumerate(steps, bounds.least)}
        text = "core %d has priorities from %d to %d, and `%s` is %d to %d: each is its rank here, %d to %d"
        text %= (core, steps[0], steps[-1], member, bounds.least, bounds.greatest, bounds.least, ranks[steps[-1]])
        self.notes.note(beyond.spot, text)
        return ranks

    def tick(self, core: int, counters: Dict[int, List[Any]]) -> Fraction:
        """How long a tick of a core lasts, in seconds."""
        own = [counter for counter in counters.get(core, []) if counter.seconds is not None]
        seconds = {counter.seconds for counter in own}
        least = min(seconds, default=_USUAL_TICK)
        for counter in own:
            if counter.seconds != least:
                text = "its tick is %s s, and that of another one of core %d %s s: each `tick` increments both"
                self.notes.of(counter.node, text % (_shown(counter.seconds), core, _shown(least)))
        if self.given_tick is not None:
            return self.given_tick
        if seconds:
            return least
        others = [each.seconds for each in self.objects.counters if each.seconds is not None]
        self.is_tick_said = bool(others)
        return min(others, default=_USUAL_TICK)

    def budget(self, node: Node, value: Optional[Value], tick: Fraction) -> Dict[str, int]:
        """The budget of a task or an ISR, in ticks; none if there is none."""
        seconds = fraction(value.text) if value is not None else None
        if value is not None and seconds is None:
            self.notes.of(node, "%s %s is no length of time: no `budget` here" % (value.word, value.shown), value.spot)
        if not seconds or seconds < 0:
            return {}
        if not self.is_tick_said and not self.is_tick_noted:
            self.is_tick_noted = True
            text = "no counter says how long a tick is: %s s here, for budgets; --tick says another length"
            self.notes.of(node, text % _shown(tick))
        exact = seconds / tick
        ticks = min(max(-(-exact.numerator // exact.denominator), 1), GREATEST_BUDGET)
        if ticks != exact:
            text = "%s %s s: `budget` is %s of %s s here"
            text %= (value.word, value.shown, counted(ticks, "tick"), _shown(tick))
            self.notes.alike_of(node, "budget", text, value.spot)
        return {"budget": ticks}

    # ---- scripts

    def script(self, node: Node, skeleton: Any) -> Any:
        """The given script of a task or an ISR, else a skeleton."""
        if node.name not in self.scripts.by_name:
            self.skeletons.append(node)
            return skeleton
        return self.scripts.by_name[node.name]

    def note_what_is_not_said(self) -> None:
        """Notes what no Os file says, and stands here as it is usual."""
        owners = [each.node for each in self.objects.tasks + self.objects.isrs]
        self.scripts.note_unused(self.notes, owners, self.cores.numbers)
        if self.skeletons:
            without = "%s has no scripts of" % self.scripts.path if self.scripts.path else "no file has the scripts of"
            text = "%s %s: they are skeletons" % (without, listed(node.name for node in self.skeletons))
            self.notes.note(self.skeletons[0].spot, text if self.scripts.path else text + "; --scripts gives others")
        master, others = self.cores.master, [each for each in self.cores.numbers if each != self.cores.master]
        first = next(iter(self.objects.modes + owners), None)
        if others and not self.are_starts_given and first is not None:
            text = "no file says which core starts which: core %d starts %s here"
            self.notes.note(first.spot, text % (master, listed(map(str, others))))
        silent = [core for core in self.cores.numbers if "mode" not in self.scripts.of_cores.get(core, {})]
        if len(self.objects.modes) > 1 and silent:
            text = "no file says in which mode a core starts: in %s here"
            self.notes.note(self.objects.modes[0].spot, text % self.objects.modes[0].name)


def _by_core(objects: Sequence[Any], core_of: Callable[[Any], int]) -> Dict[int, List[Any]]:
    """Objects by their cores."""
    found: Dict[int, List[Any]] = {}
    for each in objects:
        found.setdefault(core_of(each), []).append(each)
    return found


def _skeleton(events: Sequence[str], resources: Sequence[str]) -> Any:
    """A script that does what is declared: it takes the resources, or first waits for the events, again and again."""
    takes = ["GetResource %s" % name for name in resources]
    gives = ["ReleaseResource %s" % name for name in reversed(resources)]
    middle = takes + ["work"] + gives
    if not events:
        return "; ".join(middle + ["TerminateTask"])
    mask = "|".join(events)
    return ["loop: WaitEvent %s; ClearEvent %s" % (mask, mask), "; ".join(middle), "jump loop"]


def _shown(seconds: Fraction) -> str:
    """A length of time in a message."""
    return "%g" % float(seconds)
