"""From the containers of an Os configuration to its objects: numbers as whole numbers, references as what they lead to.

What is missing or wrong is noted, and stands as the note says. Which core an object stands on is not looked at here.
"""

import re
from dataclasses import dataclass, field
from fractions import Fraction
from typing import Any, Dict, List, Optional

from library.ecuc import Ecuc, Node, Value, fraction, truth, whole
from library.findings import did_you_mean, listed
from library.formats import COUNTER, GREATEST_COUNT, MODE, TASK, Number
from library.import_notes import Notes, reason_of

# No standard says what the priority of an interrupt is called.
_LEVEL = re.compile(r"OsIsr\w*(?:Priority|Level)")
_TIMES = "%s stands %d times: the first one counts, %s"
_MOST_HINTS = 20
_MAX = 65535  # of a counter that says none
_ACTIVATION = ("OsAlarmActivateTask", "OsScheduleTableTaskActivation")
_SETTING = ("OsAlarmSetEvent", "OsScheduleTableEventSetting")


@dataclass(eq=False)
class Task:
    """A task. A budget is in seconds."""

    node: Node
    priority: int
    activations: int
    is_preemptable: bool
    modes: List[str]
    events: List[Node]
    resources: List[Node]
    budget: Optional[Value]


@dataclass(eq=False)
class Isr:
    """An ISR of category 2."""

    node: Node
    level: Optional[int]
    budget: Optional[Value]


@dataclass(eq=False)
class Counter:
    """A counter, with the seconds of its ticks if they are known."""

    node: Node
    members: Dict[str, Any]
    seconds: Optional[Fraction]


@dataclass(eq=False)
class Driven:
    """An alarm or a table."""

    node: Node
    counter: Node
    members: Dict[str, Any]


@dataclass(eq=False)
class Resource:
    """A resource, and the one that it is linked to."""

    node: Node
    linked: Optional[Node]


@dataclass(eq=False)
class Spinlock:
    """A spinlock."""

    node: Node
    members: Dict[str, Any]


@dataclass(eq=False)
class Objects:
    """All objects, each kind in its order."""

    modes: List[Node] = field(default_factory=list)
    spinlocks: List[Spinlock] = field(default_factory=list)
    tasks: List[Task] = field(default_factory=list)
    isrs: List[Isr] = field(default_factory=list)
    counters: List[Counter] = field(default_factory=list)
    alarms: List[Driven] = field(default_factory=list)
    tables: List[Driven] = field(default_factory=list)
    resources: List[Resource] = field(default_factory=list)


class ObjectReader:
    """Reads the objects of all files."""

    def __init__(self, ecuc: Ecuc, notes: Notes) -> None:
        self.ecuc = ecuc
        self.notes = notes
        self.kinds: Dict[str, List[Node]] = {}
        for node in ecuc.objects():
            self.kinds.setdefault(node.kind, []).append(node)
        # The events that each task refers to, or that are set for it.
        self.events_of: Dict[Node, List[Node]] = {}
        self.hints = 0

    def whole(self) -> Objects:
        """All objects. Tasks come before what acts on them."""
        found = Objects()
        found.modes = self.of_kind("OsAppMode")
        found.spinlocks = [self.spinlock(node) for node in self.of_kind("OsSpinlock")]
        found.tasks = [self.task(node) for node in self.of_kind("OsTask")]
        found.isrs = [isr for node in self.of_kind("OsIsr") for isr in self.isr(node)]
        found.counters = [self.counter(node) for node in self.of_kind("OsCounter")]
        found.alarms = [alarm for node in self.of_kind("OsAlarm") for alarm in self.alarm(node)]
        found.tables = [table for node in self.of_kind("OsScheduleTable") for table in self.table(node)]
        found.resources = [each for node in self.of_kind("OsResource") for each in self.resource(node)]
        self.unused_events()
        return found

    # ---- parameters and references

    def of_kind(self, kind: str) -> List[Node]:
        """The containers of a kind, in the order of the files."""
        return self.kinds.get(kind, [])

    def one(self, node: Node, *keys: str) -> Optional[Value]:
        """The value of a parameter, whichever of some names it has."""
        found = [value for key in keys for value in node.all(key)]
        if len({value.text for value in found}) > 1:
            self.notes.of(node, _TIMES % (found[0].word, len(found), found[0].shown), found[1].spot)
        return found[0] if found else None

    def number(
        self, node: Node, key: str, default: int, bounds: Optional[Number] = None, is_wanted: bool = True
    ) -> int:
        """A whole number within bounds."""
        value = self.one(node, key)
        if value is None:
            if is_wanted:
                text = "%s is missing: %d here" % (self.ecuc.word(key), default)
                self.notes.alike_of(node, key + " missing", text)
            return default
        number = whole(value.text)
        if number is None:
            self.notes.of(node, "%s %s is no whole number: %d here" % (value.word, value.shown, default), value.spot)
            return default
        within = number if bounds is None else min(max(number, bounds.least), bounds.greatest)
        if within != number:
            text = "%s %s: %d to %d are allowed, so it is %d here"
            text %= (value.word, value.shown, bounds.least, bounds.greatest, within)
            self.notes.alike_of(node, "%s %s" % (key, value.text), text, value.spot)
        return within

    def flag(self, node: Node, key: str, default: bool) -> bool:
        """A truth value."""
        value = self.one(node, key)
        found = truth(value.text) if value is not None else default
        if found is None:
            text = "%s %s is neither true nor false: %s here" % (value.word, value.shown, str(default).lower())
            self.notes.of(node, text, value.spot)
            return default
        return found

    def is_word(self, node: Node, key: str, word: str, other: str, default: str) -> bool:
        """Whether a parameter is one of two words."""
        value = self.one(node, key)
        text = value.text.rpartition("/")[2] if value is not None else default
        if text not in (word, other):
            message = "%s %s is neither %s nor %s: %s here" % (value.word, value.shown, word, other, default)
            self.notes.of(node, message, value.spot)
            return default == word
        return text == word

    def targets(self, node: Node, key: str, kind: str) -> List[Node]:
        """What a container's references of a name lead to, each once."""
        found: Dict[Node, None] = {}
        for value in node.all(key):
            target = self.ecuc.target(value)
            if target is None:
                text = "%s %s leads nowhere: no such %s is in the files%s"
                text %= (value.word, value.shown, self.ecuc.word(kind), self.hint(value, kind))
                self.notes.of(node, text, value.spot)
            elif target.kind != kind:
                text = "%s %s leads to the %s `%s`: it is left out, since %s is wanted"
                text %= (value.word, value.shown, target.word, target.name, self.ecuc.word(kind))
                self.notes.of(node, text, value.spot)
            else:
                found.setdefault(target)
        return list(found)

    def hint(self, value: Value, kind: str) -> str:
        """The nearest name to that of a reference that leads nowhere. Looking for it takes long: for the first ones."""
        name = value.text.rpartition("/")[2]
        self.hints += 1
        return did_you_mean(name, [each.name for each in self.of_kind(kind)]) if self.hints <= _MOST_HINTS else ""

    def target(self, node: Node, key: str, kind: str) -> Optional[Node]:
        """What a container's one reference leads to."""
        found = self.targets(node, key, kind)
        if len(found) > 1:
            self.notes.of(node, _TIMES % (self.ecuc.word(key), len(found), found[0].title))
        return found[0] if found else None

    def part(self, node: Node, kind: str) -> Optional[Node]:
        """The one container of a kind in another one."""
        found = node.parts_of(kind)
        if len(found) > 1:
            first = found[0].name or "in line %d" % found[0].spot.line
            self.notes.of(node, _TIMES % (found[0].word, len(found), first))
            for part in found[1:]:
                part.all_read()
        return found[0] if found else None

    def modes(self, node: Node, key: str) -> List[str]:
        """The modes of an autostart. Without any it is the first one."""
        if not node.all(key):
            first = next((mode.name for mode in self.of_kind("OsAppMode")), MODE)
            self.notes.alike_of(node, key + " missing", "no %s: it is %s here" % (self.ecuc.word(key), first))
            return [first]
        return [mode.name for mode in self.targets(node, key, "OsAppMode")]

    def left_out(self, node: Node, why: str) -> List[Any]:
        """Notes that a container is left out."""
        self.notes.alike_of(node, "left out " + why, "left out: %s" % why)
        node.all_read()
        return []

    # ---- objects

    def spinlock(self, node: Node) -> Spinlock:
        """A spinlock."""
        successor = self.target(node, "OsSpinlockSuccessor", "OsSpinlock")
        return Spinlock(node, {"name": node.name, **({"next": successor.name} if successor is not None else {})})

    def task(self, node: Node) -> Task:
        """A task."""
        events = self.targets(node, "OsTaskEventRef", "OsEvent")
        self.events_of[node] = events
        auto = self.part(node, "OsTaskAutostart")
        activations = self.number(node, "OsTaskActivation", 1, TASK.member("activations").value, is_wanted=False)
        if events and activations > 1:
            value = node.first("OsTaskActivation")
            self.notes.of(node, "%s %s: 1 here, since it has events" % (value.word, value.shown), value.spot)
            activations = 1
        protection = self.part(node, "OsTaskTimingProtection")
        return Task(
            node,
            self.number(node, "OsTaskPriority", 0),
            activations,
            self.is_word(node, "OsTaskSchedule", "FULL", "NON", "FULL"),
            self.modes(auto, "OsTaskAppModeRef") if auto is not None else [],
            events,
            self.targets(node, "OsTaskResourceRef", "OsResource"),
            self.one(protection, "OsTaskExecutionBudget") if protection is not None else None,
        )

    def isr(self, node: Node) -> List[Isr]:
        """An ISR, if it is one of category 2."""
        if not self.is_word(node, "OsIsrCategory", "CATEGORY_2", "CATEGORY_1", "CATEGORY_2"):
            return self.left_out(node, "an ISR of category 1 is none of the OS")
        keys = [value.key for value in node.values if _LEVEL.fullmatch(value.key)]
        level = self.number(node, keys[0], 1) if keys else None
        if level is None:
            self.notes.alike_of(node, "no level", "no priority or level: `level` is 1 here")
        names = [resource.name for resource in self.targets(node, "OsIsrResourceRef", "OsResource")]
        if names:
            self.notes.of(node, "it takes %s, and here an ISR takes no resource" % listed(names))
        protection = self.part(node, "OsIsrTimingProtection")
        budget = self.one(protection, "OsIsrExecutionTime", "OsIsrExecutionBudget") if protection is not None else None
        return [Isr(node, level, budget)]

    def counter(self, node: Node) -> Counter:
        """A counter."""
        members: Dict[str, Any] = {"name": node.name}
        members["max"] = self.number(node, "OsCounterMaxAllowedValue", _MAX, COUNTER.member("max").value)
        least = self.number(node, "OsCounterMinCycle", 1, Number(1, members["max"]), is_wanted=False)
        if least > 1:
            members["min"] = least
        is_software = self.is_word(node, "OsCounterType", "SOFTWARE", "HARDWARE", "HARDWARE")
        if is_software:
            members["software"] = True
        value = self.one(node, "OsSecondsPerTick")
        seconds = fraction(value.text) if value is not None else None
        if value is not None and (seconds is None or seconds <= 0):
            self.notes.of(node, "%s %s is no length of time" % (value.word, value.shown), value.spot)
            seconds = None
        return Counter(node, members, None if is_software else seconds)

    def alarm(self, node: Node) -> List[Driven]:
        """An alarm, if it has a counter, and an action that is one here."""
        counter = self.target(node, "OsAlarmCounterRef", "OsCounter")
        choice = self.part(node, "OsAlarmAction")
        if counter is None:
            return self.left_out(node, "it has no counter")
        acts = choice.parts if choice is not None else []
        if acts and acts[0].kind not in _ACTIVATION + _SETTING:
            return self.left_out(node, reason_of(acts[0].kind))
        action = self.action(choice, acts[0]) if acts else None
        if action is None:
            return self.left_out(node, "it has no action")
        members = {"name": node.name, "counter": counter.name, "action": action}
        auto = self.part(node, "OsAlarmAutostart")
        if auto is not None:
            members["auto"] = {
                "modes": self.modes(auto, "OsAlarmAppModeRef"),
                "start": self.start(node, auto, "OsAlarmAlarmTime", "OsAlarmAutostartType"),
                "cycle": self.number(auto, "OsAlarmCycleTime", 0, is_wanted=False),
            }
        return [Driven(node, counter, members)]

    def start(self, node: Node, auto: Node, key: str, type_key: str) -> int:
        """The first count of an autostart: the counter is 0 then, so an absolute one is a relative one too."""
        kind = self.one(auto, type_key)
        if kind is not None and kind.text not in ("ABSOLUTE", "RELATIVE"):
            self.notes.of(node, "%s %s: it starts by its counter here" % (kind.word, kind.shown), kind.spot)
        start = self.number(auto, key, 1, is_wanted=False)
        if start == 0:
            self.notes.of(node, "%s 0: 1 here, since the counter is 0 at the start" % self.ecuc.word(key), auto.spot)
        return start or 1

    def action(self, owner: Node, act: Node) -> Optional[str]:
        """The action of an alarm or an expiry point, if there is one."""
        owner.read.add(act.kind)
        if act.kind in _ACTIVATION:
            key = "OsAlarmActivateTaskRef" if act.kind == _ACTIVATION[0] else "OsScheduleTableActivateTaskRef"
            task = self.target(act, key, "OsTask")
            return "ActivateTask %s" % task.name if task is not None else None
        stem = act.kind if act.kind == _SETTING[0] else "OsScheduleTableSetEvent"
        task, event = self.target(act, stem + "TaskRef", "OsTask"), self.target(act, stem + "Ref", "OsEvent")
        if task is None or event is None:
            return None
        if event not in self.events_of[task]:
            self.notes.of(task, "it has no reference to %s, which %s sets for it" % (event.title, act.title), act.spot)
            self.events_of[task].append(event)
        return "SetEvent %s %s" % (task.name, event.name)

    def table(self, node: Node) -> List[Driven]:
        """A schedule table, if it has a counter and a point."""
        counter = self.target(node, "OsScheduleTableCounterRef", "OsCounter")
        if counter is None:
            return self.left_out(node, "it has no counter")
        bounds = Number(1, GREATEST_COUNT)
        members = {
            "name": node.name,
            "counter": counter.name,
            "duration": self.number(node, "OsScheduleTableDuration", 1, bounds),
        }
        if self.flag(node, "OsScheduleTableRepeating", False):
            members["repeating"] = True
        auto = self.part(node, "OsScheduleTableAutostart")
        if auto is not None:
            modes = self.modes(auto, "OsScheduleTableAppModeRef")
            offset = self.start(node, auto, "OsScheduleTableStartValue", "OsScheduleTableAutostartType")
            members["auto"] = {"modes": modes, "offset": offset}
        points = [point for part in node.parts_of("OsScheduleTableExpiryPoint") for point in self.point(part)]
        if not points:
            return self.left_out(node, "it has no expiry point")
        members["points"] = sorted(points, key=lambda point: point["offset"])
        return [Driven(node, counter, members)]

    def point(self, node: Node) -> List[Dict[str, Any]]:
        """An expiry point, if it has an action."""
        acts = [part for part in node.parts if part.kind in _ACTIVATION + _SETTING]
        found = [self.action(node, act) for act in acts]
        actions = [action for action in found if action is not None]
        offset = self.number(node, "OsScheduleTblExpPointOffset", 0)
        if not actions:
            return self.left_out(node, "it has no action")
        return [{"offset": offset, "actions": actions}]

    def resource(self, node: Node) -> List[Resource]:
        """A resource, if it is none that tasks take by themselves."""
        value = self.one(node, "OsResourceProperty")
        kind = value.text.rpartition("/")[2] if value is not None else "STANDARD"
        linked = self.target(node, "OsResourceLinkedResourceRef", "OsResource") if kind == "LINKED" else None
        if kind == "INTERNAL":
            users = [task.name for task in self.of_kind("OsTask") if node in self.targets_quietly(task)]
            with_it = "; %s preempt one another here" % listed(users) if len(users) > 1 else ""
            return self.left_out(node, "there are no internal resources" + with_it)
        if kind == "LINKED":
            to = linked.name if linked is not None else "another one"
            self.notes.of(node, "it is linked to %s: a resource of its own here, with the ceiling of both" % to)
        elif kind != "STANDARD":
            self.notes.of(node, "%s %s: STANDARD here" % (value.word, value.shown), value.spot)
        return [Resource(node, linked)]

    def targets_quietly(self, task: Node) -> List[Optional[Node]]:
        """The resources that a task refers to, without a note on those that are nowhere."""
        return [self.ecuc.target(value) for value in task.all("OsTaskResourceRef")]

    def unused_events(self) -> None:
        """Notes the events that no task has."""
        used = {event for events in self.events_of.values() for event in events}
        for node in self.of_kind("OsEvent"):
            if node not in used:
                self.left_out(node, "no task has it")
