"""Notes: what is lawful, and probably meant otherwise."""

from dataclasses import dataclass
from typing import Dict, Iterable, Iterator, List, Optional, Set, Tuple

from library.circles import Circle, circles
from library.drafts import Core, Draft, Named
from library.findings import Report, listed
from library.formats import (
    BAD_MASK,
    BAD_SCRIPT,
    DUPLICATE_NAME,
    FOR_TASKS,
    GETS_SPINLOCK,
    IGNORED_IF_SUSPENDED,
    INTERRUPT,
    ISR,
    LIMIT,
    MOST_SUSPENDED,
    NAMED_LISTS,
    NO_OBJECT,
    OF_SPINLOCKS,
    SPIN_ORDER,
    UNKNOWN_NAME,
    WRONG_CORE,
    Fault,
    words_of,
)
from library.held import refused_steps, walks_of
from library.not_json import shown
from library.places import Json, JsonText
from library.sharing import Shared, shared_spinlocks
from library.steps import Step, is_action, steps_of, value_of

# How many operations or tasks a note lists.
_MOST_LISTED = 3


def note_repeated(report: Report) -> None:
    """Notes members that stand twice in one object."""
    for repeated in report.document.repeated:
        member = repeated.object.members[repeated.name]
        later = report.place(member.value, repeated.later)
        text = "the member `%s` stands again in line %d, column %d: the last one counts, and this one is not judged"
        report.note(member.value, text % (repeated.name, later.line, later.column), repeated.earlier)


def note_configuration(report: Report, draft: Draft) -> None:
    """Notes on a configuration, whether it has faults or not."""
    _Notes(report, draft).all()


@dataclass(frozen=True)
class _Use:
    """An operation in form: of a script, whose task or ISR it has, or an action without one.

    `refusal` says why it is refused before its own checks, if it always is.
    """

    node: JsonText
    step: Step
    core: Core
    scripted: Optional[Named] = None
    refusal: str = ""

    @property
    def name(self) -> str:
        """The operation's own word."""
        return self.step.operation.name

    @property
    def words(self) -> List[str]:
        """The words behind it."""
        return self.step.arguments


class _Notes:
    """The notes on one configuration."""

    def __init__(self, report: Report, draft: Draft):
        self.report = report
        self.draft = draft
        self.uses = list(_uses(draft))
        # Those that may come to their own checks, whose objects and numbers then decide.
        self.checked = [use for use in self.uses if not use.refusal]

    def all(self) -> None:
        """Makes all notes."""
        self._ends()
        self._events()
        # Notes that only follow from a fault are not made.
        if not self._has(DUPLICATE_NAME):
            self._starts()
        if not self._has(LIMIT):
            self._ceilings()
            self._lock_budgets()
        if not self._has(LIMIT, BAD_SCRIPT):
            self._refused()
        if not self._has(DUPLICATE_NAME, UNKNOWN_NAME, BAD_MASK, BAD_SCRIPT):
            self._unused()
            self._unshared()
            self._unset_events()
        if not self._has(LIMIT, DUPLICATE_NAME, UNKNOWN_NAME, WRONG_CORE, SPIN_ORDER, BAD_SCRIPT):
            self._held()

    def _has(self, *faults: Fault) -> bool:
        """Whether the configuration has one of these faults."""
        return any(self.report.has(fault) for fault in faults)

    def _note(self, use: _Use, word: int, text: str) -> None:
        """A note on a word of an operation."""
        at = use.step.words[word].at
        title = "operation %d " % use.step.number if use.scripted is not None else ""
        text = "%s%s: %s" % (title, shown(use.step.text), text)
        self.report.note(use.node, text, self.report.document.character_offsets(use.node)[at])

    def _starts(self) -> None:
        """Cores that no start list leads to, and starts that are refused."""
        started = self.draft.started()
        for core in self.draft.cores:
            if core.id not in started and self.draft["master"] in self.draft.ids:
                text = "core %d is off: no `start` leads to it from the master, core %d"
                self.report.note(core.spot("id"), text % (core.id, self.draft["master"]))
            self._other_mode(core, started)
            for element in core.elements("start"):
                if element.number not in self.draft.ids:
                    text = "no core %d is configured: its start is answered E_OS_ID"
                    self.report.note(element, text % element.number)
                elif element.number == core.id:
                    self.report.note(element, "core %d starts itself: that is answered E_OS_STATE" % core.id)

    def _other_mode(self, core: Core, started: Set[int]) -> None:
        """A started core that names another mode than one before it."""
        if core.id not in started or self._has(UNKNOWN_NAME):
            return
        mode = self.draft.mode_of(core)
        for other in self.draft.cores[: self.draft.cores.index(core)]:
            before = self.draft.mode_of(other)
            if other.id in started and None not in (mode, before) and before != mode:
                text = "core %d names the mode `%s`, and core %d `%s`: the start ends in a conflict"
                self.report.note(core.spot("mode"), text % (core.id, mode, other.id, before))
                return

    def _ends(self) -> None:
        """Scripts to whose end a job of a task can come, or no job of an ISR, or one with interrupts suspended."""
        for scripted in self.draft.objects("task") + self.draft.objects("ISR"):
            steps = steps_of(scripted["script"])
            if all(step.is_in_form for step in steps):
                reached = _reached(scripted, steps)
                shutdowns = (step for step in steps if step.operation.name in _SHUTDOWNS)
                shuts_down = any(0 in reached.get(step.number, ()) for step in shutdowns)
                text = _end_note(scripted, reached.get(len(steps), set()), shuts_down)
                if text:
                    self.report.note(scripted.spot("script"), text)
                self._endless(scripted, steps, reached)

    def _endless(self, scripted: Named, steps: List[Step], reached: Dict[int, Set[int]]) -> None:
        """A job of a task that goes on for ever, so that no task of a lower priority runs."""
        if scripted.kind is ISR:
            return
        lower = [each.name for each in scripted.core.named["tasks"] if each["prio"] < scripted["prio"]]
        place = min(_endless_places(scripted, steps, reached), default=None)
        if lower and place is not None:
            text = "from here on the job neither waits nor ends, so no task of a lower `prio` runs any more: %s"
            use = _Use(scripted.spot("script"), steps[place], scripted.core, scripted)
            self._note(use, 0, text % _first_ones("`%s`" % name for name in lower))

    def _takers(self, member: str) -> Iterator[Tuple[Named, Dict[str, int]]]:
        """Each resource that tasks take, with the names of these, and with a member of theirs."""
        takers: Dict[Named, Dict[str, int]] = {}
        for use in self.checked:
            resource = self.draft.find_alone("resource", use.words[0]) if use.name == "GetResource" else None
            if resource is not None and resource.core is use.core and use.scripted.kind is not ISR:
                takers.setdefault(resource, {})[use.scripted.name] = use.scripted[member]
        yield from takers.items()

    def _ceilings(self) -> None:
        """Resources whose ceiling is too low for a task that takes them."""
        for resource, prios in self._takers("prio"):
            ceiling = resource["ceiling"]
            above = ["`%s` (%d)" % pair for pair in prios.items() if pair[1] > ceiling]
            if above:
                text = "`ceiling` is %d, below the `prio` of %s: GetResource `%s` is answered E_OS_ACCESS there"
                self.report.note(resource.spot("ceiling"), text % (ceiling, _first_ones(above), resource.name))

    def _lock_budgets(self) -> None:
        """Lock budgets that a job cannot reach, since it reaches its execution budget first."""
        for resource, budgets in self._takers("budget"):
            lock = resource["lock"]
            first = ["`%s` (%d)" % pair for pair in budgets.items() if 0 < pair[1] <= lock]
            if first:
                text = "`lock` is %d, not below the `budget` of %s: a job there reaches that first: E_OS_PROTECTION_TIME"
                self.report.note(resource.spot("lock"), text % (lock, _first_ones(first)))

    def _events(self) -> None:
        """Tasks that have no events, and are used as if they had."""
        uses: Dict[Named, List[_Use]] = {}
        for use in self.checked:
            task = self._event_task(use)
            if task is not None and not task["extended"]:
                uses.setdefault(task, []).append(use)
        for task, found in uses.items():
            operations = _first_ones("%s in line %d" % (shown(use.step.text), self._line(use)) for use in found)
            has_extended = "extended" in task.node.members
            text = "the task `%s` is not `extended`, so it has no events: E_OS_ACCESS for %s"
            self.report.note(task.spot("extended" if has_extended else "name"), text % (task.name, operations))

    def _line(self, use: _Use) -> int:
        """The line of an operation."""
        return self.report.line_of(use.node, self.report.document.character_offsets(use.node)[use.step.at])

    def _event_task(self, use: _Use) -> Optional[Named]:
        """The task whose events an operation means, if it means any."""
        if use.name in ("WaitEvent", "ClearEvent"):
            return use.scripted
        if use.name in ("SetEvent", "GetEvent"):
            return self.draft.find_alone("task", use.words[0])
        return None

    def _unset_events(self) -> None:
        """Waiting for events that nothing sets."""
        masks: Dict[Named, int] = {}
        for use in self.uses:
            if use.name == "SetEvent":
                task = self._event_task(use)
                masks[task] = masks.get(task, 0) | value_of(use.words[1])
        for use in self.checked:
            if use.name == "WaitEvent" and use.scripted["extended"]:
                wanted = value_of(use.words[0])
                unset = wanted & ~masks.get(use.scripted, 0)
                if unset == wanted:
                    text = "nothing sets such an event of `%s`, so the job waits for ever"
                    self._note(use, 1, text % use.scripted.name)
                elif unset:
                    bits = [1 << bit for bit in range(unset.bit_length()) if unset >> bit & 1]
                    events = "the %s %s" % ("event" if len(bits) == 1 else "events", listed(map(str, bits)))
                    self._note(use, 1, "nothing sets %s of `%s`" % (events, use.scripted.name))

    def _refused(self) -> None:
        """Operations that are refused whatever happens, as the configuration is."""
        judges = {
            "IncrementCounter": self._increment,
            "SetRelAlarm": self._alarm_numbers,
            "SetAbsAlarm": self._alarm_numbers,
            "StartScheduleTableRel": self._table_number,
            "StartScheduleTableAbs": self._table_number,
            "StartCore": self._start,
        }
        for use in self.uses:
            if use.refusal:
                self._note(use, 0, use.refusal)
            elif use.name in judges and (use.name == "StartCore" or NO_OBJECT not in use.words):
                judges[use.name](use)

    def _held(self) -> None:
        """Operations that are refused for what the job holds, and spinlocks for which two jobs of a core can ask."""
        walks = walks_of(self.draft)
        for scripted, walk in walks.items():
            for refused in refused_steps(walk):
                use = _Use(scripted.spot("script"), refused.step, scripted.core, scripted)
                self._note(use, refused.word, refused.text)
        for shared in shared_spinlocks(self.draft, walks):
            self._shared(shared)
        for circle in circles(self.draft, walks):
            self._circle(circle)

    def _shared(self, shared: Shared) -> None:
        """A spinlock for which other jobs can ask while one holds it."""
        use = _Use(shared.holder.spot("script"), shared.step, shared.holder.core, shared.holder)
        others = listed("`%s`" % each.name for each in shared.others)
        verbs = {"interrupt" if each.kind is ISR else "preempt" for each in shared.others}
        text = "the job can hold `%s` here, and %s can %s it and ask for that: E_OS_INTERFERENCE_DEADLOCK"
        self._note(use, 0, text % (shared.spinlock, others, " or ".join(sorted(verbs))))

    def _circle(self, circle: Circle) -> None:
        """A job can be preempted while it holds a spinlock, and a circle of waits can come of it."""
        first, others = circle[0], circle[1:]
        use = _Use(first.holder.spot("script"), first.step, first.holder.core, first.holder)
        verb = "interrupt" if first.waiter.kind is ISR else "preempt"
        text = "the job can hold `%s` here, and `%s` can %s it and wait for `%s`; %s: a circle of waits can come"
        self._note(use, 0, text % (first.held, first.waiter.name, verb, first.wanted, listed(map(str, others))))

    def _start(self, use: _Use) -> None:
        """A StartCore in a script, which starts nothing."""
        word = use.words[0]
        if word == NO_OBJECT or value_of(word) not in self.draft.ids:
            what = "`?` is no core" if word == NO_OBJECT else "no core %s is configured" % word
            self._note(use, 1, "%s: E_OS_ID" % what)
        else:
            self._note(use, 0, "the OS runs, and the cores in `start` were started before it: E_OS_ACCESS")

    def _increment(self, use: _Use) -> None:
        """Whether a script increments a counter that it may not increment."""
        counter = self.draft.find_alone("counter", use.words[0])
        if counter is None:
            return
        if counter.core is not use.core:
            self._note(use, 1, "`%s` is a counter of core %d: E_OS_CORE" % (counter.name, counter.core.id))
        elif not counter["software"]:
            self._note(use, 1, "`%s` is not `software`, so each `tick` increments it: E_OS_ID" % counter.name)

    def _alarm_numbers(self, use: _Use) -> None:
        """Whether an alarm's counter admits the numbers of a call."""
        alarm = self.draft.find_alone("alarm", use.words[0])
        counter = self.draft.find_alone("counter", alarm["counter"]) if alarm is not None else None
        if counter is None:
            return
        first, cycle = (value_of(word) for word in use.words[1:])
        least = 1 if use.name == "SetRelAlarm" else 0
        if not least <= first <= counter["max"]:
            text = "%d is not %d to %d, the `max` of `%s`: E_OS_VALUE"
            self._note(use, 2, text % (first, least, counter["max"], counter.name))
        if cycle != 0 and not counter["min"] <= cycle <= counter["max"]:
            text = "the cycle %d is not 0, or %d to %d, the `min` and the `max` of `%s`: E_OS_VALUE"
            self._note(use, 3, text % (cycle, counter["min"], counter["max"], counter.name))

    def _table_number(self, use: _Use) -> None:
        """Whether a table's counter admits the number of a call."""
        table = self.draft.find_alone("table", use.words[0])
        counter = self.draft.find_alone("counter", table["counter"]) if table is not None else None
        points = table.parts("points") if table is not None else []
        if counter is None or not points:
            return
        number, is_relative = value_of(use.words[1]), use.name == "StartScheduleTableRel"
        least = 1 if is_relative else 0
        greatest = counter["max"] - (points[0]["offset"] if is_relative else 0)
        if not least <= number <= greatest:
            less = " less the first point's offset" if is_relative else ""
            text = "%d is not %d to %d, the `max` of `%s`%s: E_OS_VALUE"
            self._note(use, 2, text % (number, least, greatest, counter.name, less))

    def _unused(self) -> None:
        """Tasks that nothing activates, alarms that nothing sets, tables that nothing starts, counters that stand."""
        used = {(kind, use.words[at]) for use in self.uses for kind, at in _STARTING.get(use.name, ())}
        for core in self.draft.cores:
            for kind, text in _UNUSED.items():
                for each in core.named[kind]:
                    if not _has_autostart(each) and (NAMED_LISTS[kind], each.name) not in used:
                        self.report.note(each.spot("name"), text % each.name)

    def _unshared(self) -> None:
        """Spinlocks that nothing gets, or one core alone."""
        for spinlock in self.draft.spinlocks:
            getting = (use for use in self.uses if use.name in GETS_SPINLOCK and use.words[0] == spinlock.name)
            cores = {use.core.id for use in getting}
            if not cores:
                self.report.note(spinlock.spot("name"), "nothing gets the spinlock `%s`: no operation" % spinlock.name)
            elif len(cores) == 1:
                text = "only core %d gets the spinlock `%s`, so no other one waits for it"
                self.report.note(spinlock.spot("name"), text % (*cores, spinlock.name))


# What ends the work of a core.
_SHUTDOWNS = ("ShutdownOS", "ShutdownAllCores")
# Which operations activate a task, set an alarm, start a table or increment a counter, and the place of its name.
_STARTING = {
    "ActivateTask": (("task", 0),),
    "ChainTask": (("task", 0),),
    "SetRelAlarm": (("alarm", 0),),
    "SetAbsAlarm": (("alarm", 0),),
    "StartScheduleTableRel": (("table", 0),),
    "StartScheduleTableAbs": (("table", 0),),
    "NextScheduleTable": (("table", 1),),
    "IncrementCounter": (("counter", 0),),
}
_UNUSED = {
    "tasks": "nothing activates the task `%s`: no `auto`, no operation, no action",
    "alarms": "nothing sets the alarm `%s`: no `auto`, no operation",
    "tables": "nothing starts the table `%s`: no `auto`, no operation",
    "counters": "nothing increments the `software` counter `%s`",
}


def _first_ones(words: Iterable[str]) -> str:
    """The first ones of a list, and how many more there are."""
    words = list(words)
    more = ["%d more" % (len(words) - _MOST_LISTED)] if len(words) > _MOST_LISTED else []
    return listed(words[:_MOST_LISTED] + more)


def _has_autostart(each: Named) -> bool:
    """Whether an object autostarts in a mode; of a counter, whether each `tick` increments it."""
    if each.kind.name == "counter":
        return not each["software"]
    if each.kind.name == "task":
        return bool(each["auto"])
    return each.auto is not None and bool(each.auto["modes"])


def _uses(draft: Draft) -> Iterator[_Use]:
    """All operations and actions in form."""
    for core in draft.cores:
        for scripted in core.scripted:
            steps = steps_of(scripted["script"])
            reached = _reached(scripted, steps)
            for step in steps:
                if step.is_in_form:
                    refusal = _refusal(scripted, step, reached.get(step.number, set()))
                    yield _Use(scripted.spot("script"), step, core, scripted, refusal)
        nodes = [alarm.spot("action") for alarm in core.named["alarms"]]
        for table in core.named["tables"]:
            for point in table.parts("points"):
                nodes += point.elements("actions")
        for node in nodes:
            if is_action(node.text):
                yield _Use(node, Step(0, node.text, 0), core)


def _reached(scripted: Named, steps: List[Step]) -> Dict[int, Set[int]]:
    """The places of a script that a job may come to, each with how often it may have interrupts suspended there.

    Services answer E_OK if an ISR may call them and interrupts are not suspended. Behind a shutdown comes nothing.
    Variables are not looked at. What is not in form is passed.
    """
    reached: Dict[int, Set[int]] = {}
    left = [(0, 0)]
    while left:
        place, suspended = left.pop()
        if place > len(steps) or suspended in reached.setdefault(place, set()):
            continue
        reached[place].add(suspended)
        if place < len(steps):
            left += _behind(scripted, steps[place], suspended)
    return reached


def _behind(scripted: Named, step: Step, suspended: int) -> Iterator[Tuple[int, int]]:
    """Where a job may be behind an operation, and how often it then has interrupts suspended."""
    name = step.operation.name if step.is_in_form else ""
    if name in ("jump", "jz"):
        yield value_of(step.arguments[-1]), suspended
    if name in ("TerminateTask", "ChainTask") + _SHUTDOWNS and not _refusal(scripted, step, {suspended}):
        return
    if name != "jump":
        change = {"SuspendAllInterrupts": 1, "ResumeAllInterrupts": -1}.get(name, 0)
        yield step.number + 1, min(max(suspended + change, 0), MOST_SUSPENDED)


def _endless_places(scripted: Named, steps: List[Step], reached: Dict[int, Set[int]]) -> Set[int]:
    """The places that a job may come to, and from which it neither waits nor ends, whichever way it goes."""
    following: Dict[int, Set[int]] = {}
    left = {len(steps)}
    for place in set(reached) - left:
        ways = [list(_behind(scripted, steps[place], suspended)) for suspended in reached[place]]
        following[place] = {behind for way in ways for behind, _ in way}
        if not all(ways) or _waits(scripted, steps[place], reached[place]):
            left.add(place)
    more = True
    while more:
        more = {place for place, behind in following.items() if place not in left and behind & left}
        left |= more
    return set(reached) - left


def _waits(scripted: Named, step: Step, suspended: Set[int]) -> bool:
    """Whether a job may wait for events by an operation."""
    is_wait = step.operation.name == "WaitEvent" and scripted["extended"]
    return is_wait and not _refusal(scripted, step, suspended)


def _refusal(scripted: Named, step: Step, suspended: Set[int]) -> str:
    """Why an operation is refused before its own checks, or ignored, if it always is.

    That is said by how often interrupts may be suspended.
    """
    is_suspended = bool(suspended) and 0 not in suspended
    if not step.operation.is_service:
        is_ignored = is_suspended and step.operation.name in IGNORED_IF_SUSPENDED
        return "interrupts are suspended here: it is ignored" if is_ignored else ""
    if is_suspended and step.operation.name not in OF_SPINLOCKS:
        return "interrupts are suspended here: E_OS_DISABLEDINT"
    if scripted.kind is ISR and step.operation.name in FOR_TASKS:
        return "an ISR may not call it: E_OS_CALLEVEL"
    return ""


def _end_note(scripted: Named, suspended: Set[int], shuts_down: bool) -> str:
    """What to note of the end of a script, by how often a job may have interrupts suspended there."""
    if scripted.kind is not ISR:
        text = "a job can come to the end of the script without TerminateTask or ChainTask: E_OS_MISSINGEND"
        return text if suspended else ""
    if not suspended and not shuts_down:
        return "no job comes to the end of the script, so none of this ISR ends"
    if suspended - {0}:
        return "a job can come to the end of the script with interrupts suspended: E_OS_DISABLEDINT"
    return ""


def note_stimuli(report: Report, draft: Draft) -> None:
    """Notes on stimuli without a fault."""
    root = report.document.root
    started = draft.started()
    for core in draft.cores:
        member = root.members.get(str(core.id))
        words = set(words_of(member.value.text)) if member is not None else set()
        if core.id in started:
            _note_core(report, core, member.value if member is not None else root, words)
        elif words:
            text = "core %d is off, and takes no stimuli: no `start` leads to it" % core.id
            report.note(member.value, text)


def _needs_tick(core: Core) -> str:
    """What comes of a core that gets no `tick`; nothing if it needs none."""
    counters = [each for each in core.named["counters"] if not each["software"]]
    if counters:
        stand = "stands" if len(counters) == 1 else "stand"
        return "%s %s still" % (listed("`%s`" % each.name for each in counters), stand)
    if any(scripted["budget"] for scripted in core.scripted):
        return "no job uses its `budget`"
    if any(resource["lock"] for resource in core.named["resources"]):
        return "no job reaches the `lock` of a resource"
    return ""


def _note_core(report: Report, core: Core, node: Json, words: Set[str]) -> None:
    """Notes on the stimuli of a started core."""
    has_ticked = any(not counter["software"] for counter in core.named["counters"])
    if not words and (core.scripted or has_ticked):
        report.note(node, "core %d has no stimuli: none of its jobs does an operation" % core.id)
    if not words:
        return
    if "op" not in words and core.scripted:
        report.note(node, "the stimuli of core %d have no `op`: none of its jobs does an operation" % core.id)
    elif "tick" not in words and _needs_tick(core):
        report.note(node, "the stimuli of core %d have no `tick`: %s" % (core.id, _needs_tick(core)))
    for isr in core.named["isrs"]:
        if INTERRUPT + isr.name not in words:
            text = "the stimuli of core %d have no `%s%s`: no job of this ISR is made"
            report.note(node, text % (core.id, INTERRUPT, isr.name))
