"""From the objects of OIL to containers in AUTOSAR's words, so that both formats are imported alike.

OIL 2.5, and what AUTOSAR's additions are called where they are common: in AUTOSAR's own OIL, in Trampoline, in ERIKA.
What is called otherwise keeps its word, and is named as what has no place.
"""

from typing import Dict, List, NamedTuple, Optional, Tuple

from library.ecuc import OS, Ecuc, Node, Value, refused, truth
from library.ending import Failed
from library.import_cores import OWN_CORE
from library.import_notes import Notes
from library.oil_text import IMPLEMENTATION, Entry, OilText, read_oil_text

SCHEDULER = "RES_SCHEDULER"


class _To(NamedTuple):
    """What an attribute is in AUTOSAR; of a reference also the kind of what it refers to."""

    key: str
    kind: str = ""


_CORE_WORDS = {word: _To(OWN_CORE) for word in ("CPU_ID", "CORE_ID", "CORE")}
# What the objects are in AUTOSAR, and their attributes. The first word of several with one meaning is OIL's own.
_OBJECTS: Dict[str, Tuple[str, Dict[str, _To]]] = {
    "OS": (
        "OsOS",
        {
            "STATUS": _To("OsStatus"),
            "STARTUPHOOK": _To("OsStartupHook"),
            "ERRORHOOK": _To("OsErrorHook"),
            "SHUTDOWNHOOK": _To("OsShutdownHook"),
            "PRETASKHOOK": _To("OsPreTaskHook"),
            "POSTTASKHOOK": _To("OsPostTaskHook"),
            "PROTECTIONHOOK": _To("OsProtectionHook"),
            "USEGETSERVICEID": _To("OsUseGetServiceId"),
            "USEPARAMETERACCESS": _To("OsUseParameterAccess"),
            "USERESSCHEDULER": _To("OsUseResScheduler"),
            "NUMBER_OF_CORES": _To("OsNumberOfCores"),
        },
    ),
    "APPMODE": ("OsAppMode", {}),
    "APPLICATION": (
        "OsApplication",
        {
            "CORE": _To("OsApplicationCoreAssignment"),
            "CORE_ID": _To("OsApplicationCoreAssignment"),
            "CPU_ID": _To("OsApplicationCoreAssignment"),
            "TRUSTED": _To("OsTrusted"),
            "TASK": _To("OsAppTaskRef", "OsTask"),
            "ISR": _To("OsAppIsrRef", "OsIsr"),
            "ALARM": _To("OsAppAlarmRef", "OsAlarm"),
            "COUNTER": _To("OsAppCounterRef", "OsCounter"),
            "SCHEDULETABLE": _To("OsAppScheduleTableRef", "OsScheduleTable"),
        },
    ),
    "TASK": (
        "OsTask",
        {
            "PRIORITY": _To("OsTaskPriority"),
            "ACTIVATION": _To("OsTaskActivation"),
            "SCHEDULE": _To("OsTaskSchedule"),
            "EVENT": _To("OsTaskEventRef", "OsEvent"),
            "RESOURCE": _To("OsTaskResourceRef", "OsResource"),
            **_CORE_WORDS,
        },
    ),
    "ISR": (
        "OsIsr",
        {
            "CATEGORY": _To("OsIsrCategory"),
            "PRIORITY": _To("OsIsrPriority"),
            "LEVEL": _To("OsIsrPriority"),
            "RESOURCE": _To("OsIsrResourceRef", "OsResource"),
            **_CORE_WORDS,
        },
    ),
    "RESOURCE": ("OsResource", {"RESOURCEPROPERTY": _To("OsResourceProperty"), **_CORE_WORDS}),
    "EVENT": ("OsEvent", {"MASK": _To("OsEventMask")}),
    "COUNTER": (
        "OsCounter",
        {
            "MAXALLOWEDVALUE": _To("OsCounterMaxAllowedValue"),
            "MINCYCLE": _To("OsCounterMinCycle"),
            "TICKSPERBASE": _To("OsCounterTicksPerBase"),
            "TYPE": _To("OsCounterType"),
            "SECONDSPERTICK": _To("OsSecondsPerTick"),
            **_CORE_WORDS,
        },
    ),
    "ALARM": ("OsAlarm", {"COUNTER": _To("OsAlarmCounterRef", "OsCounter"), **_CORE_WORDS}),
    "SCHEDULETABLE": (
        "OsScheduleTable",
        {
            "COUNTER": _To("OsScheduleTableCounterRef", "OsCounter"),
            "DURATION": _To("OsScheduleTableDuration"),
            "LENGTH": _To("OsScheduleTableDuration"),
            "REPEATING": _To("OsScheduleTableRepeating"),
            "PERIODIC": _To("OsScheduleTableRepeating"),
            "LOCAL_TO_GLOBAL_TIME_SYNCHRONIZATION": _To("OsScheduleTableSync"),
            **_CORE_WORDS,
        },
    ),
    "SPINLOCK": (
        "OsSpinlock",
        {
            "SUCCESSOR": _To("OsSpinlockSuccessor", "OsSpinlock"),
            "NEXT_SPINLOCK": _To("OsSpinlockSuccessor", "OsSpinlock"),
            "METHOD": _To("OsSpinlockLockMethod"),
            "LOCKMETHOD": _To("OsSpinlockLockMethod"),
            "LOCK_METHOD": _To("OsSpinlockLockMethod"),
            "ACCESSING_APPLICATION": _To("OsSpinlockAccessingApplication"),
        },
    ),
}
_AUTOSTARTS: Dict[str, Tuple[str, Dict[str, _To]]] = {
    "OsTask": ("OsTaskAutostart", {"APPMODE": _To("OsTaskAppModeRef", "OsAppMode")}),
    "OsAlarm": (
        "OsAlarmAutostart",
        {
            "APPMODE": _To("OsAlarmAppModeRef", "OsAppMode"),
            "ALARMTIME": _To("OsAlarmAlarmTime"),
            "CYCLETIME": _To("OsAlarmCycleTime"),
            "TYPE": _To("OsAlarmAutostartType"),
        },
    ),
    "OsScheduleTable": (
        "OsScheduleTableAutostart",
        {
            "APPMODE": _To("OsScheduleTableAppModeRef", "OsAppMode"),
            "TYPE": _To("OsScheduleTableAutostartType"),
            **{word: _To("OsScheduleTableStartValue") for word in ("START", "OFFSET", "START_VALUE", "STARTVALUE")},
        },
    ),
}
# What alarms and points of tables do, and the attributes of it.
_ACTIONS: Dict[str, Dict[str, Tuple[str, Dict[str, _To]]]] = {
    "OsAlarm": {
        "ACTIVATETASK": ("OsAlarmActivateTask", {"TASK": _To("OsAlarmActivateTaskRef", "OsTask")}),
        "SETEVENT": (
            "OsAlarmSetEvent",
            {"TASK": _To("OsAlarmSetEventTaskRef", "OsTask"), "EVENT": _To("OsAlarmSetEventRef", "OsEvent")},
        ),
        "ALARMCALLBACK": ("OsAlarmCallback", {}),
        "INCREMENTCOUNTER": ("OsAlarmIncrementCounter", {}),
    },
    "OsScheduleTable": {
        "ACTIVATETASK": ("OsScheduleTableTaskActivation", {"TASK": _To("OsScheduleTableActivateTaskRef", "OsTask")}),
        "SETEVENT": (
            "OsScheduleTableEventSetting",
            {
                "TASK": _To("OsScheduleTableSetEventTaskRef", "OsTask"),
                "EVENT": _To("OsScheduleTableSetEventRef", "OsEvent"),
            },
        ),
    },
}
_LINKED = {"LINKEDRESOURCE": _To("OsResourceLinkedResourceRef", "OsResource")}
_POINTS = ("EXPIRYPOINT", "EXPIRY_POINT")
_OFFSET = "OsScheduleTblExpPointOffset"
_CATEGORIES = {"1": "CATEGORY_1", "2": "CATEGORY_2"}


def read_oil(path: str, data: bytes, notes: Notes) -> Ecuc:
    """The containers that the CPU of an OIL file is in AUTOSAR. Raises Failed if it is no OIL."""
    text = read_oil_text(path, data)
    cpu = _cpu_of(text, notes)
    if cpu is None:
        raise Failed("%s: no CPU is in it" % path)
    return _Translator().whole(cpu)


def _cpu_of(text: OilText, notes: Notes) -> Optional[Entry]:
    """The CPU of an OIL file. What else stands in it is noted."""
    cpu: Optional[Entry] = None
    for entry in text.entries:
        if entry.word == "CPU" and not entry.is_attribute:
            if cpu is not None:
                raise refused(entry.spot, "a second CPU: the first one stands in line %d" % cpu.spot.line)
            cpu = entry
        elif entry.word == IMPLEMENTATION:
            notes.note(entry.spot, "%s %s: not read, and neither are defaults in it" % (entry.word, entry.text))
        elif entry.word != "OIL_VERSION":
            notes.note(entry.spot, "%s %s: left out: it stands in no CPU" % (entry.word, entry.text))
    for token in text.not_included:
        notes.note(token.spot, "%s: not read: it is looked for where a vendor's tool has it" % token.text.strip())
    return cpu


class _Translator:
    """Makes containers of the objects of a CPU."""

    def __init__(self) -> None:
        self.by_path: Dict[str, Node] = {}
        self.points: Dict[str, Node] = {}

    def whole(self, cpu: Entry) -> Ecuc:
        """The containers of all objects. Objects of one word and name are one, as OIL has it."""
        module = Node(OS, "CPU", cpu.text, cpu.spot, "/" + OS)
        for entry in cpu.entries:
            node = self.object(entry)
            if node.path not in self.by_path:
                self.by_path[node.path] = node
                module.parts.append(node)
            elif self.by_path[node.path] is not node:
                self.by_path[node.path].values += node.values
                self.by_path[node.path].parts += node.parts
        self.add_scheduler(module)
        ecuc = Ecuc()
        ecuc.words = _words()
        ecuc.add(module)
        return ecuc

    def object(self, entry: Entry) -> Node:
        """The container of an object."""
        kind, attributes = _OBJECTS.get(entry.word, (entry.word, {}))
        node = Node(kind, entry.word, entry.text, entry.spot, "/%s/%s" % (kind, entry.text))
        for each in entry.entries:
            self.attribute(node, each, attributes)
        return node

    def attribute(self, node: Node, entry: Entry, attributes: Dict[str, _To]) -> None:
        """Adds what an attribute of an object says."""
        if entry.word == "AUTOSTART" and node.kind in _AUTOSTARTS:
            self.autostart(node, entry)
        elif entry.word == "ACTION" and node.kind == "OsAlarm":
            action = Node("OsAlarmAction", "ACTION", "", entry.spot, node.path + "/ACTION")
            action.parts.append(self.action(entry, _ACTIONS[node.kind], action.path))
            node.parts.append(action)
        elif entry.word in _POINTS + ("ACTION",) and node.kind == "OsScheduleTable":
            self.point(node, entry)
        elif entry.word == "RESOURCEPROPERTY":
            node.values += _values(entry, attributes, _LINKED)
        else:
            node.values += _values(entry, attributes)

    def autostart(self, node: Node, entry: Entry) -> None:
        """Adds how an object autostarts, if it does."""
        kind, attributes = _AUTOSTARTS[node.kind]
        if truth(entry.text) is False:
            return
        if truth(entry.text) is None:
            node.values += _values(entry, {})
            return
        auto = Node(kind, entry.word, "", entry.spot, node.path + "/AUTOSTART")
        # In the braces of TYPE = ABSOLUTE or RELATIVE there stands its number.
        auto.values += [value for each in entry.entries for value in _values(each, attributes, attributes)]
        node.parts.append(auto)

    def action(self, entry: Entry, actions: Dict[str, Tuple[str, Dict[str, _To]]], path: str) -> Node:
        """The container of an action."""
        kind, attributes = actions.get(entry.text, (entry.text, {}))
        node = Node(kind, entry.text, "", entry.spot, path + "/" + entry.text)
        node.values += [value for each in entry.entries for value in _values(each, attributes)]
        return node

    def point(self, table: Node, entry: Entry) -> None:
        """Adds an expiry point of a table, or an action with an offset of its own, which a point may have already."""
        inner = [entry] if entry.word == "ACTION" else [each for each in entry.entries if each.word == "ACTION"]
        offsets = [each for each in entry.entries if each.word == "OFFSET"]
        offset = offsets[0].text if offsets else ""
        path = "%s/%s" % (table.path, offset)
        known = self.points.get(path) if offset else None
        if known is None or entry.word != "ACTION":
            known = Node("OsScheduleTableExpiryPoint", entry.word, "of offset " + offset, entry.spot, path)
            known.values += [value for each in offsets for value in _values(each, {"OFFSET": _To(_OFFSET)})]
            table.parts.append(known)
            self.points[path] = known
        acts = [self.action(each, _ACTIONS["OsScheduleTable"], path) for each in inner]
        known.parts += acts
        if entry.word == "ACTION":
            acts[0].read.add("OFFSET")
            return
        rest = [each for each in entry.entries if each.word not in ("ACTION", "OFFSET")]
        known.values += [value for each in rest for value in _values(each, {})]

    def add_scheduler(self, module: Node) -> None:
        """Adds the resource that OSEK has without an object, if a task refers to it."""
        path = "/OsResource/" + SCHEDULER
        asks = [value for node in module.parts if node.kind == "OsTask" for value in node.values if value.path == path]
        if asks and path not in self.by_path:
            module.parts.append(Node("OsResource", "RESOURCE", SCHEDULER, asks[0].spot, path))


def _values(entry: Entry, attributes: Dict[str, _To], inner: Optional[Dict[str, _To]] = None) -> List[Value]:
    """What an attribute is, and what the attributes in its braces are; those that are not known keep their words."""
    to = attributes.get(entry.word, _To(entry.word))
    text = _CATEGORIES.get(entry.text, entry.text) if to.key == "OsIsrCategory" else entry.text
    own = Value(to.key, entry.word, text, entry.spot, "/%s/%s" % (to.kind, entry.text) if to.kind else None)
    return [own] + [value for each in entry.entries for value in _values(each, inner or {})]


def _words() -> Dict[str, str]:
    """How OIL calls what AUTOSAR calls otherwise."""
    found: Dict[str, str] = {}
    for word, (kind, attributes) in list(_OBJECTS.items()) + [("AUTOSTART", pair) for pair in _AUTOSTARTS.values()]:
        found.setdefault(kind, word)
        for own, to in attributes.items():
            found.setdefault(to.key, own)
    found[_OFFSET] = "OFFSET"
    return found
