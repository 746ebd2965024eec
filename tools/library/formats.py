"""What docs/FORMATS.md says, as tables: each rule once, for all tools.

`tools/tests/test_formats.py` holds these tables to the tables of docs/FORMATS.md.
"""

import re
from dataclasses import dataclass
from typing import Any, Optional, Tuple, Union

# ---------------------------------------------------------------------------------------------------------------------
# Faults
# ---------------------------------------------------------------------------------------------------------------------


@dataclass(frozen=True, order=True)
class Fault:
    """A fault as `mcos` prints it: `fault N Name`."""

    number: int
    name: str

    def __str__(self) -> str:
        return "fault %d %s" % (self.number, self.name)


NOT_JSON = Fault(1, "NotJson")
SHAPE = Fault(2, "Shape")
LIMIT = Fault(3, "Limit")
DUPLICATE_NAME = Fault(4, "DuplicateName")
UNKNOWN_NAME = Fault(5, "UnknownName")
WRONG_CORE = Fault(6, "WrongCore")
SPIN_ORDER = Fault(7, "SpinOrder")
BAD_MASK = Fault(8, "BadMask")
BAD_TABLE = Fault(9, "BadTable")
BAD_SCRIPT = Fault(10, "BadScript")
NO_MEMORY = Fault(11, "NoMemory")
BAD_STIMULUS = Fault(12, "BadStimulus")
BAD_SCHEDULE = Fault(13, "BadSchedule")
BAD_LOG = Fault(14, "BadLog")
ITEM_REFUSED = Fault(15, "ItemRefused")
NO_MEMORY_IN_RUN = Fault(16, "NoMemory")
NO_THREAD = Fault(17, "NoThread")
MAIL_BREAK = Fault(18, "MailBreak")
WRITE_FAILED = Fault(19, "WriteFailed")
NOT_SEPARATE = Fault(20, "NotSeparate")
UNREADABLE = Fault(21, "Unreadable")

FAULTS = (
    NOT_JSON,
    SHAPE,
    LIMIT,
    DUPLICATE_NAME,
    UNKNOWN_NAME,
    WRONG_CORE,
    SPIN_ORDER,
    BAD_MASK,
    BAD_TABLE,
    BAD_SCRIPT,
    NO_MEMORY,
    BAD_STIMULUS,
    BAD_SCHEDULE,
    BAD_LOG,
    ITEM_REFUSED,
    NO_MEMORY_IN_RUN,
    NO_THREAD,
    MAIL_BREAK,
    WRITE_FAILED,
    NOT_SEPARATE,
    UNREADABLE,
)

# ---------------------------------------------------------------------------------------------------------------------
# Words, numbers and names
# ---------------------------------------------------------------------------------------------------------------------

MODE = "M"  # the one mode of a configuration without `modes`
NAMES_NO_MODE = "DONOTCARE"
NO_MODES = (NAMES_NO_MODE, "conflict", "none")  # what no mode may be called
NO_OBJECT = "?"  # in place of an object's name: an identifier that names nothing
VARIABLES = tuple("v%d" % number for number in range(8))
STIMULUS_WORDS = ("op", "tick")
INTERRUPT = "irq="  # and behind it the name of an ISR of the core

LEAST_NUMBER = -(2**63)
GREATEST_NUMBER = 2**64 - 1
GREATEST_SIGNED = 2**63 - 1
GREATEST_WORD = 4294967295  # masks, and the numbers of alarms and tables
GREATEST_COUNT = 1000000000  # a counter's `max`, a table's `duration`
GREATEST_BUDGET = 1000000000  # in ticks: of a job, and of a resource
GREATEST_CORE_NUMBER = 255  # of a `StartCore`
GREATEST_STATUS = 16  # of a shutdown

MOST_LEVELS = 127  # of a JSON text
MOST_BYTES = 2**30  # of a file
MOST_OPERATIONS = 256  # of a script
MOST_SUSPENDED = 255  # how often a job has interrupts suspended at most
MOST_ACTIVATIONS = 64  # of the tasks of a core together
MOST_ACTIONS_ABROAD = 56  # what a core may do on other cores at once
MOST_STIMULI = 100000  # of a core
MOST_TURNS = 1000000  # of a schedule
MOST_CORES = {1: 8, 2: 16}  # by the `version` of a configuration; their numbers begin with 0

NAME = re.compile(r"[A-Za-z][A-Za-z0-9_]{0,127}")
DECIMAL = re.compile(r"0|[1-9][0-9]*")
SIGNED_DECIMAL = re.compile(r"0|-?[1-9][0-9]*")
# The turns Ko, KsD and Kl of a schedule.
TURN = re.compile(r"(?P<core>[0-9]+)(?:[ol]|s(?P<sender>[0-9]+))")


def is_name(text: str) -> bool:
    """Whether a text has the form of a name."""
    return NAME.fullmatch(text) is not None


def is_decimal(text: str) -> bool:
    """Whether a text is a decimal number without sign and leading zeros."""
    return DECIMAL.fullmatch(text) is not None


def is_signed_decimal(text: str) -> bool:
    """Whether a text is a decimal number without leading zeros; one below 0 has `-` before it."""
    return SIGNED_DECIMAL.fullmatch(text) is not None


def operations_of(script: str) -> list:
    """The texts of a script's operations; the empty text has none."""
    return script.split(";") if script else []


def words_of(text: str) -> list:
    """The words of stimuli or of a schedule; the empty text has none."""
    return text.split(" ") if text else []


# ---------------------------------------------------------------------------------------------------------------------
# Values of members
# ---------------------------------------------------------------------------------------------------------------------


@dataclass(frozen=True)
class Number:
    """A whole number. Each accepted configuration has it within these bounds.

    If `alone` is false, other members decide: they can narrow the bounds, and a number outside of them need not be
    fault 3.
    """

    least: int
    greatest: int
    alone: bool = True


@dataclass(frozen=True)
class Flag:
    """`true` or `false`."""


@dataclass(frozen=True)
class NewName:
    """The name of the object that has the member."""


@dataclass(frozen=True)
class CounterName:
    """The name of a counter of the same core."""


@dataclass(frozen=True)
class NewModeName:
    """The name of a mode of the configuration."""


@dataclass(frozen=True)
class ModeName:
    """The name of a mode."""


@dataclass(frozen=True)
class CoreMode:
    """The name of a mode, or the word by which a core names none."""


@dataclass(frozen=True)
class SpinlockName:
    """The name of a spinlock of the configuration, or null."""


@dataclass(frozen=True)
class OneOf:
    """One of several words."""

    words: Tuple[str, ...]


@dataclass(frozen=True)
class Script:
    """What a job does: operations divided by `;`, each of which may be any but some."""

    without: Tuple[str, ...] = ()


@dataclass(frozen=True)
class Action:
    """One operation `ActivateTask` or `SetEvent`, of a task's name."""


@dataclass(frozen=True)
class ObjectOf:
    """An object of that name in OBJECTS."""

    name: str
    or_null: bool = False


@dataclass(frozen=True)
class ListOf:
    """A list; `greatest` is None if it may be as long as you like."""

    element: "Value"
    least: int = 0
    greatest: Optional[int] = None


Value = Union[
    Number,
    Flag,
    NewName,
    CounterName,
    NewModeName,
    ModeName,
    CoreMode,
    SpinlockName,
    OneOf,
    Script,
    Action,
    ObjectOf,
    ListOf,
]
MODES = ListOf(ModeName())


class Required:
    """The default of a member that may not be left out."""

    def __repr__(self) -> str:
        return "REQUIRED"


REQUIRED = Required()


class FirstMode:
    """The default of a core's mode: the first one of the configuration."""

    def __repr__(self) -> str:
        return "FIRST_MODE"


FIRST_MODE = FirstMode()


@dataclass(frozen=True)
class Member:
    """A member of an object, with its value and its default."""

    name: str
    value: Value
    default: Any = REQUIRED

    @property
    def is_required(self) -> bool:
        """Whether the member may not be left out."""
        return self.default is REQUIRED


@dataclass(frozen=True)
class Object:
    """An object of a configuration, called as in the tables of docs/FORMATS.md."""

    name: str
    members: Tuple[Member, ...]

    def member(self, name: str) -> Optional[Member]:
        """The member of a name, if there is one."""
        return next((member for member in self.members if member.name == name), None)


CONFIGURATION = Object(
    "configuration",
    (
        Member("version", Number(1, 2), 1),
        Member("cap", Number(1, 16), 16),
        Member("master", Number(0, MOST_CORES[2] - 1, alone=False), 0),
        Member("modes", ListOf(NewModeName(), 1, 8), (MODE,)),
        Member("spinlocks", ListOf(ObjectOf("spinlock"), 0, 16), ()),
        Member("cores", ListOf(ObjectOf("core"), 1, MOST_CORES[2])),
    ),
)
SPINLOCK = Object("spinlock", (Member("name", NewName()), Member("next", SpinlockName(), None)))
# The operations that an ISR's script has not, and those that answer an ISR E_OS_CALLEVEL.
NOT_IN_ISRS = ("GetResource", "ReleaseResource")
FOR_TASKS = ("TerminateTask", "ChainTask", "Schedule", "ClearEvent", "WaitEvent")
PROTECTIONS = OneOf(
    ("PRO_IGNORE", "PRO_TERMINATETASKISR", "PRO_TERMINATEAPPL", "PRO_TERMINATEAPPL_RESTART", "PRO_SHUTDOWN")
)
CORE = Object(
    "core",
    (
        Member("id", Number(0, MOST_CORES[2] - 1)),
        Member("mode", CoreMode(), FIRST_MODE),
        Member("start", ListOf(Number(0, 255)), ()),
        Member("protection", PROTECTIONS, "PRO_SHUTDOWN"),
        Member("tasks", ListOf(ObjectOf("task"), 0, 32), ()),
        Member("isrs", ListOf(ObjectOf("ISR"), 0, 16), ()),
        Member("resources", ListOf(ObjectOf("resource"), 0, 16), ()),
        Member("counters", ListOf(ObjectOf("counter"), 0, 8), ()),
        Member("alarms", ListOf(ObjectOf("alarm"), 0, 32), ()),
        Member("tables", ListOf(ObjectOf("table"), 0, 8), ()),
    ),
)
TASK = Object(
    "task",
    (
        Member("name", NewName()),
        Member("prio", Number(0, 31)),
        Member("auto", MODES, ()),
        Member("activations", Number(1, 64), 1),
        Member("extended", Flag(), False),
        Member("preemptable", Flag(), True),
        Member("budget", Number(0, GREATEST_BUDGET), 0),
        Member("script", Script()),
    ),
)
ISR = Object(
    "ISR",
    (
        Member("name", NewName()),
        Member("level", Number(1, 16)),
        Member("budget", Number(0, GREATEST_BUDGET), 0),
        Member("script", Script(NOT_IN_ISRS)),
    ),
)
RESOURCE = Object(
    "resource",
    (
        Member("name", NewName()),
        Member("ceiling", Number(0, 31)),
        Member("lock", Number(0, GREATEST_BUDGET), 0),
    ),
)
COUNTER = Object(
    "counter",
    (
        Member("name", NewName()),
        Member("max", Number(1, GREATEST_COUNT)),
        Member("min", Number(1, GREATEST_COUNT), 1),
        Member("software", Flag(), False),
    ),
)
ALARM = Object(
    "alarm",
    (
        Member("name", NewName()),
        Member("counter", CounterName()),
        Member("action", Action()),
        Member("auto", ObjectOf("alarm's auto", or_null=True), None),
    ),
)
ALARM_AUTO = Object(
    "alarm's auto",
    (
        Member("modes", MODES),
        Member("start", Number(1, GREATEST_COUNT, alone=False)),
        Member("cycle", Number(0, GREATEST_COUNT, alone=False)),
    ),
)
TABLE = Object(
    "table",
    (
        Member("name", NewName()),
        Member("counter", CounterName()),
        Member("duration", Number(1, GREATEST_COUNT)),
        Member("points", ListOf(ObjectOf("point"), 1, 16)),
        Member("repeating", Flag(), False),
        Member("auto", ObjectOf("table's auto", or_null=True), None),
    ),
)
POINT = Object(
    "point",
    (
        Member("offset", Number(0, GREATEST_COUNT, alone=False)),
        Member("actions", ListOf(Action(), 1, 8)),
    ),
)
TABLE_AUTO = Object(
    "table's auto",
    (
        Member("modes", MODES),
        Member("offset", Number(1, GREATEST_COUNT, alone=False)),
    ),
)
OBJECTS = {
    each.name: each
    for each in (
        CONFIGURATION,
        SPINLOCK,
        CORE,
        TASK,
        ISR,
        RESOURCE,
        COUNTER,
        ALARM,
        ALARM_AUTO,
        TABLE,
        POINT,
        TABLE_AUTO,
    )
}
# The lists of a core whose objects have names, with what each holds.
NAMED_LISTS = {
    "tasks": "task",
    "isrs": "ISR",
    "resources": "resource",
    "counters": "counter",
    "alarms": "alarm",
    "tables": "table",
}

# ---------------------------------------------------------------------------------------------------------------------
# Operations
# ---------------------------------------------------------------------------------------------------------------------


@dataclass(frozen=True)
class Argument:
    """A word behind the name of an operation.

    `word` is how docs/FORMATS.md writes it. `kind` is one of these: `task`, `resource`, `counter`, `alarm`, `table`,
    `spinlock` (a name, or `?`), `core` (0 to 255, or `?`), `variable`, `mask`, `place` (0 to the number of the script's operations),
    `signed` (a number of 64 bits), `number` (0 to 4294967295), `status` (the number of one). If `own_core`, an object
    of another core is fault 6.
    """

    word: str
    kind: str
    own_core: bool = False

    @property
    def is_object(self) -> bool:
        """Whether the word is an object's name."""
        return self.kind in NAMED_LISTS.values() or self.kind == SPINLOCK.name

    @property
    def may_be_nobody(self) -> bool:
        """Whether `?` may stand in its place."""
        return self.is_object or self.kind == "core"


# The operations of the standards without a status. Those that are ignored where interrupts are suspended come last.
IGNORED_IF_SUSPENDED = ("GetNumberOfActivatedCores", "ShutdownOS", "ShutdownAllCores")
WITHOUT_STATUS = ("SuspendAllInterrupts", "ResumeAllInterrupts") + IGNORED_IF_SUSPENDED
# Those that act in full while interrupts are suspended. The first two get a spinlock, and the last one gives it back.
WAITS_FOR_SPINLOCK = "GetSpinlock"
GETS_SPINLOCK = (WAITS_FOR_SPINLOCK, "TryToGetSpinlock")
OF_SPINLOCKS = GETS_SPINLOCK + ("ReleaseSpinlock",)
# What makes a core bound that has it in a script, and what makes all cores bound.
ASKS_SHARED = ("StartCore", "GetNumberOfActivatedCores")
HALTS_ALL = "ShutdownAllCores"
# The service whose statuses call no ErrorHook.
WITHOUT_ERROR_HOOK = "StartCore"


@dataclass(frozen=True)
class Operation:
    """An operation of scripts."""

    name: str
    arguments: Tuple[Argument, ...] = ()

    @property
    def is_service(self) -> bool:
        """Whether it is a service, whose status a line `stat` prints."""
        return self.name[0].isupper() and self.name not in WITHOUT_STATUS

    @property
    def form(self) -> str:
        """The operation as docs/FORMATS.md writes it: `SetEvent T m`."""
        return " ".join([self.name] + [argument.word for argument in self.arguments])


_ANY_TASK = Argument("T", "task")
_OWN_TASK = Argument("T", "task", own_core=True)
_OWN_RESOURCE = Argument("R", "resource", own_core=True)
_ANY_COUNTER = Argument("C", "counter")
_OWN_COUNTER = Argument("C", "counter", own_core=True)
_ANY_ALARM = Argument("A", "alarm")
_OWN_TABLE = Argument("S", "table", own_core=True)
_NEXT_TABLE = Argument("U", "table", own_core=True)
_VARIABLE = Argument("x", "variable")
_ADDEND = Argument("y", "variable")
_SIGNED = Argument("n", "signed")
_PLACE = Argument("n", "place")
_MASK = Argument("m", "mask")
_COUNTS = Argument("n", "number")
_VALUE = Argument("s", "number")
_CYCLE = Argument("c", "number")
_SPINLOCK = Argument("L", "spinlock")
_CORE = Argument("k", "core")
_STATUS = Argument("n", "status")

OPERATIONS = {
    each.name: each
    for each in (
        Operation("work"),
        Operation("set", (_VARIABLE, _SIGNED)),
        Operation("add", (_VARIABLE, _SIGNED)),
        Operation("addv", (_VARIABLE, _ADDEND)),
        Operation("status", (_VARIABLE,)),
        Operation("jump", (_PLACE,)),
        Operation("jz", (_VARIABLE, _PLACE)),
        Operation("ActivateTask", (_ANY_TASK,)),
        Operation("TerminateTask"),
        Operation("ChainTask", (_ANY_TASK,)),
        Operation("Schedule"),
        Operation("GetResource", (_OWN_RESOURCE,)),
        Operation("ReleaseResource", (_OWN_RESOURCE,)),
        Operation("SetEvent", (_ANY_TASK, _MASK)),
        Operation("ClearEvent", (_MASK,)),
        Operation("GetEvent", (_OWN_TASK, _VARIABLE)),
        Operation("WaitEvent", (_MASK,)),
        Operation("IncrementCounter", (_ANY_COUNTER,)),
        Operation("GetCounterValue", (_OWN_COUNTER, _VARIABLE)),
        Operation("SetRelAlarm", (_ANY_ALARM, _COUNTS, _CYCLE)),
        Operation("SetAbsAlarm", (_ANY_ALARM, _VALUE, _CYCLE)),
        Operation("CancelAlarm", (_ANY_ALARM,)),
        Operation("GetAlarm", (_ANY_ALARM, _VARIABLE)),
        Operation("StartScheduleTableRel", (_OWN_TABLE, _COUNTS)),
        Operation("StartScheduleTableAbs", (_OWN_TABLE, _VALUE)),
        Operation("NextScheduleTable", (_OWN_TABLE, _NEXT_TABLE)),
        Operation("StopScheduleTable", (_OWN_TABLE,)),
        Operation("GetScheduleTableStatus", (_OWN_TABLE, _VARIABLE)),
        Operation("GetSpinlock", (_SPINLOCK,)),
        Operation("TryToGetSpinlock", (_SPINLOCK, _VARIABLE)),
        Operation("ReleaseSpinlock", (_SPINLOCK,)),
        Operation("SuspendAllInterrupts"),
        Operation("ResumeAllInterrupts"),
        Operation("StartCore", (_CORE,)),
        Operation("GetNumberOfActivatedCores", (_VARIABLE,)),
        Operation("ShutdownOS", (_STATUS,)),
        Operation("ShutdownAllCores", (_STATUS,)),
    )
}
# What an alarm or an expiry point can do.
ACTION_OPERATIONS = ("ActivateTask", "SetEvent")
