"""The items of a core's log, each with the lines of the block that it printed and what was done in it.

A log says what a core took, a block what it printed; neither says which line came with which item. An item prints a
fixed kind of lines (docs/FORMATS.md), and only for an `op` one has to know the operation. So the running job's script
is followed: its place by the jumps, its variables by the lines `var` and `stat`. From `enter` to `leave` that is the
script of an ISR, whatever task is in the running state.
"""

from dataclasses import dataclass, field
from typing import Dict, List, NamedTuple, Optional, Tuple

from library.drafts import Draft
from library.ending import Failed
from library.formats import (
    HALTS_ALL,
    IGNORED_IF_SUSPENDED,
    INTERRUPT,
    MOST_SUSPENDED,
    OF_SPINLOCKS,
    OPERATIONS,
    WITHOUT_ERROR_HOOK,
    operations_of,
)
from library.model import ALARM, ISR, SCRIPTED, TABLE, TASK
from library.runs import Run

CORE = "core"  # of a deed: another core's envelope is served
START = "start"  # of a deed: the start of another core
OK = "E_OK"
DROPPED = "dropped"  # in place of the status of an action that came to a core that was shut down
END_OF_SCRIPT = "end of script"

_ERROR = "hook Error "
_EXPIRIES = ("alarm", "point", "stop", "begin")
_SILENT = ("on", "entered", "readied", "post", "drained", "passend")
# What a core that was shut down makes of the envelopes that it serves. It prints nothing.
_OF_DOWN = {"req": "E_OS_CORE", "act": DROPPED}


class Runner(NamedTuple):
    """Whose job runs: a task or an ISR."""

    kind: str
    name: str


class Call(NamedTuple):
    """A call of a job that waits: for a reply, or for the answer of a spinlock; the item in which it was made."""

    runner: Runner
    place: int
    operation: str
    item: "Item"


class Got(NamedTuple):
    """A spinlock that the core has, and whose job got it: nobody's, once it is to be given back."""

    lock: str
    runner: Optional[Runner]


@dataclass(frozen=True)
class Deed:
    """An operation that is done in an item, and who does it: a job, an alarm, a table, or an envelope of a core.

    `place` is the number of the operation, or the offset of the point. `status` is None if an envelope was sent and the
    answer is not known yet. `first` and `behind` bound the lines of the item that show it.
    """

    kind: str
    name: str
    place: Optional[int]
    operation: str
    status: Optional[str]
    first: int
    behind: int
    is_reply: bool = False

    @property
    def service(self) -> str:
        """The operation's own word."""
        return self.operation.split(" ")[0]

    @property
    def is_of_job(self) -> bool:
        """Whether a job does it, of a task or of an ISR."""
        return self.kind in SCRIPTED

    @property
    def is_refused(self) -> bool:
        """Whether it was answered otherwise than E_OK, or dropped."""
        return self.status not in (None, OK)

    @property
    def activates(self) -> Optional[str]:
        """The task that it activates, or would activate."""
        words = self.operation.split(" ")
        return words[1] if words[0] in ("ActivateTask", "ChainTask") else None


@dataclass(eq=False)
class Item:
    """An item of a core: where in the run it is, and what it printed.

    `number` counts the items of the core from 1. `stimulus` and `tick` say how many stimuli and ticks the core has
    taken so far, this one with them. If the item is an `op` of a job, there are whose job it is and the number of the
    operation. A `halt` for which a job of this core asked is `asked`. `waits` is the operation that waits from then on
    for the answer of a spinlock, and `called` the item in which the one was done that gets its answer now.
    """

    core: int
    number: int
    text: str
    stimulus: int
    tick: int
    lines: List[str] = field(default_factory=list)
    deeds: List[Deed] = field(default_factory=list)
    runner: Optional[Runner] = None
    place: Optional[int] = None
    asked: bool = False
    waits: Optional[str] = None
    called: Optional["Item"] = None
    turn: int = 0
    round: Optional[int] = None

    @property
    def words(self) -> List[str]:
        """The words of its line in the log."""
        return self.text.split(" ")

    @property
    def is_tick(self) -> bool:
        """Whether it is a `tick`."""
        return self.text == "stim tick"

    @property
    def is_op(self) -> bool:
        """Whether it is an `op`."""
        return self.text == "stim op"

    @property
    def errors(self) -> List[str]:
        """The statuses with which it called ErrorHook."""
        return [line[len(_ERROR) :] for line in self.lines if line.startswith(_ERROR)]

    def deed_at(self, index: int) -> Optional[Deed]:
        """What is done in one of its lines."""
        return next((deed for deed in self.deeds if deed.first <= index < deed.behind), None)


def items_of(run: Run, core: int) -> List[Item]:
    """The items of a core, with their lines."""
    return _Layer(run, core).lay(run.logs.get(core, ()))


class _Layer:
    """Lays the lines of a block over the items of a log, in order."""

    def __init__(self, run: Run, core: int):
        self.core = core
        self.left = run.blocks.get(core, ())
        self.at = 0
        self.item = Item(core, 0, "", 0, 0)
        self.task: Optional[str] = None  # in the running state
        self.isrs: List[str] = []  # those that have started, the last one interrupts the others
        self.suspended = 0  # how often the running job has suspended interrupts
        self.is_down = False
        self.is_halted = False
        self.has_asked = False  # for the shutdown of all cores
        self.request: Optional[Call] = None  # whose reply is awaited
        self.spin: Optional[Call] = None  # which waits for the answer of a spinlock
        self.got: List[Got] = []
        self.scripts = _scripts(run.draft, core)
        self.actions = _actions(run.draft, core)
        self.autos = [task["auto"] for task in run.draft.core(core).named["tasks"]]
        self.mode = ""  # which the cores agreed on
        self.places: Dict[str, int] = {}
        self.variables: Dict[Tuple[str, str], int] = {}

    def lay(self, log: Tuple[str, ...]) -> List[Item]:
        """The items of a log."""
        found = []
        for text in log:
            stimulus, tick = self.item.stimulus, self.item.tick
            self.item = Item(self.core, self.item.number + 1, text, stimulus, tick)
            self._item(text.split(" "))
            found.append(self.item)
        if self.at < len(self.left):
            self._misfit("is printed by no item")
        return found

    def _item(self, words: List[str]) -> None:
        """Takes the lines of an item."""
        if words[0] == "stim":
            self._stimulus(words[1])
        elif words[0] == "in":
            self._envelope(words)
        elif words[0] == "began":
            self._begin(words)
        elif words[0] == "pass1":
            self._take("conflict" if words[1] == "conflict" else "hook")
            self.mode = words[1]
        elif words[0] in ("granted", "tried", "freed"):
            self._spinlock(words)
        elif words[0] == "halt":
            self.item.asked = self.has_asked
            self._take("halt")
            self.is_halted = True
            self.spin = None
            self._owe()
        elif words[0] == "last":
            if len(words) > 1 and not self.is_down:
                self._take("hook")
        elif words[0] == "pass2":
            for _ in range(sum(self.mode in auto for auto in self.autos)):
                self._take("act")
            self._dispatch()
        elif words[0] not in _SILENT:
            raise Failed("core %d, item %d: `%s` is not known here" % (self.core, self.item.number, self.item.text))

    def _begin(self, words: List[str]) -> None:
        """Takes the line of a start."""
        self._take("start")
        self._did(START, words[1], None, "StartCore " + words[1], words[2], 0)

    # Lines ----------------------------------------------------------------------------------------------------------

    def _line(self, ahead: int = 0) -> str:
        """The next line, or one behind it; empty if there is none."""
        at = self.at + ahead
        return self.left[at] if at < len(self.left) else ""

    def _next(self, ahead: int = 0) -> str:
        """The first word of the next line, or of one behind it."""
        return self._line(ahead).split(" ", 1)[0]

    def _take(self, *wanted: str) -> List[str]:
        """Takes the next line, which has to begin with one of some words."""
        if self._next() not in wanted:
            self._misfit("is not what the item prints (%s)" % " or ".join(wanted))
        line = self.left[self.at]
        self.at += 1
        self.item.lines.append(line)
        words = line.split(" ")
        self._follow(words)
        return words

    def _follow(self, words: List[str]) -> None:
        """Follows a line: which job runs, where it stands, its variables."""
        if words[0] == "pre":
            self.task = words[1]
        elif words[0] == "post":
            self.task = None
        elif words[0] == "enter":
            self.isrs.append(words[1])
        elif words[0] in ("end", "leave"):
            if words[0] == "leave":
                self.isrs.pop()
            else:
                # A job that has reached its budget ends without `post`.
                self.task = None
            self.places.pop(words[1], None)
            self.suspended = 0
            self._owe(Runner(ISR if words[0] == "leave" else TASK, words[1]))
        elif words[0] == "var":
            self.variables[words[1], words[2]] = int(words[3])
        elif words[:2] == ["hook", "Shutdown"]:
            self.is_down = True
            self._owe()

    def _owe(self, runner: Optional[Runner] = None) -> None:
        """The spinlocks that a job got are to be given back; without one, all of the core."""
        self.got = [Got(each.lock, None) if runner in (None, each.runner) else each for each in self.got]

    @property
    def runner(self) -> Optional[Runner]:
        """Whose job runs."""
        if self.isrs:
            return Runner(ISR, self.isrs[-1])
        return Runner(TASK, self.task) if self.task is not None else None

    def _misfit(self, text: str) -> None:
        """The block is not of this log."""
        line = "`%s`" % self._line() if self._line() else "the end of the block"
        where = "core %d, item %d `%s`" % (self.core, self.item.number, self.item.text)
        raise Failed("%s: %s %s" % (where, line, text))

    def _did(
        self, kind: str, name: str, place: Optional[int], operation: str, status: Optional[str], first: int
    ) -> None:
        """Notes what was done in the lines from one on."""
        is_reply = self.item.text.startswith("in ") and kind in SCRIPTED
        behind = len(self.item.lines)
        self.item.deeds.append(Deed(kind, name, place, operation, status, first, behind, is_reply))

    def _error(self, status: str) -> None:
        """Takes the line of ErrorHook, if a service was refused."""
        if status != OK:
            self._take("hook")

    def _dispatch(self) -> None:
        """Takes the lines of a dispatch, if there is one. A `post` before `end` or `wait` is of the next item.

        While the running job has interrupts suspended, there is none: the lines are of a ResumeAllInterrupts. While
        spinlocks are to be given back, there is none either: the lines are of the last item `freed`.
        """
        if self.suspended or any(each.runner is None for each in self.got):
            return
        if self._next() == "post" and self._next(1) == "pre":
            self._take("post")
        if self._next() in ("pre", "enter"):
            self._take("pre", "enter")

    # Stimuli --------------------------------------------------------------------------------------------------------

    def _stimulus(self, word: str) -> None:
        """Takes the lines of a stimulus."""
        self.item.stimulus += 1
        if word == "tick":
            self._tick()
        elif word.startswith(INTERRUPT):
            self._take("irq", "lost")
            self._dispatch()
        elif self.runner is not None:
            self._operation(self.runner)

    def _tick(self) -> None:
        """Takes the lines of a `tick`. If the running job reaches its budget, it ends, or the core shuts down."""
        self.item.tick += 1
        self._take("tick")
        if self._line().startswith("hook Protection "):
            self._take("hook")
            self._take("end", "leave", "hook")
        if not self.is_down:
            self._expiries()
            self._dispatch()

    def _expiries(self) -> None:
        """Takes the lines of the alarms and the points that expire, with what they do."""
        while self._next() in _EXPIRIES:
            words = self._take(*_EXPIRIES)
            kind = ALARM if words[0] == "alarm" else TABLE
            place = int(words[2]) if words[0] == "point" else None
            for action in self.actions.get(tuple(words), ()):
                self._action(kind, words[1], place, action)

    def _action(self, kind: str, name: str, place: Optional[int], action: str) -> None:
        """Takes the lines of one action."""
        first = len(self.item.lines)
        words = self._take("act", "ev", "out", "hook")
        if words[0] == "ev" and self._next() == "free":
            self._take("free")
        status = {"out": None, "hook": words[-1]}.get(words[0], OK)
        self._did(kind, name, place, action, status, first)

    def _operation(self, runner: Runner) -> None:
        """Takes the lines of the running job's next operation."""
        script, place = self.scripts[runner.name], self.places.get(runner.name, 0)
        self.item.runner, self.item.place = runner, place
        if place == len(script):
            self._end_of_script(runner, place)
            return
        operation = script[place]
        words = operation.split(" ")
        self.places[runner.name] = self._place_after(runner.name, place, words)
        if words[0] in IGNORED_IF_SUSPENDED and self.suspended:
            return
        if words[0] in ("set", "add", "addv", "status", "GetNumberOfActivatedCores"):
            self._take("var")
        elif words[0] == "ShutdownOS":
            self._take("hook")
        elif words[0] == HALTS_ALL:
            self.has_asked = True
        elif words[0] == "SuspendAllInterrupts":
            self.suspended = min(self.suspended + 1, MOST_SUSPENDED)
        elif words[0] == "ResumeAllInterrupts":
            self.suspended = max(self.suspended - 1, 0)
            self._dispatch()
        elif OPERATIONS[words[0]].is_service:
            self._service(runner, place, operation)

    def _place_after(self, name: str, place: int, words: List[str]) -> int:
        """The place of the operation behind one."""
        if words[0] == "jump":
            return int(words[1])
        if words[0] == "jz" and self.variables.get((name, words[1]), 0) == 0:
            return int(words[2])
        return place + 1

    def _end_of_script(self, runner: Runner, place: int) -> None:
        """Takes the lines of a job that ends past its last operation. An ISR ends so; of a task it is an error."""
        if runner.kind == TASK or self.suspended:
            status = self._take("hook")[-1]
            self._did(*runner, place, END_OF_SCRIPT, status, 0)
        if runner.kind == TASK:
            self._leave()
        else:
            self._take("leave")
            self._dispatch()

    # Services -------------------------------------------------------------------------------------------------------

    def _service(self, runner: Runner, place: int, operation: str) -> None:
        """Takes the lines of a service that a job calls."""
        if operation.startswith("IncrementCounter "):
            self._expiries()
        elif self._next() == "out":
            self._take("out")
            self._did(*runner, place, operation, None, 0)
            self.request = Call(runner, place, operation, self.item)
            return
        elif operation.split(" ")[0] in OF_SPINLOCKS and not self._is_refused(operation):
            self.spin = Call(runner, place, operation, self.item)
            self.item.waits = operation
            return
        first = len(self.item.lines)
        if self._next() == "post":
            self._leave(runner, place, operation)
            return
        while self._next() in ("act", "ev", "free", "clr"):
            self._take(self._next())
        self._status(runner, place, operation, first)

    def _is_refused(self, operation: str) -> bool:
        """Whether the next line says that a call for a spinlock is refused. Its E_OK comes with an item of its own."""
        words = self._line().split(" ")
        return words[0] == "stat" and words[2] == operation.split(" ")[0] and words[3] != OK

    def _spinlock(self, words: List[str]) -> None:
        """Takes the lines of a spinlock's answer, if a call waits for it."""
        if words[0] == "freed":
            self.got = [each for each in self.got if each.lock != words[1]]
        call, self.spin = self.spin, None
        if call is None:
            self._dispatch()
            return
        if words[0] == "granted" or words[-1] == "1":
            self.got.append(Got(words[1], call.runner))
        self.item.called = call.item
        self._status(call.runner, call.place, call.operation, 0)

    def _status(self, runner: Runner, place: int, operation: str, first: int) -> None:
        """Takes the line `stat`, and what follows it."""
        words = self._take("stat")
        status = words[3]
        if len(words) > 4:
            self.variables[runner.name, operation.split(" ")[-1]] = int(words[4])
        if words[2] != WITHOUT_ERROR_HOOK:
            self._error(status)
        self._did(*runner, place, operation, status, first)
        self._dispatch()

    def _leave(self, runner: Optional[Runner] = None, place: Optional[int] = None, operation: str = "") -> None:
        """Takes the lines of a task's job that ends or waits; with what it does, if that is a service."""
        first = len(self.item.lines)
        self._take("post")
        self._take("end", "wait")
        if operation.startswith("ChainTask ") and self.request is None and self._next() == "act":
            self._take("act")
        if runner is not None:
            self._did(*runner, place, operation, OK, first)
        self._dispatch()

    # Envelopes ------------------------------------------------------------------------------------------------------

    def _envelope(self, words: List[str]) -> None:
        """Takes the lines of an envelope that the core serves, or of a reply."""
        if words[3] == "rep":
            self._reply()
            return
        if self.is_down or self.is_halted:
            self._did(CORE, words[1], None, " ".join(words[4:]), _OF_DOWN[words[3]], 0)
            return
        while self._next() in ("act", "ev", "free"):
            self._take(self._next())
        status = self._take("in")[2 + len(words) - 4]
        if words[3] == "act":
            self._error(status)
        self._did(CORE, words[1], None, " ".join(words[4:]), status, 0)
        self._dispatch()

    def _reply(self) -> None:
        """Takes the lines of the reply to the request of the running job."""
        if self.request is None:
            self._misfit("stands where no reply is awaited")
        runner, place, operation, self.item.called = self.request
        if self._next() == "post":
            self._leave(runner, place, operation)
        else:
            self._status(runner, place, operation, 0)
        self.request = None


def _scripts(draft: Draft, core: int) -> Dict[str, List[str]]:
    """The operations of each task and each ISR of a core."""
    return {scripted.name: operations_of(scripted["script"]) for scripted in draft.core(core).scripted}


def _actions(draft: Draft, core: int) -> Dict[Tuple[str, ...], List[str]]:
    """The actions of each alarm and point of a core in the order in which they are done, by the words of its line."""
    found = {("alarm", alarm.name): [alarm["action"]] for alarm in draft.core(core).named["alarms"]}
    for table in draft.core(core).named["tables"]:
        for point in table.parts("points"):
            # A sort keeps the order of the list: activations come first, then events.
            actions = sorted(point["actions"], key=lambda action: action.startswith("SetEvent "))
            found["point", table.name, str(point["offset"])] = actions
    return found
