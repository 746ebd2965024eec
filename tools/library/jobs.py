"""The jobs of a run, as the lines of the trace show them: their states, what set them going, what they hold.

A *part* of a job goes from its activation, or from its release from waiting, to its end or to its next waiting. A job
of a task that never waits has one part. What activates or releases is the part's cause: the part of another job, an
alarm, or a table; of an autostart there is none. A cause on another core is found by the order of envelopes: the first
`in` of a core has the first `out` of the other one, and so on.

An interrupt activates a job of its ISR, and has no cause. For the job that it interrupts no hook is called; it is
interrupted from `enter` to `leave`.
"""

from collections import deque
from dataclasses import dataclass, field
from typing import Deque, Dict, List, NamedTuple, Optional, Tuple

from library import progress
from library.findings import listed
from library.formats import GETS_SPINLOCK, NO_OBJECT
from library.items import CORE, DROPPED, OK, START, Deed, Item
from library.model import ISR, TASK
from library.timeline import Timeline

# The events of a job.
ACTIVATE = "activate"
BEGIN = "start"
PREEMPT = "preempt"
RESUME = "resume"
WAIT = "wait"
RELEASE = "release"
TERMINATE = "terminate"
INTERRUPT = "interrupt"  # by an ISR that starts
CONTINUE = "continue"  # when that one has left
# Its states between them. A pending job of an ISR is ready.
READY = "ready"
RUNNING = "running"
WAITING = "waiting"
INTERRUPTED = "interrupted"
STATES = {
    ACTIVATE: READY,
    BEGIN: RUNNING,
    PREEMPT: READY,
    RESUME: RUNNING,
    WAIT: WAITING,
    RELEASE: READY,
    INTERRUPT: INTERRUPTED,
    CONTINUE: RUNNING,
}
# What is marked where it happens.
ERROR = "error"
PROTECTION = "protection"
SHUTDOWN = "shutdown"
LOST = "lost"
# With which status ProtectionHook is called for a job's own budget, and for those of resources.
PROTECTION_TIME = "E_OS_PROTECTION_TIME"
PROTECTION_LOCKED = "E_OS_PROTECTION_LOCKED"
# What is done with events.
SET_EVENT = "set_event"
CLEAR_EVENT = "clear_event"
WAIT_EVENT = "wait_event"
_EVENT_LINES = {"ev": SET_EVENT, "clr": CLEAR_EVENT, "wait": WAIT_EVENT}
# What a job holds.
RESOURCE = "resource"
SPINLOCK = "spinlock"


class Change(NamedTuple):
    """An event of a job, and the item in which it comes."""

    event: str
    item: Item
    job: "Job"


@dataclass(eq=False)
class Cause:
    """What sets something going, with the way that led to it: the names from the first cause on, and that one's item.

    No name stands twice on a way. Where one would, a new way begins.
    """

    name: str
    kind: str
    item: Item
    parent: Optional["Cause"] = None
    way: Tuple[str, ...] = ()
    origin: Optional[Item] = None
    is_last: bool = True

    def __post_init__(self) -> None:
        before = self.parent
        if before is None or self.name in before.way:
            self.way, self.origin = (self.name,), self.item
        else:
            self.way, self.origin = before.way + (self.name,), before.origin
            before.is_last = False


@dataclass(eq=False)
class Part(Cause):
    """A part of a job; `start` is the item in which the job first runs, `finish` that of its end or waiting.

    `used` is how many ticks were taken while it ran: what its execution budget counts.
    """

    number: int = 0  # of the job
    start: Optional[Item] = None
    finish: Optional[Item] = None
    used: int = 0


@dataclass(eq=False)
class Job:
    """A job with its events: whose it is, a task's or an ISR's; `number` counts the jobs of that one from 0.

    `holds` are all that it held, `resources` those that it holds now, the newest last.
    """

    core: int
    kind: str
    name: str
    number: int
    changes: List[Change] = field(default_factory=list)
    parts: List[Part] = field(default_factory=list)
    holds: List["Hold"] = field(default_factory=list)
    resources: List["Hold"] = field(default_factory=list)

    @property
    def has_run(self) -> bool:
        """Whether it has run before."""
        return self.parts[0].start is not None

    def charge(self) -> None:
        """A tick is taken while it runs."""
        self.parts[-1].used += 1
        for hold in self.resources:
            hold.used += 1


@dataclass(eq=False)
class Hold:
    """A resource or a spinlock, from the item in which a job takes it to that in which it is given back.

    It asks for a spinlock in an item before, `called`, and may never get it. Of a resource `used` is how many ticks
    were taken while the job held it and ran: what its lock budget counts. If ProtectionHook was called for that budget,
    it is `reached`.
    """

    kind: str
    name: str
    called: Item
    taken: Optional[Item] = None
    given: Optional[Item] = None
    used: int = 0
    reached: bool = False

    @property
    def is_kept(self) -> bool:
        """Whether it was taken, and not given back."""
        return self.taken is not None and self.given is None


@dataclass(eq=False)
class Envelope:
    """A request or an action: where it is sent, where it is served, and where the reply comes."""

    deed: Deed
    sender: int
    receiver: int
    cause: Cause
    sent: Item
    served: Optional[Item] = None
    answer: Optional[Deed] = None
    replied: Optional[Item] = None

    @property
    def target(self) -> Optional[str]:
        """The task that it is to set going."""
        return target_of(self.deed.operation)

    @property
    def is_dropped(self) -> bool:
        """Whether it came to a core that was shut down, and was dropped."""
        return self.answer is not None and self.answer.status == DROPPED


class Preemption(NamedTuple):
    """A job that another one preempts or interrupts."""

    job: Job
    by: str
    item: Item


class Mark(NamedTuple):
    """What is marked where it happens: a call of ErrorHook, ProtectionHook or ShutdownHook, or a lost interrupt.

    `name` is who was refused something, whose job reached a budget, or which ISR lost it; of ShutdownHook it is empty.
    `before` says how many jobs the one of this name had before.
    """

    kind: str
    core: int
    name: str
    text: str
    item: Item
    before: int


class EventDeed(NamedTuple):
    """The events of a mask are set for a task, or its job clears them or waits for them; and who does it.

    A job waits also for events that are set already. `before` says how many events of jobs came before.
    """

    kind: str
    task: str
    mask: int
    item: Item
    cause: Optional[Cause]
    before: int


class Refusal(NamedTuple):
    """An operation that was refused: who did it, on which core, and where that was known first.

    `before` says how many jobs the task that it would have activated had before.
    """

    actor: Deed
    core: int
    status: str
    item: Item
    cause: Optional[Cause]
    before: int


class Loose(NamedTuple):
    """Where a way ends without a part: an operation that was refused, or an event that nobody waited for."""

    way: Tuple[str, ...]
    status: str


@dataclass
class Jobs:
    """All jobs of a run, and what came of them."""

    timeline: Timeline
    jobs: List[Job] = field(default_factory=list)
    changes: List[Change] = field(default_factory=list)
    envelopes: List[Envelope] = field(default_factory=list)
    preemptions: List[Preemption] = field(default_factory=list)
    interruptions: List[Preemption] = field(default_factory=list)
    marks: List[Mark] = field(default_factory=list)
    events: List[EventDeed] = field(default_factory=list)
    refusals: List[Refusal] = field(default_factory=list)
    loose: List[Loose] = field(default_factory=list)

    @property
    def parts(self) -> List[Part]:
        """The parts of all jobs."""
        return [part for job in self.jobs for part in job.parts]


def target_of(operation: str) -> Optional[str]:
    """The task that an operation is to set going."""
    words = operation.split(" ")
    return words[1] if words[0] in ("ActivateTask", "ChainTask", "SetEvent") else None


def jobs_of(timeline: Timeline) -> Jobs:
    """The jobs of a run."""
    walk = _Walk(timeline)
    with progress.shown("following the jobs", len(timeline.items)) as work:
        for work.done, item in enumerate(timeline.items):
            walk.item(item)
    return walk.found


class _Walk:
    """Follows the lines of all cores in the order of the turns."""

    def __init__(self, timeline: Timeline):
        self.found = Jobs(timeline)
        self.live: Dict[str, Deque[Job]] = {}
        # Of each core the jobs in the running state. Each is interrupted by the one behind it, so the last one runs.
        self.running: Dict[int, List[Job]] = {core: [] for core in timeline.run.cores}
        self.numbers: Dict[str, int] = {}
        self.mail: Dict[Tuple[int, int], Deque[Envelope]] = {}
        self.requests: Dict[int, Envelope] = {}  # of each core the one whose reply is awaited
        self.asked: Dict[int, Hold] = {}  # of each core the spinlock for which a job waits
        self.spinlocks: Dict[str, Hold] = {}  # those that are taken
        resources = timeline.run.draft.objects("resource")
        self.locks: Dict[str, int] = {each.name: each["lock"] for each in resources}

    def item(self, item: Item) -> None:
        """Follows the lines of one item."""
        running = self.running[item.core]
        if item.is_tick and running:
            running[-1].charge()
        # Who does something is asked before the lines, among which its job may end.
        causes = [self._cause(item, deed) for deed in item.deeds]
        for index in range(len(item.lines)):
            self._line(item, index, causes)
        for deed, cause in zip(item.deeds, causes):
            self._deed(item, deed, cause)
        self._spinlock(item)

    def _cause(self, item: Item, deed: Deed) -> Optional[Cause]:
        """Who does an operation; of an envelope who sent it."""
        if deed.is_of_job:
            return self._current(deed.name)
        if deed.kind == CORE:
            return self.mail[int(deed.name), item.core][0].cause
        if deed.kind == START:
            return None
        return Cause(deed.name, deed.kind, item, self._current(item.runner.name) if item.runner else None)

    def _current(self, name: str) -> Part:
        """The part of the job that runs of the jobs of a task or an ISR: the oldest one."""
        return self.live[name][0].parts[-1]

    # Lines ----------------------------------------------------------------------------------------------------------

    def _line(self, item: Item, index: int, causes: List[Optional[Cause]]) -> None:
        """Follows a line."""
        words = item.lines[index].split(" ")
        if words[0] == "act":
            self._activate(item, TASK, words[1], _at(item, index, causes))
        elif words[0] == "irq":
            self._activate(item, ISR, words[1], None)
        elif words[0] == "lost":
            self._mark(LOST, item, words[1], item.lines[index])
        elif words[0] == "hook":
            self._hook(item, index, words)
        elif words[0] == "free":
            job = self.live[words[1]][0]
            self._change(job, RELEASE, item)
            job.parts.append(Part(words[1], TASK, item, _at(item, index, causes), number=job.number))
        elif words[0] in ("pre", "enter"):
            self._run(item, self.live[words[1]][0])
        elif words[0] == "post":
            self._leave(item, index, self.live[words[1]][0])
        elif words[0] in ("end", "leave"):
            self._end(item, self.live[words[1]].popleft())
        elif words[0] in ("ev", "clr", "stat"):
            self._event(item, index, words, causes)
        elif words[0] == "wait":
            self._event(item, index, words, causes)
            self._finish(item, self.live[words[1]][0], WAIT)

    def _change(self, job: Job, event: str, item: Item) -> None:
        """An event of a job."""
        job.changes.append(Change(event, item, job))
        self.found.changes.append(job.changes[-1])

    def _activate(self, item: Item, kind: str, name: str, cause: Optional[Cause]) -> None:
        """A new job."""
        number = self.numbers.get(name, 0)
        self.numbers[name] = number + 1
        job = Job(item.core, kind, name, number, [], [Part(name, kind, item, cause, number=number)])
        self._change(job, ACTIVATE, item)
        self.live.setdefault(name, deque()).append(job)
        self.found.jobs.append(job)

    def _run(self, item: Item, job: Job) -> None:
        """A job runs; one of an ISR interrupts the job that runs."""
        running = self.running[job.core]
        if running:
            self._change(running[-1], INTERRUPT, item)
            self.found.interruptions.append(Preemption(running[-1], job.name, item))
        running.append(job)
        self._change(job, RESUME if job.has_run else BEGIN, item)
        if job.parts[-1].start is None:
            job.parts[-1].start = item

    def _leave(self, item: Item, index: int, job: Job) -> None:
        """A job leaves the running state; if it neither ends nor waits, another one preempts it."""
        self.running[job.core].pop()
        behind = item.lines[index + 1].split(" ")
        if behind[0] == "pre":
            self._change(job, PREEMPT, item)
            self.found.preemptions.append(Preemption(job, behind[1], item))

    def _end(self, item: Item, job: Job) -> None:
        """A job ends. One of an ISR, or one that has reached a budget, runs until then."""
        self._finish(item, job, TERMINATE)
        running = self.running[job.core]
        if running and running[-1] is job:
            running.pop()
            if running:
                self._change(running[-1], CONTINUE, item)

    def _finish(self, item: Item, job: Job, event: str) -> None:
        """A job ends or waits; one that ends gives back its resources, and its core later its spinlocks."""
        self._change(job, event, item)
        job.parts[-1].finish = item
        if event == TERMINATE:
            while job.resources:
                job.resources.pop().given = item

    def _hook(self, item: Item, index: int, words: List[str]) -> None:
        """A hook is called."""
        if words[1] == "Error":
            deed = item.deed_at(index)
            self._mark(ERROR, item, deed.name if deed is not None else "", words[2])
        elif words[1] == "Protection":
            self._protect(item, words[2], self.running[item.core][-1])
        elif words[1] == "Shutdown":
            self._mark(SHUTDOWN, item, "", " ".join(words[1:]))

    def _protect(self, item: Item, status: str, job: Job) -> None:
        """ProtectionHook is called: the job has reached its own budget, or those of resources that it holds."""
        text = "Protection %s" % status
        if status == PROTECTION_LOCKED:
            reached = [hold for hold in job.resources if 0 < self.locks[hold.name] <= hold.used]
            for hold in reached:
                hold.reached = True
            text += ": %s" % listed("%s %d of %d" % (hold.name, hold.used, self.locks[hold.name]) for hold in reached)
        self._mark(PROTECTION, item, job.name, text)

    def _mark(self, kind: str, item: Item, name: str, text: str) -> None:
        """Marks what happens in an item."""
        self.found.marks.append(Mark(kind, item.core, name, text, item, self.numbers.get(name, 0)))

    def _event(self, item: Item, index: int, words: List[str], causes: List[Optional[Cause]]) -> None:
        """Something is done with events. Where a job need not wait, its operation alone has the mask."""
        kind, mask = _EVENT_LINES.get(words[0]), words[-1]
        if kind is None:
            deed = item.deed_at(index)
            if deed is None or (deed.service, deed.status) != ("WaitEvent", OK):
                return
            kind, mask = WAIT_EVENT, deed.operation.split(" ")[1]
        before = len(self.found.changes)
        self.found.events.append(EventDeed(kind, words[1], int(mask), item, _at(item, index, causes), before))

    # Operations -----------------------------------------------------------------------------------------------------

    def _deed(self, item: Item, deed: Deed, cause: Optional[Cause]) -> None:
        """Follows an operation, behind its lines."""
        if deed.kind == CORE:
            self._serve(item, deed, cause)
            return
        if deed.is_reply:
            self.requests.pop(item.core).replied = item
        if deed.status is None:
            self._send(item, deed, cause)
        elif deed.is_refused and not deed.is_reply:
            self._refuse(item, deed, item.core, deed.status, cause)
        elif deed.is_of_job and not deed.is_reply:
            self._hold(item, deed)
        if deed.status == OK and not deed.is_reply:
            self._note_event(item, deed, deed.operation, cause)

    def _send(self, item: Item, deed: Deed, cause: Optional[Cause]) -> None:
        """An envelope is put in the outbox."""
        out = next(line for line in item.lines[deed.first : deed.behind] if line.startswith("out "))
        receiver = int(out.split(" ")[1])
        envelope = Envelope(deed, item.core, receiver, cause, item)
        self.mail.setdefault((item.core, receiver), deque()).append(envelope)
        self.found.envelopes.append(envelope)
        if deed.is_of_job:
            self.requests[item.core] = envelope
        if envelope.target is not None and envelope.target not in cause.way:
            cause.is_last = False

    def _serve(self, item: Item, deed: Deed, cause: Optional[Cause]) -> None:
        """An envelope is served."""
        envelope = self.mail[int(deed.name), item.core].popleft()
        envelope.served, envelope.answer = item, deed
        if deed.is_refused:
            self._refuse(item, envelope.deed, envelope.sender, deed.status, cause)
        else:
            self._note_event(item, deed, deed.operation, cause)

    def _refuse(self, item: Item, actor: Deed, core: int, status: str, cause: Optional[Cause]) -> None:
        """An operation is refused; if it would have set a task going, a way ends there."""
        before = self.numbers.get(actor.activates or "", 0)
        self.found.refusals.append(Refusal(actor, core, status, item, cause, before))
        self._end_loose(cause, target_of(actor.operation), status)

    def _note_event(self, item: Item, deed: Deed, operation: str, cause: Optional[Cause]) -> None:
        """An event that is set and releases nobody ends a way."""
        words = operation.split(" ")
        if words[0] == "SetEvent" and "free " + words[1] not in item.lines[deed.first : deed.behind]:
            self._end_loose(cause, words[1], "")

    def _end_loose(self, cause: Optional[Cause], name: Optional[str], status: str) -> None:
        """A way ends without a part."""
        if cause is not None and name not in (None, NO_OBJECT) + cause.way:
            cause.is_last = False
            self.found.loose.append(Loose(cause.way + (name,), status))

    def _hold(self, item: Item, deed: Deed) -> None:
        """A job takes a resource, or gives the newest one back."""
        if deed.service == "GetResource":
            job = self.live[deed.name][0]
            job.resources.append(Hold(RESOURCE, deed.operation.split(" ")[1], item, item))
            job.holds.append(job.resources[-1])
        elif deed.service == "ReleaseResource":
            self.live[deed.name][0].resources.pop().given = item

    def _spinlock(self, item: Item) -> None:
        """A job asks for a spinlock, or gets the answer; or a spinlock is given back."""
        words = item.words
        if item.waits is not None and item.waits.split(" ")[0] in GETS_SPINLOCK:
            self.asked[item.core] = Hold(SPINLOCK, item.waits.split(" ")[1], item)
            if item.waits.startswith("GetSpinlock "):
                self.live[item.runner.name][0].holds.append(self.asked[item.core])
        elif words[0] in ("granted", "tried") and words[-1] != "0":
            hold = self.spinlocks[words[1]] = self.asked[item.core]
            hold.taken = item
            if words[0] == "tried":
                self.live[item.deeds[0].name][0].holds.append(hold)
        elif words[0] == "freed":
            self.spinlocks.pop(words[1]).given = item


def _at(item: Item, index: int, causes: List[Optional[Cause]]) -> Optional[Cause]:
    """The cause of what a line shows."""
    deed = item.deed_at(index)
    return causes[item.deeds.index(deed)] if deed is not None else None
