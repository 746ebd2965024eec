"""What a job holds at each operation of its script, and which operations are refused for that.

The walk goes along all ways of a script. A call is answered E_OK unless the configuration, suspended interrupts or what
the job itself holds refuse it: what other jobs hold is not looked at. Of a variable that `jz` asks for it is followed
whether it is 0. So a job that got no spinlock by a TryToGetSpinlock, and asks for that, is known to hold none.
"""

from dataclasses import dataclass
from typing import Dict, FrozenSet, Iterable, Iterator, List, NamedTuple, Optional, Set, Tuple

from library.drafts import Draft, Named
from library.findings import listed
from library.formats import (
    FOR_TASKS,
    GETS_SPINLOCK,
    IGNORED_IF_SUSPENDED,
    ISR,
    MOST_SUSPENDED,
    NO_OBJECT,
    NOT_IN_ISRS,
    OF_SPINLOCKS,
)
from library.steps import Step, steps_of, value_of

# The most pairs of an operation and a state that a walk looks at. Of a script with more nothing is said.
_MOST_STATES = 2000
# What a call is refused for that is not what the job holds: other notes say that.
_OTHERWISE = "otherwise"


class State(NamedTuple):
    """What a job holds, the newest last, how often it has interrupts suspended, and what is known of its variables.

    A variable stands in `zeros` with whether it is 0, and not at all if that is not known. `is_ok` says whether the
    last status is E_OK, if that is known and the script asks for it.
    """

    resources: Tuple[str, ...] = ()
    spinlocks: Tuple[str, ...] = ()
    suspended: int = 0
    zeros: FrozenSet[Tuple[str, bool]] = frozenset()
    is_ok: Optional[bool] = None

    def is_zero(self, variable: str) -> Optional[bool]:
        """Whether a variable is 0, if that is known."""
        return dict(self.zeros).get(variable)

    def with_zero(self, variable: str, is_zero: Optional[bool]) -> "State":
        """The state in which a variable is 0, or is not, or nothing is known of it."""
        kept = frozenset(known for known in self.zeros if known[0] != variable)
        return self._replace(zeros=kept if is_zero is None else kept | {(variable, is_zero)})


class _Outcome(NamedTuple):
    """Where a job may be behind an operation, and in which state; and why the operation is refused, if it is."""

    following: Tuple[Tuple[int, State], ...]
    refusal: str = ""


@dataclass(frozen=True)
class Refused:
    """An operation that must be refused, the word of it that decides, and why."""

    step: Step
    word: int
    text: str


def walks_of(draft: Draft) -> Dict[Named, "Walk"]:
    """The walks of the scripts that take or get anything, or give it back, if they came to an end.

    All operations are in form.
    """
    scripted = (each for core in draft.cores for each in core.scripted)
    return {each: walk for each in scripted for walk in (Walk(draft, each),) if walk.go()}


def refused_steps(walk: "Walk") -> Iterator[Refused]:
    """The operations of a script that are refused for what the job holds, whichever way it comes there.

    If they are not refused on all ways, they may be so on each way from one operation.
    """
    for step in walk.steps:
        text = walk.refusal(step)
        if text:
            word = 1 if step.operation.name in NOT_IN_ISRS + OF_SPINLOCKS else 0
            yield Refused(step, word, text)


class Walk:
    """The ways of one script: the refusals by operation and state, and the states by operation and the one before."""

    def __init__(self, draft: Draft, scripted: Named):
        self.scripted = scripted
        self.steps = steps_of(scripted["script"])
        self.ceilings = {each.name: each["ceiling"] for each in scripted.core.named["resources"]}
        self.later = spinlocks_after(draft)
        started = draft.started()
        self.off = {each.name for each in draft.objects("task") if each.core.id not in started}
        self.asked = {step.arguments[0] for step in self.steps if step.operation.name == "jz"}
        self.has_status = any(step.operation.name == "status" for step in self.steps)
        self.refusals: Dict[int, Dict[State, str]] = {}
        self.origins: Dict[int, Dict[Optional[int], Set[State]]] = {}

    def go(self) -> bool:
        """Follows all ways, if the script gets or gives back anything; whether it came to the end of them."""
        if not any(step.operation.name in NOT_IN_ISRS + OF_SPINLOCKS for step in self.steps):
            return False
        seen = 0
        left: List[Tuple[Optional[int], int, State]] = [(None, 0, State())]
        while left:
            origin, place, state = left.pop()
            self.origins.setdefault(place, {}).setdefault(origin, set()).add(state)
            refusals = self.refusals.setdefault(place, {})
            if place >= len(self.steps) or state in refusals:
                continue
            outcome = self._outcome(self.steps[place], state)
            refusals[state] = outcome.refusal
            left += [(place, *following) for following in outcome.following]
            seen += 1
            if seen > _MOST_STATES:
                return False
        return True

    def states(self, place: int) -> List[State]:
        """The states in which a job can come to an operation."""
        return list(self.refusals.get(place, {}))

    def refusal(self, step: Step) -> str:
        """Why an operation is refused on all ways, or on all ways from some operations; empty if neither is so."""
        refusals = self.refusals.get(step.number, {})
        text = _joined(refusals.values())
        if text:
            return text
        texts: Dict[str, List[int]] = {}
        for origin, states in self.origins.get(step.number, {}).items():
            text = _joined(refusals[state] for state in states)
            if text:
                texts.setdefault(text, []).append(-1 if origin is None else origin)
        return "; and ".join("%s %s" % (_behind(texts[text]), text) for text in sorted(texts))

    def _outcome(self, step: Step, state: State) -> _Outcome:
        """What an operation does in a state."""
        name = step.operation.name
        if name in ("jump", "jz"):
            return _Outcome(tuple(_jumps(step, state)))
        if name in OF_SPINLOCKS:
            return self._spinlock(step, state)
        if name in IGNORED_IF_SUSPENDED or step.operation.is_service:
            return self._unsuspended(step, state) if not state.suspended else self._otherwise(step, state)
        change = {"SuspendAllInterrupts": 1, "ResumeAllInterrupts": -1}.get(name, 0)
        state = state._replace(suspended=min(max(state.suspended + change, 0), MOST_SUSPENDED))
        return _next(step, self._written(step, state))

    def _otherwise(self, step: Step, state: State) -> _Outcome:
        """What a service does that is refused, or ignored, and not for what the job holds."""
        if not step.operation.is_service:
            return _next(step, state)
        return self._refused(step, state, _OTHERWISE)

    def _refused(self, step: Step, state: State, refusal: str) -> _Outcome:
        """What a service does that is refused."""
        return _next(step, self._answered(state, False), refusal)

    def _accepted(self, step: Step, state: State) -> _Outcome:
        """What a service does that is answered E_OK."""
        return _next(step, self._answered(state, True))

    def _answered(self, state: State, is_ok: Optional[bool]) -> State:
        """The state behind a status, if the script asks for one."""
        return state._replace(is_ok=is_ok) if self.has_status else state

    def _unsuspended(self, step: Step, state: State) -> _Outcome:
        """What a service but those of spinlocks does if interrupts are not suspended."""
        name = step.operation.name
        if name in ("ShutdownOS", "ShutdownAllCores"):
            return _Outcome(())
        if self.scripted.kind is ISR and name in FOR_TASKS:
            return self._otherwise(step, state)
        if name in NOT_IN_ISRS:
            return self._resource(step, state)
        if name in ("TerminateTask", "ChainTask", "Schedule", "WaitEvent"):
            return self._leave(step, state)
        after = self._answered(state, None) if step.operation.is_service else state
        return _next(step, self._written(step, after))

    def _leave(self, step: Step, state: State) -> _Outcome:
        """What a service does that no job may call that holds something."""
        name = step.operation.name
        is_nobody = name == "ChainTask" and step.arguments[0] in self.off | {NO_OBJECT}
        if is_nobody or (name == "WaitEvent" and not self.scripted["extended"]):
            return self._otherwise(step, state)
        if state.resources:
            return self._refused(step, state, "the job holds %s: E_OS_RESOURCE" % _shown("resource", state.resources))
        if state.spinlocks:
            return self._refused(step, state, "the job holds %s: E_OS_SPINLOCK" % _shown("spinlock", state.spinlocks))
        # A ChainTask of another task can be answered E_OS_LIMIT.
        if name == "TerminateTask" or (name == "ChainTask" and step.arguments[0] == self.scripted.name):
            return _Outcome(())
        return _next(step, self._answered(state, name != "ChainTask"))

    def _resource(self, step: Step, state: State) -> _Outcome:
        """What GetResource or ReleaseResource does."""
        resource, held = step.arguments[0], state.resources
        if resource == NO_OBJECT or self.scripted["prio"] > self.ceilings[resource]:
            return self._otherwise(step, state)
        if step.operation.name == "GetResource":
            if resource in held:
                return self._refused(step, state, "the job holds `%s` already: E_OS_ACCESS" % resource)
            return self._accepted(step, state._replace(resources=held + (resource,)))
        if resource not in held:
            return self._refused(step, state, "the job does not hold `%s`: E_OS_NOFUNC" % resource)
        if resource != held[-1]:
            return self._refused(step, state, "the job still holds `%s`, which it took later: E_OS_NOFUNC" % held[-1])
        return self._accepted(step, state._replace(resources=held[:-1]))

    def _spinlock(self, step: Step, state: State) -> _Outcome:
        """What a service of spinlocks does."""
        spinlock, held = step.arguments[0], state.spinlocks
        if spinlock == NO_OBJECT:
            return self._otherwise(step, state)
        if step.operation.name in GETS_SPINLOCK:
            return self._get_spinlock(step, state)
        if spinlock not in held:
            return self._refused(step, state, "the job does not hold `%s`: E_OS_STATE" % spinlock)
        if spinlock != held[-1]:
            return self._refused(step, state, "the job still holds `%s`, which it got later: E_OS_NOFUNC" % held[-1])
        return self._accepted(step, state._replace(spinlocks=held[:-1]))

    def _get_spinlock(self, step: Step, state: State) -> _Outcome:
        """What GetSpinlock or TryToGetSpinlock does."""
        spinlock, held = step.arguments[0], state.spinlocks
        if spinlock in held:
            return self._refused(step, state, "the job holds `%s` already: E_OS_INTERFERENCE_DEADLOCK" % spinlock)
        if held and spinlock not in self.later[held[-1]]:
            text = "the job holds `%s`, and by `next` `%s` does not come after it: E_OS_NESTING_DEADLOCK"
            return self._refused(step, state, text % (held[-1], spinlock))
        got = state._replace(spinlocks=held + (spinlock,))
        if step.operation.name == "GetSpinlock":
            return self._accepted(step, got)
        answered = ((self._answered(got, True), False), (self._answered(state, True), True))
        return _Outcome(tuple((step.number + 1, self._known(step, after, zero)) for after, zero in answered))

    def _written(self, step: Step, state: State) -> State:
        """The state behind an operation that may write a variable."""
        if not any(argument.kind == "variable" for argument in step.operation.arguments):
            return state
        if step.operation.name == "set":
            return self._known(step, state, step.arguments[1] == "0")
        return self._known(step, state, state.is_ok if step.operation.name == "status" else None)

    def _known(self, step: Step, state: State, is_zero: Optional[bool]) -> State:
        """The state in which the first variable of an operation is 0, or is not, or nothing is known of it."""
        kinds = [argument.kind for argument in step.operation.arguments]
        variable = step.arguments[kinds.index("variable")]
        return state.with_zero(variable, is_zero) if variable in self.asked else state


def spinlocks_after(draft: Draft) -> Dict[str, Set[str]]:
    """By its name the spinlocks that come after each one, by one link or by several."""
    links = draft.links()
    after: Dict[str, Set[str]] = {}
    for name in draft.names("spinlock"):
        found = after.setdefault(name, set())
        following = links.get(name)
        while following is not None and following not in found:
            found.add(following)
            following = links.get(following)
    return after


def _next(step: Step, state: State, refusal: str = "") -> _Outcome:
    """The outcome by which a job comes to the next operation."""
    return _Outcome(((step.number + 1, state),), refusal)


def _jumps(step: Step, state: State) -> Iterator[Tuple[int, State]]:
    """Where a job is behind a jump."""
    target = value_of(step.arguments[-1])
    if step.operation.name == "jump":
        yield target, state
        return
    variable = step.arguments[0]
    is_zero = state.is_zero(variable)
    if is_zero is not False:
        yield target, state.with_zero(variable, True)
    if is_zero is not True:
        yield step.number + 1, state.with_zero(variable, False)


def _behind(places: List[int]) -> str:
    """Where a job comes from, by the operations before; before the first one it is -1."""
    numbers = [str(place) for place in sorted(places) if place >= 0]
    words = ["at its beginning"] if min(places) < 0 else []
    if numbers:
        words.append("after operation%s %s" % ("s" if len(numbers) > 1 else "", listed(numbers)))
    return " and ".join(words)


def _joined(refusals: Iterable[str]) -> str:
    """Why an operation is refused on some ways, if it is refused on each of them for what the job holds."""
    texts = sorted(set(refusals))
    return "; or ".join(texts) if texts and not {"", _OTHERWISE} & set(texts) else ""


def _shown(kind: str, names: Tuple[str, ...]) -> str:
    """Some names of a kind, in words."""
    return "the %s%s %s" % (kind, "s" if len(names) > 1 else "", listed("`%s`" % name for name in names))
