"""A run as a value change dump (VCD): states of tasks and ISRs, resources, ticks, hooks, spinlocks, mailboxes.

A time is the number of a turn. Of several changes in one turn a variable shows the last one. States are words, in
variables of the type `string`, which GTKWave and other viewers show; or numbers, as in IEEE 1364, which has no such
type.
"""

from dataclasses import dataclass
from typing import Dict, Iterator, List, Tuple, Union

from library.jobs import ERROR, INTERRUPTED, LOST, PROTECTION, READY, RUNNING, SHUTDOWN, WAITING, Jobs
from library.states import end_of, held_by_task, rows_of, stretches_by_name
from library.timeline import Timeline, mailbox_levels

SUSPENDED = "suspended"
CODES = {SUSPENDED: 0, READY: 1, WAITING: 2, RUNNING: 3, INTERRUPTED: 4}
_CODE_BITS = 3
_FIRST_CODE, _CODES = 33, 94  # the characters of which the short names of variables consist

Value = Union[int, str]  # a number, or the word of a state
Values = List[Tuple[int, Value]]  # a turn, and the value from then on


@dataclass(frozen=True)
class Variable:
    """A variable: its type, its bits, and its values by ascending turns, the first one at 0; an event has no bits."""

    scope: str
    name: str
    kind: str
    bits: int
    values: Values

    @property
    def declaration(self) -> str:
        """Its type and size, as a declaration has them."""
        return "%s %d" % (self.kind, self.bits)

    def text(self, value: Value) -> str:
        """A value, without the short name."""
        if isinstance(value, str):
            return "s%s " % value
        return "%d" % value if self.bits == 1 else "b{:b} ".format(value)


def text(jobs: Jobs, source: str, has_words: bool = True) -> str:
    """The whole text; states are words or numbers."""
    variables = variables_of(jobs, has_words)
    lines = ["$comment made from %s $end" % source, "$comment %s $end" % _legend(jobs.timeline, has_words)]
    lines += ["$timescale 1 us $end", "$scope module mcos $end"]
    lines += list(_declarations(variables))
    lines += ["$upscope $end", "$enddefinitions $end"]
    return "\n".join(lines + list(_changes(variables, end_of(jobs.timeline)))) + "\n"


def _legend(timeline: Timeline, has_words: bool) -> str:
    """What times and values mean."""
    states = ", ".join(state if has_words else "%d %s" % (code, state) for state, code in CODES.items())
    return "a time is the number of a turn of the %s schedule; a task or an ISR is %s" % (timeline.run.schedule, states)


def short_name(number: int) -> str:
    """The short name of a variable."""
    digits = chr(_FIRST_CODE + number % _CODES)
    return digits if number < _CODES else short_name(number // _CODES - 1) + digits


def _declarations(variables: List[Variable]) -> Iterator[str]:
    """The variables by scopes."""
    scope = ""
    for number, each in enumerate(variables):
        if each.scope != scope:
            if scope:
                yield "$upscope $end"
            scope = each.scope
            yield "$scope module %s $end" % scope
        yield "$var %s %s %s $end" % (each.declaration, short_name(number), each.name)
    yield "$upscope $end"


def _changes(variables: List[Variable], end: int) -> Iterator[str]:
    """All values, by turns."""
    by_turn: Dict[int, Dict[int, str]] = {}
    for number, variable in enumerate(variables):
        before = None
        for turn, value in _last_of_each_turn(variable.values):
            if value != before or variable.kind == "event":
                by_turn.setdefault(turn, {})[number] = variable.text(value) + short_name(number)
            before = value
    for turn in sorted(by_turn):
        yield "#%d" % turn
        if turn == 0:
            yield "$dumpvars"
        yield from by_turn[turn].values()
        if turn == 0:
            yield "$end"
    yield "#%d" % end


def _last_of_each_turn(values: Values) -> Values:
    """Of the values of one turn the last one."""
    return sorted(dict(values).items())


# ---------------------------------------------------------------------------------------------------------------------
# The variables
# ---------------------------------------------------------------------------------------------------------------------


def variables_of(jobs: Jobs, has_words: bool) -> List[Variable]:
    """All variables, by scopes."""
    timeline = jobs.timeline
    states, held = _states(jobs), _held(jobs)
    found = []
    for core in timeline.run.cores:
        scope = "core_%d" % core
        found.append(Variable(scope, "tick", "integer", 32, _ticks(timeline, core)))
        found += _events(jobs, core, scope)
        for row in rows_of(timeline):
            if row.core == core:
                found.append(_state(scope, row.name, states, has_words))
        found += [_wire(scope, resource.name, held) for resource in timeline.run.draft.core(core).named["resources"]]
    found += [_wire("spinlocks", spinlock.name, held) for spinlock in timeline.run.draft.spinlocks]
    return found + _mailboxes(timeline)


def _state(scope: str, name: str, states: Dict[str, Values], has_words: bool) -> Variable:
    """In which state a task or an ISR is."""
    values = states.get(name, [(0, SUSPENDED)])
    if has_words:
        return Variable(scope, name, "string", 1, values)
    return Variable(scope, name, "reg", _CODE_BITS, [(turn, CODES[state]) for turn, state in values])


def _wire(scope: str, name: str, held: Dict[str, Values]) -> Variable:
    """Whether a resource or a spinlock is held."""
    return Variable(scope, name, "wire", 1, held.get(name, [(0, 0)]))


def _states(jobs: Jobs) -> Dict[str, Values]:
    """The states of tasks and ISRs, as words."""
    found = {}
    for name, stretches in stretches_by_name(jobs).items():
        values: Values = [(0, SUSPENDED)]
        for each in stretches:
            # What begins in the turn of an end stands behind it.
            values += [(each.begin, each.state), (each.end, SUSPENDED)]
        found[name] = _in_order(values, end_of(jobs.timeline))
    return found


def _in_order(values: Values, end: int) -> Values:
    """Values as they come, without those at the end of the run."""
    return [value for value in values if value[0] < end]


def _held(jobs: Jobs) -> Dict[str, Values]:
    """Which resources and spinlocks are held."""
    found: Dict[str, Values] = {}
    holds = sorted((hold for each in held_by_task(jobs).values() for hold in each), key=lambda hold: hold.begin)
    for hold in holds:
        found.setdefault(hold.name, [(0, 0)]).extend([(hold.begin, 1), (hold.end, 0)])
    return {name: _in_order(values, end_of(jobs.timeline)) for name, values in found.items()}


def _ticks(timeline: Timeline, core: int) -> Values:
    """How many ticks a core has taken."""
    return [(0, 0)] + [(item.turn, item.tick) for item in timeline.by_core[core] if item.is_tick]


def _events(jobs: Jobs, core: int, scope: str) -> Iterator[Variable]:
    """The turns in which ErrorHook was called; those of the other marks, if there are any."""
    for kind in (ERROR, PROTECTION, SHUTDOWN, LOST):
        turns = dict.fromkeys(mark.item.turn for mark in jobs.marks if (mark.core, mark.kind) == (core, kind))
        if turns or kind == ERROR:
            yield Variable(scope, kind, "event", 1, [(turn, 1) for turn in turns])


def _mailboxes(timeline: Timeline) -> List[Variable]:
    """How many envelopes are in each mailbox that took one."""
    levels = mailbox_levels(timeline)
    return [Variable("mailboxes", "from_%d_to_%d" % pair, "integer", 32, levels[pair]) for pair in sorted(levels)]
