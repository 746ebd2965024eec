"""The border between cores: what crosses it, what a change of one core can reach, and why a core is bound."""

from collections import deque
from dataclasses import dataclass
from typing import Dict, Iterable, Iterator, List, NamedTuple, Tuple

from library import model
from library.columns import columns
from library.findings import listed
from library.formats import GETS_SPINLOCK, HALTS_ALL
from library.model import Actor, Binding, Model, Reference, Sharing

# How a reference crosses.
REQUEST = "request"
ACTION = "action"
HALT = "halt"  # of an operation that shuts all cores down
SPINLOCK = "spinlock"  # of an operation that gets one which another core gets too
NOTHING = "nothing"


@dataclass(frozen=True)
class Crossing:
    """What a task, an ISR, an alarm or a table does with an object of another core, or with what that one shares.

    It may do so in several places.
    """

    source: int
    target: int
    text: str
    kind: str
    name: str
    places: Tuple[int, ...]
    way: str
    why: str = ""  # of NOTHING: why nothing crosses

    @property
    def who(self) -> str:
        """What does it, and where: `task Com, operations 3 and 5 to 7`."""
        if not self.places:
            return "%s %s" % (self.kind, self.name)
        word = "offset" if self.kind == model.TABLE else "operation"
        plural = "s" if len(self.places) > 1 else ""
        return "%s %s, %s%s %s" % (self.kind, self.name, word, plural, listed(_spans(self.places)))

    @property
    def what_crosses(self) -> str:
        """How it crosses, and what comes back."""
        if self.way == REQUEST:
            return "request; core %d waits for the reply" % self.source
        if self.way == HALT:
            return "halt; unless core %d has drained or is down" % self.target
        if self.way == SPINLOCK:
            return "spinlock; core %d waits for it, or finds it taken" % self.target
        return "action; no reply" if self.way == ACTION else self.why


def _spans(numbers: Iterable[int]) -> List[str]:
    """Ascending numbers, three or more in a row as `5 to 7`."""
    rows: List[List[int]] = []
    for number in numbers:
        if rows and rows[-1][-1] + 1 == number:
            rows[-1].append(number)
        else:
            rows.append([number])
    spans: List[str] = []
    for row in rows:
        spans += ["%d to %d" % (row[0], row[-1])] if len(row) > 2 else [str(number) for number in row]
    return spans


# ---------------------------------------------------------------------------------------------------------------------
# Crossings
# ---------------------------------------------------------------------------------------------------------------------


def crossings(whole: Model) -> List[Crossing]:
    """All crossings by ascending pairs of cores, in each in the order of the configuration."""
    places: Dict[Tuple[int, int, str, str, str], List[int]] = {}
    ways: Dict[Tuple[int, int, str, str, str], Tuple[str, str]] = {}
    for source, target, actor, text, way in _all_ways(whole):
        key = (source, target, text, actor.kind, actor.name)
        # An action may stand twice at one point.
        found = places.setdefault(key, [])
        if actor.place is not None and actor.place not in found:
            found.append(actor.place)
        ways[key] = way
    each = [Crossing(*key, tuple(places[key]), *ways[key]) for key in places]
    return sorted(each, key=lambda crossing: (crossing.source, crossing.target))


def _all_ways(whole: Model) -> Iterator[Tuple[int, int, Actor, str, Tuple[str, str]]]:
    """From which core to which other one, who does what, and how that crosses; if nothing crosses, why."""
    for reference in whole.outward:
        yield reference.core, reference.home, reference.actor, reference.text, _way(whole, reference)
    for binding in whole.halting:
        for other in sorted(whole.started - {binding.core}):
            yield binding.core, other, binding.actor, binding.text, _halt_way(whole, binding)
    for getting in _getting(whole):
        for other in sorted({each.core for each in _getting(whole) if each.name == getting.name} - {getting.core}):
            yield getting.core, other, getting.actor, getting.text, (SPINLOCK, "")


def _getting(whole: Model) -> List[Sharing]:
    """The operations of started cores that get a spinlock."""
    return [each for each in whole.sharing if each.service in GETS_SPINLOCK and each.core in whole.started]


def _halt_way(whole: Model, binding: Binding) -> Tuple[str, str]:
    """How a shutdown of all cores crosses the border."""
    if binding.core not in whole.started:
        return NOTHING, "never done; core %d is off" % binding.core
    return HALT, ""


def _way(whole: Model, reference: Reference) -> Tuple[str, str]:
    """How a reference crosses the border; if nothing crosses, why."""
    if reference.core not in whole.started:
        return NOTHING, "never done; core %d is off" % reference.core
    if reference.service == "IncrementCounter":
        return NOTHING, "nothing crosses; E_OS_CORE, as for each counter of another core"
    if reference.home not in whole.started:
        return NOTHING, "nothing crosses; E_OS_CORE, since core %d is off" % reference.home
    return (REQUEST if reference.actor.kind in model.SCRIPTED else ACTION), ""


# ---------------------------------------------------------------------------------------------------------------------
# Why a core is bound
# ---------------------------------------------------------------------------------------------------------------------


def reasons(whole: Model, core: int) -> List[str]:
    """Why `mcos check` has its word for a core; nothing for a separate one."""
    if core not in whole.started:
        return ["no start list leads to it from core %d, the master" % whole.master]
    found = []
    if whole.modes[core] is None:
        found.append("it names no mode")
    if len(whole.named_modes) > 1:
        names = ("`%s` (%s)" % (mode, _listed_cores(cores)) for mode, cores in whole.named_modes.items())
        found.append("the started cores name different modes: %s" % listed(names))
    if whole.starts[core]:
        found.append("its `start` is not empty: %s" % listed(str(number) for number in whole.starts[core]))
    for other in whole.ids:
        objects = _objects(whole.between.get((core, other), ()))
        if objects:
            found.append("it refers to core %d: %s" % (other, objects))
    for other in whole.ids:
        objects = _objects(whole.between.get((other, core), ()))
        if objects:
            state = "" if other in whole.started else ", which is off,"
            found.append("core %d%s refers to it: %s" % (other, state, objects))
    return found + _spinlock_reasons(whole, core) + _binding_reasons(whole, core)


def _listed_cores(cores: List[int]) -> str:
    """Cores by their numbers."""
    return "core%s %s" % ("s" if len(cores) > 1 else "", listed(str(core) for core in cores))


def _spinlock_reasons(whole: Model, core: int) -> List[str]:
    """The spinlocks to which a core refers, with the other cores that do."""
    cores: Dict[str, Dict[int, None]] = {}
    for each in whole.sharing:
        cores.setdefault(each.name, {})[each.core] = None
    found = []
    for name in dict.fromkeys(each.name for each in whole.sharing if each.core == core):
        others = [other for other in cores[name] if other != core]
        who = _listed_cores(others) if others else "no other core"
        found.append("it refers to the spinlock %s, as %s %s" % (name, who, "do" if len(others) > 1 else "does"))
    return found


def _binding_reasons(whole: Model, core: int) -> List[str]:
    """The operations without an object that bind a core: its own, and those that shut all cores down."""
    actors: Dict[Tuple[int, str], Dict[str, None]] = {}
    for binding in whole.asking + whole.halting:
        if binding.core == core or binding.service == HALTS_ALL:
            actor = "%s %s" % (binding.actor.kind, binding.actor.name)
            actors.setdefault((binding.core, binding.service), {})[actor] = None
    found = []
    for (other, service), names in actors.items():
        who = "it" if other == core else "core %d" % other
        state = "" if other in whole.started else ", which is off,"
        found.append("%s%s has `%s`: %s" % (who, state, service, listed(names)))
    return found


def _objects(references: Iterable[Reference]) -> str:
    """The objects of references, each once: `task Com, alarm Late`."""
    return listed(dict.fromkeys("%s %s" % (reference.kind, reference.name) for reference in references))


# ---------------------------------------------------------------------------------------------------------------------
# Reach
# ---------------------------------------------------------------------------------------------------------------------


class Step(NamedTuple):
    """Why a change of one core can change what another one does.

    It serves what crosses, waits for the reply, is halted, or shares a spinlock.
    """

    source: int
    target: int
    crossing: Crossing

    @property
    def text(self) -> str:
        """The reason."""
        if self.crossing.way in (HALT, SPINLOCK):
            verb = "is halted by" if self.crossing.way == HALT else "shares the spinlock of"
        else:
            verb = "serves" if self.crossing.target == self.target else "waits for the reply to"
        return "%s %s (%s)" % (verb, self.crossing.text, self.crossing.who)


def steps(found: Iterable[Crossing]) -> List[Step]:
    """One step from a core to another one, if there is any; where that one serves, this is the reason."""
    serving = [Step(each.source, each.target, each) for each in found if each.way != NOTHING]
    waiting = [Step(step.target, step.source, step.crossing) for step in serving if step.crossing.way == REQUEST]
    first: Dict[Tuple[int, int], Step] = {}
    for step in serving + waiting:
        first.setdefault((step.source, step.target), step)
    return list(first.values())


def reach(all_steps: List[Step], core: int) -> Dict[int, Step]:
    """The cores that a change of a core's work can reach, each with the last step of a shortest way."""
    found: Dict[int, Step] = {}
    waiting = deque([core])
    while waiting:
        current = waiting.popleft()
        for step in all_steps:
            if step.source == current and step.target != core and step.target not in found:
                found[step.target] = step
                waiting.append(step.target)
    return found


# ---------------------------------------------------------------------------------------------------------------------
# Groups
# ---------------------------------------------------------------------------------------------------------------------


class Say(NamedTuple):
    """Why a core has a say in what another one does."""

    target: int
    why: str


def says(whole: Model) -> Dict[Tuple[int, int], str]:
    """The pairs of a core and one in whose work it has a say, each with the first reason."""
    found: Dict[Tuple[int, int], str] = {}
    for (core, other), references in whole.between.items():
        objects = _objects(references)
        found.setdefault((core, other), "it refers to core %d: %s" % (other, objects))
        found.setdefault((other, core), "core %d refers to it: %s" % (core, objects))
    for name in dict.fromkeys(each.name for each in whole.sharing):
        cores = sorted({each.core for each in whole.sharing if each.name == name})
        for core in cores:
            for other in cores:
                if other != core:
                    found.setdefault((core, other), "it refers to the spinlock %s, as core %d does" % (name, other))
    for binding in whole.halting:
        for other in whole.ids:
            if other != binding.core:
                found.setdefault((binding.core, other), "it has `%s`" % HALTS_ALL)
    return found


def least_group(whole: Model, core: int) -> Dict[int, Say]:
    """The other cores of a core's least group, each with the one in whose work it has a say, on a shortest way."""
    all_says = says(whole)
    found: Dict[int, Say] = {}
    waiting = deque([core])
    while waiting:
        current = waiting.popleft()
        for other in whole.ids:
            if (other, current) in all_says and other != core and other not in found:
                found[other] = Say(current, all_says[other, current])
                waiting.append(other)
    return found


# ---------------------------------------------------------------------------------------------------------------------
# The report
# ---------------------------------------------------------------------------------------------------------------------


def report(whole: Model) -> str:
    """The border as text."""
    found = crossings(whole)
    parts = [("Cores", _cores(whole)), ("Groups", _groups(whole)), ("Starts", _starts(whole))]
    parts.append(("Crossings", _crossing_lines(found)))
    parts.append(("What a change of a core's work can reach", _reach_lines(whole, found)))
    return "\n".join("%s\n%s" % (title, "".join("  %s\n" % line for line in lines)) for title, lines in parts)


def _cores(whole: Model) -> List[str]:
    """Each core with the word of `mcos check`, and why."""
    lines = []
    for core in whole.ids:
        lines.append("core %d %s" % (core, whole.standing(core)))
        lines += ["  " + reason for reason in reasons(whole, core)]
    return lines


def group_line(whole: Model, core: int) -> str:
    """The line of a core that `mcos groups` prints."""
    members = sorted([core, *least_group(whole, core)])
    return "core %d group %s" % (core, " ".join(str(number) for number in members))


def _groups(whole: Model) -> List[str]:
    """The least group of each core, and why each other core is in it."""
    lines = []
    for core in whole.ids:
        lines.append(group_line(whole, core))
        for other, say in sorted(least_group(whole, core).items()):
            through = "" if say.target == core else " through core %d" % say.target
            lines.append("  core %d%s: %s" % (other, through, say.why))
    return lines


def start_answer(whole: Model, core: int, index: int) -> str:
    """Why a start does not start its core; empty if it does, or can."""
    target = whole.starts[core][index]
    if core not in whole.started:
        return "never done; core %d is off" % core
    if target not in whole.ids:
        return "E_OS_ID; there is no core %d" % target
    if target == core or target == whole.master or target in whole.starts[core][:index]:
        return "E_OS_STATE; core %d is started already" % target
    return ""


def _first_starter(whole: Model, target: int) -> str:
    """What to say of a core that several cores start; empty if one does."""
    starters = [core for core in whole.ids if core in whole.started and target in whole.starts[core]]
    return "E_OS_STATE if another core was first" if len(starters) > 1 else ""


def _starts(whole: Model) -> List[str]:
    """The start lists."""
    lines = ["core %d is the master" % whole.master]
    for core in whole.ids:
        for index, target in enumerate(whole.starts[core]):
            answer = start_answer(whole, core, index) or _first_starter(whole, target)
            lines.append("core %d starts core %d%s" % (core, target, " (%s)" % answer if answer else ""))
    return lines


def _crossing_lines(found: List[Crossing]) -> List[str]:
    """The crossings by pairs of cores, in columns."""
    lines: List[str] = []
    pairs: Dict[Tuple[int, int], List[Crossing]] = {}
    for each in found:
        pairs.setdefault((each.source, each.target), []).append(each)
    for (source, target), between in pairs.items():
        lines.append("core %d to core %d" % (source, target))
        rows = columns([each.text, each.who, each.what_crosses] for each in between)
        lines += ["  " + line for line in rows]
    return lines or ["none"]


def _reach_lines(whole: Model, found: List[Crossing]) -> List[str]:
    """For each core the other ones that a change of its work can reach, and how."""
    lines = []
    all_steps = steps(found)
    for core in whole.ids:
        reached = reach(all_steps, core)
        if not reached:
            lines.append("core %d: no other core%s" % (core, "" if core in whole.started else ", since it is off"))
            continue
        lines.append("core %d" % core)
        for other in sorted(reached):
            step = reached[other]
            through = "" if step.source == core else " through core %d" % step.source
            lines.append("  core %d%s: it %s" % (other, through, step.text))
    return lines


# ---------------------------------------------------------------------------------------------------------------------
# Graphviz
# ---------------------------------------------------------------------------------------------------------------------

_CORE_STYLES = {model.SEPARATE: "filled", model.BOUND: "solid", model.OFF: "dashed"}
_EDGE_STYLES = {
    REQUEST: "dir=both, arrowtail=odot",
    ACTION: "style=solid",
    HALT: "style=bold",
    SPINLOCK: "style=bold, arrowhead=box",
    NOTHING: "style=dotted, color=gray50",
}


def quoted(lines: Iterable[str], end: str = r"\n") -> str:
    """Lines as a text of DOT; `end` stands behind each line but the last, or if it is `\\l`, behind all."""
    escaped = [line.replace("\\", "\\\\").replace('"', '\\"') for line in lines]
    return '"%s"' % ("".join(line + end for line in escaped) if end == r"\l" else end.join(escaped))


def graph(whole: Model) -> str:
    """The border as a graph in DOT, the language of Graphviz."""
    lines = ["digraph border {", "  rankdir=LR;", '  node [shape=box, fontname="sans-serif"];']
    lines.append('  edge [fontname="sans-serif", fontsize=10];')
    for core in whole.ids:
        standing = whole.standing(core)
        names = ["core %d" % core, standing + (", master" if core == whole.master else "")]
        lines.append("  core%d [label=%s, style=%s];" % (core, quoted(names), _CORE_STYLES[standing]))
    lines += _start_edges(whole) + _crossing_edges(crossings(whole))
    return "\n".join(lines + ["}"]) + "\n"


def _start_edges(whole: Model) -> List[str]:
    """An edge for each start that can start its core."""
    edges = []
    for core in whole.ids:
        for index, target in enumerate(whole.starts[core]):
            if not start_answer(whole, core, index):
                edges.append('  core%d -> core%d [label="starts", style=dashed];' % (core, target))
    return edges


def _crossing_edges(found: List[Crossing]) -> List[str]:
    """An edge for all crossings of one kind between two cores."""
    edges: Dict[Tuple[int, int, str], List[str]] = {}
    for each in found:
        edges.setdefault((each.source, each.target, each.way), []).append("%s: %s" % (each.text, each.who))
    return [
        "  core%d -> core%d [label=%s, %s];" % (source, target, quoted(labels, r"\l"), _EDGE_STYLES[way])
        for (source, target, way), labels in edges.items()
    ]
