"""An accepted configuration as its cores see one another: which are started, and what refers to which object."""

from dataclasses import dataclass
from functools import cached_property
from typing import Dict, FrozenSet, Iterator, List, Optional, Tuple

from library import formats
from library.drafts import Core, Draft

TASK = "task"
ISR = "ISR"
ALARM = "alarm"
TABLE = "table"
SCRIPTED = (TASK, ISR)  # what has a script, so it calls services, and waits for replies

OFF = "off"
SEPARATE = "separate"
BOUND = "bound"


@dataclass(frozen=True)
class Actor:
    """What does an operation: a task or an ISR, with its number, an alarm, or a table, with the offset of a point."""

    kind: str
    name: str
    place: Optional[int] = None


@dataclass(frozen=True)
class Reference:
    """An operation or an action that refers to an object: on which core it is done, and where the object stands."""

    core: int
    actor: Actor
    text: str
    kind: str
    name: str
    home: int

    @property
    def service(self) -> str:
        """The operation's own word."""
        return self.text.split(" ")[0]

    @property
    def is_outward(self) -> bool:
        """Whether the object stands on another core."""
        return self.core != self.home


@dataclass(frozen=True)
class Binding:
    """An operation that binds a core without an object: on which core it is done, and by whom."""

    core: int
    actor: Actor
    text: str

    @property
    def service(self) -> str:
        """The operation's own word."""
        return self.text.split(" ")[0]


@dataclass(frozen=True)
class Sharing(Binding):
    """An operation that refers to a spinlock, which stands on no core."""

    name: str


@dataclass(frozen=True)
class Model:
    """The cores by ascending number, their start lists, the started ones, and all references in their order.

    Beside the references to the cores' objects there are those to spinlocks. Of the operations that bind without an
    object there are those that ask for what all cores share, and those that shut all cores down. Of each core there is
    the mode that it names, if it names one.
    """

    master: int
    ids: Tuple[int, ...]
    starts: Dict[int, Tuple[int, ...]]
    started: FrozenSet[int]
    references: Tuple[Reference, ...]
    sharing: Tuple[Sharing, ...]
    asking: Tuple[Binding, ...]
    halting: Tuple[Binding, ...]
    modes: Dict[int, Optional[str]]

    @cached_property
    def outward(self) -> Tuple[Reference, ...]:
        """The references to objects of other cores."""
        return tuple(reference for reference in self.references if reference.is_outward)

    @cached_property
    def between(self) -> Dict[Tuple[int, int], List[Reference]]:
        """The same by the core on which they are done and the one where the object stands."""
        found: Dict[Tuple[int, int], List[Reference]] = {}
        for reference in self.outward:
            found.setdefault((reference.core, reference.home), []).append(reference)
        return found

    def standing(self, core: int) -> str:
        """The word that `mcos check` prints for a core."""
        if core not in self.started:
            return OFF
        is_joined = any(core in pair for pair in self.between)
        asks = any(binding.core == core for binding in self.sharing + self.asking)
        agrees = self.modes[core] is not None and len(self.named_modes) == 1
        return BOUND if self.starts[core] or is_joined or asks or self.halting or not agrees else SEPARATE

    @cached_property
    def named_modes(self) -> Dict[str, List[int]]:
        """The modes that started cores name, with these cores."""
        found: Dict[str, List[int]] = {}
        for core in self.ids:
            mode = self.modes[core]
            if core in self.started and mode is not None:
                found.setdefault(mode, []).append(core)
        return found


def model_of(draft: Draft) -> Model:
    """The model of a configuration without a fault."""
    cores = sorted(draft.cores, key=lambda core: core.id)
    starts = {core.id: tuple(core["start"]) for core in cores}
    references = tuple(reference for core in cores for reference in _references(draft, core))
    sharing = tuple(each for core in cores for each in _sharing(core))
    bindings = [Binding(core.id, *each) for core in cores for each in _operations(core)]
    asking = tuple(each for each in bindings if each.service in formats.ASKS_SHARED)
    halting = tuple(each for each in bindings if each.service == formats.HALTS_ALL)
    modes = {core.id: draft.mode_of(core) for core in cores}
    started = frozenset(draft.started())
    return Model(draft["master"], tuple(starts), starts, started, references, sharing, asking, halting, modes)


def _references(draft: Draft, core: Core) -> Iterator[Reference]:
    """The references of a core's scripts, alarms and tables, each in the order of the configuration."""
    for actor, text, argument, word in _named(core):
        if argument.kind != formats.SPINLOCK.name:
            found = draft.find(argument.kind, word)
            assert found is not None, "an accepted configuration has each object that it names"
            yield Reference(core.id, actor, text, argument.kind, word, found.core.id)


def _sharing(core: Core) -> Iterator[Sharing]:
    """The operations of a core's scripts that refer to a spinlock."""
    for actor, text, argument, word in _named(core):
        if argument.kind == formats.SPINLOCK.name:
            yield Sharing(core.id, actor, text, word)


def _named(core: Core) -> Iterator[Tuple[Actor, str, formats.Argument, str]]:
    """All names of objects in a core's operations and actions, each with its argument."""
    for actor, text in _operations(core):
        words = text.split(" ")
        for argument, word in zip(formats.OPERATIONS[words[0]].arguments, words[1:]):
            if argument.is_object and word != formats.NO_OBJECT:
                yield actor, text, argument, word


def _operations(core: Core) -> Iterator[Tuple[Actor, str]]:
    """All operations of a core's tasks and ISRs, and all actions of its alarms and tables."""
    for scripted in core.scripted:
        for number, text in enumerate(formats.operations_of(scripted["script"])):
            yield Actor(scripted.kind.name, scripted.name, number), text
    for alarm in core.named["alarms"]:
        yield Actor(ALARM, alarm.name), alarm["action"]
    for table in core.named["tables"]:
        for point in table.parts("points"):
            for text in point["actions"]:
                yield Actor(TABLE, table.name, point["offset"]), text
