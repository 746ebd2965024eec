"""A configuration whose shape is right, whatever else is wrong with it: its objects with their defaults, and its names.

Each object keeps where it stands, so that reports can say it.
"""

from dataclasses import dataclass, field
from typing import Any, Dict, List, Optional

from library.formats import CONFIGURATION, FIRST_MODE, NAMED_LISTS, NAMES_NO_MODE, OBJECTS, SPINLOCK, ListOf, Object
from library.places import Json, JsonList, JsonNumber, JsonObject, JsonText

LISTS = {kind: name for name, kind in NAMED_LISTS.items()}


@dataclass(eq=False)
class Part:
    """An object of a configuration."""

    kind: Object
    node: JsonObject

    def __getitem__(self, name: str) -> Any:
        """The plain value of a member (a number, a text, a truth value, a list of these), or its default."""
        member = self.node.members.get(name)
        if member is None:
            return self.kind.member(name).default
        return plain(member.value)

    def spot(self, name: str) -> Json:
        """Where a member's value stands; if it is left out, where the object does."""
        member = self.node.members.get(name)
        return member.value if member is not None else self.node

    def elements(self, name: str) -> List[Json]:
        """The elements of a member that is a list."""
        member = self.node.members.get(name)
        return member.value.elements if member is not None else []

    def parts(self, name: str) -> List["Part"]:
        """The objects in a member that is a list of them, or an object, or null."""
        value = self.kind.member(name).value
        if isinstance(value, ListOf):
            return [Part(OBJECTS[value.element.name], element) for element in self.elements(name)]
        member = self.node.members.get(name)
        if member is None or not isinstance(member.value, JsonObject):
            return []
        return [Part(OBJECTS[value.name], member.value)]


@dataclass(eq=False)
class Named(Part):
    """An object with a name, which stands on a core; of a spinlock, which stands on none, that is None."""

    core: Optional["Core"]

    @property
    def name(self) -> str:
        """Its name."""
        return self["name"]

    @property
    def auto(self) -> Optional[Part]:
        """How an alarm or a table autostarts, if it has that."""
        autos = self.parts("auto")
        return autos[0] if autos else None


@dataclass(eq=False)
class Core(Part):
    """A core, with its objects by the name of their list."""

    named: Dict[str, List[Named]] = field(default_factory=dict)

    @property
    def id(self) -> int:
        """Its number."""
        return self["id"]

    @property
    def scripted(self) -> List[Named]:
        """Its objects with scripts: its tasks, and then its ISRs."""
        return self.named["tasks"] + self.named["isrs"]


@dataclass(eq=False)
class Draft(Part):
    """A configuration."""

    cores: List[Core]
    spinlocks: List[Named]
    by_name: Dict[str, List[Named]]

    @property
    def ids(self) -> List[int]:
        """The numbers of its cores."""
        return [core.id for core in self.cores]

    @property
    def modes(self) -> List[str]:
        """The names of its modes."""
        return list(self["modes"])

    def mode_of(self, core: Core) -> Optional[str]:
        """The mode that a core names, if it names one."""
        if core["mode"] is FIRST_MODE:
            return next(iter(self.modes), None)
        return None if core["mode"] == NAMES_NO_MODE else core["mode"]

    def core(self, number: int) -> Core:
        """The core of a number, which is configured."""
        return next(core for core in self.cores if core.id == number)

    def objects(self, kind: str) -> List[Named]:
        """All objects of a kind, of all cores."""
        if kind == SPINLOCK.name:
            return self.spinlocks
        return [each for core in self.cores for each in core.named[LISTS[kind]]]

    def names(self, kind: str) -> List[str]:
        """The names of all objects of a kind."""
        return [each.name for each in self.objects(kind)]

    def find(self, kind: str, name: str, core: Optional[Core] = None) -> Optional[Named]:
        """An object of a kind and a name; if several have the name, rather one of this core."""
        found = [each for each in self.by_name.get(name, []) if each.kind.name == kind]
        near = [each for each in found if None not in (core, each.core) and each.core.id == core.id]
        return (near or found or [None])[0]

    def find_alone(self, kind: str, name: str) -> Optional[Named]:
        """The object of a kind and a name, if no other object and no mode has the name."""
        named = self.by_name.get(name, [])
        if name in self.modes or len(named) != 1 or named[0].kind.name != kind:
            return None
        return named[0]

    def links(self) -> Dict[str, str]:
        """The spinlock that comes after each one, if one does; by their names."""
        return {each.name: each["next"] for each in self.spinlocks if each["next"] is not None}

    def started(self) -> set:
        """The numbers of the cores to which start lists lead from the master."""
        starts = {core.id: core["start"] for core in self.cores}
        found = set()
        left = [self["master"]]
        while left:
            number = left.pop()
            if number in starts and number not in found:
                found.add(number)
                left += starts[number]
        return found


def plain(value: Json) -> Any:
    """A value without its places. An object has none: see `Part.parts`."""
    if isinstance(value, JsonText):
        return value.text
    if isinstance(value, JsonNumber):
        return value.number
    if isinstance(value, JsonList):
        return [plain(element) for element in value.elements]
    return value if isinstance(value, JsonObject) else value.value


def draft_of(root: JsonObject) -> Draft:
    """The objects of a configuration whose shape is right."""
    draft = Draft(CONFIGURATION, root, [], [], {})
    draft.spinlocks += [Named(each.kind, each.node, None) for each in draft.parts("spinlocks")]
    for part in draft.parts("cores"):
        core = Core(part.kind, part.node)
        for kind in NAMED_LISTS:
            core.named[kind] = [Named(each.kind, each.node, core) for each in core.parts(kind)]
        draft.cores.append(core)
    for each in draft.spinlocks + [each for core in draft.cores for kind in NAMED_LISTS for each in core.named[kind]]:
        draft.by_name.setdefault(each.name, []).append(each)
    return draft
