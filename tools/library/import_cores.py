"""On which core each object of an Os configuration stands: by its OsApplication, or by what it belongs to."""

import re
from typing import Dict, Iterable, Iterator, List, Optional

from library.ecuc import HARDWARE, Ecuc, Node, Value, whole
from library.formats import CONFIGURATION, CORE
from library.import_notes import Notes

_REFERENCES = {
    "OsAppTaskRef": "OsTask",
    "OsAppIsrRef": "OsIsr",
    "OsAppAlarmRef": "OsAlarm",
    "OsAppCounterRef": "OsCounter",
    "OsAppScheduleTableRef": "OsScheduleTable",
}
# How OIL says it of an object itself, in several words; AUTOSAR has none of it.
OWN_CORE = "core of the object"
_GREATEST = CORE.member("id").value.greatest
_MOST = CONFIGURATION.member("cores").value.greatest


class Cores:
    """The numbers of the cores, and the core of each object."""

    def __init__(self, ecuc: Ecuc, notes: Notes, master: Optional[int]) -> None:
        self.ecuc = ecuc
        self.notes = notes
        self.of: Dict[Node, int] = {}
        self.numbers: List[int] = []
        applications = [node for node in ecuc.objects() if node.kind == "OsApplication"]
        self.are_applications = bool(applications)
        for node in applications:
            self.application(node)
        for node in ecuc.objects():
            self.own(node)
        self.hardware()
        self.numbers = sorted(set(self.numbers))
        self.rank()
        self.master = master if master is not None else min(self.numbers, default=0)
        if self.master not in self.numbers:
            self.numbers = sorted(self.numbers + [self.master])

    def application(self, node: Node) -> None:
        """Puts what an OsApplication has on its core."""
        core = self.core_of_application(node)
        self.numbers.append(core)
        for value, kind in [(value, kind) for key, kind in _REFERENCES.items() for value in node.all(key)]:
            target = self.ecuc.target(value)
            if target is None or target.kind != kind:
                text = "%s %s leads to no %s" % (value.word, value.shown, self.ecuc.word(kind))
                self.notes.of(node, text, value.spot)
            elif self.of.setdefault(target, core) != core:
                text = "%s stands on core %d by another one, and stays there"
                self.notes.of(node, text % (target.title, self.of[target]), value.spot)

    def core_of_application(self, node: Node) -> int:
        """The core of an OsApplication."""
        for key in ("OsApplicationCoreRef", "OsApplicationCoreAssignment"):
            if len({value.text for value in node.all(key)}) > 1:
                self.notes.of(node, "it stands on several cores: the first one counts", node.all(key)[1].spot)
        reference, number = node.first("OsApplicationCoreRef"), node.first("OsApplicationCoreAssignment")
        target = self.ecuc.target(reference) if reference is not None else None
        if target is not None:
            number = target.first("EcucCoreId")
        found = whole(number.text) if number is not None else None
        if found is not None and found >= 0:
            return found
        if reference is not None and target is None:
            return self.core_by_name(node, reference, "leads nowhere: is the file of the module EcuC missing?")
        text = "%s %s is no core: it stands on core 0" % (number.word, number.shown) if number is not None else None
        self.notes.of(node, text or "no core is said: it stands on core 0")
        return 0

    def core_by_name(self, node: Node, value: Value, why: str) -> int:
        """The core of a word that is no number: the number at its end, if there is one."""
        found = re.search(r"[0-9]{1,3}\Z", value.text)
        core = int(found.group()) if found is not None else 0
        self.notes.of(node, "%s %s %s It stands on core %d" % (value.word, value.shown, why, core), value.spot)
        return core

    def own(self, node: Node) -> None:
        """Puts an object on the core that it says itself, as OIL can."""
        value = node.first(OWN_CORE)
        if value is None:
            return
        core = whole(value.text)
        if core is None or core < 0:
            core = self.core_by_name(node, value, "is no number.")
        self.numbers.append(core)
        self.of.setdefault(node, core)

    def hardware(self) -> None:
        """Notes the cores without an OsApplication."""
        for node in _within(self.ecuc.objects(HARDWARE), "EcucCoreDefinition"):
            value = node.first("EcucCoreId")
            core = whole(value.text) if value is not None else None
            if core not in self.numbers:
                shown = value.shown if value is not None else "without a number"
                self.notes.of(node, "left out: no OsApplication stands on this core, %s" % shown)

    def rank(self) -> None:
        """Gives cores of greater numbers than there are here the numbers 0, 1 and so on."""
        if not self.numbers or self.numbers[-1] <= _GREATEST or len(self.numbers) > _MOST:
            return
        ranks = {core: rank for rank, core in enumerate(self.numbers)}
        first = next(node for node in self.of if self.of[node] == self.numbers[-1]) if self.of else None
        text = "the cores have numbers up to %d, and here up to %d: " % (self.numbers[-1], _GREATEST)
        text += ", ".join("%d is %d" % pair for pair in ranks.items())
        spot = first.spot if first is not None else next(self.ecuc.objects()).spot
        self.notes.note(spot, text)
        self.of = {node: ranks[core] for node, core in self.of.items()}
        self.numbers = list(ranks.values())

    def place(self, node: Node, beside: Optional[Node] = None) -> int:
        """The core of an object; of one that stands in no OsApplication that of what it belongs to, else the master."""
        core = self.of.get(node)
        if core is None and beside is not None and beside in self.of:
            core = self.of[beside]
        elif core is None and self.are_applications:
            self.notes.alike_of(node, "no application", "it is in no OsApplication: it stands on core %d" % self.master)
        self.of[node] = self.master if core is None else core
        return self.of[node]


def _within(nodes: Iterable[Node], kind: str) -> Iterator[Node]:
    """All containers of a kind, however deep they stand."""
    for node in nodes:
        if node.kind == kind:
            yield node
        yield from _within(node.parts, kind)
