"""Notes on what an import has more of than a configuration may have: it is printed, and `mcos` refuses it."""

from typing import Any, Dict, Iterable, List, Sequence

from library.ecuc import Node
from library.findings import counted
from library.formats import CONFIGURATION, CORE, MOST_ACTIVATIONS, NAMED_LISTS, NO_MODES, POINT, TABLE, is_name
from library.import_notes import NO_NAME, Notes

_ARE_ALLOWED = "%s: at most %d are allowed"


def note_limits(
    notes: Notes, modes: Sequence[Node], spinlocks: Sequence[Any], lists: Dict[int, Dict[str, List[Any]]]
) -> None:
    """Notes too many objects of a kind, and names that are none or stand twice."""
    for owner, nodes in (("modes", modes), ("spinlocks", [each.node for each in spinlocks])):
        most = CONFIGURATION.member(owner).value.greatest
        if len(nodes) > most:
            notes.of(nodes[most], _ARE_ALLOWED % (counted(len(nodes), owner[:-1]), most))
    for core, named in lists.items():
        _note_core(notes, core, named)
    placed = [each.node for named in lists.values() for name in NAMED_LISTS for each in named[name]]
    most = CONFIGURATION.member("cores").value.greatest
    if len(lists) > most and placed:
        notes.note(placed[-1].spot, _ARE_ALLOWED % (counted(len(lists), "core"), most))
    _note_names(notes, list(modes) + [each.node for each in spinlocks] + placed)
    for node in modes:
        if node.name in NO_MODES:
            notes.of(node, "no mode may be called so")


def _note_core(notes: Notes, core: int, named: Dict[str, List[Any]]) -> None:
    """Notes too many objects of one core, and too many parts of its tables."""
    for name, placed in named.items():
        most = CORE.member(name).value.greatest
        if len(placed) > most:
            text = "core %d has %s" % (core, _ARE_ALLOWED % (counted(len(placed), NAMED_LISTS[name]), most))
            notes.note(placed[most].node.spot, text)
    total = sum(each.members.get("activations", 1) for each in named["tasks"])
    if total > MOST_ACTIVATIONS:
        text = "the activations of the tasks of core %d sum to %d: at most %d are allowed"
        notes.note(named["tasks"][0].node.spot, text % (core, total, MOST_ACTIVATIONS))
    for table in named["tables"]:
        _note_table(notes, table)


def _note_table(notes: Notes, table: Any) -> None:
    """Notes too many points of a table, and too many actions of one."""
    most_points, most_actions = TABLE.member("points").value.greatest, POINT.member("actions").value.greatest
    points = table.members["points"]
    if len(points) > most_points:
        notes.of(table.node, _ARE_ALLOWED % (counted(len(points), "expiry point"), most_points))
    for point in points:
        if len(point["actions"]) > most_actions:
            what = counted(len(point["actions"]), "action")
            notes.of(table.node, "offset %d has %s" % (point["offset"], _ARE_ALLOWED % (what, most_actions)))


def _note_names(notes: Notes, nodes: Iterable[Node]) -> None:
    """Notes names that are none here, and those that stand twice."""
    known: Dict[str, Node] = {}
    for node in nodes:
        if not is_name(node.name):
            notes.of(node, NO_NAME)
        earlier = known.setdefault(node.name, node)
        if earlier is not node:
            text = "%s in line %d has this name too, and each name stands once"
            notes.of(node, text % (earlier.title, earlier.spot.line))
