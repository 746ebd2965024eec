"""The coverage of some runs as text."""

from itertools import groupby
from typing import List, Sequence, Tuple

from library.columns import columns
from library.covering import OPERATION, POINT, WAY, Coverage
from library.findings import counted

_PLURALS = {OPERATION: "operations", WAY: "ways of jz", "alarm": "alarms", POINT: "points"}


def text_of(coverage: Coverage) -> str:
    """The coverage as tables."""
    sections = [
        ("Coverage", _coverage(coverage)),
        ("Never seen", _never(coverage) or ["nothing"]),
        ("Services", _services(coverage) or ["none"]),
    ]
    return "\n".join("%s\n%s" % (title, "".join("  %s\n" % line for line in lines)) for title, lines in sections)


def _coverage(coverage: Coverage) -> List[str]:
    """How much was seen of each kind, and of all."""
    rows = [{**row, "kind": _PLURALS[row["kind"]]} for row in coverage["kinds"]]
    rows.append({**coverage, "kind": "all"})
    shares = ["%.1f %%" % row["share"] if row["all"] else "-" for row in rows]
    cells = [[row["kind"], str(row["all"]), str(row["seen"]), share] for row, share in zip(rows, shares)]
    return columns([["kind", "all", "seen", "share"]] + cells, range(1, 4))


def _never(coverage: Coverage) -> List[str]:
    """What was never seen, by its owners: one of whose operations none was seen has one line."""
    rows: List[List[str]] = []
    idle = {(row["core"], row["name"]): row["operations"] for row in coverage["scripts"] if not row["seen"]}
    for (core, owner, name), group in groupby(coverage["never"], key=_owner):
        begin = ["core %d%s" % (core, ", off" if core in coverage["off"] else ""), "%s %s" % (owner, name)]
        if (core, name) in idle:
            rows.append(begin + ["never ran, %s" % counted(idle[core, name], "operation")])
        else:
            rows += [begin + [_spot(spot)] for spot in group]
    return columns(rows)


def _owner(spot: Coverage) -> Tuple[int, str, str]:
    """Whose a spot is."""
    return spot["core"], spot["owner"], spot["name"]


def _spot(spot: Coverage) -> str:
    """A spot of an owner."""
    if spot["kind"] == OPERATION:
        return "operation %d `%s`" % (spot["place"], spot["text"])
    if spot["kind"] == WAY:
        return "operation %d `%s` never %s" % (spot["place"], spot["text"], spot["way"])
    if spot["kind"] == POINT:
        return "offset %d" % spot["place"]
    return "never expired"


def _services(coverage: Coverage) -> List[str]:
    """The services: how often each status came, and which ones never did."""
    rows: List[Sequence[str]] = []
    for service, group in groupby(coverage["services"], key=lambda row: row["service"]):
        statuses = list(group)
        seen = ", ".join("%d %s" % (row["times"], row["status"]) for row in statuses if row["times"]) or "-"
        never = ", ".join(row["status"] for row in statuses if not row["times"]) or "-"
        rows.append([service, seen, never])
    return columns([["service", "seen", "never seen"]] + rows) if rows else []
