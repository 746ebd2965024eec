"""What of a configuration some runs have done: operations, ways of `jz`, alarms, expiry points, statuses of services."""

from collections import Counter
from typing import Any, Dict, Iterator, List, NamedTuple, Optional, Sequence, Set, Tuple, Union

from library.drafts import Core, Draft
from library.figures import percent
from library.formats import operations_of
from library.items import Item, items_of
from library.model import OFF, model_of
from library.runs import Run
from library.statuses import statuses_of

Coverage = Dict[str, Any]

OPERATION = "operation"
WAY = "way"  # of a `jz`: to its place, or to the next operation
ALARM = "alarm"
POINT = "point"
KINDS = (OPERATION, WAY, ALARM, POINT)

_JUMPS = "jumps"
_GOES_ON = "goes on"


class Spot(NamedTuple):
    """What a run can do: an operation or a way of a task or an ISR, an alarm, or a point of a table by its offset."""

    kind: str
    core: int
    owner: str
    place: Optional[int] = None
    way: Optional[str] = None


class Named(NamedTuple):
    """A spot with what the configuration has there, and the kind of its owner: task, ISR, alarm or table."""

    spot: Spot
    owner_kind: str
    text: str


def spots_of(draft: Draft) -> List[Named]:
    """All spots of a configuration, by ascending core."""
    cores = sorted(draft.cores, key=lambda core: core.id)
    return [named for core in cores for named in [*_in_scripts(core), *_expiries(core)]]


def _in_scripts(core: Core) -> Iterator[Named]:
    """The operations of a core's scripts, and the ways of each `jz` of two."""
    for scripted in core.scripted:
        for place, text in enumerate(operations_of(scripted["script"])):
            kind = scripted.kind.name
            yield Named(Spot(OPERATION, core.id, scripted.name, place), kind, text)
            for way in (_JUMPS, _GOES_ON) if _target(text, place) is not None else ():
                yield Named(Spot(WAY, core.id, scripted.name, place, way), kind, text)


def _expiries(core: Core) -> Iterator[Named]:
    """The alarms and the points of a core."""
    for alarm in core.named["alarms"]:
        yield Named(Spot(ALARM, core.id, alarm.name), "alarm", alarm["action"])
    for table in core.named["tables"]:
        for point in table.parts("points"):
            spot = Spot(POINT, core.id, table.name, point["offset"])
            yield Named(spot, "table", ", ".join(point["actions"]))


def _target(text: str, place: int) -> Optional[int]:
    """Where a `jz` jumps to, if that is not the next operation."""
    words = text.split(" ")
    return int(words[2]) if words[0] == "jz" and int(words[2]) != place + 1 else None


class Seen:
    """What some runs of one configuration have done."""

    def __init__(self, draft: Draft):
        self.draft = draft
        self.spots: Set[Spot] = set()
        self.statuses: Dict[Tuple[str, str], int] = Counter()
        self._scripts = {
            (core.id, scripted.name): operations_of(scripted["script"])
            for core in draft.cores
            for scripted in core.scripted
        }

    def add(self, run: Run) -> None:
        """Adds a run."""
        for core in run.cores:
            at: Dict[str, int] = {}  # of each job the `jz` that it did last, if it has done nothing since
            for item in items_of(run, core):
                self._operation(item, at)
                self._lines(item, at)
                for deed in item.deeds:
                    if deed.is_of_job and deed.status is not None:
                        self.statuses[deed.service, deed.status] += 1

    def _operation(self, item: Item, at: Dict[str, int]) -> None:
        """Adds the operation of an item, and by which way its job came there."""
        if item.runner is None or item.place is None:
            return
        name, script = item.runner.name, self._scripts[item.core, item.runner.name]
        before = at.pop(name, None)
        if before is not None:
            way = _JUMPS if item.place == _target(script[before], before) else _GOES_ON
            self.spots.add(Spot(WAY, item.core, name, before, way))
        if item.place < len(script):
            self.spots.add(Spot(OPERATION, item.core, name, item.place))
            if _target(script[item.place], item.place) is not None:
                at[name] = item.place

    def _lines(self, item: Item, at: Dict[str, int]) -> None:
        """Adds what expires in the lines of an item. A job that ends there goes no way any more."""
        for line in item.lines:
            words = line.split(" ")
            if words[0] == ALARM:
                self.spots.add(Spot(ALARM, item.core, words[1]))
            elif words[0] == POINT:
                self.spots.add(Spot(POINT, item.core, words[1], int(words[2])))
            elif words[0] in ("end", "leave"):
                at.pop(words[1], None)


def coverage_of(seen: Seen) -> Coverage:
    """The coverage of some runs, as a plain value."""
    named = spots_of(seen.draft)
    done = [each for each in named if each.spot in seen.spots]
    rows = [_row(kind, named, done) for kind in KINDS]
    model = model_of(seen.draft)
    return {
        "kinds": rows,
        "all": len(named),
        "seen": len(done),
        "share": share(len(done), len(named)),
        "scripts": _scripts(named, seen),
        "off": [core for core in model.ids if model.standing(core) == OFF],
        "never": [_never(each) for each in named if each.spot not in seen.spots],
        "services": _services(named, seen),
    }


def share(part: int, whole: int) -> float:
    """How much of something was seen, in percent; of nothing all."""
    return percent(part, whole) if whole else 100.0


def _row(kind: str, named: Sequence[Named], done: Sequence[Named]) -> Coverage:
    """How many spots of a kind there are, and how many of them were seen."""
    counts = [sum(each.spot.kind == kind for each in some) for some in (named, done)]
    return {"kind": kind, "all": counts[0], "seen": counts[1], "share": share(counts[1], counts[0])}


def _scripts(named: Sequence[Named], seen: Seen) -> List[Coverage]:
    """The tasks and ISRs that have operations, with how many of these were seen."""
    found: Dict[Tuple[int, str], Coverage] = {}
    for each in named:
        if each.spot.kind == OPERATION:
            key = each.spot.core, each.spot.owner
            row = {"core": key[0], "owner": each.owner_kind, "name": key[1], "operations": 0, "seen": 0}
            row = found.setdefault(key, row)
            row["operations"] += 1
            row["seen"] += each.spot in seen.spots
    return list(found.values())


def _never(named: Named) -> Dict[str, Union[str, int, None]]:
    """A spot that no run has seen."""
    spot = named.spot
    found = {"kind": spot.kind, "core": spot.core, "owner": named.owner_kind, "name": spot.owner, "place": spot.place}
    return {**found, "way": spot.way, "text": named.text}


def _services(named: Sequence[Named], seen: Seen) -> List[Coverage]:
    """The services that scripts call, with how often each of its statuses was returned."""
    called = dict.fromkeys(each.text.split(" ")[0] for each in named if each.spot.kind == OPERATION)
    found = []
    for service in sorted(called):
        for status in statuses_of(service):
            times = seen.statuses.get((service, status), 0)
            found.append({"service": service, "status": status, "times": times})
    return found
