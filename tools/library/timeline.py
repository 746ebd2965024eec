"""A run in the order of its turns: where each line of each core stands."""

import json
from dataclasses import dataclass
from functools import cached_property
from typing import Any, Dict, Iterable, List, Tuple

from library.items import Item
from library.runs import Run
from library.turns import placed_items

_SHUTDOWN = ("hook Shutdown ", "halt ")


@dataclass(frozen=True)
class Timeline:
    """The items of all cores in the order of the turns."""

    run: Run
    items: Tuple[Item, ...]

    @cached_property
    def by_core(self) -> Dict[int, List[Item]]:
        """The items of each core."""
        found: Dict[int, List[Item]] = {core: [] for core in self.run.cores}
        for item in self.items:
            found[item.core].append(item)
        return found

    @cached_property
    def down(self) -> Dict[int, Item]:
        """Of each core that was shut down the item from which on it runs no job."""
        found: Dict[int, Item] = {}
        for item in self.items:
            if any(line.startswith(_SHUTDOWN) for line in item.lines):
                found.setdefault(item.core, item)
        return found

    @property
    def turns(self) -> int:
        """How many turns there are up to the last one that changes something."""
        return self.items[-1].turn if self.items else 0


def timeline_of(run: Run) -> Timeline:
    """The timeline of a run."""
    return Timeline(run, tuple(placed_items(run)))


def mailbox_levels(timeline: Timeline) -> Dict[Tuple[int, int], List[Tuple[int, int]]]:
    """How many envelopes are in each mailbox that took one, by sender and receiver: from which turn on how many."""
    levels: Dict[Tuple[int, int], List[Tuple[int, int]]] = {}
    for item in timeline.items:
        words = item.words
        if words[0] in ("post", "in"):
            other, step = int(words[1]), 1 if words[0] == "post" else -1
            level = levels.setdefault((item.core, other) if step > 0 else (other, item.core), [(0, 0)])
            level.append((item.turn, level[-1][1] + step))
    return levels


def records(items: Iterable[Item]) -> Iterable[Dict[str, Any]]:
    """What is known of each line."""
    for item in items:
        where = {"turn": item.turn, "round": item.round, "core": item.core, "item": item.number}
        where.update({"stimulus": item.stimulus, "tick": item.tick, "by": item.text})
        if item.runner is not None:
            where.update({item.runner.kind.lower(): item.runner.name, "operation": item.place})
        for line in item.lines:
            yield {**where, "line": line}


def text_of(record: Dict[str, Any]) -> str:
    """A record as a line."""
    return json.dumps(record, separators=(",", ":"))
