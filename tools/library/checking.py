"""Holds the places of a timeline to the program.

A run of the first turns prints the lines of these turns and no other; a replay of a core's first items prints theirs.
So a line that is placed at a wrong turn or item comes too early or too late.
"""

import json
import os
import tempfile
from dataclasses import dataclass, replace
from typing import Iterable, List, Sequence, Tuple, TypeVar

from library import ending, progress
from library.formats import MOST_TURNS
from library.items import Item
from library.runs import Source, blocks_of
from library.timeline import Timeline
from library.turns import first_turns

Value = TypeVar("Value")


@dataclass(frozen=True)
class Check:
    """How many runs and replays were compared, and where they differ from the timeline."""

    runs: int
    replays: int
    differences: Tuple[str, ...]


def check(timeline: Timeline, source: Source, most: int) -> Check:
    """Checks the places of some of the items that printed lines, and the places before them."""
    chosen = spread([item for item in timeline.items if item.lines and item.turn <= MOST_TURNS], most)
    turns = sorted({end for item in chosen for end in (item.turn - 1, item.turn)})
    firsts = sorted({(item.core, end) for item in chosen for end in (item.number - 1, item.number)})
    differences: List[str] = []
    comparing = progress.shown("comparing", len(turns) + len(firsts))
    with tempfile.TemporaryDirectory() as folder, comparing as work:
        path = os.path.join(folder, "prefix")
        for end in turns:
            differences += _of_turns(timeline, source, path, end)
            work.done += 1
        for core, end in firsts:
            differences += _of_items(timeline, source, path, core, end)
            work.done += 1
    return Check(len(turns), len(firsts), tuple(differences))


def spread(values: List[Value], most: int) -> List[Value]:
    """At most so many of some values, from the first to the last, in steps that are nearly equal."""
    if len(values) <= most:
        return values
    if most < 2:
        return values[:most]
    return [values[index * (len(values) - 1) // (most - 1)] for index in range(most)]


def _of_turns(timeline: Timeline, source: Source, path: str, end: int) -> Iterable[str]:
    """Where a run of the first turns prints other lines than those that are placed there."""
    ending.save(path, json.dumps(" ".join(first_turns(timeline.run, end))))
    blocks = blocks_of(replace(source, schedule=path).printed().text)
    for core, items in timeline.by_core.items():
        placed = [item for item in items if item.turn <= end]
        yield from _differences("after %d turns, core %d" % (end, core), placed, blocks.get(core, ()))


def _of_items(timeline: Timeline, source: Source, path: str, core: int, end: int) -> Iterable[str]:
    """Where a replay of a core's first items prints other lines than those that are placed there."""
    placed = timeline.by_core[core][:end]
    ending.save(path, "".join(item.text + "\n" for item in placed))
    block = source.replayed(core, path).splitlines()[1:]
    yield from _differences("after %d items of core %d" % (end, core), placed, block)


def _differences(where: str, items: Iterable[Item], block: Sequence[str]) -> Iterable[str]:
    """The first line in which a block differs from those of some items."""
    placed = [line for item in items for line in item.lines]
    for number in range(max(len(placed), len(block))):
        printed, here = (_line(lines, number) for lines in (block, placed))
        if printed != here:
            yield "%s, line %d: mcos prints %s; here stands %s" % (where, number + 1, printed, here)
            return


def _line(lines: Sequence[str], number: int) -> str:
    """A line, if there is one."""
    return "`%s`" % lines[number] if number < len(lines) else "no line"
