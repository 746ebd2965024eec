"""Circles of waits that the order of spinlocks does not exclude: a job preempts one that holds a spinlock, and waits itself.

The order (`next`) holds for one job at a time. So a core can hold a spinlock, by a job that is preempted, and wait for one
that does not come after it; if others wait the other way about, none of them goes on.
"""

from collections import deque
from dataclasses import dataclass
from typing import Deque, Dict, Iterator, List, Optional, Set, Tuple

from library.drafts import Draft, Named
from library.formats import WAITS_FOR_SPINLOCK
from library.held import Walk
from library.sharing import Starts, holdings, priority_of
from library.steps import Step

# Of a job that can preempt another one so many ways are looked at. If there are more, nothing is said.
_MOST_WAYS = 10_000


@dataclass(frozen=True)
class Edge:
    """What a core can do at once: a job holds a spinlock, and the same or one that preempts it waits for another one."""

    holder: Named
    step: Step
    held: str
    waiter: Named
    wanted: str

    @property
    def is_of_two(self) -> bool:
        """Whether it is another job that waits."""
        return self.waiter is not self.holder

    def __str__(self) -> str:
        core = self.waiter.core.id
        if self.is_of_two:
            text = "`%s` of core %d can wait for `%s` while `%s` holds `%s`"
            return text % (self.waiter.name, core, self.wanted, self.holder.name, self.held)
        return "`%s` of core %d waits for `%s` while it holds `%s`" % (self.waiter.name, core, self.wanted, self.held)


Circle = Tuple[Edge, ...]  # each waits for what the next one holds, and the last one for what the first one holds


def circles(draft: Draft, walks: Dict[Named, Walk]) -> Iterator[Circle]:
    """For each job that holds a spinlock, and each that can preempt it and wait, a shortest circle that can come of it."""
    starts = Starts(draft)
    edges = list(_of_one(walks)) + list(_of_two(draft, walks, starts))
    for first in edges:
        if first.is_of_two:
            found = (_shortest(first, edges, live) for live in starts.live)
            circle = next((each for each in found if each is not None), None)
            if circle is not None:
                yield circle


def _of_one(walks: Dict[Named, Walk]) -> Iterator[Edge]:
    """The jobs that wait for a spinlock while they hold another one."""
    for scripted, walk in walks.items():
        found = (edge for step in walk.steps for edge in _waits(scripted, walk, step))
        yield from dict.fromkeys(found)


def _waits(scripted: Named, walk: Walk, step: Step) -> Iterator[Edge]:
    """What a job holds where it waits by an operation."""
    if step.operation.name == WAITS_FOR_SPINLOCK:
        for state, refusal in walk.refusals.get(step.number, {}).items():
            if not refusal:
                yield from (Edge(scripted, step, held, scripted, step.arguments[0]) for held in state.spinlocks)


def _of_two(draft: Draft, walks: Dict[Named, Walk], starts: Starts) -> Iterator[Edge]:
    """The jobs that wait for a spinlock after they have preempted one of their core which holds another one."""
    for core in draft.cores:
        wanted = {each: _wanted(walks[each]) for each in core.scripted if each in walks}
        for holder in wanted:
            for holding in holdings(core, holder, walks[holder]):
                above = (each for each in wanted if each is not holder and priority_of(each) > holding.priority)
                for waiter in above:
                    names = wanted[waiter] - {holding.spinlock}
                    if names and starts.can_come(waiter, holding):
                        yield from (Edge(holder, holding.step, holding.spinlock, waiter, name) for name in sorted(names))


def _wanted(walk: Walk) -> Set[str]:
    """The spinlocks for which a job of a script can wait."""
    waiting = (step for step in walk.steps if step.operation.name == WAITS_FOR_SPINLOCK)
    return {step.arguments[0] for step in waiting if "" in walk.refusals.get(step.number, {}).values()}


def _shortest(first: Edge, edges: List[Edge], live: Set[Named]) -> Optional[Circle]:
    """A shortest circle with an edge, of cores that are all different, in a mode."""
    if not {first.holder, first.waiter} <= live:
        return None
    ways: Deque[Circle] = deque([(first,)])
    for _ in range(_MOST_WAYS):
        if not ways:
            return None
        way = ways.popleft()
        if way[-1].wanted == first.held and len(way) > 1:
            return way
        cores = {edge.holder.core for edge in way}
        for edge in edges:
            is_next = edge.held == way[-1].wanted and edge.holder.core not in cores
            if is_next and {edge.holder, edge.waiter} <= live:
                ways.append(way + (edge,))
    return None
