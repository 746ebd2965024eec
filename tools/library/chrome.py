"""A run as Chrome's trace events in JSON, which Perfetto shows: cores as processes, tasks and ISRs as threads.

A turn lasts one microsecond. Envelopes stand in it where their lines stand in the item, so that flows have an order.
"""

import json
from typing import Any, Dict, Iterable, List, Optional, Tuple

from library.items import Deed, Item
from library.jobs import RUNNING, Envelope, Jobs
from library.states import held_by_task, rows_of, stretches_by_name
from library.timeline import Timeline

Event = Dict[str, Any]

# The threads of a core that are no tasks and no ISRs.
ENVELOPES = 1
MARKS = 2
FIRST_ROW = 3


def text(jobs: Jobs, source: str) -> str:
    """The whole text, an event on a line."""
    events = [json.dumps(event) for event in _events(jobs)]
    other = {"source": source, "clock": "a microsecond is a turn of the schedule"}
    return '{"displayTimeUnit": "ns", "otherData": %s, "traceEvents": [\n%s\n]}\n' % (
        json.dumps(other),
        ",\n".join(events),
    )


def _events(jobs: Jobs) -> List[Event]:
    """All events."""
    threads = _threads(jobs.timeline)
    events = list(_names(jobs.timeline, threads))
    events += _states(jobs, threads)
    events += _marks(jobs)
    for number, envelope in enumerate(jobs.envelopes):
        events += _envelope(2 * number, envelope)
    return events


def _threads(timeline: Timeline) -> Dict[str, Tuple[int, int]]:
    """The process and the thread of each task and ISR."""
    return {row.name: (row.core, FIRST_ROW + place) for place, row in enumerate(rows_of(timeline))}


def _names(timeline: Timeline, threads: Dict[str, Tuple[int, int]]) -> Iterable[Event]:
    """The names of processes and threads, in their order."""
    for core in timeline.run.cores:
        yield _meta("process_name", core, 0, {"name": "core %d" % core})
        yield _meta("process_sort_index", core, 0, {"sort_index": core})
        yield _meta("thread_name", core, ENVELOPES, {"name": "envelopes"})
        yield _meta("thread_name", core, MARKS, {"name": "ticks and errors"})
    for row in rows_of(timeline):
        core, thread = threads[row.name]
        yield _meta("thread_name", core, thread, {"name": "%s (%s)" % (row.name, row.rank)})
        yield _meta("thread_sort_index", core, thread, {"sort_index": thread})


def _meta(name: str, core: int, thread: int, values: Event) -> Event:
    """An event that only names something."""
    return {"ph": "M", "name": name, "pid": core, "tid": thread, "args": values}


def _states(jobs: Jobs, threads: Dict[str, Tuple[int, int]]) -> Iterable[Event]:
    """The states of tasks and ISRs, and what they hold. One that runs is shown by its name, as each has a colour."""
    for owner, stretches in stretches_by_name(jobs).items():
        core, thread = threads[owner]
        for each in stretches:
            name = owner if each.state == RUNNING else each.state
            yield _slice(name, each.state, core, thread, each.begin, each.end - each.begin, {"job": each.job.number})
    for task, holds in held_by_task(jobs).items():
        core, _ = threads[task]
        for number, hold in enumerate(holds):
            # Asynchronous, since a resource or a spinlock is held over several states of its job.
            both = {"name": hold.name, "cat": "held", "id": "%s %d" % (task, number), "pid": core, "tid": ENVELOPES}
            yield {"ph": "b", "ts": hold.begin, "args": {"task": task}, **both}
            yield {"ph": "e", "ts": hold.end, **both}


def _slice(name: str, category: str, core: int, thread: int, begin: float, length: float, values: Event) -> Event:
    """Something that lasts."""
    where = {"pid": core, "tid": thread, "ts": begin, "dur": length}
    return {"ph": "X", "name": name, "cat": category, **where, "args": values}


def _marks(jobs: Jobs) -> Iterable[Event]:
    """The ticks, the calls of ErrorHook and of the hooks of protection, and lost interrupts."""
    shown = [(item, "tick %d" % item.tick) for item in jobs.timeline.items if item.is_tick]
    shown += [(mark.item, mark.text) for mark in jobs.marks]
    # A sort keeps the tick before what comes of it.
    for item, name in sorted(shown, key=lambda pair: pair[0].turn):
        yield {"ph": "i", "s": "t", "name": name, "pid": item.core, "tid": MARKS, "ts": item.turn}


def _time(item: Item, index: int) -> Tuple[float, float]:
    """When a line of an item begins, and how long it lasts."""
    lines = max(len(item.lines), 1)
    begin, end = (round(item.turn + place / lines, 3) for place in (index, index + 1))
    return begin, round(end - begin, 3)


def _envelope(number: int, envelope: Envelope) -> Iterable[Event]:
    """The slices of an envelope where it is sent, served and answered, and the flows between them."""
    operation = envelope.deed.operation
    sent = _line_of(envelope.sent, envelope.deed, "out")
    yield _short("to core %d: %s" % (envelope.receiver, operation), envelope.sender, sent)
    if envelope.served is None or envelope.answer is None:
        return
    served = _line_of(envelope.served, envelope.answer, "in")
    status = {"status": envelope.answer.status}
    yield _short("from core %d: %s" % (envelope.sender, operation), envelope.receiver, served, status)
    yield from _flow(number, operation, (envelope.sender, sent), (envelope.receiver, served))
    if envelope.replied is not None:
        back = _time(envelope.replied, 0)
        yield _short("reply to %s" % operation, envelope.sender, back, status)
        yield from _flow(number + 1, "reply", (envelope.receiver, served), (envelope.sender, back))


def _line_of(item: Item, deed: Deed, word: str) -> Tuple[float, float]:
    """When the line of an envelope begins, and how long it lasts. A core that was shut down prints none."""
    shown = (n for n in range(deed.first, deed.behind) if item.lines[n].startswith(word + " "))
    return _time(item, next(shown, deed.first))


def _short(name: str, core: int, time: Tuple[float, float], values: Optional[Event] = None) -> Event:
    """What is to be seen of an envelope on a core."""
    return _slice(name, "envelope", core, ENVELOPES, *time, values or {})


def _flow(
    number: int, name: str, start: Tuple[int, Tuple[float, float]], end: Tuple[int, Tuple[float, float]]
) -> Iterable[Event]:
    """An arrow from the middle of a slice to the middle of another one."""
    for phase, (core, (begin, length)) in (("s", start), ("f", end)):
        event = {"ph": phase, "cat": "envelope", "name": name, "id": number, "pid": core, "tid": ENVELOPES}
        event["ts"] = round(begin + length / 2, 4)
        yield {**event, "bp": "e"} if phase == "f" else event
