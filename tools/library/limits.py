"""Faults 3 and 9: numbers and counts beyond their limits, and what a table's counter allows."""

from typing import List, Optional

from library.drafts import Core, Draft, Named, Part
from library.findings import Report, counted
from library.formats import (
    BAD_TABLE,
    GREATEST_COUNT,
    LIMIT,
    MOST_ACTIONS_ABROAD,
    MOST_ACTIVATIONS,
    MOST_CORES,
    MOST_OPERATIONS,
    OBJECTS,
    ListOf,
    NewModeName,
    Number,
    ObjectOf,
    operations_of,
)
from library.hints import TITLES
from library.places import Json, JsonNumber
from library.steps import acts_on


def judge_limits(report: Report, draft: Draft) -> None:
    """Judges all numbers and counts of a configuration."""
    _judge_members(report, draft)
    _judge_cores(report, draft)
    for core in draft.cores:
        _judge_activations(report, core)
        for scripted in core.scripted:
            _judge_script(report, scripted)
        for counter in core.named["counters"]:
            _judge_counter(report, counter)
        for alarm in core.named["alarms"]:
            _judge_alarm(report, draft, alarm)
        for table in core.named["tables"]:
            _judge_table_start(report, draft, table)
            _judge_points(report, draft, table)
        _judge_actions_abroad(report, draft, core)


def is_within(number: int, value: Number) -> bool:
    """Whether a number is within the bounds of a member."""
    return value.least <= number <= value.greatest


def _judge_members(report: Report, part: Part) -> None:
    """Judges what a member alone decides, of an object and of all that stand in it."""
    for member in part.kind.members:
        node = part.spot(member.name)
        if node is part.node or not isinstance(member.value, (Number, ListOf, ObjectOf)):
            continue
        if isinstance(member.value, Number):
            _judge_number(report, node, member.value, "`%s`" % member.name)
            continue
        if isinstance(member.value, ListOf):
            _judge_length(report, part, member.name, member.value)
            for element in part.elements(member.name):
                if isinstance(member.value.element, Number):
                    _judge_number(report, element, member.value.element, "an element of `%s`" % member.name)
        if isinstance(getattr(member.value, "element", member.value), ObjectOf):
            for each in part.parts(member.name):
                _judge_members(report, each)


def _judge_number(report: Report, node: JsonNumber, value: Number, title: str) -> None:
    """Judges a number by its own bounds."""
    if value.alone and not is_within(node.number, value):
        text = "%s is %d: %d to %d are allowed"
        report.fault(LIMIT, node, text % (title, node.number, value.least, value.greatest))


def _judge_length(report: Report, part: Part, name: str, value: ListOf) -> None:
    """Judges how many elements a list has, and points at the first one too many."""
    elements = part.elements(name)
    title = TITLES[part.kind.name]
    if len(elements) < value.least:
        thing = _thing(value)
        report.fault(LIMIT, part.spot(name), "`%s` is empty: %s has at least 1 %s" % (name, title, thing))
    elif value.greatest is not None and len(elements) > value.greatest:
        text = "%s: %s has at most %d" % (counted(len(elements), _thing(value)), title, value.greatest)
        report.fault(LIMIT, elements[value.greatest], text)


def _thing(value: ListOf) -> str:
    """What an element of a list is."""
    if isinstance(value.element, NewModeName):
        return "mode"
    return value.element.name if isinstance(value.element, ObjectOf) else "action"


def _judge_cores(report: Report, draft: Draft) -> None:
    """Judges the cores of version 1, which may be fewer than those of version 2."""
    most, more = MOST_CORES[1], MOST_CORES[2]
    if draft["version"] != 1:
        return
    for core in draft.cores:
        if most <= core.id < more:
            text = "`id` is %d: 0 to %d are allowed; with `\"version\": 2`, 0 to %d"
            report.fault(LIMIT, core.spot("id"), text % (core.id, most - 1, more - 1))
    if most < len(draft.cores) <= more:
        text = "%d cores: a configuration has at most %d; with `\"version\": 2`, %d"
        report.fault(LIMIT, draft.cores[most].node, text % (len(draft.cores), most, more))


def _judge_activations(report: Report, core: Core) -> None:
    """Judges the activations of a core's tasks, each and together."""
    tasks = core.named["tasks"]
    for task in tasks:
        if task["extended"] and task["activations"] > 1:
            text = "`activations` is %d: an `extended` task has 1" % task["activations"]
            report.fault(LIMIT, task.spot("activations"), text)
    total = sum(max(task["activations"], 0) for task in tasks)
    if total > MOST_ACTIVATIONS:
        text = "the `activations` of the tasks of core %d sum to %d: at most %d are allowed"
        report.fault(LIMIT, core.spot("tasks"), text % (core.id, total, MOST_ACTIVATIONS))


def _judge_script(report: Report, scripted: Named) -> None:
    """Judges how many operations a script has, and points at the first one too many."""
    operations = operations_of(scripted["script"])
    if len(operations) > MOST_OPERATIONS:
        index = sum(len(operation) + 1 for operation in operations[:MOST_OPERATIONS])
        node = scripted.spot("script")
        text = "the script has %d operations: at most %d are allowed" % (len(operations), MOST_OPERATIONS)
        report.fault(LIMIT, node, text, report.document.character_offsets(node)[index])


def _judge_counter(report: Report, counter: Named) -> None:
    """Judges a counter's `min` by its `max`."""
    if _is_sound(counter) and counter["min"] > counter["max"]:
        text = "`min` is %d, above the `max` of this counter, %d" % (counter["min"], counter["max"])
        report.fault(LIMIT, counter.spot("min"), text)


def _is_sound(counter: Named) -> bool:
    """Whether the numbers of a counter are within their own bounds."""
    return 1 <= counter["max"] <= GREATEST_COUNT and 1 <= counter["min"] <= GREATEST_COUNT


def _counter_of(draft: Draft, owner: Named) -> Optional[Named]:
    """The counter by which an alarm or a table is judged; none if its name or its own numbers are at fault."""
    counter = draft.find_alone("counter", owner["counter"])
    if counter is None or not _is_sound(counter) or counter["min"] > counter["max"]:
        return None
    return counter


def _title(report: Report, counter: Named) -> str:
    """A counter in a report: it may be the one that is to be mended."""
    return "`%s` of line %d" % (counter.name, report.line_of(counter.node))


def _judge_alarm(report: Report, draft: Draft, alarm: Named) -> None:
    """Judges how an alarm autostarts."""
    auto, counter = alarm.auto, _counter_of(draft, alarm)
    if auto is None or counter is None:
        return
    least, greatest = counter["min"], counter["max"]
    if not 1 <= auto["start"] <= greatest:
        text = "`start` is %d: 1 to %d are allowed, the `max` of the counter %s"
        report.fault(LIMIT, auto.spot("start"), text % (auto["start"], greatest, _title(report, counter)))
    if auto["cycle"] != 0 and not least <= auto["cycle"] <= greatest:
        text = "`cycle` is %d: 0, or %d to %d are allowed, the `min` and the `max` of the counter %s"
        report.fault(LIMIT, auto.spot("cycle"), text % (auto["cycle"], least, greatest, _title(report, counter)))


def _offsets(table: Named) -> List[int]:
    """The offsets of a table's points."""
    return [point["offset"] for point in table.parts("points")]


def _judge_table_start(report: Report, draft: Draft, table: Named) -> None:
    """Judges how a table autostarts."""
    auto, counter = table.auto, _counter_of(draft, table)
    if auto is None or counter is None:
        return
    first = max(0, (_offsets(table) or [0])[0])
    greatest = counter["max"] - first
    if greatest < 1:
        text = "no `offset` is allowed: that of the first point, %d, is not below %d, the `max` of the counter %s"
        report.fault(LIMIT, auto.spot("offset"), text % (first, counter["max"], _title(report, counter)))
    elif not 1 <= auto["offset"] <= greatest:
        text = "`offset` is %d: 1 to %d are allowed, the `max` of the counter %s less the first point's offset"
        report.fault(LIMIT, auto.spot("offset"), text % (auto["offset"], greatest, _title(report, counter)))


def _judge_actions_abroad(report: Report, draft: Draft, core: Core) -> None:
    """Judges what a core's alarms and tables may do on other cores at once."""

    def is_abroad(node: Json) -> bool:
        name = acts_on(node.text)
        task = draft.find_alone("task", name) if name is not None else None
        return task is not None and task.core.id != core.id

    total = sum(is_abroad(alarm.spot("action")) for alarm in core.named["alarms"])
    for table in core.named["tables"]:
        counts = [sum(map(is_abroad, point.elements("actions"))) for point in table.parts("points")]
        total += max(counts, default=0)
    if total > MOST_ACTIONS_ABROAD:
        text = "the alarms and tables of core %d may do %d things on other cores at once: at most %d are allowed"
        report.fault(LIMIT, core.node, text % (core.id, total, MOST_ACTIONS_ABROAD))


def _judge_points(report: Report, draft: Draft, table: Named) -> None:
    """Judges the offsets of a table's points: their order first, and then what the counter allows."""
    points = table.parts("points")
    before = len(report.findings)
    duration = table["duration"]
    is_duration_sound = is_within(duration, OBJECTS["table"].member("duration").value)
    for index, point in enumerate(points):
        offset = point["offset"]
        if offset < 0:
            _bad_offset(report, point, "`offset` is %d: it is below 0" % offset)
        elif index > 0 and offset <= points[index - 1]["offset"]:
            text = "`offset` is %d, not above that of the point before, %d: offsets increase"
            _bad_offset(report, point, text % (offset, points[index - 1]["offset"]))
        elif offset > duration and is_duration_sound:
            _bad_offset(report, point, "`offset` is %d, above the `duration` of the table, %d" % (offset, duration))
    counter = _counter_of(draft, table)
    if len(report.findings) == before and counter is not None and points and is_duration_sound:
        _judge_delays(report, table, counter)


def _bad_offset(report: Report, point: Part, text: str) -> None:
    report.fault(BAD_TABLE, point.spot("offset"), text)


def _judge_delays(report: Report, table: Named, counter: Named) -> None:
    """Judges the counts between the points of a table by its counter."""
    points, offsets = table.parts("points"), _offsets(table)
    least, greatest = counter["min"], counter["max"]
    by = "the `min` and the `max` of the counter %s" % _title(report, counter)
    if offsets[0] != 0 and not least <= offsets[0] <= greatest:
        text = "`offset` is %d: 0, or %d to %d are allowed for the first point, %s"
        _bad_offset(report, points[0], text % (offsets[0], least, greatest, by))
    for index in range(1, len(points)):
        delay = offsets[index] - offsets[index - 1]
        if not least <= delay <= greatest:
            text = "%s after the point before: %d to %d are allowed, %s"
            _bad_offset(report, points[index], text % (counted(delay, "count"), least, greatest, by))
    last = table["duration"] - offsets[-1]
    least = least if table["repeating"] else 0
    if not least <= last <= greatest:
        why = by if table["repeating"] else "the `max` of the counter %s" % _title(report, counter)
        text = "%s from the last point to the end of the period: %d to %d are allowed, %s"
        report.fault(BAD_TABLE, table.spot("duration"), text % (counted(last, "count"), least, greatest, why))
