"""Faults 4 to 7 of members: names that stand twice, names of nothing or of another core's objects, orders in circles."""

from typing import Dict, List

from library.drafts import Core, Draft, Named
from library.findings import Report, did_you_mean, listed
from library.formats import DUPLICATE_NAME, NAMES_NO_MODE, NO_MODES, SPIN_ORDER, UNKNOWN_NAME, WRONG_CORE, is_name
from library.places import JsonList, JsonText
from library.scripts import Judge, unknown_name


def judge_names(report: Report, draft: Draft) -> None:
    """Judges all names of a configuration; those in scripts and actions too."""
    _judge_ids(report, draft)
    _judge_new_modes(report, draft)
    _judge_twice(report, draft)
    _judge_master(report, draft)
    _judge_links(report, draft)
    for core in draft.cores:
        judge = Judge(report, draft, core)
        if core.spot("mode") is not core.node and core["mode"] != NAMES_NO_MODE:
            _judge_mode(report, draft, core.spot("mode"))
        for task in core.named["tasks"]:
            if task.spot("auto") is not task.node:
                _judge_modes(report, draft, task.spot("auto"))
            judge.script(task)
        for isr in core.named["isrs"]:
            judge.script(isr)
        for alarm in core.named["alarms"]:
            _judge_owner(report, draft, core, alarm)
            judge.action(alarm.spot("action"))
        for table in core.named["tables"]:
            _judge_owner(report, draft, core, table)
            for point in table.parts("points"):
                for action in point.elements("actions"):
                    judge.action(action)


def _judge_ids(report: Report, draft: Draft) -> None:
    """Judges whether two cores have one number."""
    first = {}
    for core in draft.cores:
        earlier = first.setdefault(core.id, core)
        if earlier is not core and core.id >= 0:
            text = "core %d stands twice: also in line %d" % (core.id, report.line_of(earlier.spot("id")))
            report.fault(DUPLICATE_NAME, core.spot("id"), text)


def _judge_twice(report: Report, draft: Draft) -> None:
    """Judges whether two objects have one name, or one has that of a mode."""
    for name, objects in draft.by_name.items():
        if name in draft.modes:
            for each in objects:
                report.fault(DUPLICATE_NAME, each.spot("name"), "`%s` is the name of a mode" % name)
            continue
        first = objects[0]
        for each in objects[1:]:
            owner = "%s of core %d" % (first.kind.name, first.core.id) if first.core is not None else first.kind.name
            text = "`%s` is already the name of the %s in line %d"
            text %= (name, owner, report.line_of(first.spot("name")))
            report.fault(DUPLICATE_NAME, each.spot("name"), text)


def _judge_master(report: Report, draft: Draft) -> None:
    """Judges whether the master is a configured core. By default it is core 0."""
    master = draft["master"]
    if master in draft.ids or not draft.cores:
        return
    known = "the configuration has the cores %s" % listed(str(number) for number in sorted(draft.ids))
    if len(draft.cores) == 1:
        known = "the configuration has core %d alone" % draft.ids[0]
    text = "`master` is %d: %s" % (master, known)
    if "master" not in draft.node.members:
        text = "`master` is 0 if it is left out: %s" % known
    report.fault(UNKNOWN_NAME, draft.spot("master"), text)


def _judge_links(report: Report, draft: Draft) -> None:
    """Judges which spinlock comes after each one: whether there is one of that name, and that none comes after itself."""
    links = draft.links()
    told = set()
    for spinlock in draft.spinlocks:
        name = spinlock["next"]
        if name is not None and draft.find(spinlock.kind.name, name) is None:
            report.fault(UNKNOWN_NAME, spinlock.spot("next"), unknown_name(draft, spinlock.kind.name, name, "next"))
        circle = _circle(links, spinlock.name)
        if circle and not told & set(circle):
            told |= set(circle)
            text = "the spinlock `%s` comes after itself: %s"
            report.fault(SPIN_ORDER, spinlock.spot("next"), text % (spinlock.name, _way(circle)))


def _circle(links: Dict[str, str], name: str) -> List[str]:
    """The spinlocks on the way from one back to itself; none if there is no such way."""
    way = [name]
    while links.get(way[-1]) is not None and len(way) <= len(links):
        way.append(links[way[-1]])
        if way[-1] == name:
            return way[:-1]
    return []


def _way(circle: List[str]) -> str:
    """Which spinlock comes after which, up to the first one again."""
    return ", then ".join("`%s`" % name for name in circle + circle[:1])


def _judge_new_modes(report: Report, draft: Draft) -> None:
    """Judges the names of the modes."""
    first = {}
    for mode in draft.elements("modes"):
        earlier = first.setdefault(mode.text, mode)
        if mode.text in NO_MODES:
            words = listed("`%s`" % word for word in NO_MODES)
            text = "no mode is called `%s`: %s have a meaning of their own" % (mode.text, words)
            report.fault(DUPLICATE_NAME, mode, text)
        elif earlier is not mode:
            report.fault(DUPLICATE_NAME, mode, "the mode `%s` stands twice" % mode.text)


def _judge_modes(report: Report, draft: Draft, modes: JsonList) -> None:
    """Judges a list of modes."""
    for mode in modes.elements:
        _judge_mode(report, draft, mode)


def _judge_mode(report: Report, draft: Draft, mode: JsonText) -> None:
    """Judges the name of a mode."""
    known = draft.modes
    if is_name(mode.text) and mode.text not in known:
        names = listed("`%s`" % each for each in known)
        others = {0: "`modes` is empty", 1: "there is one, %s" % names}.get(len(known), "there are %s" % names)
        text = "no mode is called `%s`: %s%s" % (mode.text, others, did_you_mean(mode.text, known))
        report.fault(UNKNOWN_NAME, mode, text)


def _judge_owner(report: Report, draft: Draft, core: Core, owner: Named) -> None:
    """Judges the counter and the modes of an alarm or a table."""
    name = owner["counter"]
    found = draft.find("counter", name, core)
    if found is None:
        report.fault(UNKNOWN_NAME, owner.spot("counter"), unknown_name(draft, "counter", name, "counter"))
    elif found.core.id != core.id:
        text = "`%s` is a counter of core %d: the `counter` of %s stands on its own core, %d"
        title = "an alarm" if owner.kind.name == "alarm" else "a table"
        report.fault(WRONG_CORE, owner.spot("counter"), text % (name, found.core.id, title, core.id))
    if owner.auto is not None:
        _judge_modes(report, draft, owner.auto.spot("modes"))
