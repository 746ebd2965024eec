"""What a member's name of OIL, of AUTOSAR or of a kind that mcos does not have is here."""

from dataclasses import dataclass
from typing import Dict, Optional, Set

from library.findings import listed, nearest
from library.formats import CONFIGURATION, CORE, NAMED_LISTS, OBJECTS, Object

# What an object of the tables is called in a report.
TITLES = {
    "configuration": "a configuration",
    "spinlock": "a spinlock",
    "core": "a core",
    "task": "a task",
    "ISR": "an ISR",
    "resource": "a resource",
    "counter": "a counter",
    "alarm": "an alarm",
    "alarm's auto": "the `auto` of an alarm",
    "table": "a table",
    "point": "a point",
    "table's auto": "the `auto` of a table",
}


@dataclass(frozen=True)
class Hint:
    """What to write in place of a name; `member` is the member of the same object that it stands for, if one does."""

    text: str
    member: Optional[str] = None


def _is(member: str, more: str = "") -> Hint:
    """A name that is only called otherwise here."""
    return Hint("it is `%s` here%s" % (member, more), member)


_AUTO_OF_TASK = _is("auto", ', a list: `["M"]`')
_AUTO_OF_ALARM = _is("auto", ", an object with `modes`, `start` and `cycle`")
_AUTO_OF_TABLE = _is("auto", ", an object with `modes` and `offset`")
_EVENTS_OF_TASK = Hint('events have no names here: write `"extended": true`, and masks in the scripts', "extended")
_EVENTS_OF_CORE = Hint('events have no names here: a task with `"extended": true` has 32')
_SCHEDULE = _is("preemptable", ": `true` for FULL, `false` for NON")
_RESOURCES = Hint("it is not written here: each task of the core may take each of its resources")
_LOCK_AT_RESOURCE = Hint("it is `lock` here, in ticks, and stands at the resource, for all its holders")
_NO_LOCK = Hint("it is not written here: an ISR takes no resource")
_CATEGORY = Hint("it is not written here: each ISR is of category 2")
_STANDARD = Hint("it is not written here: each resource is STANDARD")
_LOCK_METHOD = Hint("it is not written here: each spinlock is LOCK_NOTHING")
_ACCESS = Hint("it is not written here: each core may get each spinlock")
_ONE_COUNT = Hint("it is not written here: each `tick` is one count")
_SOFTWARE = _is("software", ": `true`, or `false` for one that each `tick` increments")
_START_IN_AUTO = Hint("it is `start` here, and stands in the `auto` of the alarm")
_CYCLE_IN_AUTO = Hint("it is `cycle` here, and stands in the `auto` of the alarm")
_MODES_IN_AUTO = Hint("it is `modes` here, and stands in the `auto`")
_OFFSET_IN_AUTO = Hint("it is `offset` here, and stands in the `auto` of the table")
_ACTIVATE_IN_ACTION = Hint('it stands in the `action` here: `"ActivateTask T"`', "action")
_SET_IN_ACTION = Hint('it stands in the `action` here: `"SetEvent T m"`', "action")

# By object: a name of OIL or AUTOSAR, in small letters and without `_`, and what it is here.
STANDARD_NAMES: Dict[str, Dict[str, Hint]] = {
    "configuration": {
        "appmode": _is("modes", ", a list of names"),
        "appmodes": _is("modes"),
        "osappmode": _is("modes", ", a list of names"),
        "osappmodes": _is("modes"),
        "spinlock": _is("spinlocks", ", a list"),
        "osspinlock": _is("spinlocks", ", a list"),
    },
    "spinlock": {
        "successor": _is("next"),
        "spinlocksuccessor": _is("next"),
        "osspinlocksuccessor": _is("next"),
        "lockmethod": _LOCK_METHOD,
        "spinlocklockmethod": _LOCK_METHOD,
        "osspinlocklockmethod": _LOCK_METHOD,
        "accessingapplication": _ACCESS,
        "osspinlockaccessingapplication": _ACCESS,
    },
    "task": {
        "priority": _is("prio"),
        "ostaskpriority": _is("prio"),
        "activation": _is("activations"),
        "ostaskactivation": _is("activations"),
        "autostart": _AUTO_OF_TASK,
        "ostaskautostart": _AUTO_OF_TASK,
        "appmode": _AUTO_OF_TASK,
        "ostaskappmoderef": _AUTO_OF_TASK,
        "schedule": _SCHEDULE,
        "ostaskschedule": _SCHEDULE,
        "event": _EVENTS_OF_TASK,
        "events": _EVENTS_OF_TASK,
        "ostaskeventref": _EVENTS_OF_TASK,
        "resource": _RESOURCES,
        "resources": _RESOURCES,
        "executionbudget": _is("budget", ", in ticks"),
        "ostaskexecutionbudget": _is("budget", ", in ticks"),
        "resourcelock": _LOCK_AT_RESOURCE,
        "ostaskresourcelock": _LOCK_AT_RESOURCE,
        "ostaskresourcelockbudget": _LOCK_AT_RESOURCE,
    },
    "ISR": {
        "priority": _is("level"),
        "prio": _is("level"),
        "category": _CATEGORY,
        "osisrcategory": _CATEGORY,
        "executionbudget": _is("budget", ", in ticks"),
        "osisrexecutionbudget": _is("budget", ", in ticks"),
        "resourcelock": _NO_LOCK,
        "osisrresourcelock": _NO_LOCK,
        "osisrresourcelockbudget": _NO_LOCK,
    },
    "resource": {
        "ceilingpriority": _is("ceiling"),
        "priority": _is("ceiling"),
        "prio": _is("ceiling"),
        "resourceproperty": _STANDARD,
        "osresourceproperty": _STANDARD,
        "budget": _is("lock", ", in ticks"),
        "lockbudget": _is("lock", ", in ticks"),
    },
    "counter": {
        "maxallowedvalue": _is("max"),
        "oscountermaxallowedvalue": _is("max"),
        "mincycle": _is("min"),
        "oscountermincycle": _is("min"),
        "ticksperbase": _ONE_COUNT,
        "oscounterticksperbase": _ONE_COUNT,
        "type": _SOFTWARE,
        "oscountertype": _SOFTWARE,
    },
    "alarm": {
        "autostart": _AUTO_OF_ALARM,
        "osalarmautostart": _AUTO_OF_ALARM,
        "alarmtime": _START_IN_AUTO,
        "osalarmalarmtime": _START_IN_AUTO,
        "cycletime": _CYCLE_IN_AUTO,
        "osalarmcycletime": _CYCLE_IN_AUTO,
        "appmode": _MODES_IN_AUTO,
        "osalarmcounterref": _is("counter"),
        "osalarmaction": _is("action"),
        "task": _ACTIVATE_IN_ACTION,
        "osalarmactivatetask": _ACTIVATE_IN_ACTION,
        "event": _SET_IN_ACTION,
        "osalarmsetevent": _SET_IN_ACTION,
    },
    "alarm's auto": {
        "alarmtime": _is("start"),
        "osalarmalarmtime": _is("start"),
        "cycletime": _is("cycle"),
        "osalarmcycletime": _is("cycle"),
        "appmode": _is("modes"),
        "mode": _is("modes"),
    },
    "table": {
        "osscheduletableduration": _is("duration"),
        "osscheduletablerepeating": _is("repeating"),
        "osscheduletablecounterref": _is("counter"),
        "osscheduletableexpirypoint": _is("points"),
        "expirypoints": _is("points"),
        "autostart": _AUTO_OF_TABLE,
        "osscheduletableautostart": _AUTO_OF_TABLE,
        "startvalue": _OFFSET_IN_AUTO,
        "osscheduletablestartvalue": _OFFSET_IN_AUTO,
        "appmode": _MODES_IN_AUTO,
        "cyclic": _is("repeating"),
        "periodic": _is("repeating"),
    },
    "point": {
        "osscheduletblexppointoffset": _is("offset"),
        "action": _is("actions", ", a list"),
        "osscheduletabletaskactivation": _is("actions", ", a list"),
        "osscheduletableeventsetting": _is("actions", ", a list"),
    },
    "table's auto": {
        "osscheduletablestartvalue": _is("offset"),
        "startvalue": _is("offset"),
        "start": _is("offset"),
        "appmode": _is("modes"),
        "mode": _is("modes"),
    },
    "core": {
        "appmode": _is("mode"),
        "coreid": _is("id"),
        "number": _is("id"),
        "isr": _is("isrs", ", a list"),
        "osisr": _is("isrs", ", a list"),
        "interrupts": _is("isrs"),
        "protectionhook": _is("protection"),
        "scheduletables": _is("tables"),
        "event": _EVENTS_OF_CORE,
        "events": _EVENTS_OF_CORE,
        "osevent": _EVENTS_OF_CORE,
    },
}
_NOT_PLANNED = {
    "application": "OS-Applications",
    "applications": "OS-Applications",
    "osapplication": "OS-Applications",
    "osapplications": "OS-Applications",
    "ioc": "IOC",
    "memoryprotection": "memory protection",
}


def _flat(name: str) -> str:
    """A name in small letters and without what divides its words."""
    return name.replace("_", "").replace("-", "").lower()


def _hint(kind: Object, name: str) -> Optional[Hint]:
    """What a name of the standard is in an object."""
    return STANDARD_NAMES.get(kind.name, {}).get(_flat(name))


def meant_member(kind: Object, name: str, present: Set[str]) -> Optional[str]:
    """Which member of an object an unknown one was probably meant to be, of those that it has not."""
    hint = _hint(kind, name)
    if hint is not None:
        return hint.member
    return nearest(name, [member.name for member in kind.members if member.name not in present])


def unknown_member(kind: Object, name: str, present: Set[str]) -> str:
    """The end of a report of an unknown member: what to write in its place."""
    hint = _hint(kind, name)
    known = hint.text if hint is not None else _not_there(name)
    if known is not None:
        return ": " + known
    meant = meant_member(kind, name, present)
    if meant is not None:
        return "; did you mean `%s`?" % meant
    elsewhere = _elsewhere(kind, name)
    if elsewhere is not None:
        return ": " + elsewhere
    return "; it has %s" % listed("`%s`" % member.name for member in kind.members)


def _not_there(name: str) -> Optional[str]:
    """What a name stands for that mcos does not have."""
    if _flat(name) in _NOT_PLANNED:
        return "not planned (%s)" % _NOT_PLANNED[_flat(name)]
    return None


def _elsewhere(kind: Object, name: str) -> Optional[str]:
    """In which other object a member stands."""
    if kind is CONFIGURATION and name in NAMED_LISTS:
        return "`%s` stand in their core" % name
    owners = [each.name for each in OBJECTS.values() if each.member(name) is not None]
    inner = kind.name + "'s auto"
    if inner in owners:
        return "it stands in %s" % TITLES[inner]
    if kind is CORE and CONFIGURATION.name in owners:
        return "it stands beside `cores`"
    if owners:
        return "it is a member of %s" % listed(TITLES[owner] for owner in owners)
    return None
