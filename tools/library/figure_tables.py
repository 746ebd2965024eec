"""The figures of a run as tables of text."""

from typing import Any, Iterable, List, Optional, Sequence, Tuple

from library.columns import columns
from library.figures import Figures, tasks_and_isrs, units_of

_CORES = ("core", "standing", "stimuli", "ticks", "irq", "op", "idle", "load", "lost", "refused")
_CORES += ("errors", "protection", "down")
_TASKS = ("core", "task", "prio", "activations", "lost", "ended", "live", "preempted", "op", "load")
_ISRS = ("core", "isr", "level", "interrupts", "lost", "ended", "live", "op", "load")


def tables(figures: Figures) -> str:
    """All figures."""
    units = units_of(figures)
    sections = [
        ("Run", _run(figures)),
        *_stalled(figures),
        ("Cores", _plain(_CORES, figures["cores"], 2)),
        ("Tasks", _plain(_TASKS, figures["tasks"], 2)),
        ("ISRs", _plain(_ISRS, figures["isrs"], 2)),
        ("Waiting: least, mean, greatest", _times(figures, "waiting", units)),
        ("Response: least, mean, greatest", _times(figures, "response", units)),
        ("Refused", _refused(figures)),
        ("Preemptions", _plain(("core", "task", "by", "times"), figures["preemptions"], 3)),
        ("Interruptions", _plain(("core", "who", "by", "times"), figures["interruptions"], 3)),
        ("Budgets", _budgets(figures)),
        ("Lock budgets", _lock_budgets(figures)),
        ("Resources held: least, mean, greatest", _resources(figures, units)),
        ("Spinlocks, waited for: least, mean, greatest", _spinlocks(figures, "waited", units)),
        ("Spinlocks, held: least, mean, greatest", _spinlocks(figures, "held", units)),
        ("Chains: least, mean, greatest", _chains(figures, units)),
        ("Crossings", _plain(("from", "to", "operation", "sent", "served"), figures["crossings"], 3)),
        ("Mailboxes", _plain(("from", "to", "envelopes", "fullest", "cap"), figures["mailboxes"], 0)),
    ]
    return "\n".join("%s\n%s" % (title, "".join("  %s\n" % line for line in lines)) for title, lines in sections)


def _run(figures: Figures) -> List[str]:
    """The run as a whole."""
    run = figures["run"]
    schedule = "%s schedule" % run["schedule"]
    rounds = "" if run["rounds"] is None else ", %d rounds" % run["rounds"]
    end = "ended" if run["ended"] else "stalled"
    conflict = " in a conflict of modes" if run["conflict"] else ""
    return ["%s: %s%s%s, %d turns" % (schedule, end, conflict, rounds, run["turns"])]


def _stalled(figures: Figures) -> List[Tuple[str, List[str]]]:
    """Why the run stalled, if it did: the section of it."""
    if "stalled" not in figures:
        return []
    return [("Stalled", [each["text"] for part in figures["stalled"].values() for each in part])]


def _table(titles: Sequence[str], rows: List[Sequence[str]], first_number: int) -> List[str]:
    """A table with its titles; from one column on there are numbers."""
    if not rows:
        return ["none"]
    return columns([titles] + rows, range(first_number, len(titles)))


def _plain(names: Sequence[str], rows: Iterable[Figures], first_number: int) -> List[str]:
    """A table of figures as they are."""
    return _table(names, [[_cell(name, row[name]) for name in names] for row in rows], first_number)


def _cell(name: str, value: Any) -> str:
    """A figure as text."""
    return "%.1f %%" % value if name == "load" else str(value)


def spread(times: Optional[Figures]) -> str:
    """The least, the mean and the greatest of some times."""
    if times is None or not times["count"]:
        return "-"
    return "%d  %.2f  %d" % (times["least"], times["sum"] / times["count"], times["greatest"])


def _times(figures: Figures, name: str, units: Tuple[str, ...]) -> List[str]:
    """The times of each task and each ISR, in each unit."""
    rows = []
    for owner, each in tasks_and_isrs(figures):
        first = each[name][units[0]]
        cells = [spread(each[name][unit]) for unit in units]
        rows.append([str(each["core"]), owner, str(first["count"]), *cells, str(first["open"])])
    return _table(("core", "who", "parts", *units, "open"), rows, 2)


def _budgets(figures: Figures) -> List[str]:
    """What was used of each budget at most, and how often it was reached."""
    rows = []
    for owner, each in tasks_and_isrs(figures):
        if each["budget"]:
            rows.append([str(each["core"]), owner, *(str(each[name]) for name in ("budget", "used", "reached"))])
    return _table(("core", "who", "budget", "used", "reached"), rows, 2)


def _lock_budgets(figures: Figures) -> List[str]:
    """What was used of each lock budget at most, and how often it was reached."""
    rows = [{**each, "task": each["task"] or "-"} for each in figures["lock_budgets"] if each["lock"]]
    return _plain(("core", "resource", "task", "lock", "used", "reached"), rows, 3)


def _refused(figures: Figures) -> List[str]:
    """The refused operations."""
    rows = [
        [str(each["core"]), each["who"], each["operation"], each["status"], str(each["times"])]
        for each in figures["refused"]
    ]
    return _table(("core", "who", "operation", "status", "times"), rows, 4)


def _resources(figures: Figures, units: Tuple[str, ...]) -> List[str]:
    """The resources, with the tasks that held them."""
    rows = []
    for each in figures["resources"]:
        cells = [spread(each["held"][unit]) for unit in units]
        rows.append([str(each["core"]), each["resource"], each["task"], str(each["times"]), *cells])
    return _table(("core", "resource", "task", "times", *units), rows, 3)


def _spinlocks(figures: Figures, name: str, units: Tuple[str, ...]) -> List[str]:
    """The spinlocks, with the tasks and ISRs that got them: how long they waited for them, or held them."""
    rows = []
    for each in figures["spinlocks"]:
        first = each[name][units[0]]
        cells = [spread(each[name][unit]) for unit in units]
        rows.append([str(each["core"]), each["spinlock"], each["who"], str(each["times"]), *cells, str(first["open"])])
    return _table(("core", "spinlock", "who", "times", *units, "open"), rows, 3)


def _chains(figures: Figures, units: Tuple[str, ...]) -> List[str]:
    """The chains, with the statuses for which some of them broke."""
    rows = []
    for each in figures["chains"]:
        lost = ", ".join("%d %s" % (count, status) for status, count in each["lost"].items()) or "-"
        cells = [spread(each[unit]) for unit in units]
        rows.append([each["chain"], str(each["complete"]), str(each["open"]), lost, *cells])
    return _table(("chain", "complete", "open", "broken", *units), rows, 4)
