"""Requirements on the figures of a run, as `T10ms response<=2 ticks`."""

import operator
import re
from dataclasses import dataclass, replace
from typing import Any, Callable, Dict, Iterable, List, Optional, Sequence, Tuple

from library.figures import Figures, tasks_and_isrs, units_of
from library.findings import did_you_mean, listed

_TEXT = re.compile(
    r"(?P<subject>\S.*?) +(?P<figure>[a-z]+) *(?P<sign><=|>=|!=|=|<|>) *"
    r"(?P<number>[0-9]+(?:\.[0-9]+)?)(?: +(?P<unit>[a-z]+))?"
)
_SIGNS: Dict[str, Callable[[Any, Any], bool]] = {
    "=": operator.eq,
    "!=": operator.ne,
    "<": operator.lt,
    "<=": operator.le,
    ">": operator.gt,
    ">=": operator.ge,
}
ALL = "all cores"
_ALL_FIGURES = ("lost", "refused", "errors", "protection", "down")
_CORE_FIGURES = ("stimuli", "ticks", "irq", "op", "idle", "load") + _ALL_FIGURES
_COUNTS = ("lost", "ended", "live", "interrupted", "refused", "used", "reached", "op", "load")
_COUNTS_BY_KIND = {"task": ("activations", "preempted") + _COUNTS, "isr": ("interrupts",) + _COUNTS}
_TIMES = ("waiting", "response")
_CHAIN_COUNTS = ("complete", "open", "broken")
_MAILBOX_FIGURES = ("envelopes", "fullest")
# What a resource has, over all tasks that took it.
_RESOURCE_FIGURES: Dict[str, Callable[[Iterable[int]], int]] = {"used": max, "reached": sum}


class WrongRequirement(ValueError):
    """Why a text is no requirement on this run."""


@dataclass(frozen=True)
class Requirement:
    """A requirement as it was given: its text, its id if it has one, and its place if it stands in a file."""

    text: str
    id: Optional[str] = None
    path: Optional[str] = None
    line: Optional[int] = None

    @property
    def title(self) -> str:
        """The text with the id before it."""
        return "%s: %s" % (self.id, self.text) if self.id is not None else self.text

    @property
    def place(self) -> str:
        """What a message about it begins with; nothing if it stands in no file."""
        return "%s:%d: " % (self.path, self.line) if self.path is not None else ""


@dataclass(frozen=True)
class Verdict:
    """Whether a requirement is met, and by what; of one that was given also how.

    `values` are the numbers that were judged, or of several the least and the greatest; a time has a unit.
    """

    text: str
    is_met: bool
    found: str
    requirement: Optional[Requirement] = None
    values: Tuple[float, ...] = ()
    unit: Optional[str] = None

    @property
    def title(self) -> str:
        """The text, with the id of the requirement before it if it has one."""
        return self.requirement.title if self.requirement is not None else self.text

    def __str__(self) -> str:
        return "%s: %s (%s)" % ("met" if self.is_met else "not met", self.title, self.found)


@dataclass(frozen=True)
class _Wanted:
    """A requirement, word by word."""

    text: str
    subject: str
    figure: str
    sign: str
    number: float
    unit: Optional[str]

    def holds(self, value: float) -> bool:
        """Whether a value is as required."""
        return _SIGNS[self.sign](value, self.number)


def judge(figures: Figures, text: str) -> Verdict:
    """Whether a run meets a requirement."""
    found = _TEXT.fullmatch(text)
    if found is None:
        raise WrongRequirement("%r is no requirement: write as `T1ms lost=0` or `T10ms response<=2 ticks`" % text)
    number = float(found["number"])
    wanted = _Wanted(text, found["subject"], found["figure"], found["sign"], number, found["unit"])
    return _judge(figures, wanted)


def _judge(figures: Figures, wanted: _Wanted) -> Verdict:
    """Judges a requirement by its subject."""
    if wanted.subject == ALL:
        name = _one_of(wanted, _ALL_FIGURES)
        return _count(wanted, sum(core[name] for core in figures["cores"]))
    for pattern, judged in _SUBJECTS.items():
        found = re.fullmatch(pattern, wanted.subject)
        if found is not None:
            return judged(figures, wanted, found.groups())
    return _owner(figures, wanted)


def _one_of(wanted: _Wanted, names: Tuple[str, ...]) -> str:
    """The figure, which has to be one of some; a unit is for times alone."""
    if wanted.figure not in names:
        text = "%r: `%s` has the figures %s"
        raise WrongRequirement(text % (wanted.text, wanted.subject, listed(names)))
    if wanted.unit is not None:
        raise WrongRequirement("%r: a unit stands only behind a time" % wanted.text)
    return wanted.figure


def _count(wanted: _Wanted, value: float) -> Verdict:
    """Judges a single number."""
    return Verdict(wanted.text, wanted.holds(value), "%g" % value, values=(value,))


def _core(figures: Figures, wanted: _Wanted, words: Tuple[str, ...]) -> Verdict:
    """Judges a figure of a core."""
    core = next((each for each in figures["cores"] if each["core"] == int(words[0])), None)
    if core is None:
        raise WrongRequirement("%r: no core %s is configured" % (wanted.text, words[0]))
    return _count(wanted, core[_one_of(wanted, _CORE_FIGURES)])


def _mailbox(figures: Figures, wanted: _Wanted, words: Tuple[str, ...]) -> Verdict:
    """Judges a figure of a mailbox; one that no envelope was put into has 0."""
    cores = [each["core"] for each in figures["cores"]]
    sender, receiver = int(words[0]), int(words[1])
    if sender not in cores or receiver not in cores or sender == receiver:
        raise WrongRequirement("%r: there is no mailbox from core %d to core %d" % (wanted.text, sender, receiver))
    name = _one_of(wanted, _MAILBOX_FIGURES)
    pairs = {(each["from"], each["to"]): each[name] for each in figures["mailboxes"]}
    return _count(wanted, pairs.get((sender, receiver), 0))


def _resource(figures: Figures, wanted: _Wanted, words: Tuple[str, ...]) -> Verdict:
    """Judges a figure of a resource."""
    rows = [each for each in figures["lock_budgets"] if each["resource"] == words[0]]
    if not rows:
        hint = did_you_mean(words[0], [each["resource"] for each in figures["lock_budgets"]])
        raise WrongRequirement("%r: no resource is called `%s`%s" % (wanted.text, words[0], hint))
    name = _one_of(wanted, tuple(_RESOURCE_FIGURES))
    return _count(wanted, _RESOURCE_FIGURES[name](row[name] for row in rows))


def _owner(figures: Figures, wanted: _Wanted) -> Verdict:
    """Judges a figure of a task or an ISR."""
    found = dict(tasks_and_isrs(figures))
    if wanted.subject not in found:
        text = "%r: no task and no ISR is called `%s`%s"
        raise WrongRequirement(text % (wanted.text, wanted.subject, did_you_mean(wanted.subject, found)))
    each = found[wanted.subject]
    if wanted.figure in _TIMES:
        return _times(wanted, each[wanted.figure], units_of(figures))
    counts = _COUNTS_BY_KIND["task" if "task" in each else "isr"]
    return _count(wanted, each[_one_of(wanted, counts + _TIMES)])


def _chain(figures: Figures, wanted: _Wanted, words: Tuple[str, ...]) -> Verdict:
    """Judges a figure of a chain."""
    is_length = wanted.figure == "length"
    name = "length" if is_length else _one_of(wanted, _CHAIN_COUNTS + ("length",))
    chain = next((each for each in figures["chains"] if each["chain"] == words[0]), None)
    if chain is None:
        return Verdict(wanted.text, False, "this run has no such chain")
    if is_length:
        return _times(wanted, chain, tuple(unit for unit in units_of(figures) if chain[unit] is not None))
    return _count(wanted, sum(chain["lost"].values()) if name == "broken" else chain[name])


# What a subject of two words or more is, and how it is judged.
_SUBJECTS: Dict[str, Callable[[Figures, _Wanted, Tuple[str, ...]], Verdict]] = {
    r"core (\d+)": _core,
    r"mailbox (\d+) to (\d+)": _mailbox,
    r"resource (\S+)": _resource,
    r"chain (.+)": _chain,
}


def _times(wanted: _Wanted, times: Figures, units: Tuple[str, ...]) -> Verdict:
    """Judges each of some times; those that still go on as far as they have come. One has to be complete."""
    unit = wanted.unit or units[0]
    if unit not in units:
        raise WrongRequirement("%r: the unit is %s" % (wanted.text, listed(units)))
    found = times[unit]
    done = [found["least"], found["greatest"]] if found["count"] else []
    is_met = bool(done) and all(wanted.holds(value) for value in done) and _still(wanted, found)
    if wanted.sign == "!=":
        raise WrongRequirement("%r: a time has <, <=, =, >= or >" % wanted.text)
    words = "%d to %d %s" % (done[0], done[1], unit) if done else "none is complete"
    values = list(done)
    if found["open"]:
        words += "; %d still open, for up to %d" % (found["open"], found["open_greatest"])
        values.append(found["open_greatest"])
    return Verdict(wanted.text, is_met, words, values=tuple(values), unit=unit)


def _still(wanted: _Wanted, found: Figures) -> bool:
    """Whether the times that still go on can be as required."""
    so_far = found["open_greatest"]
    if so_far is None or wanted.sign in (">", ">="):
        return True
    return so_far < wanted.number if wanted.sign == "<" else so_far <= wanted.number


def judge_all(figures: Figures, texts: Sequence[str]) -> List[Verdict]:
    """Judges requirements, and with them that the run ended, and that the cores agreed on a mode."""
    return judge_given(figures, [Requirement(text) for text in texts])


def judge_given(figures: Figures, given: Sequence[Requirement]) -> List[Verdict]:
    """Judges requirements that may have an id and a place, with them what `judge_all` judges."""
    verdicts = [_judge_given(figures, requirement) for requirement in given]
    if verdicts and not figures["run"]["ended"]:
        verdicts.append(Verdict("the run ends", False, "it stalled"))
    if verdicts and figures["run"]["conflict"]:
        verdicts.append(Verdict("the cores agree on a mode", False, "their modes are in conflict"))
    return verdicts


def _judge_given(figures: Figures, requirement: Requirement) -> Verdict:
    """Judges a requirement. What is wrong with one of a file is reported with its place."""
    try:
        return replace(judge(figures, requirement.text), requirement=requirement)
    except WrongRequirement as wrong:
        raise WrongRequirement(requirement.place + str(wrong)) from None
