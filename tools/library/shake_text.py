"""What a shake found, as text; and the files by which a finding is played again."""

import json
from typing import Any, List, Sequence, Tuple

from library import ending
from library.columns import columns
from library.findings import counted
from library.pausing import Move, moved, moves_in
from library.playing import ENDED, Stimuli, stimuli_text
from library.requirements import Requirement, Verdict
from library.shake_report import Report, changes_in
from library.shaking import CIRCLE, ERROR, KEPT, MISTAKE, REQUIREMENT, STALL
from library.shrinking import expanded

_TITLES = {
    CIRCLE: "a circle of waits",
    KEPT: "a spinlock kept by a core that has drained (--more gives it more stimuli)",
    STALL: "the run stalls",
}
_WISHES = {
    CIRCLE: "no circle of waits",
    KEPT: "no spinlock is kept by a core that has drained",
    STALL: "no run stalls",
}
Paths = Sequence[Tuple[str, str]]


def text_of(report: Report, saved: Paths = ()) -> str:
    """A report as text, with the paths of the stimuli and the schedule of each finding if they are saved."""
    sections = [("Run", _run(report)), ("Cores", _table(("core", "standing", "differs"), report["cores"], 2))]
    titles = ("core", "line", "default", "least", "greatest")
    sections.append(("Errors of the default schedule", _table(titles, report["errors"], 2)))
    if report["requirements"]:
        sections.append(("Requirements", [_verdict(report, each) for each in report["requirements"]]))
    sections.append(("Findings", _findings(report, saved) or ["none"]))
    return "\n".join("%s\n%s" % (title, "".join("  %s\n" % line for line in lines)) for title, lines in sections)


def _table(titles: Sequence[str], rows: Sequence[Report], first_number: int) -> List[str]:
    """A table of a report; from one column on there are numbers."""
    if not rows:
        return ["none"]
    cells = [[str(row[title]) for title in titles] for row in rows]
    return columns([titles] + cells, range(first_number, len(titles)))


def played_in(report: Report) -> int:
    """How many schedules were drawn and played."""
    return sum(report["ends"].values())


def _run(report: Report) -> List[str]:
    """The run as a whole."""
    default = report["default"]
    conflict = " in a conflict of modes, so no core does any work" if default["conflict"] else ""
    ends = ["%d %s" % (times, end) for end, times in report["ends"].items() if times or end == ENDED]
    shard = ", shard %d/%d" % tuple(report["shard"]) if report["shard"] is not None else ""
    drawn = "%s, seed %d%s: %s" % (counted(played_in(report), "schedule"), report["seed"], shard, ", ".join(ends))
    return ["default schedule: %s%s, %d rounds" % (default["end"], conflict, default["rounds"]), drawn]


def _verdict(report: Report, row: Report) -> str:
    """Whether a requirement is met by all schedules."""
    title = row["text"] if row["id"] is None else "%s: %s" % (row["id"], row["text"])
    return "%s: %s (%s)" % ("met" if row["schedule"] is None else "not met", title, _detail(report, row))


def _detail(report: Report, row: Report) -> str:
    """Within which bounds the figure of a requirement is in all schedules, and which one does not meet it first."""
    played = counted(played_in(report), "schedule")
    bounds = _bounds(row)
    if row["schedule"] is None:
        return "%s in all of %s" % (bounds, played)
    first = "the default one" if row["schedule"] == 0 else "%d" % row["schedule"]
    unmet = "not met by %d of %s, first by %s: %s" % (row["not_met"], played, first, row["found"])
    return "%s; %s" % (bounds, unmet) if bounds else unmet


def _bounds(row: Report) -> str:
    """The least and the greatest of what a requirement is on; nothing if no schedule has it."""
    if row["least"] is None:
        return ""
    text = "%g" % row["least"] if row["least"] == row["greatest"] else "%g to %g" % (row["least"], row["greatest"])
    return "%s %s" % (text, row["unit"]) if row["unit"] else text


def verdicts_of(report: Report) -> List[Verdict]:
    """The report as verdicts, for a CI: on each requirement, and that nothing else is found, or one for each finding."""
    found = []
    for row in report["requirements"]:
        requirement = Requirement(row["text"], row["id"], row["path"], row["line"])
        detail = _detail(report, row)
        found.append(Verdict(row["text"], row["schedule"] is None, detail, requirement))
    if report["default"]["conflict"]:
        found.append(Verdict("the cores agree on a mode", False, "their modes are in conflict"))
    others = [each for each in report["findings"] if each["kind"] != REQUIREMENT]
    if not others:
        found.append(Verdict("nothing is found", True, "by %s" % counted(played_in(report), "schedule")))
    return found + [Verdict(_wish(each), False, "; ".join(_seen(each))) for each in others]


def _wish(finding: Report) -> str:
    """What should be in place of a finding."""
    if finding["kind"] in _WISHES:
        return _WISHES[finding["kind"]]
    core = finding["cores"][0]
    if finding["kind"] == MISTAKE:
        return "the block of core %d does not differ" % core
    return "core %d does not print `%s`" % (core, finding["lines"][0])


# ---------------------------------------------------------------------------------------------------------------------
# Findings
# ---------------------------------------------------------------------------------------------------------------------


def _findings(report: Report, saved: Paths) -> List[str]:
    """The findings. One that the schedule of another one shows too stands there alone."""
    lines: List[str] = []
    beside: List[Any] = []
    for place, finding in enumerate(report["findings"]):
        if _key(finding) in beside:
            continue
        beside += [_key(other) for other in finding["others"]]
        lines += _finding(report, finding, place + 1, saved[place] if saved else None)
    return lines


def _key(finding: Report) -> Tuple[Any, ...]:
    """What tells findings apart."""
    return finding["kind"], finding["cores"], finding["lines"]


def _title(finding: Report) -> str:
    """What was found."""
    kind = finding["kind"]
    if kind == MISTAKE:
        return "MISTAKE OF mcos: the block of core %d differs, and must not" % finding["cores"][0]
    if kind == REQUIREMENT:
        return "not met: %s" % finding["lines"][0]
    if kind == ERROR:
        return "core %d prints `%s`" % (finding["cores"][0], finding["lines"][0])
    return _TITLES[kind]


def _finding(report: Report, finding: Report, number: int, saved: Any) -> List[str]:
    """A finding: how often it was seen, what has to come together for it, and how it is played again."""
    times, *seen = _seen(finding)
    lines = ["%d. %s, %s" % (number, _title(finding), times)] + ["   " + line for line in seen]
    lines += ["   with it %s" % _title(other) for other in finding["others"]]
    lines.append("   %d turns, %d rounds: %s" % (finding["turns"], finding["rounds"], _command(report, finding, saved)))
    return lines if finding["shown"] else lines + ["   NOT SHOWN when it was played again"]


def _seen(finding: Report) -> List[str]:
    """How often a finding was seen, who waits for whom, and what has to come together for it."""
    by = ", by the default schedule too" if finding["schedule"] == 0 else ""
    lines = ["in %s%s" % (counted(finding["times"], "schedule"), by)]
    if finding["kind"] in (CIRCLE, KEPT):
        lines += finding["lines"]
    words = {(each["core"], each["interrupt"]): each["word"] for each in finding["moves"]}
    for change in changes_in(finding):
        word = " (%s)" % words[change.core, change.interrupt] if isinstance(change, Move) else ""
        lines.append("if %s%s" % (change, word))
    return lines


def _command(report: Report, finding: Report, saved: Any) -> str:
    """How a finding is played again."""
    if saved:
        return "mcos run %s %s --schedule %s" % (report["configuration"], *saved)
    return json.dumps(finding["shorthand"])


def save(report: Report, stimuli: Stimuli, prefix: str) -> Paths:
    """Writes the schedule of each finding, and its stimuli if they are not those that were given; gives the paths."""
    paths = []
    for number, finding in enumerate(report["findings"], 1):
        schedule, own = "%s-%d.json" % (prefix, number), report["stimuli"]
        ending.save(schedule, json.dumps(" ".join(expanded(finding["shorthand"]))) + "\n")
        moves = moves_in(tuple(changes_in(finding)))
        if moves or report["more"]:
            own = "%s-%d-stimuli.json" % (prefix, number)
            ending.save(own, stimuli_text(moved(stimuli, moves)))
        paths.append((own, schedule))
    return paths
