"""What a shake found, as a plain value: it is printed as JSON or as text, and those of shards are put together.

Everything in it is a count, a least or a greatest of what the schedules show, or belongs to the first of the schedules
that change the least. So the report of all shards together is the one that is made without shards.
"""

from collections import Counter
from dataclasses import asdict
from typing import Any, Callable, Dict, Iterable, List, Optional, Sequence, Tuple

from library.ending import Failed
from library.pausing import Change, Move, Pause, interrupts_in, moves_in, pauses_in, size_of
from library.playing import ENDS
from library.shaking import KINDS, REQUIREMENT, Look, Shake, Sign
from library.shrinking import Small

Report = Dict[str, Any]

FORMAT = "findings of tools/shake"
# Of a requirement, before the first schedule is judged.
_NOT_JUDGED = {"least": None, "greatest": None, "unit": None, "not_met": 0, "schedule": None, "found": None}
# What the shards of one shake have in common.
_COMMON = ("format", "configuration", "stimuli", "digest", "seed", "schedules", "pauses", "longest", "jitter", "more")
_COMMON += ("default",)
# What tells requirements apart.
_REQUIREMENT = ("text", "id", "path", "line")


def signs_in(looks: Sequence[Look]) -> Dict[Sign, Look]:
    """The findings, each with the schedule that shows it and changes the least; the default one changes nothing."""
    found: Dict[Sign, Look] = {}
    for look in looks:
        for sign in look.signs:
            best = found.setdefault(sign, look)
            if (_changed(look), look.number) < (_changed(best), best.number):
                found[sign] = look
    # That the default schedule does not meet a requirement stands with the requirements.
    return {sign: look for sign, look in found.items() if sign.kind != REQUIREMENT or look.number}


def _changed(look: Look) -> int:
    """How many rounds and words the changes of a schedule affect."""
    return sum(size_of(change) for change in look.changes)


def report_of(settings: Report, shake: Shake, looks: Sequence[Look], smalls: Sequence[Small]) -> Report:
    """The report of some schedules, of which the first one is the default one."""
    default, drawn = looks[0], looks[1:]
    ends = Counter(look.end for look in drawn)
    rounds = shake.player.default.rounds
    return {
        "format": FORMAT,
        **settings,
        "default": {"end": default.end, "rounds": rounds, "conflict": shake.has_conflict},
        "ends": {end: ends[end] for end in ENDS},
        "cores": [
            {"core": core, "standing": standing, "differs": sum(core in look.differing for look in drawn)}
            for core, standing in shake.standings.items()
        ],
        "errors": _errors(shake, drawn),
        "requirements": _requirements(looks),
        "findings": _findings(shake, looks, smalls),
    }


def _errors(shake: Shake, drawn: Sequence[Look]) -> List[Report]:
    """How often each error line of the default schedule is printed."""
    found = []
    for line, times in shake.usual.items():
        counts = [look.errors.get(line, 0) for look in drawn]
        row = {"core": line.core, "line": line.text, "default": times}
        found.append({**row, "least": min(counts, default=times), "greatest": max(counts, default=times)})
    return found


def _requirements(looks: Sequence[Look]) -> List[Report]:
    """In how many of the drawn schedules each requirement is not met, and the first of all that does not meet it.

    Also the least and the greatest of what was judged, in all schedules with the default one.
    """
    found: Dict[str, Report] = {}
    for look in looks:
        for verdict in look.verdicts:
            given = asdict(verdict.requirement)
            row = found.setdefault(repr(given), {**given, **_NOT_JUDGED})
            row["least"] = _of_known(min, [row["least"], *verdict.values])
            row["greatest"] = _of_known(max, [row["greatest"], *verdict.values])
            row["unit"] = row["unit"] or verdict.unit
            row["not_met"] += bool(look.number and not verdict.is_met)
            if row["schedule"] is None and not verdict.is_met:
                row.update({"schedule": look.number, "found": verdict.found})
    return list(found.values())


def _of_known(choose: Callable[[List[float]], float], values: Sequence[Optional[float]]) -> Optional[float]:
    """The least or the greatest of some values, without those that are not known; None if none is."""
    known = [value for value in values if value is not None]
    return choose(known) if known else None


def _findings(shake: Shake, looks: Sequence[Look], smalls: Sequence[Small]) -> List[Report]:
    """The findings in their order."""
    times = Counter(sign for look in looks if look.number for sign in look.signs)
    first = signs_in(looks)
    found = []
    for small in sorted(smalls, key=lambda each: each.sign.order):
        look = first[small.sign]
        found.append(
            {
                **_members(small.sign),
                "times": times[small.sign],
                "schedule": look.number,
                "drawn": _changed(look),
                "pauses": [pause._asdict() for pause in sorted(pauses_in(small.changes), key=lambda each: each.first)],
                "moves": [_move(shake, move) for move in moves_in(small.changes)],
                "rounds": small.rounds,
                "turns": small.turns,
                "shorthand": small.shorthand,
                "others": [_members(sign) for sign in small.others],
                "shown": small.is_shown,
            }
        )
    return found


def _members(sign: Sign) -> Report:
    """What a finding is."""
    return {"kind": sign.kind, "cores": list(sign.cores), "lines": list(sign.lines)}


def _move(shake: Shake, move: Move) -> Report:
    """A moved interrupt, with its word among the stimuli."""
    stimuli = shake.player.stimuli[move.core]
    return {**move._asdict(), "word": stimuli[interrupts_in(stimuli)[move.interrupt - 1]]}


def changes_in(finding: Report) -> List[Change]:
    """The changes of a finding: its moved interrupts and its pauses."""
    moves = [Move(each["core"], each["interrupt"], each["shift"]) for each in finding["moves"]]
    return [*moves, *(Pause(**each) for each in finding["pauses"])]


def is_clean(report: Report) -> bool:
    """Whether nothing was found, and each requirement is met."""
    met = all(each["schedule"] is None for each in report["requirements"])
    return met and not report["findings"] and not report["default"]["conflict"]


# ---------------------------------------------------------------------------------------------------------------------
# Shards
# ---------------------------------------------------------------------------------------------------------------------


def merged(reports: Sequence[Tuple[str, Report]]) -> Report:
    """The report of all shards together, each with the path of its file."""
    path, first = reports[0]
    for other, report in reports[1:]:
        for name in _COMMON:
            if report[name] != first[name]:
                raise Failed("%s: `%s` is not that of %s: they are no shards of one shake" % (other, name, path))
        if _rows_of(report) != _rows_of(first):
            raise Failed("%s: its requirements are not those of %s" % (other, path))
    _check_shards([each["shard"] for _, each in reports])
    parts = [report for _, report in reports]
    return {
        **{name: first[name] for name in _COMMON},
        "shard": None,
        "ends": {end: sum(part["ends"][end] for part in parts) for end in ENDS},
        "cores": _joined(parts, "cores", ("core", "standing"), {"differs": sum}),
        "errors": _joined(parts, "errors", ("core", "line", "default"), {"least": min, "greatest": max}),
        "requirements": _joined_requirements(parts),
        "findings": _joined_findings(parts),
    }


def _rows_of(report: Report) -> List[List[Any]]:
    """What tells the requirements of a report apart."""
    return [[row[name] for name in _REQUIREMENT] for row in report["requirements"]]


def _check_shards(shards: Sequence[Any]) -> None:
    """All shards have to be there, each once."""
    if any(shard is None for shard in shards):
        raise Failed("a report that is not of a shard has all schedules, and cannot be merged")
    count = shards[0][1]
    numbers = sorted(shard[0] for shard in shards)
    if any(shard[1] != count for shard in shards) or len(set(numbers)) < len(numbers):
        raise Failed("these are no shards of one shake: %s" % ", ".join("%d/%d" % tuple(shard) for shard in shards))
    missing = sorted(set(range(1, count + 1)) - set(numbers))
    if missing:
        raise Failed("missing: %s" % ", ".join("%d/%d" % (number, count) for number in missing))


def _by_key(parts: Sequence[Report], name: str, key: Sequence[str]) -> Iterable[List[Report]]:
    """The rows of a table of all parts, those with the same key together, in their order."""
    found: Dict[str, List[Report]] = {}
    for part in parts:
        for row in part[name]:
            found.setdefault(repr([row[each] for each in key]), []).append(row)
    return found.values()


def _joined(
    parts: Sequence[Report], name: str, key: Sequence[str], columns: Dict[str, Callable[[List[int]], int]]
) -> List[Report]:
    """A table of all parts in one; each of some columns by a function of all its values."""
    found = []
    for rows in _by_key(parts, name, key):
        joined = {column: join([row[column] for row in rows]) for column, join in columns.items()}
        found.append({**rows[0], **joined})
    return found


def _joined_requirements(parts: Sequence[Report]) -> List[Report]:
    """The requirements, each with the first schedule of all that does not meet it."""
    found = []
    for rows in _by_key(parts, "requirements", _REQUIREMENT):
        unmet = [row for row in rows if row["schedule"] is not None]
        first = min(unmet, key=lambda row: row["schedule"], default=rows[0])
        joined = {
            "least": _of_known(min, [row["least"] for row in rows]),
            "greatest": _of_known(max, [row["greatest"] for row in rows]),
            "unit": next((row["unit"] for row in rows if row["unit"]), None),
            "not_met": sum(row["not_met"] for row in rows),
        }
        found.append({**first, **joined})
    return found


def _joined_findings(parts: Sequence[Report]) -> List[Report]:
    """The findings, each as the schedule shows it that changes the least."""
    found = []
    for rows in _by_key(parts, "findings", ("kind", "cores", "lines")):
        best = min(rows, key=lambda row: (row["drawn"], row["schedule"]))
        found.append({**best, "times": sum(row["times"] for row in rows)})
    return sorted(found, key=lambda row: (KINDS.index(row["kind"]), row["cores"], row["lines"]))
