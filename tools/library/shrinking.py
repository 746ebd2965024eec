"""Makes a schedule small that shows a finding: the fewest pauses and moved interrupts, the shortest, the fewest turns.

Each small one is written in the shorthand of `tools/expand`, expanded again and played once more.
"""

import json
from dataclasses import dataclass
from itertools import combinations
from typing import Callable, Iterator, List, Optional, Tuple

from library import expanding
from library.error_lines import ErrorLine, error_lines
from library.jobs import jobs_of
from library.pausing import Change, Changes, Move, Pause, Rounds, size_of
from library.places import read_document
from library.runs import Run
from library.shaking import CIRCLE, ERROR, KEPT, MISTAKE, REQUIREMENT, STALL, Shake, Sign, signs_of_stall, unmet
from library.stalls import stall_of
from library.timeline import timeline_of

Shows = Callable[[Changes], bool]


def smallest(changes: Changes, shows: Shows) -> Changes:
    """Of changes that show something those that are needed for it, each as short as it can be."""
    left = _fewest(list(changes), shows)
    for place in range(len(left)):
        left[place] = _shortest(left, place, shows)
    return tuple(left)


def _fewest(changes: List[Change], shows: Shows) -> List[Change]:
    """Leaves out each change that is not needed, and makes one pause of two, until nothing of that can be done."""
    fewer: Optional[List[Change]] = changes
    while fewer is not None:
        changes = fewer
        fewer = next((some for some in _fewer(changes) if shows(tuple(some))), None)
    return changes


def _fewer(changes: List[Change]) -> Iterator[List[Change]]:
    """Changes without one of them, and with one pause in place of two of one core."""
    for place in range(len(changes)):
        yield changes[:place] + changes[place + 1 :]
    for one, other in combinations([change for change in changes if isinstance(change, Pause)], 2):
        if one.core == other.core:
            rest = [change for change in changes if change is not one and change is not other]
            yield from (rest + [pause] for pause in _joined(*sorted((one, other))))


def _joined(one: Pause, other: Pause) -> List[Pause]:
    """Pauses that may do what two of one core do: as long as both, where one of them is, or from one to the other."""
    count = one.count + other.count
    end = max(one.first + one.count, other.first + other.count)
    return [one._replace(count=count), other._replace(count=count), one._replace(count=end - one.first)]


def _shortest(changes: List[Change], place: int, shows: Shows) -> Change:
    """The shortest form of a change, beside the others as they are: by halves, then by less."""
    change = changes[place]
    step = size_of(change) // 2
    while step:
        smaller = next((each for each in _smaller(change, step) if shows(_with(changes, place, each))), None)
        if smaller is None:
            step //= 2
        else:
            change = smaller
    return change


def _with(changes: List[Change], place: int, change: Change) -> Changes:
    """Changes with another one in a place."""
    return tuple(changes[:place] + [change] + changes[place + 1 :])


def _smaller(change: Change, step: int) -> Iterator[Change]:
    """A change that goes less far by a step: a pause that ends earlier, or begins later."""
    if size_of(change) <= step:
        return
    if isinstance(change, Move):
        yield change._replace(shift=change.shift - step if change.shift > 0 else change.shift + step)
    else:
        yield change._replace(count=change.count - step)
        yield Pause(change.core, change.first + step, change.count - step)


@dataclass(frozen=True)
class Small:
    """A finding with a small schedule that shows it: its turns as shorthand, and what else it shows.

    `is_shown` says whether it did so when it was played once more.
    """

    sign: Sign
    changes: Changes
    rounds: int
    turns: int
    shorthand: str
    others: Tuple[Sign, ...]
    is_shown: bool


def small_of(shake: Shake, sign: Sign, changes: Changes) -> Small:
    """A small schedule for a finding that a schedule shows."""
    left = smallest(changes, lambda some: shake.shows(some, sign))
    outcome = shake.player.outcome(left)
    rounds = shake.player.rounds(left)
    turns = _turns(shake, sign, left, rounds)
    shorthand = rounds.shorthand(turns)
    words = expanded(shorthand)
    numbers = rounds.numbers[:turns]
    is_shown = words == rounds.words[:turns] and _is_shown(shake, sign, shake.player.run(left, words, numbers))
    others = sorted(set(shake.signs(left, outcome)) - {sign}, key=lambda each: each.order)
    return Small(sign, left, numbers[-1] if numbers else 0, turns, shorthand, tuple(others), is_shown)


def expanded(shorthand: str) -> List[str]:
    """The turns for which a shorthand stands, as `tools/expand` prints them."""
    document = read_document(json.dumps(shorthand).encode())
    return json.loads(expanding.expand(document, expanding.SCHEDULE).text).split()


def _turns(shake: Shake, sign: Sign, changes: Changes, rounds: Rounds) -> int:
    """How many turns are needed: of an error up to its line, and else up to the last turn that changes something.

    A stall is shown by one more round.
    """
    words = rounds.words
    if sign.kind == MISTAKE:
        return len(words)  # What a program prints that makes mistakes may fit no turn.
    if sign.kind != ERROR:
        items = shake.player.jobs(changes).timeline.items
        last = (items[-1].round if items else 0) + (sign.kind in (CIRCLE, KEPT, STALL))
        return sum(number <= last for number in rounds.numbers)
    line = ErrorLine(sign.cores[0], sign.lines[0])
    low, high = 0, len(words)
    while low < high:
        middle = (low + high) // 2
        if error_lines(shake.player.blocks(changes, " ".join(words[:middle])))[line]:
            high = middle
        else:
            low = middle + 1
    return low


def _is_shown(shake: Shake, sign: Sign, run: Run) -> bool:
    """Whether a run shows a finding."""
    if sign.kind == ERROR:
        return error_lines(run.blocks)[ErrorLine(sign.cores[0], sign.lines[0])] > 0
    if sign.kind == MISTAKE:
        return run.blocks[sign.cores[0]] != shake.player.default.blocks[sign.cores[0]]
    if sign.kind == REQUIREMENT:
        verdicts = shake.judge(jobs_of(timeline_of(run)))
        return any(unmet(verdict) == sign for verdict in verdicts if not verdict.is_met)
    stall = stall_of(jobs_of(timeline_of(run)))
    return stall is not None and (sign.kind == STALL or sign in signs_of_stall(stall))
