"""Schedules in which cores pause, and stimuli in which interrupts move: what `tools/shake` changes in a run.

Such a schedule is the default one, but a core that pauses takes none of its turns in some rounds in a row, as a core
does that is slow.
"""

from itertools import groupby
from typing import Dict, FrozenSet, List, NamedTuple, Sequence, Tuple, Union

from library.formats import INTERRUPT, MOST_TURNS
from library.turns import default_round


class Pause(NamedTuple):
    """A core takes none of its turns in some rounds; the first one is counted from 1."""

    core: int
    first: int
    count: int

    def __str__(self) -> str:
        last = self.first + self.count - 1
        rounds = "round %d" % last if self.count == 1 else "the rounds %d to %d" % (self.first, last)
        return "core %d pauses in %s" % (self.core, rounds)


class Move(NamedTuple):
    """An interrupt of a core, counted from 1, comes some words later in its stimuli, or earlier if that is below 0."""

    core: int
    interrupt: int
    shift: int

    def __str__(self) -> str:
        way = "later" if self.shift > 0 else "earlier"
        words = "%d word%s" % (abs(self.shift), "" if abs(self.shift) == 1 else "s")
        return "core %d's interrupt %d comes %s %s" % (self.core, self.interrupt, words, way)


Change = Union[Pause, Move]
Changes = Tuple[Change, ...]
Stimuli = Dict[int, Tuple[str, ...]]


def size_of(change: Change) -> int:
    """How much of a run a change affects: the rounds of a pause, or the words of a move."""
    return abs(change.shift) if isinstance(change, Move) else change.count


def pauses_in(changes: Changes) -> List[Pause]:
    """The pauses among some changes."""
    return [change for change in changes if isinstance(change, Pause)]


def moves_in(changes: Changes) -> List[Move]:
    """The moved interrupts among some changes."""
    return [change for change in changes if isinstance(change, Move)]


def most_rounds(cores: Sequence[int]) -> int:
    """How many rounds a schedule can have."""
    return MOST_TURNS // len(default_round(cores))


class Rounds:
    """So many rounds of a schedule in which cores pause."""

    def __init__(self, cores: Sequence[int], pauses: Sequence[Pause], count: int):
        self.cores = tuple(cores)
        self.count = count
        self._pausing = _pausing(pauses, count)
        self._turns: Dict[FrozenSet[int], Tuple[str, ...]] = {}

    def words_of(self, number: int) -> Tuple[str, ...]:
        """The turns of a round, counted from 1."""
        pausing = self._pausing.get(number, frozenset())
        if pausing not in self._turns:
            turns = default_round(self.cores)
            self._turns[pausing] = tuple(str(turn) for turn in turns if turn.core not in pausing)
        return self._turns[pausing]

    @property
    def words(self) -> List[str]:
        """All turns."""
        return [word for number in range(1, self.count + 1) for word in self.words_of(number)]

    @property
    def numbers(self) -> List[int]:
        """For each turn the number of its round."""
        return [number for number in range(1, self.count + 1) for _ in self.words_of(number)]

    def shorthand(self, turns: int) -> str:
        """The first turns in the shorthand of `tools/expand`: equal rounds in a row are written once."""
        found, left = [], turns
        rounds = (self.words_of(number) for number in range(1, self.count + 1))
        for words, equal in groupby(rounds):
            count = sum(1 for _ in equal)
            whole = min(count, left // len(words)) if words else 0
            if whole:
                text = " ".join(words)
                found.append(text if whole == 1 else "%d*(%s)" % (whole, text))
            left -= whole * len(words)
            if whole < count:
                found += words[:left]
                left -= len(words[:left])
        return " ".join(found)


def _pausing(pauses: Sequence[Pause], count: int) -> Dict[int, FrozenSet[int]]:
    """Which cores pause in which round."""
    found: Dict[int, FrozenSet[int]] = {}
    for pause in pauses:
        for number in range(pause.first, min(pause.first + pause.count, count + 1)):
            found[number] = found.get(number, frozenset()) | {pause.core}
    return found


def interrupts_in(words: Sequence[str]) -> List[int]:
    """The places of the interrupts among the stimuli of a core."""
    return [place for place, word in enumerate(words) if word.startswith(INTERRUPT)]


def moved(stimuli: Stimuli, moves: Sequence[Move]) -> Stimuli:
    """The stimuli in which some interrupts have moved, one after another; none leaves the stimuli."""
    found = dict(stimuli)
    for core in {move.core for move in moves}:
        places = list(range(len(stimuli[core])))
        interrupts = interrupts_in(stimuli[core])
        for move in (each for each in moves if each.core == core):
            before = places.index(interrupts[move.interrupt - 1])
            place = places.pop(before)
            places.insert(max(0, min(len(places), before + move.shift)), place)
        found[core] = tuple(stimuli[core][place] for place in places)
    return found
