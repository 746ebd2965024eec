"""Draws the schedules of a shake: which cores pause where, and which interrupts move.

Most circles of waits need two cores that have a spinlock at once. So many of the schedules let a core pause where it has
got one until another core gets one too, and move an interrupt to where one of them has just got it.
"""

import random
from dataclasses import dataclass
from typing import List, Optional

from library.ending import Failed
from library.findings import counted
from library.items import Item
from library.model import model_of
from library.pausing import Change, Changes, Move, Pause, interrupts_in, most_rounds
from library.playing import Player

# How many rounds a pause may go on behind the round in which the other core gets its spinlock.
_BEHIND = 8


@dataclass(frozen=True)
class Draws:
    """How schedules are drawn: the seed, the most pauses and moved interrupts of one, and how far these go."""

    seed: int
    pauses: int
    longest: int
    jitter: int


class Drawing:
    """The schedules of a run, each by its number."""

    def __init__(self, player: Player, draws: Draws):
        self.player = player
        self.draws = draws
        started = model_of(player.draft).started
        self.started = [core for core in player.cores if core in started]
        self.interrupts = [
            (core, number)
            for core in self.started
            for number in range(1, len(interrupts_in(player.stimuli[core])) + 1)
        ]

    def changes_of(self, number: int) -> Changes:
        """The changes of a schedule; the default one is number 0."""
        if number == 0:
            return ()
        draws = random.Random("%d/%d" % (self.draws.seed, number))
        found: List[Change] = []
        if self.player.gets and draws.random() < 0.5:
            found += self._meeting(draws)
        pauses = draws.randint(0, self.draws.pauses - 1) if found else draws.randint(1, self.draws.pauses)
        found += [self._pause(draws) for _ in range(pauses)]
        if self.draws.jitter and self.interrupts:
            found += [self._move(draws) for _ in range(draws.randint(0, self.draws.pauses))]
        return tuple(found)

    def _pause(self, draws: random.Random) -> Pause:
        """A pause anywhere. Short ones are as frequent as long ones."""
        most = min(self.draws.longest, 1 << draws.randrange(self.draws.longest.bit_length() + 1))
        first = draws.randint(1, max(1, self.player.default.rounds))
        return Pause(draws.choice(self.started), first, draws.randint((most + 1) // 2, most))

    def _move(self, draws: random.Random) -> Move:
        """Any interrupt, moved by any distance."""
        shift = draws.choice((-1, 1)) * draws.randint(1, self.draws.jitter)
        return Move(*draws.choice(self.interrupts), shift)

    def _meeting(self, draws: random.Random) -> List[Change]:
        """Two cores that have a spinlock at once: one pauses behind where it gets it until the other one gets its own.

        There is nothing if no other core gets one not long before.
        """
        later = draws.choice(self.player.gets)
        first = later.round - self.draws.longest
        others = [item for item in self.player.gets if item.core != later.core and first <= item.round <= later.round]
        if not others:
            return []
        earlier = draws.choice(others)
        count = later.round - earlier.round + draws.randint(0, _BEHIND)
        found: List[Change] = [Pause(earlier.core, earlier.round + 1, max(1, min(self.draws.longest, count)))]
        near = self._near(earlier) + self._near(later)
        return found + ([draws.choice(near)] if near else [])

    def _near(self, item: Item) -> List[Move]:
        """The moves that take an interrupt right behind the `op` by which its core asked for a spinlock."""
        found = []
        for number, place in enumerate(interrupts_in(self.player.stimuli[item.core]), 1):
            # What stands behind an interrupt comes one word earlier when that is taken out.
            shift = item.stimulus - place - (place < item.stimulus)
            if 0 < abs(shift) <= self.draws.jitter:
                found.append(Move(item.core, number, shift))
        return found


def longest_for(player: Player, pauses: int, given: Optional[int]) -> int:
    """How many rounds a pause may have, by default a quarter of the default ones; all pauses fit in a schedule."""
    if player.spare_rounds < pauses:
        text = "the default schedule has %d rounds, and a schedule of %s at most %d: no pauses fit in"
        cores = counted(len(player.cores), "core")
        raise Failed(text % (player.default.rounds, cores, most_rounds(player.cores)))
    wanted = max(4, player.default.rounds // 4) if given is None else given
    return max(1, min(wanted, player.spare_rounds // pauses))
