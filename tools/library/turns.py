"""The turns of a schedule, and at which of them each core took its items.

The logs say what each core took, in order. A turn results in the next item of its core if that is what such a turn
does, and if what it waits for is there. So the turns of a schedule, played over the logs, give the turn of each item.
"""

from collections import Counter, deque
from itertools import chain, islice, repeat
from typing import Dict, List, NamedTuple, Optional, Sequence, Set

from library import progress
from library.ending import Failed
from library.formats import TURN
from library.items import OK, Item, items_of
from library.progress import Work
from library.runs import Run

SERVE = "s"
OWN = "o"
LOOK = "l"
_KINDS = {
    **dict.fromkeys(("in",), SERVE),
    **dict.fromkeys(("began", "entered", "readied", "stim", "post", "granted", "tried", "freed", "drained"), OWN),
    **dict.fromkeys(("on", "pass1", "pass2", "halt", "passend", "last"), LOOK),
}
# The item of a core that reaches a barrier, by the one that passes it.
_BARRIERS = {"pass1": "entered", "pass2": "readied", "passend": "drained"}


class Turn(NamedTuple):
    """A turn of a schedule."""

    core: int
    kind: str
    sender: Optional[int] = None

    def __str__(self) -> str:
        return "%d%s%s" % (self.core, self.kind, "" if self.sender is None else self.sender)


def turn_of(word: str) -> Turn:
    """The turn of a word of a schedule."""
    found = TURN.fullmatch(word)
    if found is None:
        raise ValueError("%r is no turn" % word)
    sender = found["sender"]
    return Turn(int(found["core"]), word[-1] if sender is None else SERVE, None if sender is None else int(sender))


def default_round(cores: Sequence[int]) -> List[Turn]:
    """The turns of a round of the default schedule."""
    found = []
    for core in cores:
        found += [Turn(core, SERVE, other) for other in cores if other != core]
        found += [Turn(core, OWN), Turn(core, LOOK)]
    return found


def first_turns(run: Run, count: int) -> List[str]:
    """The words of so many turns of a run's schedule."""
    if run.turns is not None:
        return list(run.turns[:count])
    one = [str(turn) for turn in default_round(run.cores)]
    return list(islice(chain.from_iterable(repeat(one)), count))


def placed_items(run: Run) -> List[Item]:
    """The items of all cores in the order of the turns, each with its turn."""
    steps = sum(map(len, run.logs.values()))
    with progress.shown("reading the logs", steps) as work:
        play = _Play(run, work)
    with progress.shown("following the turns", steps) as work:
        return _listed(run, play, work) if run.turns is not None else _in_rounds(run, play, work)


def _listed(run: Run, play: "_Play", work: Work) -> List[Item]:
    """Plays the turns of a listed schedule."""
    found = []
    for number, word in enumerate(run.turns or (), 1):
        item = play.taken(turn_of(word))
        if item is not None:
            item.turn = number
            item.round = run.rounds[number - 1] if run.rounds is not None else None
            found.append(item)
            work.done = len(found)
    play.check_all_taken()
    return found


def _in_rounds(run: Run, play: "_Play", work: Work) -> List[Item]:
    """Plays rounds of the default schedule, as long as one changes something."""
    one = default_round(run.cores)
    found: List[Item] = []
    number, before = 0, -1
    while len(found) > before:
        work.done = before = len(found)
        for place, turn in enumerate(one, 1):
            item = play.taken(turn)
            if item is not None:
                item.turn, item.round = number * len(one) + place, number + 1
                found.append(item)
        number += 1
    play.check_all_taken()
    return found


class _Play:
    """The cores between two turns: which items are left, what is in the mailboxes, who has reached which barrier.

    Of each spinlock that is taken there is the core that has it.
    """

    def __init__(self, run: Run, work: Work):
        self.left = {}
        for core in run.cores:
            self.left[core] = deque(items_of(run, core))
            work.done += len(self.left[core])
        self.cap = run.draft["cap"]
        self.mail: Dict[tuple, int] = Counter()
        self.started = {run.draft["master"]}
        self.reached: Dict[str, Set[int]] = {word: set() for word in _BARRIERS.values()}
        self.holders: Dict[str, int] = {}
        self.is_halted = False  # a core has asked for the shutdown of all

    def taken(self, turn: Turn) -> Optional[Item]:
        """The item that a turn results in, if it results in one."""
        left = self.left[turn.core]
        if not left:
            return None
        words = left[0].words
        # A core that asked for the shutdown of all cores is halted by its own turn.
        kind = OWN if left[0].asked else _KINDS[words[0]]
        if kind != turn.kind or not self._can(turn, words):
            return None
        self._take(turn.core, words)
        return left.popleft()

    def _can(self, turn: Turn, words: List[str]) -> bool:
        """Whether what an item waits for is there."""
        word = words[0]
        if word == "in":
            return int(words[1]) == turn.sender and self.mail[turn.sender, turn.core] > 0
        if word == "post":
            return self.mail[turn.core, int(words[1])] < self.cap
        if word == "on":
            return turn.core in self.started
        if word == "halt":
            return self.is_halted or turn.kind == OWN
        if word == "granted":
            return words[1] not in self.holders
        return word not in _BARRIERS or self.started <= self.reached[_BARRIERS[word]]

    def _take(self, core: int, words: List[str]) -> None:
        """Does what an item does to the others."""
        word = words[0]
        if word == "in":
            self.mail[int(words[1]), core] -= 1
        elif word == "post":
            self.mail[core, int(words[1])] += 1
        elif word == "began" and words[2] == OK:
            self.started.add(int(words[1]))
        elif word == "granted" or (word == "tried" and words[2] == "1"):
            self.holders[words[1]] = core
        elif word == "freed":
            del self.holders[words[1]]
        elif word == "halt":
            self.is_halted = True
        elif word in self.reached:
            self.reached[word].add(core)

    def check_all_taken(self) -> None:
        """The logs are of this schedule if each of their items was taken."""
        for core, left in self.left.items():
            if left:
                raise Failed("core %d, item %d `%s` has no turn" % (core, left[0].number, left[0].text))
