"""Plays a configuration by many schedules drawn by a seed, and says what they show that the default one does not.

What a schedule is depends on the seed and its number alone, and how a finding is made small on the finding alone. So the
findings are the same however the schedules are shared among processes and shards.
"""

from dataclasses import dataclass
from typing import Any, Dict, List, NamedTuple, Sequence, Tuple

from library.drawing import Drawing, Draws
from library.error_lines import ErrorLine, error_lines
from library.figures import figures_of
from library.jobs import Jobs
from library.model import SEPARATE, model_of
from library.pausing import Changes, moves_in
from library.playing import ENDED, Outcome, Player
from library.requirements import Requirement, Verdict, judge_given
from library.stalls import Stall

# The kinds of findings, the gravest first.
MISTAKE = "mistake"  # of mcos: what a core prints differs where it must not
CIRCLE = "circle"
KEPT = "kept"
STALL = "stall"  # for another reason
REQUIREMENT = "requirement"
ERROR = "error"
KINDS = (MISTAKE, CIRCLE, KEPT, STALL, REQUIREMENT, ERROR)


class Sign(NamedTuple):
    """What a finding is: its kind, the cores, and the lines that show it."""

    kind: str
    cores: Tuple[int, ...]
    lines: Tuple[str, ...]

    @property
    def order(self) -> Tuple[Any, ...]:
        """Where it stands among others."""
        return (KINDS.index(self.kind), self.cores, self.lines)


@dataclass(frozen=True)
class Look:
    """What one schedule shows. The schedule 0 is the default one."""

    number: int
    changes: Changes
    end: str
    differing: Tuple[int, ...]
    errors: Dict[ErrorLine, int]
    signs: Tuple[Sign, ...]
    verdicts: Tuple[Verdict, ...]


class Shake:
    """Schedules of one configuration, with the requirements that each is held to."""

    def __init__(self, player: Player, draws: Draws, wanted: Sequence[Requirement]):
        self.player = player
        self.drawing = Drawing(player, draws)
        self.wanted = wanted
        model = model_of(player.draft)
        self.standings = {core: model.standing(core) for core in player.cores}
        self.alone = {core: player.alone(core) for core, word in self.standings.items() if word == SEPARATE}
        self.usual = error_lines(player.default.blocks)
        self.has_conflict = any("conflict" in block for block in player.default.blocks.values())

    def look(self, number: int) -> Look:
        """Plays one schedule."""
        changes = self.drawing.changes_of(number)
        outcome = self.player.outcome(changes)
        signs = self.signs(changes, outcome)
        is_mistaken = any(sign.kind == MISTAKE for sign in signs)
        verdicts = self.verdicts(changes) if self.wanted and not is_mistaken else ()
        signs += [unmet(verdict) for verdict in verdicts if not verdict.is_met]
        return Look(
            number,
            changes,
            outcome.end,
            tuple(core for core in self.player.cores if self._differs(core, outcome) and not _moves(core, changes)),
            error_lines(outcome.blocks),
            tuple(signs),
            verdicts,
        )

    def signs(self, changes: Changes, outcome: Outcome) -> List[Sign]:
        """What a run shows that is a finding, but for requirements that it does not meet.

        What is printed by mistake shows nothing else: it may fit no log.
        """
        mistaken = [core for core in self.player.cores if self._is_mistaken(core, changes, outcome)]
        if mistaken:
            return [Sign(MISTAKE, (core,), ()) for core in mistaken]
        found = signs_of_stall(outcome.stall) if outcome.stall is not None else []
        errors = error_lines(outcome.blocks)
        return found + [Sign(ERROR, (each.core,), (each.text,)) for each in errors if each not in self.usual]

    def shows(self, changes: Changes, sign: Sign) -> bool:
        """Whether a run with changes shows a finding. An error is looked for by itself, without why a run stalled."""
        if sign.kind == REQUIREMENT:
            return any(sign == unmet(verdict) for verdict in self.verdicts(changes) if not verdict.is_met)
        outcome = self.player.outcome(changes)
        if sign.kind == ERROR:
            return ErrorLine(sign.cores[0], sign.lines[0]) in error_lines(outcome.blocks)
        return sign in self.signs(changes, outcome)

    def verdicts(self, changes: Changes) -> Tuple[Verdict, ...]:
        """Whether a run with changes meets the requirements. Why it stalls is a finding of its own."""
        return self.judge(self.player.jobs(changes))

    def judge(self, jobs: Jobs) -> Tuple[Verdict, ...]:
        """Whether a run meets the requirements that were given."""
        verdicts = judge_given(figures_of(jobs), self.wanted)
        return tuple(verdict for verdict in verdicts if verdict.requirement is not None)

    def _differs(self, core: int, outcome: Outcome) -> bool:
        """Whether a core's block differs from that of the default schedule."""
        return outcome.blocks[core] != self.player.default.blocks[core]

    def _is_mistaken(self, core: int, changes: Changes, outcome: Outcome) -> bool:
        """Whether a core prints what it must not.

        By the turns of the default schedule each core prints the same as without a list of turns. What a separate core
        prints is always a prefix of what it prints alone, and all of that if the run ended; its stimuli are the same.
        """
        if not changes and self._differs(core, outcome):
            return True
        if core not in self.alone or _moves(core, changes):
            return False
        block, alone = outcome.blocks[core], self.alone[core]
        return block != (alone if outcome.end == ENDED else alone[: len(block)])


def _moves(core: int, changes: Changes) -> bool:
    """Whether interrupts of a core have moved, so that its own stimuli are other ones."""
    return any(move.core == core for move in moves_in(changes))


def signs_of_stall(stall: Stall) -> List[Sign]:
    """The findings of a run that stalled: the circles, and the spinlocks that drained cores keep, or another reason."""
    circles = [Sign(CIRCLE, tuple(wait.core for wait in circle), tuple(map(str, circle))) for circle in stall.circles]
    kept = []
    for each in stall.kept:
        waits = [str(wait) for wait in stall.waits if (wait.holder, wait.name) == (each.holder, each.spinlock)]
        kept.append(Sign(KEPT, (each.core,), (str(each), *waits)))
    return circles + kept or [Sign(STALL, (), ())]


def unmet(verdict: Verdict) -> Sign:
    """The finding that a requirement is not met."""
    return Sign(REQUIREMENT, (), (verdict.title,))
