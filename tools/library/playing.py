"""Plays a configuration by schedules in which cores pause, until each run ends or changes nothing any more."""

import json
import os
from dataclasses import dataclass, replace
from functools import cached_property, lru_cache
from typing import Dict, List, Optional, Sequence, Tuple

from library import ending
from library.drafts import Draft
from library.ending import Failed
from library.formats import MOST_STIMULI
from library.items import Item
from library.jobs import Jobs, jobs_of
from library.pausing import Changes, Rounds, Stimuli, most_rounds, moved, moves_in, pauses_in
from library.program import printed
from library.runs import Run, Source, accepted_draft, blocks_of, read_log
from library.stalls import Stall, stall_of
from library.timeline import Timeline, timeline_of

ENDED = "ended"
STALLED = "stalled"
UNFINISHED = "unfinished"  # it still goes on where a schedule can have no more turns
ENDS = (ENDED, STALLED, UNFINISHED)

Blocks = Dict[int, Tuple[str, ...]]
# How many rounds a schedule has beyond those of the default one and the pauses.
_SPARE = 20
# So many runs are kept: making a finding small asks for some of them again.
_KEPT = 32


@dataclass(frozen=True)
class Outcome:
    """What a run printed, and how it ended after how many rounds; of one that stalled also the run with its logs."""

    blocks: Blocks
    end: str
    rounds: int
    stalled: Optional[Run] = None

    @cached_property
    def stall(self) -> Optional[Stall]:
        """Why it stalled, if it did."""
        return stall_of(jobs_of(timeline_of(self.stalled))) if self.stalled is not None else None


def read_stimuli(path: str, draft: Draft, more: int) -> Stimuli:
    """The stimuli of all cores of a configuration that the program has accepted, each with so many more `op`."""
    words = json.loads(ending.read(path))
    found = {core: tuple(words.get(str(core), "").split()) + ("op",) * more for core in sorted(draft.ids)}
    for core, stimuli in found.items():
        if more and len(stimuli) > MOST_STIMULI:
            text = "core %d would have %d stimuli, and at most %d are allowed"
            raise Failed(text % (core, len(stimuli), MOST_STIMULI))
    return found


def stimuli_text(stimuli: Stimuli) -> str:
    """Stimuli as a file has them."""
    words = {str(core): " ".join(words) for core, words in stimuli.items()}
    return "{\n" + ",\n".join("%s: %s" % (json.dumps(core), json.dumps(text)) for core, text in words.items()) + "\n}\n"


class Player:
    """Plays a run with changes. A folder takes the files that the program reads, several processes may share it."""

    def __init__(self, source: Source, more: int, folder: str):
        source.printed()  # reports a fault before anything else
        self.draft = accepted_draft(source.configuration)
        self.cores = sorted(self.draft.ids)
        self.stimuli = read_stimuli(source.stimuli, self.draft, more)
        self.folder = folder
        path = os.path.join(folder, "stimuli.json")
        ending.save(path, stimuli_text(self.stimuli))
        self.source = replace(source, stimuli=path)
        self.outcome = lru_cache(_KEPT)(self._outcome)

    @cached_property
    def default(self) -> Outcome:
        """The run of the default schedule, as the program plays it by itself."""
        run = self._default.run
        items = self._default.items
        return Outcome(run.blocks, ENDED if run.has_ended else STALLED, items[-1].round if items else 0)

    @cached_property
    def _default(self) -> Timeline:
        """The timeline of the default schedule."""
        return timeline_of(self._run(self.source))

    @cached_property
    def gets(self) -> List[Item]:
        """The items by which cores get spinlocks by the default schedule."""
        items = (item for item in self._default.items if item.words[0] in ("granted", "tried"))
        return [item for item in items if item.words[-1] != "0"]

    def alone(self, core: int) -> Tuple[str, ...]:
        """What a separate core prints alone: by the configuration that the program cuts, with its own stimuli."""
        paths = [os.path.join(self.folder, "%s-alone-%d.json" % (name, core)) for name in ("configuration", "stimuli")]
        ending.save(paths[0], printed(self.source.program, "cut", self.source.configuration, str(core)).text)
        ending.save(paths[1], stimuli_text({core: self.stimuli[core]}))
        return blocks_of(Source(self.source.program, *paths).printed().text)[core]

    @property
    def spare_rounds(self) -> int:
        """How many rounds of pauses a schedule has room for."""
        return most_rounds(self.cores) - self.default.rounds - _SPARE

    def rounds(self, changes: Changes, count: Optional[int] = None) -> Rounds:
        """The rounds of a schedule with changes, by default as many as its run has."""
        count = self.outcome(changes).rounds if count is None else count
        return Rounds(self.cores, pauses_in(changes), count)

    def source_of(self, changes: Changes, schedule: str) -> Source:
        """The run of a schedule, whose turns are divided by spaces, and of the stimuli with the moved interrupts."""
        path = self._path("schedule")
        ending.save(path, json.dumps(schedule))
        return replace(self._with_stimuli(changes), schedule=path)

    def run(self, changes: Changes, words: Sequence[str], numbers: Sequence[int]) -> Run:
        """A run of some turns, each with the number of its round, with its logs."""
        source = self.source_of(changes, " ".join(words))
        return self._run(source, tuple(words), tuple(numbers))

    def jobs(self, changes: Changes, count: Optional[int] = None) -> Jobs:
        """The jobs of a run with changes, by default of as many rounds as it takes."""
        rounds = self.rounds(changes, count)
        return jobs_of(timeline_of(self.run(changes, rounds.words, rounds.numbers)))

    def blocks(self, changes: Changes, schedule: str) -> Blocks:
        """What a run prints by a schedule."""
        return blocks_of(self.source_of(changes, schedule).printed().text)

    def _path(self, name: str) -> str:
        """A file of this process."""
        return os.path.join(self.folder, "%s-%d.json" % (name, os.getpid()))

    def _with_stimuli(self, changes: Changes) -> Source:
        """The run of the stimuli with the moved interrupts."""
        moves = moves_in(changes)
        if not moves:
            return self.source
        path = self._path("stimuli")
        ending.save(path, stimuli_text(moved(self.stimuli, moves)))
        return replace(self.source, stimuli=path)

    def _run(
        self, source: Source, words: Optional[Tuple[str, ...]] = None, numbers: Optional[Tuple[int, ...]] = None
    ) -> Run:
        """A run with its logs."""
        whole = source.printed()
        logs = self._logs(source)
        return Run(self.draft, blocks_of(whole.text), logs, not whole.is_stalled, words, numbers)

    def _logs(self, source: Source) -> Dict[int, Tuple[str, ...]]:
        """The logs of all cores of a run."""
        return {core: read_log(source, core) for core in self.cores}

    def _logs_of_rounds(self, changes: Changes, rounds: Rounds) -> Dict[int, Tuple[str, ...]]:
        """The logs of a run with changes of some rounds."""
        return self._logs(self.source_of(changes, " ".join(rounds.words)))

    def _outcome(self, changes: Changes) -> Outcome:
        """Plays a run with changes, by more and more rounds, until it ends or one more round changes nothing."""
        pauses = sum(pause.count for pause in pauses_in(changes))
        count = min(self.default.rounds + pauses + _SPARE, most_rounds(self.cores))
        while True:
            rounds = self.rounds(changes, count)
            whole = self.source_of(changes, " ".join(rounds.words)).printed()
            blocks = blocks_of(whole.text)
            if not whole.is_stalled:
                return Outcome(blocks, ENDED, count)
            logs = self._logs_of_rounds(changes, rounds)
            has_more = count < most_rounds(self.cores)
            if has_more and logs == self._logs_of_rounds(changes, self.rounds(changes, count + 1)):
                run = Run(self.draft, blocks, logs, False, tuple(rounds.words), tuple(rounds.numbers))
                return Outcome(blocks, STALLED, count, run)
            if 2 * count > most_rounds(self.cores):
                return Outcome(blocks, UNFINISHED, count)
            count *= 2
