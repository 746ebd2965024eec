"""A run as the program printed it: the block and the log of each core."""

import json
import re
from dataclasses import dataclass
from typing import Dict, List, Optional, Sequence, Tuple

from library import ending, progress
from library.drafts import Draft
from library.ending import Failed
from library.formats import words_of
from library.judging import judge_configuration
from library.program import Printed, printed

_CORE = re.compile(r"core ([0-9]+)")


@dataclass(frozen=True)
class Source:
    """What is run: the program and the paths of the files; without a schedule the default one is taken."""

    program: str
    configuration: str
    stimuli: str
    schedule: Optional[str] = None

    def printed(self, *options: str) -> Printed:
        """What the run prints with more options."""
        listed = ("--schedule", self.schedule) if self.schedule is not None else ()
        return printed(self.program, "run", self.configuration, self.stimuli, *listed, *options)

    def replayed(self, core: int, log: str) -> str:
        """What a core prints by itself on the log in a file."""
        return printed(self.program, "replay", self.configuration, str(core), log).text


@dataclass(frozen=True)
class Run:
    """The blocks without their first lines and the logs, by core.

    Of a listed schedule also its words, and if it consists of rounds, the number of the round of each.
    """

    draft: Draft
    blocks: Dict[int, Tuple[str, ...]]
    logs: Dict[int, Tuple[str, ...]]
    has_ended: bool
    turns: Optional[Tuple[str, ...]] = None
    rounds: Optional[Tuple[int, ...]] = None

    @property
    def schedule(self) -> str:
        """Which schedule was run: the default one, or a listed one."""
        return "default" if self.turns is None else "listed"

    @property
    def has_rounds(self) -> bool:
        """Whether its turns are those of rounds."""
        return self.turns is None or self.rounds is not None

    @property
    def cores(self) -> List[int]:
        """The configured cores by ascending number."""
        return sorted(self.draft.ids)

    @property
    def has_conflict(self) -> bool:
        """Whether the modes of the started cores are in conflict. Then none of them did any of its work."""
        return any("pass1 conflict" in log for log in self.logs.values())


def blocks_of(text: str) -> Dict[int, Tuple[str, ...]]:
    """The lines of each core in the text that a run prints."""
    found: Dict[int, List[str]] = {}
    lines: List[str] = []
    for line in text.splitlines()[:-1]:
        core = _CORE.fullmatch(line)
        if core is None:
            lines.append(line)
        else:
            lines = found.setdefault(int(core[1]), [])
    return {core: tuple(lines) for core, lines in found.items()}


def read_run(source: Source) -> Run:
    """Runs the program once for the trace, and once for the log of each core."""
    with progress.shown("running mcos") as work:
        whole = source.printed()
        draft = accepted_draft(source.configuration)
        work.steps = 1 + len(draft.ids)
        logs = {}
        for work.done, core in enumerate(sorted(draft.ids), 1):
            logs[core] = read_log(source, core)
    turns = _turns(source.schedule) if source.schedule is not None else None
    return Run(draft, blocks_of(whole.text), logs, not whole.is_stalled, turns)


def read_log(source: Source, core: int) -> Tuple[str, ...]:
    """The log of a core, of a run of the program for it."""
    return tuple(source.printed("--items", str(core)).text.splitlines())


def run_of(configuration: str, blocks: Dict[int, Sequence[str]], logs: Dict[int, Sequence[str]]) -> Run:
    """A run of the default schedule that ended, from texts."""
    draft = judge_configuration(configuration.encode("utf-8")).draft
    return Run(draft, _tuples(blocks), _tuples(logs), True)


def _tuples(texts: Dict[int, Sequence[str]]) -> Dict[int, Tuple[str, ...]]:
    """The lines of each core, which do not change any more."""
    return {core: tuple(lines) for core, lines in texts.items()}


def accepted_draft(path: str) -> Draft:
    """The configuration that the program has accepted."""
    judgement = judge_configuration(ending.read(path))
    if judgement.least or judgement.draft is None:
        raise Failed("%s: mcos accepts it, and tools/explain says %s" % (path, judgement.findings[0].fault))
    return judgement.draft


def _turns(path: str) -> Tuple[str, ...]:
    """The turns of a schedule that the program has accepted."""
    return tuple(words_of(json.loads(ending.read(path))))
