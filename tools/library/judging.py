"""All faults of a configuration, of stimuli for it and of a schedule, as docs/FORMATS.md orders them, and the notes."""

from dataclasses import dataclass, replace
from typing import Callable, List, Optional, Sequence, Tuple

from library import ending
from library.border import reasons
from library.drafts import Draft, draft_of
from library.findings import Finding, Report
from library.formats import MOST_BYTES, NO_MEMORY, NOT_JSON, NOT_SEPARATE, SHAPE, UNREADABLE
from library.inputs import judge_schedule as _judge_turns
from library.inputs import judge_stimuli as _judge_words
from library.limits import judge_limits
from library.model import SEPARATE, model_of
from library.names import judge_names
from library.notes import note_configuration, note_repeated, note_stimuli
from library.places import NotJson, Place, read_document
from library.shapes import judge_shape
from library.source_map import SourceMap

START = Place(1, 1)


@dataclass(frozen=True)
class Judgement:
    """The findings of one file in their order; of a configuration whose shape is right also what it has."""

    findings: Tuple[Finding, ...]
    report: Optional[Report] = None
    draft: Optional[Draft] = None

    @property
    def least(self) -> int:
        """The number that `mcos` reports; 0 if there is no fault."""
        first = self.findings[0].fault if self.findings else None
        return first.number if first is not None else 0


def judge_configuration(data: bytes, sources: Optional[SourceMap] = None) -> Judgement:
    """Judges the bytes of a configuration."""
    return _judge(data, sources, _configuration)


def judge_stimuli(data: bytes, draft: Draft, sources: Optional[SourceMap] = None) -> Judgement:
    """Judges the bytes of stimuli for a configuration without a fault."""

    def stimuli(report: Report) -> None:
        _judge_words(report, draft)
        if not report.has_faults:
            note_stimuli(report, draft)

    return _judge(data, sources, stimuli)


def judge_schedule(data: bytes, draft: Draft, sources: Optional[SourceMap] = None) -> Judgement:
    """Judges the bytes of a schedule for a configuration without a fault."""
    return _judge(data, sources, lambda report: _judge_turns(report, draft))


def _configuration(report: Report) -> Optional[Draft]:
    """Judges a configuration past its JSON. What is not of the shape has no other fault."""
    judge_shape(report)
    if report.has(SHAPE):
        return None
    draft = draft_of(report.document.root)
    judge_limits(report, draft)
    judge_names(report, draft)
    note_configuration(report, draft)
    return draft


def _judge(data: bytes, sources: Optional[SourceMap], judge: Callable[[Report], Optional[Draft]]) -> Judgement:
    """Reads a file's bytes and judges them."""
    if len(data) > MOST_BYTES:
        return Judgement((Finding(NO_MEMORY, START, "", "the file is longer than 1 GiB"),))
    try:
        document = read_document(data)
    except NotJson as error:
        return Judgement((Finding(NOT_JSON, error.place, error.pointer, error.text),))
    report = Report(document, sources)
    draft = judge(report)
    note_repeated(report)
    return Judgement(tuple(sorted(report.findings, key=lambda finding: finding.order)), report, draft)


def judge_cut(configuration: Judgement, core: int) -> Judgement:
    """Judges whether `mcos cut` prints the configuration of one core alone; asked if there is no other fault."""
    draft = configuration.draft
    model = model_of(draft)
    if core in model.ids and model.standing(core) == SEPARATE:
        return configuration
    node = next((each.spot("id") for each in draft.cores if each.id == core), draft.node)
    why = "; ".join(reasons(model, core)) if core in model.ids else "it is not configured"
    text = "core %d is not separate: %s" % (core, why)
    fault = Finding(NOT_SEPARATE, configuration.report.place(node), node.pointer, text)
    return replace(configuration, findings=(fault,) + configuration.findings)


def judge_files(
    paths: Sequence[str], cut: Optional[int] = None, maps: Sequence[SourceMap] = ()
) -> List[Tuple[str, Finding]]:
    """The findings of a configuration, stimuli and a schedule, of which the last ones may be left out: faults first.

    As mcos does, it judges no file behind one with a fault. If a core is to be cut, that is judged of the
    configuration. For the first files there may be maps; then places and paths are those of the sources.
    """
    found: List[Tuple[str, Finding]] = []
    draft = None
    for index, path in enumerate(paths):
        sources = maps[index] if index < len(maps) else None
        judgement = _judge_file(path, index, draft, sources)
        if sources is not None and judgement.report is not None and not sources.fits(judgement.report.document.root):
            text = "%s: the map of %s is none of this file: the first map is of CFG, the next ones of STIM and SCHED"
            raise ending.Failed(text % (path, sources.source))
        if index == 0 and cut is not None and not judgement.least:
            judgement = judge_cut(judgement, cut)
        draft = draft or judgement.draft
        # What is no JSON has no places in a source.
        shown = sources.source if sources is not None and judgement.report is not None else path
        found += [(shown, finding) for finding in judgement.findings]
        if judgement.least:
            text = "not judged, since %s has a fault" % shown
            found += [(later, Finding(None, START, "", text)) for later in paths[index + 1 :]]
            break
    # A sort keeps the order of the files, and in each that of the places.
    return sorted(found, key=lambda pair: pair[1].order[0])


def _judge_file(path: str, index: int, draft: Optional[Draft], sources: Optional[SourceMap]) -> Judgement:
    """Judges the file at a path, or the standard input: the configuration, the stimuli or the schedule."""
    try:
        with ending.opened(path) as file:
            data = file.read(MOST_BYTES + 1)
    except OSError as error:
        return Judgement((Finding(UNREADABLE, START, "", error.strerror or str(error)),))
    if index == 0:
        return judge_configuration(data, sources)
    return (judge_stimuli if index == 1 else judge_schedule)(data, draft, sources)
