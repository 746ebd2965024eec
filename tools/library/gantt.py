"""A picture of a span of a run, as SVG: a row for each ISR and each task, by cores, over the turns of the schedule.

Ticks of different cores are not one moment. So the axis has the rounds, which all cores share, and each core has a row
with its own ticks.
"""

from dataclasses import dataclass
from typing import Dict, Iterable, List, NamedTuple, Optional, Tuple
from xml.sax.saxutils import escape

from library.ending import Failed
from library.jobs import INTERRUPTED, READY, RUNNING, WAITING, Envelope, Jobs
from library.states import held_by_task, rows_of, stretches_by_name
from library.timeline import Timeline
from library.turns import default_round

RIGHT, TOP, BOTTOM = 16, 44, 30
ROW, HEAD, GAP = 20, 22, 8
MARGIN, NAME, LETTER = 8, 80, 8  # the left edge, what the priority takes behind a name, and a letter at most
SPACE = 12  # between the words on the left and what is drawn
LONGEST = 24  # of a name's letters that are shown
BAR = 12  # of a running job; the other states are lower
_HEIGHTS = {RUNNING: BAR, INTERRUPTED: BAR, READY: 6, WAITING: 2}
NEAREST = 18  # between two numbers on the axis

# What has a colour, by the reader's choice of light or dark. The colours are those of Okabe and Ito, which also colour-blind
# people tell apart; on dark ground they are lighter. Each is written out, since many viewers know no variables of CSS.
_COLOURS = (
    ("text", "fill", "#1f2328", "#e6edf3"),
    (".ground", "fill", "#ffffff", "#0d1117"),
    (".band", "fill", "#f6f8fa", "#161b22"),
    (".line", "stroke", "#d0d7de", "#30363d"),
    (".faint", "fill", "#656d76", "#9198a1"),
    (".running", "fill", "#0072b2", "#56b4e9"),
    (".interrupted", "fill", "#0072b2", "#56b4e9"),
    (".ready", "fill", "#e69f00", "#f0b429"),
    (".waiting", "fill", "#8c959f", "#7d8590"),
    (".held", "fill", "#cc79a7", "#e39ac2"),
    (".tick", "stroke", "#656d76", "#9198a1"),
    (".error", "stroke", "#d1242f", "#ff7b72"),
    (".edge", "stroke", "#ffffff", "#0d1117"),
    (".flow", "stroke", "#009e73", "#3fd0a0"),
    (".head", "fill", "#009e73", "#3fd0a0"),
)


def _style() -> str:
    """The style sheet. Behind `:root` a rule for dark ground goes before the other one; LibreOffice, which takes what
    stands in `@media` as if it held always, passes over it."""
    light = "".join("  %s { %s: %s; }\n" % (what, how, colour) for what, how, colour, _ in _COLOURS)
    dark = "".join("    :root %s { %s: %s; }\n" % (what, how, colour) for what, how, _, colour in _COLOURS)
    return """
  text { font-size: 12px; font-family: system-ui, "Segoe UI", "DejaVu Sans", sans-serif; }
  .faint { font-size: 10px; } .core { font-weight: 600; } .middle { text-anchor: middle; } .end { text-anchor: end; }
  .line, .tick { stroke-width: 1; } .interrupted { opacity: 0.4; } .error { stroke-width: 2; fill: none; }
  .edge { stroke-width: 5; fill: none; } .flow { stroke-width: 1.2; fill: none; }
%s  @media (prefers-color-scheme: dark) {
%s  }
""" % (light, dark)


class Span(NamedTuple):
    """The turns that are shown, from one to another one."""

    begin: int
    end: int


@dataclass(frozen=True)
class Layout:
    """Where things stand."""

    span: Span
    width: int
    left: int
    rows: Dict[str, int]  # the upper edge of each task and ISR
    heads: Dict[int, int]  # that of each core
    height: int

    def x(self, turn: float) -> float:
        """Where a turn stands, as far as it is shown."""
        within = min(max(turn, self.span.begin), self.span.end) - self.span.begin
        return self.left + (self.width - self.left - RIGHT) * within / (self.span.end - self.span.begin)

    def shows(self, begin: int, end: int) -> bool:
        """Whether something of a time is shown."""
        return begin < self.span.end and end > self.span.begin


def first_core_with_ticks(timeline: Timeline) -> int:
    """The first core that has taken a tick; if there is none, the first core."""
    cores = timeline.run.cores
    return next((core for core in cores if any(item.tick for item in timeline.by_core[core])), cores[0])


def span_of_ticks(timeline: Timeline, core: int, first: Optional[int], last: Optional[int]) -> Span:
    """The turns from a tick of a core to the end of another one; without them from the start, or to the end."""
    turns = {item.tick: item.turn for item in timeline.by_core.get(core, []) if item.is_tick}
    for tick in (first, last):
        if tick is not None and tick not in turns:
            known = "has taken %d ticks" % len(turns) if turns else "has taken no tick"
            raise Failed("tick %d of core %d: this core %s" % (tick, core, known))
    if not timeline.items:
        raise Failed("the run has no turn in which something happens")
    begin = turns[first] if first is not None else 1
    end = turns.get(last + 1, timeline.turns + 1) if last is not None else timeline.turns + 1
    if begin >= end:
        raise Failed("nothing lies between the tick %s and the tick %s" % (first, last))
    return Span(begin, end)


def picture(jobs: Jobs, span: Span, width: int, title: str) -> str:
    """The whole picture."""
    layout = _layout(jobs, span, width)
    parts = [
        '<svg xmlns="http://www.w3.org/2000/svg" width="%d" height="%d" viewBox="0 0 %d %d" role="img">'
        % (width, layout.height, width, layout.height),
        "<title>%s</title>" % escape(title),
        "<style>%s</style>" % _style(),
        '<rect class="ground" width="%d" height="%d"/>' % (width, layout.height),
    ]
    parts += _legend(layout.left)
    parts += _bands(jobs.timeline, layout)
    parts += _axis(jobs.timeline, layout)
    parts += _ticks(jobs.timeline, layout)
    parts += _bars(jobs, layout)
    parts += _flows(jobs, layout)
    parts += _crosses(jobs, layout)
    return "\n".join(parts + ["</svg>"]) + "\n"


def _layout(jobs: Jobs, span: Span, width: int) -> Layout:
    """The rows, from above: each core with its ticks, and below it its ISRs and its tasks."""
    rows: Dict[str, int] = {}
    heads: Dict[int, int] = {}
    y = TOP
    for row in rows_of(jobs.timeline):
        if row.core not in heads:
            y += GAP if heads else 0
            heads[row.core] = y
            y += HEAD
        rows[row.name] = y
        y += ROW
    letters = max((len(_shown(name)) for name in rows), default=0)
    return Layout(span, width, MARGIN + NAME + LETTER * letters, rows, heads, y + BOTTOM)


def _shown(name: str) -> str:
    """A name, or the beginning of a long one."""
    return name if len(name) <= LONGEST else name[: LONGEST - 1] + "…"


def _box(kind: str, x: float, y: float, width: float, height: float, title: str) -> str:
    """A box with what a viewer shows when one points at it."""
    shape = '<rect class="%s" x="%.1f" y="%.1f" width="%.1f" height="%d"><title>%s</title></rect>'
    return shape % (kind, x, y, max(width, 1), height, escape(title))


def _label(kind: str, x: float, y: float, text: str) -> str:
    """A text."""
    return '<text class="%s" x="%.1f" y="%.1f">%s</text>' % (kind, x, y, escape(text))


def _line(kind: str, begin: Tuple[float, float], end: Tuple[float, float]) -> str:
    """A line."""
    return '<line class="%s" x1="%.1f" y1="%.1f" x2="%.1f" y2="%.1f"/>' % ((kind,) + begin + end)


def _legend(x: float) -> Iterable[str]:
    """What the colours mean."""
    y = 18
    for kind, width in ((RUNNING, 84), (INTERRUPTED, 104), (READY, 72), (WAITING, 84), ("held", 212)):
        height = _HEIGHTS.get(kind, 3)
        yield '<rect class="%s" x="%.1f" y="%.1f" width="22" height="%d"/>' % (kind, x, y - height / 2, height)
        yield _label("", x + 28, y + 4, "holds a resource or a spinlock" if kind == "held" else kind)
        x += width
    yield _line("flow", (x, y), (x + 18, y))
    yield _head(x + 22, y, 0)
    yield _label("", x + 28, y + 4, "to another core")
    x += 132
    yield _cross(x + 6, y)
    yield _label("", x + 18, y + 4, "error")


def _bands(timeline: Timeline, layout: Layout) -> Iterable[str]:
    """The names of cores, ISRs and tasks, and the ground of each core's ticks."""
    for core, y in layout.heads.items():
        yield '<rect class="band" x="0" y="%d" width="%d" height="%d"/>' % (y, layout.width, HEAD)
        yield _label("core", MARGIN, y + 15, "core %d" % core)
        yield _label("faint end", layout.left - SPACE, y + 15, "tick")
    for row in rows_of(timeline):
        y = layout.rows[row.name]
        yield _label("", MARGIN, y + 14, _shown(row.name))
        yield _label("faint end", layout.left - SPACE, y + 14, row.rank)
        yield _line("line", (layout.left, y + ROW), (layout.width - RIGHT, y + ROW))


def _axis(timeline: Timeline, layout: Layout) -> Iterable[str]:
    """The rounds of the default schedule, or the turns of a listed one."""
    size = len(default_round(timeline.run.cores)) if timeline.run.turns is None else 1
    name = "round" if timeline.run.turns is None else "turn"
    # A round begins with the turn behind the last one of the round before.
    first, last = -(-(layout.span.begin - 1) // size) + 1, (layout.span.end - 1) // size + 1
    pixels = (layout.width - layout.left - RIGHT) / (layout.span.end - layout.span.begin)
    step = _step(40 / (size * pixels))
    y = layout.height - BOTTOM
    yield _label("faint end", layout.left - SPACE, y + 16, name)
    for number in range(-(-first // step) * step, last + 1, step):
        x = layout.x((number - 1) * size + 1)
        yield _line("line", (x, TOP), (x, y + 4))
        yield _label("faint middle", x, y + 16, str(number))


def _step(least: float) -> int:
    """A round number that is not below another one: 1, 2, 5, 10 and so on."""
    size = 1
    while True:
        for digit in (1, 2, 5):
            if digit * size >= least:
                return digit * size
        size *= 10


def _ticks(timeline: Timeline, layout: Layout) -> Iterable[str]:
    """The ticks of each core, numbered as far as there is room."""
    for core, y in layout.heads.items():
        before = float("-inf")
        for item in timeline.by_core[core]:
            if item.is_tick and layout.shows(item.turn, item.turn + 1):
                x = layout.x(item.turn)
                yield _line("tick", (x, y + 15), (x, y + HEAD))
                if x - before >= NEAREST:
                    yield _label("faint middle", x, y + 12, str(item.tick))
                    before = x


def _bars(jobs: Jobs, layout: Layout) -> Iterable[str]:
    """The states of the ISRs and the tasks, and below them the resources and spinlocks that they hold."""
    for name, stretches in stretches_by_name(jobs).items():
        for each in stretches:
            if layout.shows(each.begin, each.end):
                height = _HEIGHTS[each.state]
                title = "%s, job %d: %s, turns %d to %d" % (name, each.job.number, each.state, each.begin, each.end)
                yield _bar(layout, each.state, name, each.begin, each.end, 8 - height / 2, height, title)
    for task, holds in held_by_task(jobs).items():
        for hold in holds:
            if layout.shows(hold.begin, hold.end):
                title = "%s holds %s, turns %d to %d" % (task, hold.name, hold.begin, hold.end)
                yield _bar(layout, "held", task, hold.begin, hold.end, 15, 3, title)


def _bar(layout: Layout, kind: str, name: str, begin: int, end: int, down: float, height: int, title: str) -> str:
    """A bar in the row of a task or an ISR."""
    left, right = layout.x(begin), layout.x(end)
    return _box(kind, left, layout.rows[name] + down, right - left, height, title)


def _flows(jobs: Jobs, layout: Layout) -> Iterable[str]:
    """What goes to other cores: from the task or ISR that calls, or the ticks of the core whose alarm or table acts."""
    for each in jobs.envelopes:
        if each.served is not None and layout.span.begin <= each.sent.turn and each.served.turn < layout.span.end:
            yield _flow(each, layout)


def _flow(envelope: Envelope, layout: Layout) -> str:
    """An arrow of an envelope."""
    deed = envelope.deed
    top = layout.rows.get(deed.name, layout.heads.get(envelope.sender, TOP) + 2)
    target = layout.rows.get(envelope.target or "", layout.heads.get(envelope.receiver, TOP) + 2)
    begin, end = (layout.x(envelope.sent.turn), top + 8), (layout.x(envelope.served.turn), target + 8)
    is_down = end[1] > begin[1]
    tip = end[1] - (6 if is_down else -6)
    path = '<path class="flow" d="M%.1f %.1f C%.1f %.1f %.1f %.1f %.1f %.1f"><title>%s</title></path>'
    middle = (begin[1] + tip) / 2
    title = "core %d to core %d: %s" % (envelope.sender, envelope.receiver, deed.operation)
    curve = path % (*begin, begin[0], middle, end[0], middle, end[0], tip, escape(title))
    return curve + _head(end[0], tip, 1 if is_down else -1)


def _head(x: float, y: float, down: int) -> str:
    """The head of an arrow, to the right, down or up."""
    if not down:
        return '<path class="head" d="M%.1f %.1f l-6 -3 v6 z"/>' % (x, y)
    return '<path class="head" d="M%.1f %.1f l-3 %d h6 z"/>' % (x, y + 3 * down, -6 * down)


def _crosses(jobs: Jobs, layout: Layout) -> Iterable[str]:
    """Where something is marked: in the row of the task or ISR whose it is, or among the ticks."""
    texts: Dict[Tuple[int, int], List[str]] = {}
    for mark in jobs.marks:
        if layout.shows(mark.item.turn, mark.item.turn + 1) and mark.core in layout.heads:
            y = layout.rows.get(mark.name, layout.heads[mark.core] + 4)
            texts.setdefault((y, mark.item.turn), []).append(mark.text)
    for (y, turn), found in sorted(texts.items()):
        yield _cross(layout.x(turn), y + 8, ", ".join(found))


def _cross(x: float, y: float, title: str = "") -> str:
    """The mark of an error, with an edge in the colour of the ground, so that it is seen on a bar."""
    shape = "M%.1f %.1f l8 8 m0 -8 l-8 8" % (x - 4, y - 4)
    marked = '<path class="edge" d="%s"/><path class="error" d="%s"><title>%s</title></path>'
    return marked % (shape, shape, escape(title or "error"))
