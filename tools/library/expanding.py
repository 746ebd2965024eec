"""From a text with shorthand to the fixed format: a configuration, stimuli or a schedule, with the map of its places.

The output is the source with other texts in some places, so its lines and its layout stay. `library.shorthand` has the
grammar within one text.
"""

import json
import re
from dataclasses import dataclass, field, replace
from typing import Dict, Iterator, List, NamedTuple, Optional, Sequence, Tuple

from library import formats, shorthand
from library.findings import did_you_mean
from library.places import Document, Json, JsonList, JsonMember, JsonObject, JsonText, JsonWord, Place
from library.schemas import TURN
from library.shorthand import Parts, Refused, Surroundings

CONFIGURATION = "configuration"
STIMULI = "stimuli"
SCHEDULE = "schedule"

EVENTS = "events"
EXTENDED = "extended"
MOST_EVENTS = 32
CORES = tuple(str(number) for number in range(formats.MOST_CORES[2]))

_NAME_LITERAL = re.compile(r'"(?:[^"\\]|\\.)*"')


class Refusal(NamedTuple):
    """A wrong use of the shorthand, with its place in the source."""

    place: Place
    text: str


class Edit(NamedTuple):
    """Another text in place of what the source has from `start` to the offset before `end`."""

    start: int
    end: int
    text: str


@dataclass
class Expansion:
    """What a source expands to. If something is refused, `text` does not count."""

    text: str = ""
    refusals: List[Refusal] = field(default_factory=list)
    # The place in the source of each value of the output, by its JSON Pointer.
    values: Dict[str, Place] = field(default_factory=dict)
    # For each script, action and text of words its operations' or words' places in the source, in order.
    parts: Dict[str, List[Place]] = field(default_factory=dict)


def kind_of(root: Json) -> str:
    """What a source is: a text or a list of texts is a schedule, an object of core numbers stimuli."""
    if isinstance(root, (JsonText, JsonList)):
        return SCHEDULE
    if isinstance(root, JsonObject) and all(formats.is_decimal(name) for name in root.members):
        return STIMULI
    return CONFIGURATION


def is_object(root: Json) -> bool:
    """Whether a source is an object."""
    return isinstance(root, JsonObject)


def expand(document: Document, kind: str) -> Expansion:
    """The whole source in the fixed format."""
    return _Expander(document).whole(kind)


def cut(document: Document, cores: Sequence[str]) -> Expansion:
    """The stimuli of these cores alone. Without any the text is an empty object."""
    root = document.root
    assert isinstance(root, JsonObject)
    return _Expander(document).of_cores(root, cores)


class _Expander:
    """Expands one source."""

    def __init__(self, document: Document) -> None:
        self.document = document
        self.edits: List[Edit] = []
        self.refused: List[Refused] = []
        self.parts: Dict[str, List[int]] = {}
        # The values of the source that the output does not have, and those that it has instead, by their pointers.
        self.dropped: List[Json] = []
        self.added: Dict[str, int] = {}
        for repeated in document.repeated:
            text = "the member `%s` stands twice in this object, first in line %d"
            line = document.place(repeated.earlier).line
            self.refused.append(Refused(repeated.later, text % (repeated.name, line)))

    # ---- whole sources

    def whole(self, kind: str) -> Expansion:
        """The whole source."""
        root = self.document.root
        if kind == SCHEDULE:
            self.words(root, _TURNS)
        elif kind == STIMULI:
            for name, member in _members(root):
                if name in CORES:
                    self.words(member.value, _STIMULI)
        else:
            self.configuration(root)
        return self.finish(root, self.edited())

    def of_cores(self, root: JsonObject, cores: Sequence[str]) -> Expansion:
        """The stimuli of these cores alone, which are read and no other ones."""
        kept: Dict[str, Optional[str]] = {}
        for core, member in root.members.items():
            if core not in cores:
                self.dropped.append(member.value)
                continue
            refused = len(self.refused)
            kept[core] = self.words(member.value, _STIMULI)
            if kept[core] is None and len(self.refused) == refused:
                self.refused.append(Refused(member.value.start, "the stimuli of core %s are no text" % core))
        return self.finish(root, json.dumps(kept) + "\n")

    def finish(self, root: Json, text: str) -> Expansion:
        """The expansion, with the places of what it has."""
        place = self.document.place
        refusals = sorted({Refusal(place(refused.offset), refused.text) for refused in self.refused})
        if refusals:
            return Expansion("", refusals)
        values = {value.pointer: place(value.start) for value in values_in(root, self.dropped)}
        values.update({pointer: place(offset) for pointer, offset in self.added.items()})
        parts = {pointer: [place(offset) for offset in offsets] for pointer, offsets in self.parts.items()}
        return Expansion(text, [], values, parts)

    def edited(self) -> str:
        """The source with all edits."""
        pieces, at = [], 0
        for edit in sorted(self.edits):
            pieces += [self.document.text[at : edit.start], edit.text]
            at = edit.end
        return "".join(pieces + [self.document.text[at:]])

    # ---- texts

    def texts(self, value: Json) -> Optional[List[JsonText]]:
        """The texts of a value that is one, or a list of some. Another value is left as it is."""
        if isinstance(value, JsonText):
            return [value]
        if isinstance(value, JsonList) and all(isinstance(element, JsonText) for element in value.elements):
            return [element for element in value.elements if isinstance(element, JsonText)]
        return None

    def replace(self, value: Json, text: str) -> None:
        """Puts a text in place of a value."""
        if not isinstance(value, JsonText) or value.text != text:
            self.edits.append(Edit(value.start, value.end, json.dumps(text, ensure_ascii=False)))
        if isinstance(value, JsonList):
            self.dropped += value.elements

    def words(self, value: Json, kind: "_Words") -> Optional[str]:
        """Expands stimuli or a schedule, and gives the text; none if it is refused or no text."""
        texts = self.texts(value)
        if texts is None:
            return None
        try:
            parts: List[shorthand.Part] = []
            for text in texts:
                parts += shorthand.read_words(text.text, self.document.character_offsets(text), kind.example)
            shorthand.refuse_beyond(parts, kind.most, kind.name)
            _refuse_unknown(parts, kind)
        except Refused as refused:
            self.refused.append(refused)
            return None
        words = shorthand.words_in(parts)
        self.parts[value.pointer] = [word.offset for word in words]
        expanded = " ".join(word.text for word in words)
        self.replace(value, expanded)
        return expanded

    def script(self, value: Json, around: Surroundings) -> None:
        """Expands a script."""
        texts = self.texts(value)
        if texts is None:
            return
        try:
            parts: List[shorthand.Part] = []
            for text in texts:
                parts += shorthand.read_script(text.text, self.document.character_offsets(text))
            shorthand.refuse_beyond(parts, formats.MOST_OPERATIONS, "operations in this script")
            shorthand.refuse_double_label(parts)
        except Refused as refused:
            self.refused.append(refused)
            return
        labels = [label.name for label in shorthand.labels_in(parts)]
        around = replace(around, labels=labels)
        placed = list(shorthand.operations_in(parts))
        self.parts[value.pointer] = [each.operation.offset for each in placed]
        self.replace(value, ";".join(self.operation(each, around) for each in placed))

    def operation(self, placed: shorthand.Placed, around: Surroundings) -> str:
        """Expands an operation; one that is refused becomes nothing."""
        try:
            return shorthand.operation_text(placed, around)
        except Refused as refused:
            self.refused.append(refused)
            return ""

    def action(self, value: Json, around: Surroundings) -> None:
        """Expands an action of an alarm or of an expiry point."""
        if not isinstance(value, JsonText):
            return
        try:
            operation = shorthand.read_action(value.text, self.document.character_offsets(value))
        except Refused as refused:
            self.refused.append(refused)
            return
        if operation is not None:
            self.parts[value.pointer] = [operation.offset]
            self.replace(value, self.operation(shorthand.Placed(operation, {}), around))

    # ---- configurations

    def configuration(self, root: Json) -> None:
        """Expands all scripts and actions, and the members `events`."""
        cores = list(_elements(root, "cores"))
        tasks = [task for core in cores for task in _elements(core, "tasks")]
        own_events = [self.events(task) for task in tasks]
        events = {_name(task): names for task, names in zip(tasks, own_events)}
        for task, names in zip(tasks, own_events):
            if "script" in task.members:
                self.script(task.members["script"].value, Surroundings(events, _name(task), names))
        for isr in (isr for core in cores for isr in _elements(core, "isrs")):
            if "script" in isr.members:
                self.script(isr.members["script"].value, Surroundings(events))
        for core in cores:
            owners = list(_elements(core, "alarms"))
            actions = [owner.members["action"].value for owner in owners if "action" in owner.members]
            for point in (point for table in _elements(core, "tables") for point in _elements(table, "points")):
                actions += _list(point, "actions")
            for action in actions:
                self.action(action, Surroundings(events, is_action=True))

    def events(self, task: JsonObject) -> Optional[List[str]]:
        """The names of a task's events, whose member is replaced; none if there is no such member."""
        member = task.members.get(EVENTS)
        if member is None:
            return None
        names = self.event_names(member.value)
        extended = task.members.get(EXTENDED)
        if extended is not None:
            if isinstance(extended.value, JsonWord) and extended.value.value is False:
                text = "a task with `events` is extended: write `true`, or leave the member out"
                self.refused.append(Refused(extended.value.start, text))
            self.remove(task, EVENTS)
        else:
            self.rename(member, EXTENDED, "true")
            self.added["%s/%s" % (task.pointer, EXTENDED)] = member.name_start
        self.dropped.append(member.value)
        return names

    def event_names(self, value: Json) -> List[str]:
        """The names of a member `events`, each once."""
        elements = value.elements if isinstance(value, JsonList) else []
        if not 1 <= len(elements) <= MOST_EVENTS:
            self.refused.append(Refused(value.start, "`events` is a list of 1 to %d names" % MOST_EVENTS))
        names: List[str] = []
        for element in elements:
            name = element.text if isinstance(element, JsonText) else ""
            if not formats.is_name(name):
                shown = self.document.source(element)
                self.refused.append(Refused(element.start, "an event has a name, and %s is none" % shown))
            elif name in names:
                self.refused.append(Refused(element.start, "the event `%s` stands twice in this list" % name))
            names.append(name)
        return names

    def rename(self, member: JsonMember, name: str, value: str) -> None:
        """Gives a member another name and another value."""
        literal = _NAME_LITERAL.match(self.document.text, member.name_start)
        assert literal is not None
        self.edits.append(Edit(literal.start(), literal.end(), '"%s"' % name))
        self.edits.append(Edit(member.value.start, member.value.end, value))

    def remove(self, owner: JsonObject, name: str) -> None:
        """Removes a member that is not the only one, with a comma and the blanks at it."""
        names = sorted(owner.members, key=lambda each: owner.members[each].name_start)
        at = names.index(name)
        if at + 1 < len(names):
            start, end = owner.members[name].name_start, owner.members[names[at + 1]].name_start
        else:
            start, end = owner.members[names[at - 1]].value.end, owner.members[name].value.end
        self.edits.append(Edit(start, end, ""))


# ---------------------------------------------------------------------------------------------------------------------
# Kinds of words, and steps in a value
# ---------------------------------------------------------------------------------------------------------------------


@dataclass(frozen=True)
class _Words:
    """A kind of words: how many there may be, and which."""

    name: str
    most: int
    example: str
    pattern: "re.Pattern[str]"
    allowed: str


_STIMULI = _Words(
    "words of this core",
    formats.MOST_STIMULI,
    "op",
    re.compile("|".join(formats.STIMULUS_WORDS + (formats.INTERRUPT + formats.NAME.pattern,))),
    "stimuli are `op`, `tick` and `irq=I`",
)
_TURNS = _Words(
    "turns",
    formats.MOST_TURNS,
    "0o",
    re.compile(TURN),
    "turns are `Ko`, `KsD` and `Kl` of different cores K and D, 0 to 15",
)


def _refuse_unknown(parts: Parts, kind: _Words) -> None:
    """Refuses a word that is not of the kind."""
    for part in parts:
        if isinstance(part, shorthand.Repetition):
            _refuse_unknown(part.body, kind)
        elif isinstance(part, shorthand.Word) and not kind.pattern.fullmatch(part.text):
            hint = did_you_mean(part.text, formats.STIMULUS_WORDS) if kind is _STIMULI else ""
            raise Refused(part.offset, "%s, not `%s`%s" % (kind.allowed, part.text, hint))


def _members(value: Json) -> Sequence[Tuple[str, JsonMember]]:
    """The members of an object; none of another value."""
    return list(value.members.items()) if isinstance(value, JsonObject) else []


def _list(value: Json, name: str) -> Sequence[Json]:
    """The elements of a member that is a list; none if it is not there or something else."""
    member = value.members.get(name) if isinstance(value, JsonObject) else None
    return member.value.elements if member is not None and isinstance(member.value, JsonList) else []


def _elements(value: Json, name: str) -> Iterator[JsonObject]:
    """The objects in a member that is a list."""
    return (element for element in _list(value, name) if isinstance(element, JsonObject))


def _name(task: JsonObject) -> str:
    """A task's name; the empty text if it has none."""
    value = task.members["name"].value if "name" in task.members else None
    return value.text if isinstance(value, JsonText) else ""


def values_in(value: Json, dropped: Sequence[Json] = ()) -> Iterator[Json]:
    """A value and all within it, but for what is dropped."""
    without = {id(each) for each in dropped}
    waiting: List[Json] = [value]
    while waiting:
        current = waiting.pop()
        if id(current) in without:
            continue
        yield current
        inner: List[Json] = []
        if isinstance(current, JsonObject):
            inner = [member.value for member in current.members.values()]
        elif isinstance(current, JsonList):
            inner = current.elements
        waiting += reversed(inner)
