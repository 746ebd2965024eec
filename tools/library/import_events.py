"""The events of tasks: which bit each has, by its mask, or by its place."""

from typing import Dict, List, Optional

from library.ecuc import Node, whole
from library.formats import is_name
from library.import_notes import NO_NAME, Notes

_MOST = 32
_FILLER = "unused_%d"


class Events:
    """The events of each task, as the member `events` has them."""

    def __init__(self, events_of: Dict[Node, List[Node]], notes: Notes) -> None:
        self.events_of = events_of
        self.notes = notes
        self.bits: Dict[Node, Optional[int]] = {}

    def own_names(self, task: Node) -> List[str]:
        """The names of a task's events, as its file has them."""
        return [event.name for event in self.events_of.get(task, [])]

    def names(self, task: Node) -> List[str]:
        """The names by the bits of the events, with a name for each bit below the last one that has none."""
        events = self.events_of.get(task, [])
        if len(events) > _MOST:
            self.notes.of(task, "it has %d events: at most %d are allowed" % (len(events), _MOST))
            return self.own_names(task)
        by_bit: Dict[int, str] = {}
        later = []
        for event in events:
            bit = self.bit(event)
            if bit is None or bit in by_bit:
                later.append(event)
                self.note_again(task, event, bit)
            else:
                by_bit[bit] = event.name
        free = (bit for bit in range(_MOST) if bit not in by_bit)
        by_bit.update({bit: event.name for event, bit in zip(later, list(free))})
        return [by_bit.get(bit, _FILLER % bit) for bit in range(max(by_bit, default=-1) + 1)]

    def bit(self, event: Node) -> Optional[int]:
        """The bit that the mask of an event says; none if that is left to a generator."""
        if event not in self.bits:
            self.bits[event] = self._bit(event)
        return self.bits[event]

    def _bit(self, event: Node) -> Optional[int]:
        if not is_name(event.name):
            self.notes.of(event, NO_NAME)
        value = event.first("OsEventMask")
        if value is None or value.text.upper() == "AUTO":
            return None
        mask = whole(value.text)
        if mask is None or mask <= 0 or mask & (mask - 1) or mask.bit_length() > _MOST:
            text = "%s %s is not one of the bits 1 to 2147483648: it gets a free one" % (value.word, value.shown)
            self.notes.of(event, text, value.spot)
            return None
        return mask.bit_length() - 1

    def note_again(self, task: Node, event: Node, bit: Optional[int]) -> None:
        """Notes an event whose mask another event of the task has."""
        if bit is not None:
            self.notes.of(task, "%s has the mask of another event of it: it gets a free bit" % event.title)
