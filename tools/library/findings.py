"""What is said of a file: its faults and notes, each with its place."""

import difflib
import re
from dataclasses import dataclass
from typing import Dict, Iterable, List, Optional, Union

from library.formats import Fault
from library.places import Document, Json, Place
from library.source_map import SourceMap, in_source


@dataclass(frozen=True)
class Finding:
    """A fault, or a note if `fault` is None, with its place in a file."""

    fault: Optional[Fault]
    place: Place
    pointer: str
    text: str

    @property
    def order(self) -> tuple:
        """The least fault number first, notes last, and then by place."""
        number = self.fault.number if self.fault is not None else 1000
        return number, self.place

    def line(self, path: str) -> str:
        """The line of a report. The pointer of a whole file, the empty text, is shown as two quotes."""
        what = str(self.fault) if self.fault is not None else "note"
        pointer = self.pointer or '""'
        return "%s:%d:%d: %s: %s: %s" % (path, self.place.line, self.place.column, what, pointer, self.text)

    def members(self, path: str) -> Dict[str, Union[str, int, None]]:
        """The members of the object that a report in JSON has for it."""
        number, name = (self.fault.number, self.fault.name) if self.fault is not None else (None, "note")
        place = {"file": path, "line": self.place.line, "column": self.place.column}
        return {**place, "fault": number, "name": name, "pointer": self.pointer, "text": self.text}


class Report:
    """The findings of one file, as they are found. If there is a map, places are those of the file's source."""

    def __init__(self, document: Document, sources: Optional[SourceMap] = None):
        self.document = document
        self.sources = sources
        self.findings: List[Finding] = []

    def fault(self, fault: Fault, value: Json, text: str, offset: Optional[int] = None) -> None:
        """A fault of a value; the place is the value's, or an offset within it."""
        self._add(fault, value, offset, text)

    def fault_of_member(self, fault: Fault, owner: Json, name: str, text: str) -> None:
        """A fault of a member as such: the place is that of its name."""
        member = owner.members[name]
        self._add(fault, member.value, member.name_start, text)

    def note(self, value: Json, text: str, offset: Optional[int] = None) -> None:
        """A note on a value."""
        self._add(None, value, offset, text)

    def place(self, value: Json, offset: Optional[int] = None) -> Place:
        """Where a value begins, or where an offset within it is."""
        place = self.document.place(value.start if offset is None else offset)
        if self.sources is None:
            return place
        return in_source(self.sources, self.document, value.pointer, place)

    def line_of(self, value: Json, offset: Optional[int] = None) -> int:
        """The line in which a value begins, or an offset within it is."""
        return self.place(value, offset).line

    def has(self, fault: Fault) -> bool:
        """Whether such a fault was found."""
        return any(finding.fault == fault for finding in self.findings)

    @property
    def has_faults(self) -> bool:
        """Whether any fault was found."""
        return any(finding.fault is not None for finding in self.findings)

    def _add(self, fault: Optional[Fault], value: Json, offset: Optional[int], text: str) -> None:
        finding = Finding(fault, self.place(value, offset), value.pointer, text)
        if self.sources is None or not any(_is_again(finding, other) for other in self.findings):
            self.findings.append(finding)


def _is_again(finding: Finding, other: Finding) -> bool:
    """Whether findings are of operations that one in a source stands for: they differ in its number alone."""
    if (finding.fault, finding.place) != (other.fault, other.place):
        return False
    return _OPERATION_NUMBER.sub("", finding.text) == _OPERATION_NUMBER.sub("", other.text)


_OPERATION_NUMBER = re.compile(r"\Aoperation [0-9]+ ")


def nearest(word: str, known: Iterable[str]) -> Optional[str]:
    """The known word that is most like a word, whatever its capitals; None if none is like it."""
    by_small = {}
    for each in known:
        by_small.setdefault(each.lower(), each)
    found = difflib.get_close_matches(word.lower(), list(by_small), 1, 0.6)
    return by_small[found[0]] if found else None


def did_you_mean(word: str, known: Iterable[str]) -> str:
    """The end of a report that offers the nearest known word."""
    near = nearest(word, known)
    return "; did you mean `%s`?" % near if near is not None else ""


def listed(words: Iterable[str]) -> str:
    """Words as prose lists them."""
    words = list(words)
    if len(words) < 2:
        return "".join(words)
    return ", ".join(words[:-1]) + " and " + words[-1]


def counted(number: int, thing: str) -> str:
    """A number with what it counts: `1 task`, `2 tasks`."""
    return "%d %s%s" % (number, thing, "" if number == 1 else "s")
