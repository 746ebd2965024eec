"""The map that `tools/expand --map` writes: from places in its output to places in its source.

A JSON object with these members:

- `source`: the path of the source, as it was given
- `values`: for the JSON Pointer of each value of the output its line and column in the source, a list of two numbers
- `parts`: for the JSON Pointer of each script, action and text of words a list of such places, one for each of its
  operations or words, in order
"""

import bisect
import json
from dataclasses import dataclass
from typing import Any, Iterator, List, Mapping, Optional, Sequence, Tuple

from library.places import Document, Json, JsonList, JsonObject, JsonText, Place, pointer_part


@dataclass(frozen=True)
class SourceMap:
    """Places in the source by places in the output."""

    source: str
    values: Mapping[str, Place]
    parts: Mapping[str, Sequence[Place]]

    def place(self, pointer: str, part: Optional[int] = None) -> Place:
        """The place of a value, or of an operation or a word in it. What is not there has that of what it is in."""
        parts = self.parts.get(pointer, ())
        if part is not None and 0 <= part < len(parts):
            return parts[part]
        while pointer not in self.values and pointer:
            pointer = pointer.rpartition("/")[0]
        return self.values.get(pointer, Place(1, 1))

    def fits(self, root: Json) -> bool:
        """Whether each value of the map is in a text, so that it may be the map of this text."""
        return self.values.keys() <= set(_pointers(root, ""))

    def text(self) -> str:
        """The map as it stands in its file: a line for each entry."""
        values = ["%s: %s" % (json.dumps(pointer), json.dumps(place)) for pointer, place in self.values.items()]
        parts = ["%s: %s" % (json.dumps(pointer), json.dumps(places)) for pointer, places in self.parts.items()]
        members = ['"source": %s' % json.dumps(self.source), _object("values", values), _object("parts", parts)]
        return "{%s}\n" % ",\n".join(members)


def in_source(places: SourceMap, document: Document, pointer: str, place: Place) -> Place:
    """From where in the source a place in the output comes, in a value with this pointer."""
    value = value_at(document.root, pointer)
    if not isinstance(value, JsonText) or pointer not in places.parts:
        return places.place(pointer)
    offsets = document.character_offsets(value)[: len(value.text)]
    before = bisect.bisect_left([document.place(offset) for offset in offsets], place)
    separator = ";" if "/" in pointer[1:] else " "  # only the texts of a configuration stand deeper than one step
    return places.place(pointer, value.text.count(separator, 0, before))


def _pointers(value: Json, pointer: str) -> Iterator[str]:
    """The JSON Pointers of a value and of all in it."""
    yield pointer
    for step, inner in _inner(value):
        yield from _pointers(inner, pointer + step)


def value_at(root: Json, pointer: str) -> Optional[Json]:
    """The value of a JSON Pointer; none if there is none."""
    value: Optional[Json] = root
    for step in ["/" + step for step in pointer.split("/")[1:]]:
        value = dict(_inner(value)).get(step)
    return value


def _inner(value: Optional[Json]) -> List[Tuple[str, Json]]:
    """The values right in a value, each with its step of a JSON Pointer."""
    if isinstance(value, JsonObject):
        return [(pointer_part(name), member.value) for name, member in value.members.items()]
    if isinstance(value, JsonList):
        return [(pointer_part(index), element) for index, element in enumerate(value.elements)]
    return []


def _object(name: str, entries: List[str]) -> str:
    """A member that is an object, with a line for each entry."""
    return '"%s": {%s}' % (name, ",".join("\n  " + entry for entry in entries))


def read_map(text: str) -> SourceMap:
    """The map in a file's text. Raises ValueError if it has not the form."""
    try:
        whole = json.loads(text)
        values = {pointer: _place(place) for pointer, place in whole["values"].items()}
        parts = {pointer: [_place(place) for place in places] for pointer, places in whole["parts"].items()}
        return SourceMap(str(whole["source"]), values, parts)
    except (ValueError, KeyError, TypeError, AttributeError, OverflowError, RecursionError) as error:
        raise ValueError("this is no map of tools/expand: %r" % error) from None


def _place(pair: Any) -> Place:
    """A place in a file of a map."""
    line, column = pair
    return Place(int(line), int(column))
