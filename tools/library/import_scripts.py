"""The file of scripts that an import takes: what the code of the cores, tasks and ISRs does, which no Os file says.

A JSON object: the name of each task and ISR with its script, as `tools/expand` takes scripts, and the number of each
core with an object of what its code says: `start`, `mode`, `protection`.
"""

from dataclasses import dataclass, field
from typing import Any, Dict, List

from library import ending, formats
from library.drafts import plain
from library.ecuc import Node, Spot, refused
from library.findings import did_you_mean, listed
from library.import_notes import Notes
from library.places import Document, Json, JsonList, JsonNumber, JsonObject, JsonText, NotJson, read_document

_MOST_HINTS = 20
OF_A_CORE = {"mode": "a text", "start": "a list of numbers", "protection": "a text"}


@dataclass
class Scripts:
    """The scripts by the names of tasks and ISRs, and what the code of the cores says, by their numbers."""

    path: str = ""
    by_name: Dict[str, Any] = field(default_factory=dict)
    of_cores: Dict[int, Dict[str, Any]] = field(default_factory=dict)
    spots: Dict[str, Spot] = field(default_factory=dict)

    def note_unused(self, notes: Notes, owners: List[Node], cores: List[int]) -> None:
        """Notes what is for no task or ISR, and for no core."""
        names = {node.name for node in owners}
        unused = [name for name in self.by_name if name not in names]
        for number, name in enumerate(unused):
            # Looking for the nearest name takes long.
            near = did_you_mean(name, names) if number < _MOST_HINTS else ""
            notes.note(self.spots[name], "no task and no ISR of the import is called `%s`%s" % (name, near))
        for core in self.of_cores:
            if core not in cores:
                notes.note(self.spots[str(core)], "the import has no core %d" % core)


def read_scripts(path: str) -> Scripts:
    """The scripts in a file."""
    try:
        document = read_document(ending.read(path))
    except NotJson as error:
        raise refused(Spot(path, *error.place), "no JSON: %s" % error.text) from None
    reader = _Reader(path, document)
    for again in document.repeated:
        raise refused(Spot(path, *document.place(again.later)), "`%s` stands twice in this object" % again.name)
    return reader.whole()


class _Reader:
    """Reads a document of scripts."""

    def __init__(self, path: str, document: Document) -> None:
        self.document = document
        self.found = Scripts(path)

    def spot(self, offset: int) -> Spot:
        return Spot(self.found.path, *self.document.place(offset))

    def whole(self) -> Scripts:
        root = self.document.root
        if not isinstance(root, JsonObject):
            raise refused(self.spot(root.start), "scripts are an object, with the names of tasks and ISRs")
        for name, member in root.members.items():
            self.found.spots[name] = self.spot(member.name_start)
            if formats.is_decimal(name):
                self.core(name, member.value)
            elif _is_script(member.value):
                self.found.by_name[name] = plain(member.value)
            else:
                text = "the script of `%s` is no text, and no list of texts" % name
                raise refused(self.spot(member.value.start), text)
        return self.found

    def core(self, name: str, value: Json) -> None:
        """What the code of a core says."""
        if not isinstance(value, JsonObject):
            text = "of core %s an object is wanted, with %s" % (name, listed("`%s`" % word for word in OF_A_CORE))
            raise refused(self.spot(value.start), text)
        for word, member in value.members.items():
            if word not in OF_A_CORE:
                text = "a core has %s, not `%s`%s"
                words = listed("`%s`" % each for each in OF_A_CORE)
                raise refused(self.spot(member.name_start), text % (words, word, did_you_mean(word, OF_A_CORE)))
            if not _is_of_a_core(word, member.value):
                raise refused(self.spot(member.value.start), "`%s` is %s" % (word, OF_A_CORE[word]))
        if len(name) > 3:
            raise refused(self.found.spots[name], "`%s` is no number of a core" % name)
        self.found.of_cores[int(name)] = {word: plain(member.value) for word, member in value.members.items()}


def _is_of_a_core(word: str, value: Json) -> bool:
    """Whether a value is of the type that a member of a core has."""
    if word != "start":
        return isinstance(value, JsonText)
    if not isinstance(value, JsonList):
        return False
    return all(isinstance(each, JsonNumber) and each.number is not None for each in value.elements)


def _is_script(value: Json) -> bool:
    """Whether a value is a text, or a list of texts."""
    elements = value.elements if isinstance(value, JsonList) else [value]
    return all(isinstance(element, JsonText) for element in elements)
