"""What is wrong in the given scripts of an import, said where a user can mend it: in the file of scripts.

The source is expanded and judged as `tools/expand` and `tools/explain` do. Only what stands in the script of a task or an
ISR is said here, since those tools have no place for it but one in the printed source.
"""

import re
from typing import Any, Dict, Iterator, Tuple

from library import expanding
from library.import_notes import Notes
from library.import_scripts import Scripts
from library.judging import judge_configuration
from library.places import read_document

_SCRIPT = re.compile(r"/cores/(\d+)/(tasks|isrs)/(\d+)/script")


def note_wrong_scripts(source: Dict[str, Any], text: str, scripts: Scripts, notes: Notes) -> None:
    """Notes what is wrong in given scripts. `text` is that of the source."""
    for pointer, wrong in _wrong(text):
        found = _SCRIPT.match(pointer)
        if found is not None:
            core, kind, index = found.groups()
            name = source["cores"][int(core)][kind][int(index)]["name"]
            if name in scripts.by_name:
                notes.note(scripts.spots[name], "the script of `%s`: %s" % (name, wrong))


def _wrong(text: str) -> Iterator[Tuple[str, str]]:
    """The pointers and the texts of all faults of a source, also of its shorthand."""
    document = read_document(text.encode("utf-8"))
    found = expanding.expand(document, expanding.CONFIGURATION)
    if found.refusals:
        values = [(document.place(value.start), value.pointer) for value in expanding.values_in(document.root)]
        for refusal in found.refusals:
            # The value that begins last before the place is the text in which it stands, or one of its list.
            yield max(value for value in values if value[0] <= refusal.place)[1], refusal.text
        return
    for finding in judge_configuration(found.text.encode("utf-8")).findings:
        if finding.fault is not None:
            yield finding.pointer, finding.text
