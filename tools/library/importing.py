"""Reads the files of an import: one or more of ARXML, or one of OIL. Their beginnings say what they are."""

from typing import List, Sequence, Tuple

from library import ending
from library.arxml import read_arxml
from library.ecuc import OS, Ecuc
from library.ending import Failed
from library.findings import counted, listed
from library.import_notes import Notes
from library.oil import read_oil

MOST_BYTES = 1 << 28  # of a file


def read_files(paths: Sequence[str], notes: Notes) -> Ecuc:
    """The containers of all files."""
    texts = [(path, _bytes_of(path)) for path in paths]
    oil = [path for path, data in texts if not _is_xml(data)]
    if not oil:
        return _from_arxml(texts, notes)
    if len(texts) > 1:
        others = "OIL files are one with `#include`" if len(oil) == len(texts) else "the others are XML"
        raise Failed("%s: this is no XML, so it is read as OIL, and alone: %s" % (oil[0], others))
    return read_oil(*texts[0], notes)


def _is_xml(data: bytes) -> bool:
    """Whether a file is XML, in whatever encoding."""
    return data[:100].lstrip(b"\xef\xbb\xbf\xff\xfe\x00 \t\r\n").startswith(b"<")


def _bytes_of(path: str) -> bytes:
    """The bytes of a file, or of the standard input for `-`."""
    try:
        with ending.opened(path) as file:
            data = file.read(MOST_BYTES + 1)
    except OSError as error:
        raise Failed("%s: cannot be read: %s" % (path, error.strerror)) from None
    if len(data) > MOST_BYTES:
        raise Failed("%s: longer than %d MiB: give the file of the Os module alone" % (path, MOST_BYTES >> 20))
    if not data.strip():
        raise Failed("%s: the file is empty" % path)
    return data


def _from_arxml(texts: Sequence[Tuple[str, bytes]], notes: Notes) -> Ecuc:
    """The modules of all files, together."""
    ecuc = Ecuc()
    others: List[str] = []
    for path, data in texts:
        found = read_arxml(path, data)
        others += [kind for kind in found.others if kind not in others]
        for module in found.modules:
            ecuc.add(module)
        if found.variations:
            text = "holds in some variants only, and is read as if it held in all"
            more = len(found.variations) - 1
            text += "; and so %s" % counted(more, "more place") if more else ""
            notes.note(found.variations[0], text)
    modules = [module for module in ecuc.modules if module.kind == OS]
    if not modules:
        with_others = "; there is %s" % listed(others[:8]) if others else ""
        raise Failed("%s: no Os module is in it%s" % (", ".join(path for path, _ in texts), with_others))
    for module in modules[1:]:
        text = "a second Os module, %s: it is read together with %s"
        notes.note(module.spot, text % (module.path, modules[0].path))
    return ecuc
