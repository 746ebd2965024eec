"""Requirements in a file: one a line, with or without an id before it."""

import re
from typing import List

from library import ending
from library.requirements import Requirement, WrongRequirement

# An id with `#` in it, as `SYS#12`, is no comment.
_COMMENT = re.compile(r"(?:^|\s)#.*")


def read_requirements(path: str) -> List[Requirement]:
    """The requirements in a file. One that has none would pass whatever a run does, so it is refused."""
    try:
        text = ending.read(path).decode("utf-8-sig")
    except UnicodeDecodeError:
        raise WrongRequirement("%s: this is no UTF-8" % path) from None
    lines = enumerate(text.split("\n"), 1)
    stripped = [(number, _COMMENT.sub("", line).strip()) for number, line in lines]
    found = [_requirement(path, number, line) for number, line in stripped if line]
    if not found:
        raise WrongRequirement("%s: there is no requirement in it" % path)
    return found


def _requirement(path: str, number: int, line: str) -> Requirement:
    """The requirement in a line. It has no colon itself, so the last one ends the id."""
    name, colon, text = (part.strip() for part in line.rpartition(":"))
    if colon and len(name.split()) != 1:
        message = "%s:%d: %r is no requirement: an id is one word, as in `BRK-12: T1ms lost=0`"
        raise WrongRequirement(message % (path, number, line))
    return Requirement(text, name or None, path, number)
