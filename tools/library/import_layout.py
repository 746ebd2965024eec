"""The text of an imported configuration: an object a line, as a person would write it."""

import json
from typing import Any, Dict, List

from library.formats import NAMED_LISTS


def source_text(source: Dict[str, Any]) -> str:
    """The text of a source."""
    members = [_member(name, value) for name, value in source.items() if name not in ("spinlocks", "cores")]
    if "spinlocks" in source:
        members.append(_rows("spinlocks", [_flat(each) for each in source["spinlocks"]], " "))
    members.append('"cores": [\n%s]' % ",\n\n".join("  " + _core(core) for core in source["cores"]))
    return "{" + ",\n ".join(members) + "}\n"


def _core(core: Dict[str, Any]) -> str:
    """A core: its own members in the first line, and each of its lists in lines of its own."""
    first = ", ".join(_member(name, value) for name, value in core.items() if name not in NAMED_LISTS)
    lists = [_rows(name, [_object(each) for each in core[name]], "   ") for name in core if name in NAMED_LISTS]
    return "{" + ",\n   ".join([first] + lists) + "}"


def _rows(name: str, rows: List[str], margin: str) -> str:
    """A list with a line for each element."""
    return "%s: [\n%s]" % (json.dumps(name), ",\n".join(margin + " " + row for row in rows))


def _object(value: Dict[str, Any]) -> str:
    """An object on one line, but the points of a table on lines of their own."""
    if "points" not in value:
        return _flat(value)
    head = ", ".join(_member(name, each) for name, each in value.items() if name != "points")
    return "{%s, %s}" % (head, _rows("points", [_flat(point) for point in value["points"]], "     "))


def _flat(value: Any) -> str:
    return json.dumps(value, ensure_ascii=False)


def _member(name: str, value: Any) -> str:
    return "%s: %s" % (json.dumps(name), _flat(value))
