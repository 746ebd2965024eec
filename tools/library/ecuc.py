"""What a file of an Os configuration holds: containers with parameters and references, in AUTOSAR's words (ECUC).

ARXML has it so. OIL is brought to it, with the words of OIL beside, for messages. What nobody asked a container for is
left, so that it can be named.
"""

import re
from dataclasses import dataclass, field
from decimal import Decimal
from fractions import Fraction
from typing import Dict, Iterator, List, NamedTuple, Optional, Set

from library.ending import Failed

OS = "Os"
HARDWARE = "EcuC"
MODULES = (OS, HARDWARE)

_WHOLE = re.compile(r"([+-]?)(?:(0[xX][0-9A-Fa-f]+)|(0[bB][01]+)|(0[0-7]+)|(0|[1-9][0-9]*))")
_DECIMAL = re.compile(r"[+-]?(?:[0-9]+\.?[0-9]*|\.[0-9]+)(?:[eE][+-]?[0-9]{1,3})?")
_OCTAL_OF_NINE = re.compile(r"[+-]?0[0-9]+\Z")
_MOST_DIGITS = 40  # of a number; none that means anything has more


class Spot(NamedTuple):
    """A place in one of several files. Lines and columns count from 1."""

    path: str
    line: int
    column: int

    def __str__(self) -> str:
        return "%s:%d:%d" % self


def refused(spot: Spot, text: str) -> Failed:
    """Why a file is not read, with the place."""
    return Failed("%s: %s" % (spot, text))


@dataclass(eq=False)
class Value:
    """A parameter or a reference of a container. `key` is AUTOSAR's name, `word` is that of the file."""

    key: str
    word: str
    text: str
    spot: Spot
    path: Optional[str] = None  # of what it refers to

    @property
    def shown(self) -> str:
        """The value in a message, in one line, and cut if it is long."""
        text = " ".join(self.text.split())
        return text if len(text) <= 60 else text[:58] + ".."


@dataclass(eq=False)
class Node:
    """A container. `kind` is AUTOSAR's name, `word` is that of the file."""

    kind: str
    word: str
    name: str
    spot: Spot
    path: str
    values: List[Value] = field(default_factory=list)
    parts: List["Node"] = field(default_factory=list)
    # The keys and the kinds that were asked for.
    read: Set[str] = field(default_factory=set)
    owner: Optional["Node"] = None  # the container that has it, none of an object

    @property
    def key(self) -> str:
        """As of a value: what it is called in AUTOSAR."""
        return self.kind

    @property
    def shown(self) -> str:
        """As of a value: what it is in a message."""
        return self.name

    @property
    def title(self) -> str:
        """The container in a message: the object first, and then the way to what stands in it."""
        own = "%s %s" % (self.word, self.name) if self.name else self.word
        return "%s, %s" % (self.owner.title, own) if self.owner is not None else own

    def all(self, key: str) -> List[Value]:
        """The values of a parameter or a reference, in their order."""
        self.read.add(key)
        return [value for value in self.values if value.key == key]

    def first(self, *keys: str) -> Optional[Value]:
        """The first value of some names of one parameter."""
        found = [value for key in keys for value in self.all(key)]
        return found[0] if found else None

    def parts_of(self, kind: str) -> List["Node"]:
        """The containers of a kind in this one."""
        self.read.add(kind)
        return [part for part in self.parts if part.kind == kind]

    def all_read(self) -> None:
        """Says that nothing of the container has to be named, since what holds it is left out as a whole."""
        self.read |= {value.key for value in self.values} | {part.kind for part in self.parts}
        for part in self.parts:
            part.all_read()


class Ecuc:
    """The containers of all files. Those of the same path, which several files may share, are one."""

    def __init__(self) -> None:
        self.modules: List[Node] = []
        self.by_path: Dict[str, Node] = {}
        # How the files call what AUTOSAR calls otherwise.
        self.words: Dict[str, str] = {}

    def word(self, key: str) -> str:
        """How the files call a parameter, a reference or a container."""
        return self.words.get(key, key)

    def add(self, module: Node) -> None:
        """Adds a module."""
        known = self.by_path.get(module.path)
        if known is None or known.kind != module.kind:
            self.modules.append(module)
            self._index(module)
        else:
            self._merge(known, module)

    def objects(self, module: str = OS) -> Iterator[Node]:
        """The containers right in the modules of a kind."""
        return (part for each in self.modules if each.kind == module for part in each.parts)

    def target(self, value: Value) -> Optional[Node]:
        """What a reference leads to."""
        return self.by_path.get(value.path) if value.path is not None else None

    def _index(self, node: Node) -> None:
        self.by_path.setdefault(node.path, node)
        for part in node.parts:
            part.owner = node if node.kind not in MODULES else None
            self._index(part)

    def _merge(self, known: Node, again: Node) -> None:
        """Adds what a container has in another file."""
        known.values += again.values
        for part in again.parts:
            earlier = self.by_path.get(part.path)
            if earlier is not None and earlier.kind == part.kind:
                self._merge(earlier, part)
            else:
                known.parts.append(part)
                part.owner = known if known.kind not in MODULES else None
                self._index(part)


def whole(text: str) -> Optional[int]:
    """A whole number as these files write it: decimal, hexadecimal, binary or octal, or with a fraction of zero."""
    text = text.strip()
    found = _WHOLE.fullmatch(text) if len(text) <= _MOST_DIGITS else None
    if found is None:
        number = fraction(text) if _OCTAL_OF_NINE.match(text) is None else None
        return int(number) if number is not None and number.denominator == 1 else None
    sign, hexadecimal, binary, octal, decimal = found.groups()
    digits, base = next(pair for pair in ((hexadecimal, 16), (binary, 2), (octal, 8), (decimal, 10)) if pair[0])
    return int(digits, base) * (-1 if sign == "-" else 1)


def fraction(text: str) -> Optional[Fraction]:
    """A decimal number, as it is written and not as a computer rounds it."""
    text = text.strip()
    if len(text) > _MOST_DIGITS or _DECIMAL.fullmatch(text) is None:
        return None
    return Fraction(Decimal(text))


def truth(text: str) -> Optional[bool]:
    """A truth value, as these files write it."""
    return {"true": True, "1": True, "false": False, "0": False}.get(text.strip().lower())
