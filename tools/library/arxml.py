"""Reads AUTOSAR's ARXML (4.x): the containers of the modules Os and EcuC, each with its place.

Python's own XML reader (expat) says what stands in the file, and only what stands in these modules is kept. No entity
is ever read: a file with a DOCTYPE is refused, so nothing can grow by entities or come from another file.
"""

from dataclasses import dataclass, field
from typing import List, Optional
from xml.parsers import expat

from library.ecuc import MODULES, Node, Spot, Value, refused
from library.formats import MOST_LEVELS
from library.not_json import printable

_MODULE = "ECUC-MODULE-CONFIGURATION-VALUES"
_CONTAINER = "ECUC-CONTAINER-VALUE"
_PACKAGE = "AR-PACKAGE"
_NAME = "SHORT-NAME"
_DEFINITION = "DEFINITION-REF"
_OF_MODULE = "CONTAINERS"
_PARTS = (_OF_MODULE, "SUB-CONTAINERS")
_VALUES = ("PARAMETER-VALUES", "REFERENCE-VALUES")
_REFERENCE = "VALUE-REF"
_VARIATION = "VARIATION-POINT"
# Roots of other files that are often taken for ARXML, and what to do.
_OTHER_ROOTS = {
    "datamodel": "this is an XDM of EB tresos: export it as ARXML",
    "FIBEX": "this is FIBEX, which has no Os configuration",
    "ASAM": "this is an XML of ASAM, which has no Os configuration",
}


@dataclass(eq=False)
class _Element:
    """An XML element with what is kept of it: its name, and within a module of these all."""

    tag: str
    spot: Spot
    texts: List[str] = field(default_factory=list)
    children: List["_Element"] = field(default_factory=list)

    @property
    def text(self) -> str:
        return "".join(self.texts).strip()

    def child(self, tag: str) -> Optional["_Element"]:
        return next((child for child in self.children if child.tag == tag), None)

    def text_of(self, tag: str) -> str:
        """The text of the first child of a tag; none if there is no such child."""
        child = self.child(tag)
        return child.text if child is not None else ""


@dataclass
class Found:
    """What an ARXML file has: its modules, and places of what makes a part of it hold in some variants only."""

    modules: List[Node] = field(default_factory=list)
    variations: List[Spot] = field(default_factory=list)
    others: List[str] = field(default_factory=list)  # the kinds of further modules


def read_arxml(path: str, data: bytes) -> Found:
    """The modules Os and EcuC in the bytes of a file. Raises Failed if it is no XML, or one that is not read."""
    return _Reader(path).whole(data)


class _Reader:
    """Reads one file from its beginning to its end."""

    def __init__(self, path: str) -> None:
        self.path = path
        self.found = Found()
        self.open: List[_Element] = []
        # The module that is open, if what stands in it is kept.
        self.module: Optional[_Element] = None
        self.parser = expat.ParserCreate()
        self.parser.buffer_text = True
        self.parser.StartElementHandler = self.start
        self.parser.EndElementHandler = self.end
        self.parser.CharacterDataHandler = self.characters
        self.parser.StartDoctypeDeclHandler = self.doctype
        self.parser.EntityDeclHandler = self.doctype

    def whole(self, data: bytes) -> Found:
        """Reads all of the file."""
        try:
            self.parser.Parse(data, True)
        except expat.ExpatError as error:
            spot = Spot(self.path, error.lineno, error.offset + 1)
            raise refused(spot, "no XML: %s" % expat.ErrorString(error.code)) from None
        except (ValueError, LookupError) as error:
            raise refused(self.here(), "no XML: %s" % error) from None
        return self.found

    def here(self) -> Spot:
        return Spot(self.path, self.parser.CurrentLineNumber, self.parser.CurrentColumnNumber + 1)

    # ---- what expat calls

    def doctype(self, *_: object) -> None:
        raise refused(self.here(), "a DOCTYPE or an entity is declared here: ARXML has none, and it is not read")

    def start(self, tag: str, _: object) -> None:
        element = _Element(tag.rpartition(":")[2], self.here())
        if not self.open:
            self.refuse_other_root(element)
        if len(self.open) >= MOST_LEVELS:
            raise refused(element.spot, "elements stand in one another more than %d levels deep" % MOST_LEVELS)
        if element.tag == _MODULE and self.module is None:
            self.module = element
        elif self.module is not None and element.tag == _OF_MODULE and self.open[-1] is self.module:
            self.pass_over_others()
        if self.open and (self.module is not None or element.tag == _NAME):
            self.open[-1].children.append(element)
        self.open.append(element)

    def characters(self, text: str) -> None:
        element = self.open[-1]
        if (self.module is not None or element.tag == _NAME) and not text.isspace():
            element.texts.append(text)

    def end(self, _: str) -> None:
        element = self.open.pop()
        if element is not self.module:
            return
        self.module = None
        kind = _last(element.text_of(_DEFINITION))
        if kind in MODULES:
            self.found.modules.append(self.node(element, kind, self.package()))
        elif kind:
            self.found.others.append(kind)

    # ---- from elements to containers

    def refuse_other_root(self, root: _Element) -> None:
        if root.tag in _OTHER_ROOTS:
            raise refused(root.spot, _OTHER_ROOTS[root.tag])
        if root.tag != "AUTOSAR":
            raise refused(root.spot, "no ARXML: the first element is `%s`, not `AUTOSAR`" % printable(root.tag))

    def pass_over_others(self) -> None:
        """Keeps nothing of what stands in a module of another kind."""
        kind = _last(self.module.text_of(_DEFINITION))
        if kind and kind not in MODULES:
            self.found.others.append(kind)
            self.module = None

    def package(self) -> str:
        """The path of the packages that are open."""
        return "".join("/" + each.text_of(_NAME) for each in self.open if each.tag == _PACKAGE)

    def node(self, element: _Element, kind: str, path: str) -> Node:
        """The container that an element is."""
        name = element.text_of(_NAME)
        node = Node(kind, kind, name, element.spot, "%s/%s" % (path, name))
        for child in element.children:
            if child.tag in _VALUES:
                node.values += [self.value(each) for each in child.children]
            elif child.tag in _PARTS:
                parts = [each for each in child.children if each.tag == _CONTAINER]
                node.parts += [self.node(each, _last(each.text_of(_DEFINITION)), node.path) for each in parts]
            elif child.tag == _VARIATION:
                self.found.variations.append(child.spot)
        return node

    def value(self, element: _Element) -> Value:
        """The parameter or the reference that an element is."""
        variation = element.child(_VARIATION)
        if variation is not None:
            self.found.variations.append(variation.spot)
        key = _last(element.text_of(_DEFINITION))
        reference = element.child(_REFERENCE)
        if reference is not None:
            return Value(key, key, reference.text, element.spot, reference.text)
        return Value(key, key, element.text_of("VALUE"), element.spot)


def _last(path: str) -> str:
    """The last step of a path."""
    return path.rpartition("/")[2]
