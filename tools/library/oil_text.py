"""Reads the text of an OIL file (OSEK OIL 2.5): objects and attributes, with their places.

    file        ::= { entry }
    entry       ::= WORD "=" value [ braces ] [ description ] ";"       an attribute
                  | WORD [ NAME ] [ braces ] [ description ] ";"         an object
    braces      ::= "{" { entry } "}"
    description ::= ":" STRING

Comments are `//` up to the end of the line, and `/* */`. A file of `#include "FILE"` is read in its place.
IMPLEMENTATION, which says what attributes a vendor has, is passed over.
"""

import bisect
import os
import re
from dataclasses import dataclass, field
from typing import Iterator, List

from library.ecuc import Spot, refused
from library.ending import Failed
from library.formats import MOST_LEVELS
from library.not_json import shown
from library.places import line_starts

MOST_BYTES = 1 << 24  # of a file, and of all that it includes
IMPLEMENTATION = "IMPLEMENTATION"
_MOST_FILES = 100
_TOKEN = re.compile(
    r"""(?P<blank>[\s\ufeff]+|//[^\n]*|/\*.*?\*/)
    |(?P<string>"(?:[^"\\\n]|\\.)*")
    |(?P<directive>\#[^\n]*)
    |(?P<number>[+-]?[0-9.][0-9A-Za-z_.]*(?:(?<=[eE])[+-][0-9]+)?)
    |(?P<word>[A-Za-z_][A-Za-z0-9_.]*)
    |(?P<sign>.)""",
    re.VERBOSE | re.DOTALL,
)
_INCLUDE = re.compile(r'#\s*include\s*(?:"(?P<file>[^"]+)"|<(?P<system>[^>]+)>)\s*(?://.*|/\*.*)?')


@dataclass(frozen=True)
class Token:
    """A word, a number, a string without its quotes, or a sign; the last one of all is of the kind `end`."""

    kind: str
    text: str
    spot: Spot

    @property
    def shown(self) -> str:
        """The token in a message."""
        return shown(self.text) if self.kind != "end" else "the end of the file"


@dataclass(eq=False)
class Entry:
    """An object with its name, or an attribute with its value, and what stands in its braces."""

    word: str
    text: str
    spot: Spot
    is_attribute: bool
    entries: List["Entry"] = field(default_factory=list)


@dataclass
class OilText:
    """The entries of a file, and the places of the files that it includes and that are not read."""

    entries: List[Entry]
    not_included: List[Token]


def read_oil_text(path: str, data: bytes) -> OilText:
    """The entries of a file. Raises Failed, with the place, if it is no OIL."""
    tokens = _Tokens()
    reader = _Reader(tokens.of_file(path, data))
    return OilText(reader.whole(), tokens.not_included)


class _Tokens:
    """The tokens of a file, with those of the files that it includes in their places."""

    def __init__(self) -> None:
        self.open: List[str] = []
        self.files = 0
        self.size = 0
        self.not_included: List[Token] = []

    def of_file(self, path: str, data: bytes) -> Iterator[Token]:
        """The tokens of one file, without its end."""
        self.size += len(data)
        if self.size > MOST_BYTES:
            raise Failed("%s: longer than %d MiB: no OIL file is" % (path, MOST_BYTES >> 20))
        text = _text_of(data)
        starts = line_starts(text)
        self.open.append(os.path.realpath(path))
        for found in _TOKEN.finditer(text):
            line = bisect.bisect_right(starts, found.start())
            spot = Spot(path, line, found.start() - starts[line - 1] + 1)
            token = Token(found.lastgroup, found.group(), spot)
            if token.kind == "directive":
                yield from self.included(token)
            elif token.kind != "blank":
                yield _sound(token, text, found.start())
        self.open.pop()
        if not self.open:
            line = len(starts)
            yield Token("end", "", Spot(path, line, len(text) - starts[line - 1] + 1))

    def included(self, token: Token) -> Iterator[Token]:
        """The tokens of a file that is included."""
        found = _INCLUDE.fullmatch(token.text.strip())
        if found is None:
            raise refused(token.spot, "of the preprocessor only `#include` is read, not %s" % token.shown)
        if found["system"] is not None:
            self.not_included.append(token)
            return
        path = os.path.join(os.path.dirname(token.spot.path), found["file"])
        self.files += 1
        if os.path.realpath(path) in self.open:
            raise refused(token.spot, "this file includes itself: %s" % shown(path))
        if self.files > _MOST_FILES:
            raise refused(token.spot, "more than %d files are included" % _MOST_FILES)
        yield from self.of_file(path, _bytes_of(path, token.spot))


class _Reader:
    """Reads entries from tokens."""

    def __init__(self, tokens: Iterator[Token]) -> None:
        self.tokens = tokens
        self.next = next(tokens)

    def take(self) -> Token:
        """The next token, which is passed."""
        token = self.next
        self.next = next(self.tokens, token)
        return token

    def is_next(self, sign: str) -> bool:
        """Whether a sign is next."""
        return self.next.kind == "sign" and self.next.text == sign

    def want(self, sign: str, where: str) -> Token:
        """A sign that has to be next."""
        if not self.is_next(sign):
            raise refused(self.next.spot, "`%s` is wanted %s, not %s" % (sign, where, self.next.shown))
        return self.take()

    def whole(self) -> List[Entry]:
        """All entries of the file."""
        found = []
        while self.next.kind != "end":
            found.append(self.entry(0))
        return found

    def entry(self, depth: int) -> Entry:
        """An object or an attribute."""
        word = self.take()
        if word.kind != "word":
            raise refused(word.spot, "an object or an attribute is wanted, not %s" % word.shown)
        entry = Entry(word.text, "", word.spot, self.is_next("="))
        if entry.is_attribute:
            self.take()
            entry.text = self.value()
        elif self.next.kind in ("word", "number"):
            entry.text = self.take().text
        what = "behind `%s`" % " ".join(filter(None, (word.text, entry.text)))
        if self.is_next("{"):
            self.braces(entry, depth)
        if self.is_next(":"):
            self.take()
            self.description()
        self.want(";", what)
        return entry

    def value(self) -> str:
        """The value of an attribute."""
        value = self.take()
        if value.kind not in ("word", "number", "string"):
            raise refused(value.spot, "a value is wanted behind `=`, not %s" % value.shown)
        return value.text

    def description(self) -> None:
        """The text behind a colon, which is for people."""
        text = self.take()
        if text.kind != "string":
            raise refused(text.spot, "a text in quotes is wanted behind `:`, not %s" % text.shown)

    def braces(self, entry: Entry, depth: int) -> None:
        """What stands in the braces of an entry."""
        opened = self.take()
        if depth >= MOST_LEVELS:
            raise refused(opened.spot, "braces stand in one another more than %d levels deep" % MOST_LEVELS)
        if entry.word == IMPLEMENTATION and depth == 0:
            self.pass_over(opened)
            return
        while not self.is_next("}"):
            if self.next.kind == "end":
                self.unclosed(opened)
            entry.entries.append(self.entry(depth + 1))
        self.take()

    def pass_over(self, opened: Token) -> None:
        """Passes over all up to the brace that closes one."""
        depth = 1
        while depth:
            token = self.take()
            if token.kind == "end":
                self.unclosed(opened)
            if token.kind == "sign":
                depth += {"{": 1, "}": -1}.get(token.text, 0)

    def unclosed(self, opened: Token) -> None:
        """Refuses a file that ends within braces."""
        text = "the file ends here, and `}` is wanted: `{` of line %d is open" % opened.spot.line
        raise refused(self.next.spot, text)


def _text_of(data: bytes) -> str:
    """The text of a file: UTF-8, or what comments of older ones are often in."""
    try:
        return data.decode("utf-8-sig")
    except UnicodeDecodeError:
        return data.decode("latin-1")


def _bytes_of(path: str, spot: Spot) -> bytes:
    """The bytes of a file that is included."""
    if not os.path.isfile(path):
        raise refused(spot, "the file to include is not there: %s" % shown(path))
    try:
        with open(path, "rb") as file:
            return file.read(MOST_BYTES + 1)
    except OSError as error:
        raise refused(spot, "%s cannot be read: %s" % (shown(path), error.strerror)) from None


def _sound(token: Token, text: str, offset: int) -> Token:
    """A token that is whole: no comment and no text goes on up to the end of the file or the line."""
    if text.startswith("/*", offset):
        raise refused(token.spot, "this comment is not closed")
    if token.text == '"':
        raise refused(token.spot, 'this text has no closing `"` in its line')
    if token.kind == "string":
        return Token("string", re.sub(r"\\(.)", r"\1", token.text[1:-1]), token.spot)
    return token
