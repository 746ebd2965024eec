"""Tests of the JSON reader that keeps places: what it reads, where it says that it stands, and what it refuses."""

import os
import sys
import unittest

sys.dont_write_bytecode = True
sys.path.insert(0, os.path.dirname(os.path.dirname(os.path.abspath(__file__))))
from library.places import JsonList, JsonNumber, JsonObject, JsonText, JsonWord, NotJson, read_document  # noqa: E402

# What is no JSON for mcos: the text, the line and the column, the pointer, and words of the reason.
REFUSED = (
    (b"", 1, 1, "", "the file is empty"),
    (b" \n ", 2, 2, "", "only blanks"),
    (b"\xef\xbb\xbf{}", 1, 1, "", "byte order mark"),
    (b"\xff\xfe{\x00}\x00", 1, 1, "", "UTF-16"),
    (b'{"a":\n "x\xe4"}', 2, 4, "", "0xE4 is no UTF-8; in Latin-1 it is `\u00e4`"),
    ('{"\u00e4": "\u00f6", b}'.encode(), 1, 12, "", 'in double quotes: `"b"`'),
    (b"{", 1, 2, "", "the file ends here"),
    (b'{"a": [1,\n', 2, 1, "/a/1", "`[` of line 1 is open"),
    (b'{"a": 1,}', 1, 8, "", "a comma too many: `}` follows"),
    (b'{"a": 1,\n}', 1, 8, "", "a comma too many: `}` follows"),
    (b'{"a": 1,,"b": 2}', 1, 9, "", "a comma too many"),
    (b'{"a": [1,]}', 1, 9, "/a", "a comma too many: `]` follows"),
    (b'{"a": [,1]}', 1, 8, "/a/0", "a comma too many"),
    (b'{"a": 1\n "b": 2}', 1, 8, "", 'a comma is missing before `"b"`'),
    (b'{"a": {"b": 1 "c": 2}}', 1, 14, "/a", 'a comma is missing before `"c"`'),
    (b"[1 2]", 1, 3, "", "a comma is missing before `2`"),
    (b'{"a": "x, "b": 1}', 1, 12, "", "a comma or a quote is missing before `b`"),
    (b"[1;2]", 1, 3, "", "`,` or `]` is wanted, not `;`"),
    (b"[1}", 1, 3, "", "`,` or `]` is wanted, not `}`"),
    (b'{"a" 1}', 1, 6, "", "`:` is wanted behind the member's name `a`, not `1`"),
    (b'{"a" = 1}', 1, 6, "", "`:` is wanted behind the member's name `a`, not `=`"),
    (b'{"a"', 1, 5, "", "`:` is wanted behind the member's name `a`, not the end of the file"),
    (b"{a: 1}", 1, 2, "", "in double quotes"),
    (b"{'a': 1}", 1, 2, "", "in double quotes"),
    (b"{1: 1}", 1, 2, "", "a member's name is wanted, not `1`"),
    (b"{} {}", 1, 4, "", "a file holds one value"),
    (b"{}}", 1, 3, "", "`}` closes nothing"),
    (b"// c\n{}", 1, 1, "", "JSON has no comments: `//`"),
    (b'{"a": 1 /* c */}', 1, 9, "", "JSON has no comments: `/*`"),
    (b'{"a": 1}\n# c', 2, 1, "", "JSON has no comments: `#`"),
    ("{\u201ca\u201d: 1}".encode(), 1, 2, "", "a typographic quote"),
    ("{\n\u00a0\"a\": 1}".encode(), 2, 1, "", "a no-break space"),
    ("{}\ufeff".encode(), 1, 3, "", "a byte order mark"),
    (b"{\x00}", 1, 2, "", "a NUL stands here"),
    (b"[True]", 1, 2, "/0", "write `true`, not `True`"),
    (b"[NaN]", 1, 2, "/0", "JSON has no `NaN`"),
    (b"[op]", 1, 2, "/0", 'in double quotes: `"op"`'),
    (b"['op']", 1, 2, "/0", "in double quotes"),
    (b"<AUTOSAR>", 1, 1, "", "XML"),
    (b"[01]", 1, 2, "/0", "no leading zeros"),
    (b"[+1]", 1, 2, "/0", "no `+`"),
    (b"[0x1F]", 1, 2, "/0", "numbers are decimal: 31, not `0x1F`"),
    (b"[0x" + b"F" * 5000 + b"]", 1, 2, "/0", "`0x" + "F" * 36 + "..` is no number"),
    (b"[1.]", 1, 2, "/0", "`1.` is no number"),
    (b"[.5]", 1, 2, "/0", "`.5` is no number"),
    (b"[-]", 1, 2, "/0", "`-` is no number"),
    (b"[1e400]", 1, 2, "/0", "too large for a double"),
    (b"[" + b"9" * 309 + b"]", 1, 2, "/0", "too large for a double"),
    (b'["a\nb"]', 1, 2, "/0", 'no closing `"` in its line'),
    (b'["a', 1, 2, "/0", 'no closing `"` in its line'),
    (b'["a\tb"]', 1, 4, "/0", "a tab"),
    (b'["a\x01b"]', 1, 4, "/0", "U+0001"),
    (b'["\\x"]', 1, 3, "/0", "`\\x` is no escape"),
    (b'["ab\\u12"]', 1, 5, "/0", "four hexadecimal digits"),
    (b'["\\ud83d"]', 1, 3, "/0", "half a surrogate pair"),
    (b'["\\ude00"]', 1, 3, "/0", "half a surrogate pair"),
    (b'["\\ud83d\\ude00\\ud83d\\ud83d"]', 1, 15, "/0", "half a surrogate pair"),
    (b"[" * 128, 1, 128, "/0" * 127, "more than 127 levels"),
)

# Numbers as they are written, and as whole ones of 64 bits; None if they are none.
NUMBERS = (
    ("0", 0),
    ("-1", -1),
    ("18446744073709551615", 2**64 - 1),
    ("18446744073709551616", None),
    ("-9223372036854775808", -(2**63)),
    ("-9223372036854775809", None),
    ("-0", None),
    ("1.0", None),
    ("1e2", None),
    ("1E+2", None),
    ("0e999", None),
    ("1e-999", None),
    ("1e308", None),
    ("9" * 308, None),
    ("1." + "0" * 5000, None),
)


def values_of(value):
    """Each value within a value, with its pointer."""
    yield value.pointer, value
    if isinstance(value, JsonObject):
        for member in value.members.values():
            yield from values_of(member.value)
    for element in value.elements if isinstance(value, JsonList) else []:
        yield from values_of(element)


class Refused(unittest.TestCase):
    """Fault 1, with its place."""

    def test_each_text(self):
        for data, line, column, pointer, words in REFUSED:
            with self.subTest(data=data[:40]):
                with self.assertRaises(NotJson) as raised:
                    read_document(data)
                error = raised.exception
                self.assertEqual((line, column, pointer), (*error.place, error.pointer))
                self.assertIn(words, error.text)

    def test_levels(self):
        for opening, closing in ((b"[", b"]"), (b'{"a":', b"}")):
            inner = b"" if opening == b"[" else b"1"
            read_document(opening * 127 + inner + closing * 127)
            with self.assertRaises(NotJson):
                read_document(opening * 128 + inner + closing * 128)


class Read(unittest.TestCase):
    """What is read, and where it stands."""

    def test_values(self):
        document = read_document(b' { "a" : [ 1 , "x" , true , false , null , { } , [ ] ] }\r\n\t')
        kinds = [type(value) for _, value in values_of(document.root)]
        words = [JsonNumber, JsonText, JsonWord, JsonWord, JsonWord, JsonObject, JsonList]
        self.assertEqual([JsonObject, JsonList] + words, kinds)
        elements = document.root.members["a"].value.elements
        self.assertEqual((1, "x"), (elements[0].number, elements[1].text))
        self.assertEqual([True, False, None], [element.value for element in elements[2:5]])
        sources = [document.source(element) for element in elements]
        self.assertEqual(["1", '"x"', "true", "false", "null", "{ }", "[ ]"], sources)

    def test_places_and_pointers(self):
        document = read_document('{"\u00e4": 1,\n  "b": [10, {"c/d~e": "f"}],\r\n\t"": 2}'.encode())
        places = {value.pointer: tuple(document.place(value.start)) for _, value in values_of(document.root)}
        expected = {
            "": (1, 1),
            "/\u00e4": (1, 7),
            "/b": (2, 8),
            "/b/0": (2, 9),
            "/b/1": (2, 13),
            "/b/1/c~1d~0e": (2, 23),
            "/": (3, 6),
        }
        self.assertEqual(expected, places)
        names = {name: tuple(document.place(member.name_start)) for name, member in document.root.members.items()}
        self.assertEqual({"\u00e4": (1, 2), "b": (2, 3), "": (3, 2)}, names)

    def test_a_pointer_breaks_no_line(self):
        document = read_document(b'{"a\\nb": 1}')
        self.assertEqual("/a\\nb", document.root.members["a\nb"].value.pointer)

    def test_numbers(self):
        for source, number in NUMBERS:
            with self.subTest(source=source[:40]):
                self.assertEqual(number, read_document(source.encode()).root.number)

    def test_texts(self):
        document = read_document('"\\"\\\\\\/\\b\\f\\n\\r\\t\\u0041\\u00e4\\ud83d\\uDE00\u00e4\U0001f600\x7f"'.encode())
        self.assertEqual('"\\/\b\f\n\r\tA\u00e4\U0001f600\u00e4\U0001f600\x7f', document.root.text)

    def test_characters_of_a_text_without_escapes(self):
        document = read_document('[\n "work;\u00e4;jump"]'.encode())
        text = document.root.elements[0]
        offsets = document.character_offsets(text)
        places = [tuple(document.place(offsets[index])) for index in (0, 5, 7, len(text.text))]
        self.assertEqual([(2, 3), (2, 8), (2, 10), (2, 14)], places)

    def test_characters_of_a_text_with_escapes(self):
        # Each character, and the column at which it begins.
        source = '"a\\u0062\\n\\ud83d\\ude00c\\\\"'
        document = read_document(source.encode())
        offsets = document.character_offsets(document.root)
        characters = document.root.text + "$"
        columns = {character: document.place(offset).column for character, offset in zip(characters, offsets)}
        self.assertEqual({"a": 2, "b": 3, "\n": 9, "\U0001f600": 11, "c": 23, "\\": 24, "$": 26}, columns)

    def test_repeated_members(self):
        document = read_document(b'{"a": 1,\n "b": {"c": 1, "c": 2, "c": 3},\n "\\u0061": 4}')
        self.assertEqual(4, document.root.members["a"].value.number)
        self.assertEqual(3, document.root.members["b"].value.members["c"].value.number)
        found = [(each.name, *document.place(each.earlier), *document.place(each.later)) for each in document.repeated]
        self.assertEqual([("c", 2, 8, 2, 16), ("c", 2, 16, 2, 24), ("a", 1, 2, 3, 2)], found)


if __name__ == "__main__":
    unittest.main()
