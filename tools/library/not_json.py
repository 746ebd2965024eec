"""What is wrong where a text stops being JSON, in the words of who writes such texts."""

import json
import re
from typing import Optional, Tuple

# What a value or a member's name begins with, and what is often written in place of one.
BEGINNINGS = tuple('"{[-0123456789') + tuple("abcdefghijklmnopqrstuvwxyzABCDEFGHIJKLMNOPQRSTUVWXYZ'")

_BARE_WORD = re.compile(r"[A-Za-z_][A-Za-z0-9_]*")
_PYTHON_WORDS = {"True": "true", "False": "false", "None": "null", "TRUE": "true", "FALSE": "false", "NULL": "null"}
_NUMBER_WORD = re.compile(r"[-+.0-9][-+.0-9A-Za-z_]*")
_TEXT_WORD = re.compile(r'"[^"\n]*"?')
_COMMENTS = ("//", "/*", "#")
_QUOTE = "a typographic quote stands here: write `\"`"
# Characters that look like others in an editor, or like nothing.
_LOOK_ALIKES = {
    "\x00": "a NUL stands here, as in UTF-16: save the file as UTF-8",
    "\ufeff": "a byte order mark stands here, which editors do not show: remove it",
    "\u00a0": "a no-break space stands here: write a space",
    "\u200b": "a space of no width stands here: remove it",
    "\u201c": _QUOTE,
    "\u201d": _QUOTE,
    "\u201e": _QUOTE,
    "\u2018": _QUOTE,
    "\u2019": _QUOTE,
}


def printable(text: str) -> str:
    """A text without characters that break a line, which are written as in JSON."""
    return "".join(c if c.isprintable() else json.dumps(c)[1:-1] for c in text)


def shown(text: str, most: int = 40) -> str:
    """A text in a report: within backquotes, and cut if it is long."""
    cut = text if len(text) <= most else text[: most - 2] + ".."
    return "`%s`" % printable(cut)


def wrong_beginning(data: bytes) -> Optional[str]:
    """Why a file's first bytes are no JSON, if they say what the file is."""
    if not data:
        return "the file is empty"
    if data.startswith(b"\xef\xbb\xbf"):
        return "the file begins with a byte order mark, which editors do not show: save it as UTF-8 without one"
    if data.startswith((b"\xff\xfe", b"\xfe\xff")):
        return "the file is UTF-16: save it as UTF-8"
    return None


def not_utf8(byte: int) -> str:
    """What a byte is that no UTF-8 has."""
    latin = "; in Latin-1 it is `%s`" % chr(byte) if byte > 0xA0 else ""
    return "the byte 0x%02X is no UTF-8%s: save the file as UTF-8" % (byte, latin)


def too_deep() -> str:
    """Why the 128th bracket is refused."""
    return "lists and objects stand in one another more than 127 levels deep"


def too_large() -> str:
    """Why a number is refused."""
    return "the number is too large for a double"


def behind_the_value(text: str, at: int) -> str:
    """What stands behind the end of the one value."""
    if text[at] in "}]":
        return "`%s` closes nothing: a bracket too many, or one too few before" % text[at]
    stranger = _stranger(text, at)
    if stranger is not None:
        return stranger
    return "the JSON value has ended before %s: a file holds one value" % _token(text, at)


def comma_too_many(closing: str) -> str:
    """What is wrong with the last comma of a list or an object."""
    return "a comma too many: `%s` follows" % closing


def no_value(text: str, at: int, opened: Optional[int]) -> str:
    """What stands where a value is wanted."""
    if at == len(text):
        return _ends(text, opened, "a value is wanted")
    stranger = _stranger(text, at)
    if stranger is not None:
        return stranger
    if text[at] == ",":
        return "a comma too many, or a value is missing before it"
    if text[at] == "'":
        return "a text stands in double quotes, not in `'`"
    if text[at] == "<":
        return "`<` begins XML, not JSON"
    word = _BARE_WORD.match(text, at)
    if word is not None:
        return _bare_word(word.group())
    number = _NUMBER_WORD.match(text, at)
    if number is not None:
        return _bad_number(number.group())
    return "a value is wanted, not %s" % _token(text, at)


def _bare_word(word: str) -> str:
    """What is wrong with a word without quotes."""
    if word in _PYTHON_WORDS:
        return "write `%s`, not `%s`" % (_PYTHON_WORDS[word], word)
    if word in ("NaN", "Infinity", "nan", "inf"):
        return "JSON has no `%s`" % word
    return "a text stands in double quotes: `\"%s\"`" % word


def number_goes_on(text: str, start: int, end: int) -> Optional[str]:
    """What is wrong with what stands right behind a number, if anything does."""
    word = _NUMBER_WORD.match(text, start).group()
    if len(word) == end - start:
        return None
    return _bad_number(word)


def _bad_number(word: str) -> str:
    """Why a word that looks like a number is none of JSON."""
    digits = word.lstrip("+-")
    if re.fullmatch(r"0[xX][0-9A-Fa-f]{1,16}", digits):
        return "numbers are decimal: %d, not %s" % (int(digits, 16), shown(word))
    if word.startswith("+"):
        return "a number has no `+`: %s" % shown(word)
    if re.fullmatch(r"0[0-9]+", digits):
        return "a number has no leading zeros: %s" % shown(word)
    return "%s is no number" % shown(word)


def no_member_name(text: str, at: int, opened: int) -> str:
    """What stands where a member's name is wanted."""
    if at == len(text):
        return _ends(text, opened, "`}` or a member is wanted")
    stranger = _stranger(text, at)
    if stranger is not None:
        return stranger
    if text[at] == ",":
        return "a comma too many"
    word = _BARE_WORD.match(text, at)
    if word is not None:
        return "a member's name stands in double quotes: `\"%s\"`" % word.group()
    if text[at] == "'":
        return "a member's name stands in double quotes, not in `'`"
    return "a member's name is wanted, not %s" % _token(text, at)


def no_colon(text: str, at: int, name: str) -> str:
    """What stands where the colon behind a member's name is wanted."""
    stranger = _stranger(text, at) if at < len(text) else None
    return stranger or "`:` is wanted behind the member's name %s, not %s" % (shown(name), _token(text, at))


def no_comma(text: str, at: int, closing: str, opened: int) -> str:
    """What stands where a comma or the closing bracket is wanted."""
    if at == len(text):
        return _ends(text, opened, "`%s` is wanted" % closing)
    stranger = _stranger(text, at)
    if stranger is not None:
        return stranger
    if text[at] in BEGINNINGS:
        word = _BARE_WORD.match(text, at)
        is_quote_missing = word is not None and word.group() not in ("true", "false", "null")
        return "a comma%s is missing before %s" % (" or a quote" if is_quote_missing else "", _token(text, at))
    return "`,` or `%s` is wanted, not %s" % (closing, _token(text, at))


def text_not_closed(text: str, start: int, at: int) -> Tuple[int, str]:
    """The offset and the reason where a text breaks off at a control character or at the file's end."""
    if at == len(text) or text[at] in "\r\n":
        return start, "this text has no closing `\"` in its line"
    if text[at] == "\t":
        return at, "a tab stands in a text; JSON writes it `\\t`"
    code = ord(text[at])
    return at, "the control character U+%04X stands in a text; JSON writes it `\\u%04x`" % (code, code)


def no_escape(text: str, at: int) -> str:
    """Why a backslash begins no escape."""
    if text[at + 1 : at + 2] == "u":
        return "`\\u` wants four hexadecimal digits"
    return "%s is no escape of JSON; a backslash itself is `\\\\`" % shown(text[at : at + 2])


def half_a_pair(escape: str) -> str:
    """Why an escape of a surrogate is refused."""
    return "%s is half a surrogate pair" % shown(escape)


def _stranger(text: str, at: int) -> Optional[str]:
    """What to say of a comment, and of a character that looks like another one."""
    for beginning in _COMMENTS:
        if text.startswith(beginning, at):
            return "JSON has no comments: `%s`" % beginning
    return _LOOK_ALIKES.get(text[at])


def _token(text: str, at: int) -> str:
    """What stands at an offset, for a report."""
    if at >= len(text):
        return "the end of the file"
    word = _BARE_WORD.match(text, at) or _NUMBER_WORD.match(text, at) or _TEXT_WORD.match(text, at)
    return shown(word.group() if word is not None else text[at])


def _ends(text: str, opened: Optional[int], wanted: str) -> str:
    """What to say at the end of a text that is not whole."""
    if opened is None:
        return "the file has no value: only blanks stand in it"
    line = text.count("\n", 0, opened) + 1
    return "the file ends here, and %s: `%s` of line %d is open" % (wanted, text[opened], line)
