"""The shorthand of `tools/expand` within one text: repetitions, labels for jumps, and masks by names of events.

    script     ::= [ items ]
    items      ::= item { ";" item }
    item       ::= { label } ( operation | repetition )     the last item may have labels alone
    label      ::= NAME ":"
    repetition ::= COUNT "*" ( operation | "(" items ")" )
    operation  ::= argument { argument }
    argument   ::= WORD { "|" WORD }

    words      ::= { word | COUNT "*" ( word | "(" words ")" ) }     of stimuli and schedules

Spaces, tabs and line ends divide words; elsewhere they may stand, and mean nothing. All places are offsets in the file.
What is no shorthand is not judged here: a misspelled operation is left as it is, for `mcos` and `tools/explain`.
"""

import re
from dataclasses import dataclass
from typing import Callable, Iterator, List, Mapping, Optional, Sequence, Tuple, Union

from library import formats
from library.findings import did_you_mean

GREATEST_COUNT = formats.MOST_TURNS  # of one repetition
MOST_NESTED = 32  # parentheses within one another

_SCRIPT_PUNCTUATION = ";*():|"
_WORDS_PUNCTUATION = "*()"


class Refused(Exception):
    """A wrong use of the shorthand, with its place."""

    def __init__(self, offset: int, text: str) -> None:
        super().__init__(text)
        self.offset = offset
        self.text = text


# ---------------------------------------------------------------------------------------------------------------------
# What a text consists of
# ---------------------------------------------------------------------------------------------------------------------


@dataclass(frozen=True)
class Word:
    """A word as it stands in the text; of stimuli and schedules it is a part."""

    text: str
    offset: int
    size: int = 1


@dataclass(frozen=True)
class Argument:
    """A word of an operation, or several with `|` between them."""

    words: Tuple[Word, ...]

    @property
    def text(self) -> str:
        """The argument without spaces."""
        return "|".join(word.text for word in self.words)

    @property
    def offset(self) -> int:
        """Where it begins."""
        return self.words[0].offset


@dataclass(frozen=True)
class Operation:
    """An operation: its own word first, then its arguments."""

    arguments: Tuple[Argument, ...]
    size: int = 1

    @property
    def offset(self) -> int:
        """Where it begins."""
        return self.arguments[0].offset


@dataclass(frozen=True)
class Label:
    """A place in a script; it takes no operation."""

    name: str
    offset: int
    size: int = 0


@dataclass(frozen=True)
class Repetition:
    """Parts that come several times."""

    count: int
    body: Tuple["Part", ...]
    offset: int

    @property
    def size(self) -> int:
        """How many operations or words it expands to."""
        return self.count * size_of(self.body)


Part = Union[Word, Operation, Label, Repetition]
Parts = Sequence[Part]


def size_of(parts: Parts) -> int:
    """How many operations or words the parts expand to."""
    return sum(part.size for part in parts)


# ---------------------------------------------------------------------------------------------------------------------
# Reading
# ---------------------------------------------------------------------------------------------------------------------


class _Reader:
    """Reads one text from left to right. `offsets` has the place of each character, and of the end."""

    def __init__(self, text: str, offsets: Sequence[int], punctuation: str, example: str) -> None:
        token = re.compile(r"[%s]|[^ \t\r\n%s]+" % ((re.escape(punctuation),) * 2))
        self.tokens = [Word(found.group(), offsets[found.start()]) for found in token.finditer(text)]
        self.end = Word("", offsets[len(text)])
        self.punctuation = punctuation
        self.example = example
        self.next = 0
        self.depth = 0

    def peek(self, ahead: int = 0) -> Word:
        """The next token, or an empty one at the end of the text."""
        at = self.next + ahead
        return self.tokens[at] if at < len(self.tokens) else self.end

    def take(self) -> Word:
        """The next token, which is passed."""
        token = self.peek()
        self.next += 1
        return token

    def is_word(self) -> bool:
        """Whether the next token is a word, and neither punctuation nor the end."""
        text = self.peek().text
        return text != "" and text not in self.punctuation

    def is_repetition(self) -> bool:
        """Whether a repetition begins here."""
        return self.is_word() and self.peek(1).text == "*"

    def count(self) -> int:
        """The count of a repetition, with its `*`."""
        word = self.take()
        self.take()
        if not formats.is_decimal(word.text):
            raise Refused(word.offset, "a count stands before `*`, as in `3*%s`, not `%s`" % (self.example, word.text))
        if word.text == "0" or len(word.text) > len(str(GREATEST_COUNT)) or int(word.text) > GREATEST_COUNT:
            raise Refused(word.offset, "a count is 1 to %d, not %s" % (GREATEST_COUNT, word.text))
        return int(word.text)

    def repetition(self, one: Callable[[], Part], several: Callable[[], Tuple[Part, ...]]) -> Repetition:
        """A repetition of one part, or of several in parentheses."""
        offset = self.peek().offset
        count = self.count()
        if self.peek().text == "(":
            return Repetition(count, self.parentheses(several), offset)
        if self.is_repetition():
            text = "a repetition of a repetition wants parentheses, as in `3*(2*%s)`" % self.example
            raise Refused(self.peek().offset, text)
        if not self.is_word():
            raise Refused(self.peek().offset, "behind `%d*` nothing stands that it could repeat" % count)
        return Repetition(count, (one(),), offset)

    def parentheses(self, several: Callable[[], Tuple[Part, ...]]) -> Tuple[Part, ...]:
        """The parts within parentheses."""
        opening = self.take()
        if self.depth == MOST_NESTED:
            raise Refused(opening.offset, "more than %d parentheses within one another" % MOST_NESTED)
        if self.peek().text == ")":
            raise Refused(opening.offset, "there is nothing in these parentheses")
        self.depth += 1
        body = several()
        self.depth -= 1
        if self.peek().text == "":
            raise Refused(opening.offset, "this `(` has no `)`")
        if self.peek().text != ")":
            self.refuse_token()
        if not size_of(body):
            raise Refused(opening.offset, "there is nothing to repeat in these parentheses")
        self.take()
        return body

    def refuse_token(self) -> None:
        """Refuses the next token, if there is one: nothing of the kind can stand here."""
        token = self.peek()
        if token.text == ")":
            raise Refused(token.offset, "this `)` has no `(`")
        if token.text == "(":
            raise Refused(token.offset, "a count stands before `(`, as in `3*(%s)`" % self.example)
        if token.text == "*":
            raise Refused(token.offset, "a count stands before `*`, as in `3*%s`" % self.example)
        if token.text:
            raise Refused(token.offset, "`%s` has no place here" % token.text)


class _ScriptReader(_Reader):
    """Reads a script."""

    def __init__(self, text: str, offsets: Sequence[int]) -> None:
        super().__init__(text, offsets, _SCRIPT_PUNCTUATION, "work")

    def whole(self) -> Tuple[Part, ...]:
        """The parts of the whole text."""
        if not self.tokens:
            return ()
        parts = self.items()
        self.refuse_token()
        return parts

    def items(self) -> Tuple[Part, ...]:
        """Items divided by `;`."""
        parts: List[Part] = []
        while True:
            labels = self.labels()
            parts += labels
            if self.is_repetition():
                parts.append(self.repetition(self.operation, self.items))
            elif self.is_word():
                parts.append(self.operation())
            else:
                self.refuse_missing(bool(labels))
            if self.peek().text != ";":
                return tuple(parts)
            self.take()

    def labels(self) -> List[Part]:
        """The labels of an item."""
        labels: List[Part] = []
        while self.is_word() and self.peek(1).text == ":":
            word = self.take()
            self.take()
            if not formats.is_name(word.text):
                raise Refused(word.offset, "a label is a name, not `%s`" % word.text)
            labels.append(Label(word.text, word.offset))
        return labels

    def operation(self) -> Operation:
        """An operation, up to the punctuation behind it."""
        arguments: List[Argument] = []
        while self.is_word():
            words = [self.take()]
            while self.peek().text == "|":
                bar = self.take()
                if not self.is_word():
                    raise Refused(bar.offset, "an event's name is missing behind `|`")
                words.append(self.take())
            arguments.append(Argument(tuple(words)))
        if self.peek().text == ":":
            text = "a label is one word before an operation or a count, as in `loop: work` or `loop: 3*work`"
            raise Refused(self.peek().offset, text)
        if self.peek().text == "*":
            raise Refused(self.peek().offset, "a repetition begins with its count, as in `work;3*work`")
        if self.peek().text == "(":
            self.refuse_call(arguments[-1].words[-1])
        return Operation(tuple(arguments))

    def refuse_call(self, name: Word) -> None:
        """Refuses an operation that is written as a call in C."""
        bracket = self.take()
        inner = []
        while self.is_word():
            inner.append(self.take().text.strip(","))
        text = "an operation has no parentheses: write `%s`" % " ".join([name.text, *inner])
        raise Refused(bracket.offset, text + ", or a count before them, as in `3*(work)`")

    def refuse_missing(self, has_labels: bool) -> None:
        """Refuses an item without an operation; one with labels may be the last of its kind."""
        token = self.peek()
        if token.text == ":":
            raise Refused(token.offset, "a label's name is missing before `:`")
        if token.text == "|":
            raise Refused(token.offset, "an event's name is missing before `|`")
        if token.text in ("*", "("):
            self.refuse_token()
        if token.text == ";" and has_labels:
            raise Refused(token.offset, "an operation is missing behind the label")
        if not has_labels:
            raise Refused(token.offset, "an operation is missing here")


class _WordsReader(_Reader):
    """Reads the words of stimuli or of a schedule."""

    def __init__(self, text: str, offsets: Sequence[int], example: str) -> None:
        super().__init__(text, offsets, _WORDS_PUNCTUATION, example)

    def whole(self) -> Tuple[Part, ...]:
        """The parts of the whole text."""
        parts = self.items()
        self.refuse_token()
        return parts

    def items(self) -> Tuple[Part, ...]:
        """Words and repetitions."""
        parts: List[Part] = []
        while self.is_word():
            parts.append(self.repetition(self.take, self.items) if self.is_repetition() else self.take())
        return tuple(parts)


def read_script(text: str, offsets: Sequence[int]) -> Tuple[Part, ...]:
    """The parts of a script."""
    return _ScriptReader(text, offsets).whole()


def read_words(text: str, offsets: Sequence[int], example: str) -> Tuple[Part, ...]:
    """The parts of stimuli or of a schedule; messages show such a word as an example."""
    return _WordsReader(text, offsets, example).whole()


def read_action(text: str, offsets: Sequence[int]) -> Optional[Operation]:
    """The operation of an action; none if the text has none."""
    reader = _ScriptReader(text, offsets)
    for token in reader.tokens:
        if token.text in ";*():":
            raise Refused(token.offset, "an action is one operation, without `%s`" % token.text)
    if not reader.tokens:
        return None
    if not reader.is_word():
        reader.refuse_missing(False)
    return reader.operation()


# ---------------------------------------------------------------------------------------------------------------------
# Expanding
# ---------------------------------------------------------------------------------------------------------------------


def refuse_beyond(parts: Parts, most: int, of_what: str) -> None:
    """Refuses parts that expand to more than `most`, before they are expanded, at the first part that is too much."""
    size = 0
    for part in parts:
        size += part.size
        if size > most:
            counted = "%d" % size if size < 10**9 else "more than %d" % (10**9 - 1)
            raise Refused(
                part.offset, "with this there are %s %s, and at most %d are allowed" % (counted, of_what, most)
            )


def words_in(parts: Parts) -> List[Word]:
    """The words of stimuli or of a schedule, one after another."""
    words: List[Word] = []
    for part in parts:
        if isinstance(part, Repetition):
            words += words_in(part.body) * part.count
        elif isinstance(part, Word):
            words.append(part)
    return words


@dataclass(frozen=True)
class Placed:
    """An operation of the expanded script, with the labels to which it can jump and their operations' numbers."""

    operation: Operation
    labels: Mapping[str, int]


def operations_in(parts: Parts, start: int = 0, outer: Optional[Mapping[str, int]] = None) -> Iterator[Placed]:
    """The operations of a script, one after another. Each copy of a repetition has labels of its own."""
    labels = dict(outer or {})
    number = start
    for part in parts:
        if isinstance(part, Label):
            labels[part.name] = number
        number += part.size
    number = start
    for part in parts:
        if isinstance(part, Operation):
            yield Placed(part, labels)
        elif isinstance(part, Repetition):
            size = size_of(part.body)
            for copy in range(part.count):
                yield from operations_in(part.body, number + copy * size, labels)
        number += part.size


def labels_in(parts: Parts) -> Iterator[Label]:
    """All labels of a script, in the order of the text."""
    for part in parts:
        if isinstance(part, Label):
            yield part
        elif isinstance(part, Repetition):
            yield from labels_in(part.body)


def refuse_double_label(parts: Parts) -> None:
    """Refuses a label that a script has twice."""
    seen = set()
    for label in labels_in(parts):
        if label.name in seen:
            raise Refused(label.offset, "the label `%s` stands twice in this script" % label.name)
        seen.add(label.name)


# ---------------------------------------------------------------------------------------------------------------------
# Names in operations
# ---------------------------------------------------------------------------------------------------------------------


@dataclass(frozen=True)
class Surroundings:
    """What the names in an operation can stand for."""

    # The events of each task by its name, in the order of their bits; None for a task without the member `events`.
    events: Mapping[str, Optional[List[str]]]
    task: Optional[str] = None  # whose script it is; of an ISR none
    own_events: Optional[List[str]] = None  # of that task
    labels: Sequence[str] = ()  # all of the script
    is_action: bool = False


def operation_text(placed: Placed, around: Surroundings) -> str:
    """An operation in the fixed format: numbers in place of labels and of events."""
    arguments = placed.operation.arguments
    known = formats.OPERATIONS.get(arguments[0].text)
    kinds = [""] + [each.kind for each in known.arguments] if known else []
    kinds += [""] * (len(arguments) - len(kinds))
    words = []
    for kind, argument in zip(kinds, arguments):
        if kind == "mask":
            words.append(_mask_text(argument, placed.operation, around))
        elif len(argument.words) > 1:
            raise Refused(argument.words[1].offset, "`|` joins the events of a mask, and no mask stands here")
        elif kind == "place":
            words.append(_number_of_label(argument, placed.labels, around))
        else:
            words.append(argument.text)
    return " ".join(words)


def _number_of_label(argument: Argument, labels: Mapping[str, int], around: Surroundings) -> str:
    """The number of the operation to which a jump goes."""
    name = argument.text
    if not formats.is_name(name):
        return name
    if name in labels:
        return str(labels[name])
    if name in around.labels:
        text = "the label `%s` stands in a repetition, and only an operation in it can jump there" % name
        raise Refused(argument.offset, text)
    raise Refused(argument.offset, "no label `%s` in this script%s" % (name, did_you_mean(name, around.labels)))


def _mask_text(argument: Argument, operation: Operation, around: Surroundings) -> str:
    """The number of a mask."""
    if len(argument.words) == 1 and not formats.is_name(argument.text):
        return argument.text
    task, events = _events_for(argument, operation, around)
    mask = 0
    for word in argument.words:
        if not formats.is_name(word.text):
            raise Refused(word.offset, "`|` joins names of events, not `%s`" % word.text)
        if word.text not in events:
            hint = did_you_mean(word.text, events)
            raise Refused(word.offset, "the task `%s` has no event `%s`%s" % (task, word.text, hint))
        bit = 1 << events.index(word.text)
        if mask & bit:
            raise Refused(word.offset, "the event `%s` stands twice in this mask" % word.text)
        mask |= bit
    return str(mask)


def _events_for(argument: Argument, operation: Operation, around: Surroundings) -> Tuple[str, List[str]]:
    """The task of whose events a mask speaks, and their names."""
    task, events = around.task, around.own_events
    if operation.arguments[0].text == "SetEvent":
        named = operation.arguments[1]
        task = named.text
        if task not in around.events:
            raise Refused(named.offset, "`%s` is no task%s" % (task, did_you_mean(task, around.events)))
        events = around.events[task]
    elif around.is_action:
        raise Refused(
            operation.offset, "an action is `ActivateTask` or `SetEvent`, not `%s`" % operation.arguments[0].text
        )
    elif task is None:
        text = "`%s` is no mask, and an ISR has no events" % argument.text
        raise Refused(argument.offset, text)
    if events is None:
        text = "`%s` is no mask, and the task `%s` has no member `events` with names" % (argument.text, task)
        raise Refused(argument.offset, text)
    return task, events
