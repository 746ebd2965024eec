"""The operations of a script, word by word, and which of them are in form."""

from dataclasses import dataclass
from typing import List, Optional

from library.formats import (
    ACTION_OPERATIONS,
    GREATEST_SIGNED,
    NO_OBJECT,
    OPERATIONS,
    VARIABLES,
    Argument,
    Operation,
    is_decimal,
    is_name,
    is_signed_decimal,
    operations_of,
)


@dataclass(frozen=True)
class Word:
    """A word of an operation, and where it begins in the text of its script."""

    text: str
    at: int


@dataclass(frozen=True)
class Step:
    """An operation as it stands in a script."""

    number: int
    text: str
    at: int

    @property
    def words(self) -> List[Word]:
        """Its words, which one space divides."""
        found, at = [], self.at
        for word in self.text.split(" "):
            found.append(Word(word, at))
            at += len(word) + 1
        return found

    @property
    def operation(self) -> Optional[Operation]:
        """The operation of its first word, if there is one."""
        return OPERATIONS.get(self.text.split(" ")[0])

    @property
    def arguments(self) -> List[str]:
        """The words behind the first one."""
        return self.text.split(" ")[1:]

    @property
    def is_in_form(self) -> bool:
        """Whether it has a known first word and, behind it, words of the right number and forms."""
        operation = self.operation
        if operation is None or len(operation.arguments) != len(self.arguments):
            return False
        return all(has_form(argument, word) for argument, word in zip(operation.arguments, self.arguments))


def steps_of(script: str) -> List[Step]:
    """The operations of a script."""
    found, at = [], 0
    for number, text in enumerate(operations_of(script)):
        found.append(Step(number, text, at))
        at += len(text) + 1
    return found


def has_form(argument: Argument, word: str) -> bool:
    """Whether a word has the form that an argument wants. The range of a decimal number is asked later."""
    if argument.may_be_nobody and word == NO_OBJECT:
        return True
    if argument.is_object:
        return is_name(word)
    if argument.kind == "variable":
        return word in VARIABLES
    if argument.kind == "signed":
        return is_signed_decimal(word) and _is_signed_64(word)
    return is_decimal(word)


def value_of(word: str) -> int:
    """The value of a decimal number; of one that is longer than any in range a value that is out of each range."""
    return int(word) if len(word) <= 20 else 10**20


def _is_signed_64(word: str) -> bool:
    """Whether a signed decimal number has 64 bits."""
    if word.startswith("-"):
        return value_of(word[1:]) <= GREATEST_SIGNED + 1
    return value_of(word) <= GREATEST_SIGNED


def is_action(text: str) -> bool:
    """Whether a text is an action in form."""
    step = Step(0, text, 0)
    return step.is_in_form and step.operation.name in ACTION_OPERATIONS and step.arguments[0] != NO_OBJECT


def acts_on(text: str) -> Optional[str]:
    """The task's name in an action, if that is in form."""
    return Step(0, text, 0).arguments[0] if is_action(text) else None
