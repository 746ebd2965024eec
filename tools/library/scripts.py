"""Faults 5, 6, 8 and 10 of operations: in scripts, and as actions of alarms and points."""

import re
from typing import Optional, Tuple

from library.drafts import Core, Draft, Named
from library.findings import Report, counted, did_you_mean
from library.formats import (
    ACTION_OPERATIONS,
    BAD_MASK,
    BAD_SCRIPT,
    GREATEST_CORE_NUMBER,
    GREATEST_SIGNED,
    GREATEST_STATUS,
    GREATEST_WORD,
    MOST_OPERATIONS,
    NO_OBJECT,
    OPERATIONS,
    UNKNOWN_NAME,
    WRONG_CORE,
    Argument,
    Fault,
    Operation,
    is_name,
    is_signed_decimal,
)
from library.not_json import shown
from library.places import JsonText
from library.steps import Step, Word, has_form, is_action, steps_of, value_of


class Judge:
    """Judges the operations of the texts of one core."""

    def __init__(self, report: Report, draft: Draft, core: Core):
        self.report = report
        self.draft = draft
        self.core = core

    def script(self, scripted: Named) -> None:
        """Judges the script of a task or an ISR. Operations behind the greatest number are at fault as such."""
        node, without = scripted.spot("script"), scripted.kind.member("script").value.without
        steps = steps_of(node.text)
        for step in steps[:MOST_OPERATIONS]:
            title = "operation %d %s: " % (step.number, shown(step.text)) if step.text else ""
            operation = _Operation(self, node, step, title)
            operation.judge(len(steps))
            if step.is_in_form and step.operation.name in without:
                operation.fault(BAD_SCRIPT, "the script of an ISR takes and gives back no resource", step.at)

    def action(self, node: JsonText) -> None:
        """Judges an action of an alarm or a point."""
        step = Step(0, node.text, 0)
        operation = _Operation(self, node, step, "")
        first = step.words[0].text
        if ";" in node.text:
            operation.fault(BAD_SCRIPT, "an action is one operation, without `;`", node.text.index(";"))
        elif first and first not in ACTION_OPERATIONS:
            text = "an action is `ActivateTask T` or `SetEvent T m`, not %s%s"
            operation.fault(BAD_SCRIPT, text % (shown(node.text), did_you_mean(first, ACTION_OPERATIONS)), 0)
        elif step.is_in_form and not is_action(node.text):
            operation.fault(BAD_SCRIPT, "an action wants the name of a task, not `?`", step.words[1].at)
        else:
            operation.judge(0)


class _Operation:
    """One operation, which is being judged."""

    def __init__(self, judge: Judge, node: JsonText, step: Step, title: str):
        self.owner = judge
        self.node = node
        self.step = step
        self.title = title

    def fault(self, fault: Fault, text: str, at: int) -> None:
        """A fault at a place within the script."""
        offset = self.owner.report.document.character_offsets(self.node)[at]
        self.owner.report.fault(fault, self.node, self.title + text, offset)

    def judge(self, count: int) -> None:
        """Judges the operation, in a script of so many."""
        if not self.step.is_in_form:
            self._judge_form()
            return
        arguments = self.step.operation.arguments
        for argument, word in zip(arguments, self.step.words[1:]):
            if argument.is_object:
                self._judge_name(argument, word)
            elif argument.kind == "mask" and not 1 <= value_of(word.text) <= GREATEST_WORD:
                self.fault(BAD_MASK, "the mask %s is not 1 to %d" % (shown(word.text), GREATEST_WORD), word.at)
            elif argument.kind == "number" and value_of(word.text) > GREATEST_WORD:
                self.fault(BAD_SCRIPT, "%s is not 0 to %d" % (shown(word.text), GREATEST_WORD), word.at)
            elif argument.kind == "place" and value_of(word.text) > count:
                text = "there is no place %s: the script has %s, so places are 0 to %d"
                self.fault(BAD_SCRIPT, text % (shown(word.text), counted(count, "operation"), count), word.at)
            elif argument.kind == "core" and word.text != NO_OBJECT and value_of(word.text) > GREATEST_CORE_NUMBER:
                text = "%s is no number of a core: that is 0 to %d"
                self.fault(BAD_SCRIPT, text % (shown(word.text), GREATEST_CORE_NUMBER), word.at)
            elif argument.kind == "status" and value_of(word.text) > GREATEST_STATUS:
                text = "%s is no number of a status: that is 0 to %d"
                self.fault(BAD_SCRIPT, text % (shown(word.text), GREATEST_STATUS), word.at)

    def _judge_name(self, argument: Argument, word: Word) -> None:
        """Judges the name of an object."""
        if word.text == NO_OBJECT:
            return
        draft, core = self.owner.draft, self.owner.core
        found = draft.find(argument.kind, word.text, core)
        name = self.step.operation.name
        if found is None:
            self.fault(UNKNOWN_NAME, unknown_name(draft, argument.kind, word.text, name), word.at)
        elif argument.own_core and found.core.id != core.id:
            text = "`%s` is %s of core %d: `%s` takes one of its own core, %d"
            text %= (word.text, a(argument.kind), found.core.id, name, core.id)
            self.fault(WRONG_CORE, text, word.at)

    def _judge_form(self) -> None:
        """Finds out why an operation is not in form."""
        blank = self._blank()
        if not self.step.text:
            self.fault(BAD_SCRIPT, self._empty(), self.step.at)
        elif blank is not None:
            self.fault(BAD_SCRIPT, *blank)
        elif self.step.operation is None:
            self.fault(BAD_SCRIPT, no_operation(self.step.text), self.step.at)
        else:
            self._judge_words(self.step.operation)

    def _empty(self) -> str:
        """What to say of an empty operation."""
        if not self.node.text:
            return "the action is empty"
        if self.step.at == len(self.node.text):
            return "an empty operation stands behind the last `;`: remove the `;`"
        return "an empty operation stands before a `;`: remove one `;`"

    def _blank(self) -> Optional[Tuple[str, int]]:
        """What to say of a blank where none may stand, and where it stands."""
        text, at = self.step.text, self.step.at
        other = re.search(r"[^\S ]", text)
        if other is not None:
            return "%s stands here: one space divides words" % _blank_name(other.group()), at + other.start()
        if text.startswith(" "):
            where = "behind `;`" if at > 0 else "at the beginning"
            return "a space stands %s: remove it" % where, at
        if "  " in text.rstrip(" "):
            return "two spaces stand here: one divides words", at + text.index("  ")
        if text.endswith(" "):
            where = "at the end" if at + len(text) == len(self.node.text) else "before `;`"
            return "a space stands %s: remove it" % where, at + len(text.rstrip(" "))
        return None

    def _judge_words(self, operation: Operation) -> None:
        """Judges the number and the forms of the words of a known operation."""
        words = self.step.words[1:]
        if len(words) != len(operation.arguments):
            text = "it is written `%s`, and %s behind its name" % (operation.form, _stand(len(words)))
            at = words[len(operation.arguments)].at if len(words) > len(operation.arguments) else self.step.at
            self.fault(BAD_SCRIPT, text, at)
            return
        for argument, word in zip(operation.arguments, words):
            if not has_form(argument, word.text):
                self.fault(BAD_SCRIPT, wrong_form(argument, word.text), word.at)


def _stand(number: int) -> str:
    """How many words stand somewhere."""
    return "%s %s" % ("no word" if number == 0 else counted(number, "word"), "stands" if number < 2 else "stand")


def _blank_name(character: str) -> str:
    """What a blank that is no space is called."""
    return {"\n": "a line end", "\r": "a line end", "\t": "a tab"}.get(character, "a blank that is no space")


def unknown_name(draft: Draft, kind: str, name: str, wanted_by: str) -> str:
    """What to say of a name that no object of the kind has."""
    others = draft.by_name.get(name, [])
    near = did_you_mean(name, draft.names(kind))
    if others:
        return "`%s` is %s, and `%s` wants %s%s" % (name, a(others[0].kind.name), wanted_by, a(kind), near)
    return "no %s is called %s%s" % (kind, shown(name), near)


def a(word: str) -> str:
    """A word with its article."""
    return ("an " if word[0] in "aeiouI" else "a ") + word


_NOT_THERE = {
    "GetTaskState": "not planned",
    "GetElapsedValue": "not planned",
    "GetElapsedCounterValue": "not planned",
    "SyncScheduleTable": "not planned",
    "DisableAllInterrupts": "not planned: there is `SuspendAllInterrupts`",
    "EnableAllInterrupts": "not planned: there is `ResumeAllInterrupts`",
    "SuspendOSInterrupts": "not planned: there is `SuspendAllInterrupts`",
    "ResumeOSInterrupts": "not planned: there is `ResumeAllInterrupts`",
    "DisableInterruptSource": "not planned",
    "EnableInterruptSource": "not planned",
    "StartOS": "not an operation of scripts: each started core makes it by itself",
}


def no_operation(text: str) -> str:
    """What to say of an operation whose first word is none of them."""
    word = text.split(" ")[0]
    if word in _NOT_THERE:
        return "`%s` is %s" % (word, _NOT_THERE[word])
    call = re.fullmatch(r"(\w+)\s*\((.*)\)", text)
    if call is not None and call[1] in OPERATIONS:
        words = [call[1]] + [each.strip() for each in call[2].split(",") if each.strip()]
        return "it is written without parentheses: %s" % shown(" ".join(words))
    if re.fullmatch(r"[0-9]+\*.*|.*\*[0-9]+", word):
        return "%s is no operation: mcos repeats none, and tools/expand writes it out" % shown(word)
    if word.endswith(":"):
        return "%s is no operation: only tools/expand knows labels" % shown(word)
    return "no operation is called %s%s" % (shown(word), did_you_mean(word, OPERATIONS))


def wrong_form(argument: Argument, word: str) -> str:
    """What to say of a word that has not the form of an argument."""
    if argument.kind == "variable":
        return "%s is no variable: they are `v0` to `v7`" % shown(word)
    if argument.is_object:
        return "%s is no name of %s" % (shown(word), a(argument.kind))
    if re.fullmatch(r"-?0[xX][0-9A-Fa-f]{1,16}", word):
        return "%s is no decimal number: write `%d`" % (shown(word), int(word, 16))
    if re.fullmatch(r"-?0+[0-9]+|-0|\+[0-9]+", word):
        return "%s has a sign or zeros too many: write `%s`" % (shown(word), _plain_number(word))
    if argument.kind == "mask" and re.match("[A-Za-z_]", word):
        return "%s is no mask: events have no names, so write a number, as 1, 2 or 4" % shown(word)
    if argument.kind == "place" and is_name(word):
        return "%s is no place: write the number of an operation, counted from 0" % shown(word)
    if argument.kind == "core" and is_name(word):
        return "%s is no core: write its number, or `?`" % shown(word)
    if argument.kind == "status" and is_name(word):
        text = "%s is no number of a status: write 0 to %d, as docs/FORMATS.md counts them"
        return text % (shown(word), GREATEST_STATUS)
    if argument.kind == "signed" and is_signed_decimal(word):
        return "%s is not %d to %d" % (shown(word), -GREATEST_SIGNED - 1, GREATEST_SIGNED)
    return "%s is no decimal number" % shown(word)


def _plain_number(word: str) -> str:
    """A number without `+`, without leading zeros, and 0 without a sign."""
    digits = word.lstrip("+-").lstrip("0")
    return ("-" if word.startswith("-") else "") + digits if digits else "0"
