"""Faults of stimuli (3 and 12) and of a schedule (3 and 13), judged for a configuration without a fault."""

import re
from typing import Callable, Dict, List, Optional, Tuple

from library.drafts import Draft
from library.findings import Report, did_you_mean, listed, nearest
from library.formats import (
    BAD_SCHEDULE,
    BAD_STIMULUS,
    INTERRUPT,
    LIMIT,
    MOST_STIMULI,
    MOST_TURNS,
    STIMULUS_WORDS,
    TURN,
    Fault,
    is_decimal,
    words_of,
)
from library.not_json import shown
from library.places import Json, JsonList, JsonObject, JsonText

_ORDER = "; the order is CFG STIM SCHED"


def judge_stimuli(report: Report, draft: Draft) -> None:
    """Judges stimuli for a configuration."""
    root = report.document.root
    stranger = _no_stimuli(root)
    if stranger is not None:
        report.fault(BAD_STIMULUS, root, stranger)
        return
    for name, member in root.members.items():
        _judge_key(report, draft, root, name)
        if not isinstance(member.value, JsonText):
            text = "the stimuli of a core are one text, as `\"op tick op\"`, not %s" % _found(report, member.value)
            report.fault(BAD_STIMULUS, member.value, text)
            continue
        _judge_count(report, member.value, MOST_STIMULI, "stimuli: a core has")
        isrs = _isrs(draft, name)
        known = set(STIMULUS_WORDS) | {INTERRUPT + isr for isr in isrs}
        _judge_words(
            report,
            member.value,
            BAD_STIMULUS,
            lambda word, known=known: word in known,
            lambda word, number, isrs=isrs: _no_stimulus(draft, isrs, word, number),
        )


def _isrs(draft: Draft, number: str) -> List[str]:
    """The names of the ISRs of a core, if it is configured."""
    return [isr.name for core in draft.cores if str(core.id) == number for isr in core.named["isrs"]]


def _no_stimuli(root: Json) -> Optional[str]:
    """What a file is that was given in place of the stimuli."""
    if isinstance(root, JsonObject):
        if "cores" in root.members:
            return "this looks like a configuration, and stands in place of the stimuli" + _ORDER
        return None
    if isinstance(root, JsonText):
        return "a text, as a schedule is, stands in place of the stimuli" + _ORDER
    return "stimuli are an object from core numbers to texts, as `{\"0\": \"op tick\"}`"


def _judge_key(report: Report, draft: Draft, root: JsonObject, name: str) -> None:
    """Judges the number of a core in stimuli."""
    known = "the configuration has %s" % _cores(draft)
    if not re.fullmatch(r"[0-9]+", name):
        text = "%s is no number of a core: %s" % (shown(name), known)
    elif not is_decimal(name):
        text = "%s has leading zeros: write `%s`" % (shown(name), name.lstrip("0") or "0")
    elif name not in map(str, draft.ids):
        text = "no core %s is configured: %s" % (shown(name, 20), known)
    else:
        return
    report.fault_of_member(BAD_STIMULUS, root, name, text)


def _cores(draft: Draft) -> str:
    """The configured cores."""
    numbers = [str(number) for number in sorted(draft.ids)]
    return ("the cores %s" if len(numbers) > 1 else "core %s alone") % listed(numbers)


def _found(report: Report, value: Json) -> str:
    """What a value is in place of a text."""
    if isinstance(value, JsonObject):
        return "an object"
    if isinstance(value, JsonList):
        return "a list"
    return shown(report.document.source(value))


def _judge_count(report: Report, node: JsonText, most: int, what: str) -> None:
    """Judges how many words a text has, and points at the first one too many."""
    number = len(words_of(node.text))
    if number > most:
        at = _word_places(node.text)[most]
        text = "%d %s at most %d" % (number, what, most)
        report.fault(LIMIT, node, text, report.document.character_offsets(node)[at])


def _word_places(text: str) -> List[int]:
    """Where each word of a text begins."""
    places, at = [], 0
    for word in words_of(text):
        places.append(at)
        at += len(word) + 1
    return places


def _judge_words(
    report: Report,
    node: JsonText,
    fault: Fault,
    is_right: Callable[[str], bool],
    reason: Callable[[str, int], Tuple[str, int]],
) -> None:
    """Judges the words of a text. Words that are wrong in the same way are reported once, with their number."""
    words = words_of(node.text)
    wrong = {word for word in set(words) if not is_right(word)}
    if not wrong:
        return
    first: Dict[str, int] = {}
    again: Dict[str, int] = {}
    for number, word in enumerate(words):
        if word in wrong:
            again[word] = again.get(word, -1) + 1
            first.setdefault(word, number)
    places, offsets = _word_places(node.text), report.document.character_offsets(node)
    for word, number in first.items():
        text, within = reason(word, number)
        if again[word]:
            text += " (and %d more of it)" % again[word]
        title = "word %d %s" % (number + 1, shown(word)) if word else "word %d" % (number + 1)
        report.fault(fault, node, "%s: %s" % (title, text), offsets[places[number] + within])


def _blank_in(word: str, number: int) -> Optional[Tuple[str, int]]:
    """What to say of a word with a blank in it, or of one that is empty, and where in it."""
    if not word:
        where = "before the first word" if number == 0 else "too many"
        # The space that is too much stands before the empty word, but for the first one.
        return "a space %s: one divides words, and none stands at the ends" % where, 0 if number == 0 else -1
    other = re.search(r"\s", word)
    if other is not None:
        name = {"\n": "a line end", "\r": "a line end", "\t": "a tab"}.get(other.group(), "a blank that is no space")
        return "%s stands here: one space divides words" % name, other.start()
    return None


def _no_stimulus(draft: Draft, isrs: List[str], word: str, number: int) -> Tuple[str, int]:
    """What to say of a word that is no stimulus of a core with these ISRs, and where in it."""
    blank = _blank_in(word, number)
    if blank is not None:
        return blank
    if word.startswith(INTERRUPT):
        name = word[len(INTERRUPT) :]
        other = draft.find("ISR", name)
        if other is not None:
            return "`%s` is an ISR of core %d" % (name, other.core.id), len(INTERRUPT)
        return "no ISR of this core is called %s%s" % (shown(name), did_you_mean(name, isrs)), len(INTERRUPT)
    if re.search(r"[*0-9]", word):
        return "a stimulus is `op`, `tick` or `irq=I`: mcos repeats none, and tools/expand writes it out", 0
    near = nearest(word, STIMULUS_WORDS)
    return "a stimulus is `op`, `tick` or `irq=I`" + ("; did you mean `%s`?" % near if near else ""), 0


def judge_schedule(report: Report, draft: Draft) -> None:
    """Judges a schedule for a configuration."""
    root = report.document.root
    if not isinstance(root, JsonText):
        report.fault(BAD_SCHEDULE, root, _no_schedule(root))
        return
    ids = {str(number) for number in draft.ids}
    _judge_count(report, root, MOST_TURNS, "turns: a schedule has")
    _judge_words(
        report,
        root,
        BAD_SCHEDULE,
        lambda word: _is_turn(word, ids),
        lambda word, number: _no_turn(word, number, draft),
    )


def _no_schedule(root: Json) -> str:
    """What a file is that was given in place of the schedule."""
    if isinstance(root, JsonObject):
        kind = "a configuration" if "cores" in root.members else "stimuli"
        return "this looks like %s, and stands in place of the schedule%s" % (kind, _ORDER)
    return "a schedule is one text, as `\"0o 0l 1s0\"`"


def _is_turn(word: str, ids: set) -> bool:
    """Whether a word is a turn of configured cores."""
    found = TURN.fullmatch(word)
    if found is None or found["core"] not in ids:
        return False
    return found["sender"] is None or found["sender"] in ids and found["sender"] != found["core"]


def _no_turn(word: str, number: int, draft: Draft) -> Tuple[str, int]:
    """What to say of a word that is no turn, and where in it."""
    blank = _blank_in(word, number)
    if blank is not None:
        return blank
    found = TURN.fullmatch(word)
    if found is None:
        return "a turn is `Ko`, `KsD` or `Kl` for cores K and D", 0
    for name in ("core", "sender"):
        digits = found[name]
        if digits is not None and digits not in map(str, draft.ids):
            if not is_decimal(digits):
                return "a core's number has no leading zeros", found.start(name)
            return "no core %s is configured: the configuration has %s" % (digits, _cores(draft)), found.start(name)
    return "a core serves another core, not itself", found.start("sender")
