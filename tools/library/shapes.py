"""Fault 2: whether each object has the members that it may have, and each member a value of its type."""

from typing import Optional

from library.findings import Report, did_you_mean, listed
from library.formats import (
    CONFIGURATION,
    MODES,
    OBJECTS,
    SHAPE,
    Action,
    CoreMode,
    CounterName,
    Flag,
    ListOf,
    ModeName,
    NewModeName,
    NewName,
    Number,
    Object,
    ObjectOf,
    OneOf,
    Script,
    SpinlockName,
    Value,
    is_decimal,
    is_name,
)
from library.hints import TITLES, meant_member, unknown_member
from library.not_json import shown
from library.places import Json, JsonList, JsonNumber, JsonObject, JsonText, JsonWord

_NAMES = (NewName, CounterName, NewModeName, ModeName, CoreMode, SpinlockName)


def judge_shape(report: Report) -> None:
    """Judges the shape of a configuration."""
    root = report.document.root
    stranger = _other_file(root)
    if stranger is not None:
        report.fault(SHAPE, root, stranger)
    else:
        _judge_object(report, root, CONFIGURATION, ObjectOf(CONFIGURATION.name))


def _other_file(root: Json) -> Optional[str]:
    """What a file is that was given in place of the configuration, if that can be seen."""
    order = "; the order is CFG STIM SCHED"
    if isinstance(root, JsonText):
        return "a text, as a schedule is, stands in place of the configuration" + order
    if isinstance(root, JsonObject) and root.members and "cores" not in root.members:
        if all(is_decimal(name) for name in root.members):
            return "these look like stimuli, and stand in place of the configuration" + order
    return None


def _judge_object(report: Report, node: Json, kind: Object, value: ObjectOf) -> None:
    """Judges an object of a kind, as the member wants it in which it stands."""
    if not isinstance(node, JsonObject):
        report.fault(SHAPE, node, "%s is %s, not %s" % (TITLES[kind.name], _wanted(value), _found(report, node)))
        return
    present = set(node.members)
    for name, member in node.members.items():
        known = kind.member(name)
        if known is None:
            text = "%s has no member %s" % (TITLES[kind.name], shown(name))
            report.fault_of_member(SHAPE, node, name, text + unknown_member(kind, name, present))
        else:
            _judge_value(report, member.value, known.value, "`%s`" % name, not known.is_required)
    _judge_missing(report, node, kind)


def _judge_missing(report: Report, node: JsonObject, kind: Object) -> None:
    """Looks for members that may not be left out. One that is misspelled is not reported twice."""
    present = set(node.members)
    unknown = [name for name in node.members if kind.member(name) is None]
    meant = {meant_member(kind, name, present) for name in unknown}
    for member in kind.members:
        if member.is_required and member.name not in present and member.name not in meant:
            text = "%s has no `%s` (%s)" % (_title(node, kind), member.name, _wanted(member.value))
            report.fault(SHAPE, node, text)


def _title(node: JsonObject, kind: Object) -> str:
    """An object in a report, by its name if it has one."""
    name = node.members.get("name")
    if kind.member("name") is not None and name is not None and isinstance(name.value, JsonText):
        return "the %s %s" % (kind.name, shown(name.value.text))
    return TITLES[kind.name]


def _judge_value(report: Report, node: Json, value: Value, title: str, has_default: bool = False) -> None:
    """Judges the value of a member, or an element of it."""
    if _may_be_null(value) and isinstance(node, JsonWord) and node.value is None:
        return
    if isinstance(value, ObjectOf):
        _judge_object(report, node, OBJECTS[value.name], value)
    elif not _has_type(node, value):
        text = "%s is %s, not %s" % (title, _wanted(value), _found(report, node))
        report.fault(SHAPE, node, text + _remedy(report, node, value, has_default))
    elif isinstance(value, ListOf):
        for element in node.elements:
            _judge_value(report, element, value.element, "an element of " + title)
    elif isinstance(value, _NAMES):
        _judge_name(report, node)
    elif isinstance(value, OneOf) and node.text not in value.words:
        text = "%s is one of %s, not %s" % (title, _words(value), shown(node.text))
        report.fault(SHAPE, node, text + did_you_mean(node.text, value.words))


def _may_be_null(value: Value) -> bool:
    """Whether `null` may stand in place of a value."""
    return isinstance(value, SpinlockName) or isinstance(value, ObjectOf) and value.or_null


def _judge_name(report: Report, node: JsonText) -> None:
    """Judges the form of a name, and points at the first character that it may not have."""
    if is_name(node.text):
        return
    form = "a name is 1 to 128 ASCII letters, digits and underscores, and begins with a letter"
    if not node.text:
        report.fault(SHAPE, node, "the name is empty; " + form)
        return
    for index, character in enumerate(node.text):
        if not is_name("a" + character):
            text = "%s stands in the name %s" % (shown(character), shown(node.text))
            report.fault(SHAPE, node, "%s; %s" % (text, form), report.document.character_offsets(node)[index])
            return
    if not is_name(node.text[0]):
        report.fault(SHAPE, node, "the name %s begins with %s; %s" % (shown(node.text), shown(node.text[0]), form))
    else:
        report.fault(SHAPE, node, "the name has %d characters; %s" % (len(node.text), form))


def _has_type(node: Json, value: Value) -> bool:
    """Whether a value is of the type that a member wants; of a list its elements are not asked."""
    if isinstance(value, ListOf):
        return isinstance(node, JsonList)
    if isinstance(value, Number):
        return isinstance(node, JsonNumber) and node.number is not None
    if isinstance(value, Flag):
        return isinstance(node, JsonWord) and node.value is not None
    return isinstance(node, JsonText)


def _wanted(value: Value) -> str:
    """What a value is to be."""
    if isinstance(value, Number):
        return _wanted_number(value)
    if isinstance(value, ObjectOf):
        members = listed("`%s`" % member.name for member in OBJECTS[value.name].members)
        return "an object with %s%s" % (members, ", or `null`" if value.or_null else "")
    if isinstance(value, ListOf):
        return _wanted_list(value)
    if isinstance(value, OneOf):
        return "one of %s" % _words(value)
    return _WANTED[type(value)]


def _words(value: OneOf) -> str:
    """The words of which one is wanted."""
    return listed('`"%s"`' % word for word in value.words)


def _wanted_number(value: Number) -> str:
    """What a number is to be."""
    return "a whole number, %d to %d" % (value.least, value.greatest) if value.alone else "a whole number"


_WANTED = {
    Flag: "`true` or `false`",
    Script: 'a script, as `"work;TerminateTask"`',
    Action: 'an action, as `"ActivateTask T"`',
    CounterName: "the name of a counter of this core",
    NewModeName: 'the name of a mode, as `"M"`',
    ModeName: 'the name of a mode, as `"M"`',
    CoreMode: 'the name of a mode, or `"DONOTCARE"`',
    SpinlockName: "the name of a spinlock, or `null`",
    NewName: 'a name, as `"Control"`',
}


def _wanted_list(value: ListOf) -> str:
    """What a list is to be."""
    if value == MODES:
        return 'a list of modes, as `["M"]`, or `[]`'
    if isinstance(value.element, NewModeName):
        return 'a list of names, as `["M", "Diagnosis"]`'
    if isinstance(value.element, ObjectOf):
        return "a list of objects, one for each %s" % value.element.name
    if isinstance(value.element, Action):
        return 'a list of actions, as `["ActivateTask T"]`'
    return "a list of core numbers, as `[1, 2]`"


def _found(report: Report, node: Json) -> str:
    """What a value is."""
    if isinstance(node, JsonObject):
        return "an object"
    if isinstance(node, JsonList):
        return "a list"
    return shown(report.document.source(node))


def _remedy(report: Report, node: Json, value: Value, has_default: bool) -> str:
    """How to mend a value of another type, if that can be seen."""
    if isinstance(node, JsonText) and isinstance(value, (Number, Flag)):
        is_right_inside = is_decimal(node.text) if isinstance(value, Number) else node.text in ("true", "false")
        return ": remove the quotes" if is_right_inside else ""
    if isinstance(node, JsonNumber) and isinstance(value, Number):
        return _whole_number(report.document.source(node))
    if isinstance(node, JsonWord) and node.value is None and has_default:
        return ": to have the default, leave the member out"
    return ""


def _whole_number(source: str) -> str:
    """How to write a number that is not whole, or beyond 64 bits."""
    if source != "-0" and all(character in "-0123456789" for character in source):
        return ", which is beyond 64 bits"
    number = float(source)
    return ": write `%d`" % number if number == int(number) and abs(number) < 2**53 else ""
