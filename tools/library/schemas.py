"""The JSON schemas (draft-07) of a configuration, of stimuli and of a schedule.

Members, limits and operations come from `library.formats`, the descriptions from the tables of docs/FORMATS.md. A
schema accepts each text that `mcos` accepts. It refuses what can be seen in one value: names, numbers, scripts, words.
What depends on other values is left to `mcos`: whether a name exists and where, a counter's limits, sums, increasing
offsets.
"""

import json
from typing import Any, Dict, Iterable, List, Tuple

from library import formats
from library.findings import listed

DRAFT = "http://json-schema.org/draft-07/schema#"

Schema = Dict[str, Any]

# The end of a text. `$` alone would also hold before a last line end in Python, and not in ECMA 262.
_END = r"$(?!\n)"


# ---------------------------------------------------------------------------------------------------------------------
# Patterns, for ECMA 262 and for Python alike
# ---------------------------------------------------------------------------------------------------------------------


def any_of(patterns: Iterable[str]) -> str:
    """One of several patterns."""
    each = list(patterns)
    return each[0] if len(each) == 1 else "(?:%s)" % "|".join(each)


def up_to(greatest: int) -> str:
    """The decimal numbers of 1 to `greatest`, without leading zeros."""
    text = str(greatest)
    found = ["[1-9]" + _any_digits(0, len(text) - 2)] if len(text) > 1 else []
    for place, digit in enumerate(text):
        # As `text` up to this place, and less in it; at the last place the number itself belongs here too.
        is_last = place == len(text) - 1
        low, high = (1 if place == 0 else 0), int(digit) - (0 if is_last else 1)
        if low <= high:
            choice = str(low) if low == high else "[%d-%d]" % (low, high)
            found.append(text[:place] + choice + _any_digits(len(text) - place - 1, len(text) - place - 1))
    return any_of(found)


def _any_digits(least: int, most: int) -> str:
    """So many digits, whichever they are."""
    if (least, most) in ((0, 0), (1, 1), (0, 1)):
        return {(0, 0): "", (1, 1): "[0-9]", (0, 1): "[0-9]?"}[(least, most)]
    return "[0-9]{%s}" % (str(most) if least == most else "%d,%d" % (least, most))


def divided(part: str, separator: str, most: int) -> str:
    """At most so many parts, with a separator between each two."""
    return "^(?:%s(?:%s(?!$)|$)){0,%d}%s" % (part, separator, most, _END)


NAME = formats.NAME.pattern
CORE = any_of(["0", up_to(formats.MOST_CORES[2] - 1)])
OBJECT = any_of([NAME, r"\?"])
MASK = up_to(formats.GREATEST_WORD)
NUMBER = any_of(["0", MASK])
ARGUMENTS = {
    "variable": "v[0-7]",
    "mask": MASK,
    "place": any_of(["0", up_to(formats.MOST_OPERATIONS)]),
    "number": NUMBER,
    "signed": any_of(["0", up_to(formats.GREATEST_SIGNED), "-" + up_to(formats.GREATEST_SIGNED + 1)]),
    "core": any_of(["0", up_to(formats.GREATEST_CORE_NUMBER), r"\?"]),
    "status": any_of(["0", up_to(formats.GREATEST_STATUS)]),
}


def operations_pattern(without: Iterable[str] = ()) -> str:
    """One operation of a script, but for some. Those with the same arguments stand together."""
    by_arguments: Dict[Tuple[str, ...], List[str]] = {}
    for operation in (each for each in formats.OPERATIONS.values() if each.name not in without):
        kinds = tuple(ARGUMENTS.get(argument.kind, OBJECT) for argument in operation.arguments)
        by_arguments.setdefault(kinds, []).append(operation.name)
    return any_of(" ".join((any_of(names),) + kinds) for kinds, names in by_arguments.items())


def action_pattern() -> str:
    """One action of an alarm or of an expiry point."""
    forms = []
    for name in formats.ACTION_OPERATIONS:
        kinds = [ARGUMENTS.get(argument.kind, NAME) for argument in formats.OPERATIONS[name].arguments]
        forms.append(" ".join([name] + kinds))
    return "^%s%s" % (any_of(forms), _END)


# A turn: `o`, `l`, or `s` and the number of another core.
TURN = r"(%s)(?:[ol]|s(?!\1(?![0-9]))%s)" % (CORE, CORE)


# ---------------------------------------------------------------------------------------------------------------------
# Descriptions
# ---------------------------------------------------------------------------------------------------------------------


def descriptions(document: str) -> Dict[Tuple[str, str], str]:
    """What the table "The configuration" of docs/FORMATS.md says of each member of each object."""
    found: Dict[Tuple[str, str], str] = {}
    within = ""
    for line in document[document.index("\n## The configuration\n") :].splitlines():
        cells = [cell.strip() for cell in line.strip("|").split(" | ")] if line.startswith("|") else []
        if len(cells) == 4 and cells[0] not in ("Object", "---|---|---|---"):
            within = cells[0].replace("`", "") or within
            found[(within, cells[1].strip("`"))] = cells[2]
        elif found and not cells:
            break
    return found


def sentence(text: str) -> str:
    """A description as a sentence of its own."""
    return text[:1].upper() + text[1:] + ("" if text.endswith(".") else ".")


# ---------------------------------------------------------------------------------------------------------------------
# Schemas of values
# ---------------------------------------------------------------------------------------------------------------------


def _reference(name: str) -> Schema:
    """A schema that stands under `definitions`."""
    return {"$ref": "#/definitions/" + definition_name(name)}


def definition_name(name: str) -> str:
    """The name of an object's definition: `alarmAuto` for `alarm's auto`."""
    first, *others = name.replace("'s", "").split(" ")
    return first + "".join(other.capitalize() for other in others)


def _value(value: formats.Value) -> Schema:
    """The schema of a member's value."""
    if isinstance(value, formats.Number):
        return {"type": "integer", "minimum": value.least, "maximum": value.greatest}
    if isinstance(value, formats.Flag):
        return {"type": "boolean"}
    if isinstance(value, formats.OneOf):
        return {"enum": list(value.words)}
    if isinstance(value, formats.ListOf):
        schema: Schema = {"type": "array", "items": _value(value.element)}
        schema.update({"minItems": value.least} if value.least else {})
        schema.update({"maxItems": value.greatest} if value.greatest is not None else {})
        return schema
    if isinstance(value, formats.ObjectOf):
        return _reference(value.name)
    if isinstance(value, formats.Script):
        return _reference("isrScript" if value.without else "script")
    if isinstance(value, formats.SpinlockName):
        return {"anyOf": [_reference("name"), {"type": "null"}]}
    return _reference(_TEXTS[type(value)])


_TEXTS = {
    formats.NewName: "name",
    formats.CounterName: "name",
    formats.NewModeName: "mode",
    formats.ModeName: "mode",
    formats.CoreMode: "coreMode",
    formats.Action: "action",
}


def _text(pattern: str, message: str) -> Schema:
    """A text of a pattern. Editors as VS Code show the message in place of the pattern; other readers pass it by."""
    return {"type": "string", "pattern": pattern, "patternErrorMessage": message}


def _name_but(words: Iterable[str]) -> str:
    """The pattern of a name that is none of some words."""
    return "^(?!%s%s)%s%s" % (any_of(words), _END, NAME, _END)


def _listed_words(words: Iterable[str]) -> str:
    """Words of which none is meant."""
    *others, last = ("`%s`" % word for word in words)
    return "%s or %s" % (", ".join(others), last)


def _script(message: str, without: Iterable[str]) -> Schema:
    """The schema of scripts without some operations."""
    return _text(divided(operations_pattern(without), ";", formats.MOST_OPERATIONS), message)


def _texts() -> Dict[str, Schema]:
    """The schemas of names, modes, scripts and actions."""
    name = "A name is 1 to 128 letters, digits and underscores, and begins with a letter%s."
    core_modes = formats.NO_MODES[1:]
    script = 'At most %d operations, divided by `;` without spaces around it, each as in docs/FORMATS.md, "Scripts"%s.'
    but = ", but for %s" % listed("`%s`" % each for each in formats.NOT_IN_ISRS)
    forms = "`ActivateTask T` or `SetEvent T m`, where T is a task of any core, and m a mask."
    return {
        "name": _text("^%s%s" % (NAME, _END), name % ""),
        "mode": _text(_name_but(formats.NO_MODES), name % (". No mode is called %s" % _listed_words(formats.NO_MODES))),
        "coreMode": _text(_name_but(core_modes), "One of `modes`, or `%s`." % formats.NAMES_NO_MODE),
        "script": _script(script % (formats.MOST_OPERATIONS, ""), ()),
        "isrScript": _script(script % (formats.MOST_OPERATIONS, but), formats.NOT_IN_ISRS),
        "action": _text(action_pattern(), forms),
    }


def _plain(default: Any) -> Any:
    """A default as JSON has it."""
    return list(default) if isinstance(default, tuple) else default


def _member(member: formats.Member, description: str) -> Schema:
    """The schema of a member."""
    schema: Schema = {"description": sentence(description)}
    # Which mode is the first one cannot be seen in a core.
    if not member.is_required and member.default is not formats.FIRST_MODE:
        schema["default"] = _plain(member.default)
    value = _value(member.value)
    # In draft-07 nothing beside `$ref` counts.
    schema.update({"allOf": [value]} if "$ref" in value else value)
    return schema


def _object(each: formats.Object, described: Dict[Tuple[str, str], str], may_be_null: bool) -> Schema:
    """The schema of an object."""
    properties = {member.name: _member(member, described[(each.name, member.name)]) for member in each.members}
    schema: Schema = {"type": ["object", "null"] if may_be_null else "object", "additionalProperties": False}
    required = [member.name for member in each.members if member.is_required]
    schema.update({"required": required} if required else {})
    schema["properties"] = properties
    if each is formats.TASK:
        schema.update(_one_activation())
    if each is formats.CONFIGURATION:
        schema.update(_cores_of_version_1())
    return schema


def _cores_of_version_1() -> Schema:
    """A configuration that is not of version 2 may have fewer cores, and lesser numbers of them."""
    most = formats.MOST_CORES[1]
    core = {"properties": {"id": {"maximum": most - 1}}}
    return {
        "if": {"properties": {"version": {"const": 2}}, "required": ["version"]},
        "else": {"properties": {"master": {"maximum": most - 1}, "cores": {"maxItems": most, "items": core}}},
    }


def _one_activation() -> Schema:
    """An extended task has one activation."""
    return {
        "if": {"properties": {"extended": {"const": True}}, "required": ["extended"]},
        "then": {"properties": {"activations": {"maximum": 1}}},
    }


def _nullable() -> set:
    """The objects in place of which `null` may stand."""
    values = [member.value for each in formats.OBJECTS.values() for member in each.members]
    return {value.name for value in values if isinstance(value, formats.ObjectOf) and value.or_null}


# ---------------------------------------------------------------------------------------------------------------------
# The three schemas
# ---------------------------------------------------------------------------------------------------------------------


def configuration_schema(document: str) -> Schema:
    """The schema of a configuration, with the descriptions of docs/FORMATS.md."""
    described = descriptions(document)
    stand = {(each.name, member.name) for each in formats.OBJECTS.values() for member in each.members}
    if stand != set(described):
        raise ValueError("docs/FORMATS.md and library/formats.py differ: %s" % sorted(stand ^ set(described)))
    definitions = _texts()
    for each in formats.OBJECTS.values():
        if each is not formats.CONFIGURATION:
            definitions[definition_name(each.name)] = _object(each, described, each.name in _nullable())
    schema: Schema = {
        "$schema": DRAFT,
        "title": "Configuration of mcos",
        "description": "docs/FORMATS.md describes each member. This file is made by tools/schemas from its tables.",
    }
    schema.update(_object(formats.CONFIGURATION, described, False))
    schema["definitions"] = definitions
    return schema


def stimuli_schema() -> Schema:
    """The schema of stimuli."""
    words = formats.STIMULUS_WORDS + (formats.INTERRUPT + "I",)
    message = "At most %d words %s, divided by one space, where I is an ISR of the core." % (
        formats.MOST_STIMULI,
        listed("`%s`" % word for word in words),
    )
    text = _text(divided(any_of(formats.STIMULUS_WORDS + (formats.INTERRUPT + NAME,)), " ", formats.MOST_STIMULI), message)
    core = "^" + CORE + _END
    return {
        "$schema": DRAFT,
        "title": "Stimuli of mcos",
        "description": "The stimuli of each core by its number. A core without a member has none.",
        "type": "object",
        "additionalProperties": False,
        "patternProperties": {
            core: dict(
                {
                    "description": "The stimuli of one core: `op`, the next operation of the running job, "
                    "`tick`, one count of each of its counters, but for those with `software`, or `irq=I`, an interrupt "
                    "of its ISR I."
                },
                **text
            )
        },
    }


def schedule_schema() -> Schema:
    """The schema of a schedule."""
    message = "At most %d turns, divided by one space: `Ko`, `KsD`, `Kl`, where K and D are two cores' numbers."
    schema = {
        "$schema": DRAFT,
        "title": "Schedule of mcos",
        "description": "The turns in the order in which they are taken: `Ko` is core K's own work, in `KsD` it serves "
        "the oldest envelope from core D, in `Kl` it looks whether it was started or may pass a barrier.",
    }
    schema.update(_text(divided(TURN, " ", formats.MOST_TURNS), message % formats.MOST_TURNS))
    return schema


def text_of(schema: Schema) -> str:
    """A schema as it stands in its file."""
    return json.dumps(schema, indent=2, ensure_ascii=False) + "\n"
