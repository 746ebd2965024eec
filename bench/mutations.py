"""Configurations, stimuli and schedules with mistakes in them, made from right ones: for bench/explain.

Most mutations keep the shape of a configuration, so that faults past the shape come often. What may stand where is read
from the tables of tools/library/formats.py.
"""

import contextlib
import copy
import json
import random

from library.formats import (
    ACTION_OPERATIONS,
    CONFIGURATION,
    FIRST_MODE,
    MODE,
    NAMED_LISTS,
    OBJECTS,
    OPERATIONS,
    SPINLOCK,
    Action,
    CounterName,
    Flag,
    ListOf,
    ModeName,
    NewName,
    Number,
    ObjectOf,
    Script,
    SpinlockName,
    words_of,
)

OTHER_VALUES = (
    None, True, False, 0, 1, -1, 2, 1.0, 1.5, 2**63, 2**64, "", "M", "A", "1", "?", [], {}, ["M"], ["X"], [1],
)  # fmt: skip
WORDS = (
    "?", "v0", "v7", "v8", "0", "1", "2", "-1", "01", "-0", "0x3", "4294967295", "4294967296", "1" * 30, "", "M", "Z9",
)  # fmt: skip
SIGNED_ENDS = ("9223372036854775807", "9223372036854775808", "-9223372036854775808", "-9223372036854775809")
CHARACTERS = ' ;?0v1_aM~"\\{}[],:\n\t\u00e9\U0001f600'
MEMBERS = ("name", "prio", "priority", "auto", "min", "max", "software", "points", "offset", "master", "cap", "start", "next")
NAMED = tuple(NAMED_LISTS.values()) + (SPINLOCK.name,)


def objects_in(value, kind=CONFIGURATION):
    """Each object of a configuration with what kind it is, as far as the shape is right."""
    if not isinstance(value, dict):
        return
    yield kind, value
    for member in kind.members:
        within = value.get(member.name)
        of = member.value.element if isinstance(member.value, ListOf) else member.value
        if isinstance(of, ObjectOf):
            for each in within if isinstance(within, list) else [within]:
                yield from objects_in(each, OBJECTS[of.name])


class Mutator:
    """Makes mutations by chance, the same ones for the same seed."""

    def __init__(self, seed):
        self.chance = random.Random(seed)
        self.config = None

    # What a configuration has.

    def sites(self, *types):
        """Each object with a member whose value is of these types; the member need not be there."""
        return [
            (kind, value, member)
            for kind, value in objects_in(self.config)
            for member in kind.members
            if isinstance(member.value, types)
        ]

    def site(self, *types):
        """One of them, by chance."""
        return self.chance.choice(self.sites(*types))

    def names(self, kind=None):
        """The names of the objects of a kind, or of all kinds."""
        kinds = [kind] if kind else NAMED
        found = [value.get("name") for each, value in objects_in(self.config) if each.name in kinds]
        return [name for name in found if isinstance(name, str)]

    def name(self, kind=None):
        """A name of an object, mostly of this kind."""
        known = self.names(kind if self.chance.random() < 0.8 else None)
        if known and self.chance.random() < 0.95:
            return self.chance.choice(known)
        return self.chance.choice(("Zz", MODE, "A"))

    # Mutations of a configuration.

    def change_number(self):
        _, value, member = self.site(Number)
        numbers = [each.get(other.name) for _, each, other in self.sites(Number)]
        numbers = [number for number in numbers if isinstance(number, int)]
        now = value.get(member.name, 0)
        now = now if isinstance(now, int) else 0
        least, greatest = member.value.least, member.value.greatest
        near = [least - 1, least, greatest, greatest + 1, now - 1, now + 1, now + 1, 2 * now, 0, -1]
        other = self.chance.choice(numbers) if numbers else 1
        value[member.name] = self.chance.choice(near + [other, other - 1, other + 1])

    def change_name(self):
        _, value, member = self.site(NewName, CounterName, SpinlockName)
        kind = {CounterName: "counter", SpinlockName: SPINLOCK.name}.get(type(member.value))
        value[member.name] = self.name(kind)

    def change_link(self):
        _, value, member = self.site(SpinlockName)
        value[member.name] = self.chance.choice((None, self.name(SPINLOCK.name), self.name(SPINLOCK.name)))

    def change_flag(self):
        _, value, member = self.site(Flag)
        value[member.name] = self.chance.random() < 0.5

    def change_modes(self):
        lists = [site for site in self.sites(ListOf) if isinstance(site[2].value.element, ModeName)]
        _, value, member = self.chance.choice(lists)
        value[member.name] = self.chance.choice(([], ["M"], ["M", "M"], ["X"], ["M", "A"], ["1"], [""]))

    def word(self, kind, count):
        """A word for an argument, mostly in form."""
        if self.chance.random() < 0.15:
            return self.chance.choice(WORDS)
        if kind in NAMED:
            return self.name(kind)
        if kind == "variable":
            return "v%d" % self.chance.randrange(8)
        if kind == "place":
            return str(self.chance.choice((0, count - 1, count, count + 1, count + 2)))
        if kind == "signed":
            return self.chance.choice(SIGNED_ENDS + ("0", "-1", "7"))
        return str(self.chance.choice((0, 1, 1, 2, 3, 9, 4294967295, 4294967296)))

    def operation(self, count, names=tuple(OPERATIONS)):
        """An operation for a script of so many, mostly in form."""
        operation = OPERATIONS[self.chance.choice(names)]
        return " ".join([operation.name] + [self.word(argument.kind, count) for argument in operation.arguments])

    def change_script(self):
        _, value, member = self.site(Script)
        script = value.get(member.name)
        operations = script.split(";") if isinstance(script, str) else []
        at = self.chance.randrange(len(operations)) if operations else 0
        way = self.chance.random()
        if way < 0.5 or not operations:
            operations.insert(at, self.operation(len(operations) + 1))
        elif way < 0.8:
            operations[at] = self.changed_words(operations[at], len(operations))
        elif way < 0.9:
            operations.insert(at, operations[at])
        else:
            del operations[at]
        value[member.name] = ";".join(operations)

    def changed_words(self, operation, count):
        """An operation with one word changed, added or taken away."""
        words = operation.split(" ")
        at = self.chance.randrange(len(words))
        known = OPERATIONS.get(words[0])
        way = self.chance.random()
        if way < 0.15:
            words.insert(at, self.chance.choice(WORDS))
        elif way < 0.3:
            del words[at]
        elif at == 0:
            words[0] = self.chance.choice(list(OPERATIONS) + ["work2", "Work"])
        elif known is not None and at <= len(known.arguments):
            words[at] = self.word(known.arguments[at - 1].kind, count)
        return " ".join(words)

    def change_action(self):
        places = [(value, "action") for kind, value in objects_in(self.config) if kind.name == "alarm"]
        for kind, value in objects_in(self.config):
            if kind.name == "point" and isinstance(value.get("actions"), list):
                places += [(value["actions"], index) for index in range(len(value["actions"]))]
        if not places:
            return self.change_script()
        value, key = self.chance.choice(places)
        names = ACTION_OPERATIONS if self.chance.random() < 0.85 else tuple(OPERATIONS)
        value[key] = self.operation(0, names)

    def change_character(self):
        _, value, member = self.site(Script, Action, NewName, CounterName)
        text = value.get(member.name)
        if isinstance(text, str):
            at = self.chance.randrange(len(text) + 1)
            value[member.name] = text[:at] + self.chance.choice(["", *" ;?0aM"]) + text[at + self.chance.randrange(2) :]

    def change_type(self):
        _, value = self.chance.choice(list(objects_in(self.config)))
        value[self.chance.choice(list(value) or ["a"])] = copy.deepcopy(self.chance.choice(OTHER_VALUES))

    def change_members(self):
        kind, value = self.chance.choice(list(objects_in(self.config)))
        optional = [member for member in kind.members if not member.is_required]
        if optional and self.chance.random() < 0.7:
            member = self.chance.choice(optional)
            default = list(member.default) if isinstance(member.default, tuple) else member.default
            default = self.name() if default is FIRST_MODE else default
            if member.name in value:
                del value[member.name]
            else:
                value[member.name] = default
        elif self.chance.random() < 0.5 and value:
            del value[self.chance.choice(list(value))]
        else:
            value[self.chance.choice(MEMBERS)] = copy.deepcopy(self.chance.choice(OTHER_VALUES))

    def lists(self):
        """All lists of objects or actions, with the object that has them and their member."""
        return [
            (value, member)
            for _, value, member in self.sites(ListOf)
            if isinstance(value.get(member.name), list) and not isinstance(member.value.element, ModeName)
        ]

    def change_list(self):
        value, member = self.chance.choice(self.lists())
        elements = value[member.name]
        way = self.chance.random()
        if not elements:
            return
        at = self.chance.randrange(len(elements))
        if way < 0.4:
            self.fill(elements, len(elements) + 1)
        elif way < 0.55 and member.value.greatest is not None:
            self.fill(elements, member.value.greatest + self.chance.randrange(2))
        elif way < 0.8:
            self.chance.shuffle(elements)
        else:
            del elements[at]

    def fill(self, elements, number):
        """Repeats elements of a list until it has so many. Objects mostly get names of their own."""
        has_own_names = self.chance.random() < 0.8
        while len(elements) < number:
            element = copy.deepcopy(self.chance.choice(elements))
            if isinstance(element, dict) and "name" in element and has_own_names:
                element["name"] = "N%d" % self.chance.randrange(10**6)
            if isinstance(element, dict) and "id" in element and has_own_names:
                element["id"] = len(elements)
            if isinstance(element, dict) and isinstance(element.get("offset"), int) and has_own_names:
                element["offset"] = elements[-1]["offset"] + 1 if isinstance(elements[-1].get("offset"), int) else 0
            elements.append(element)

    def move_object(self):
        cores = [value for kind, value in objects_in(self.config) if kind.name == "core"]
        if len(cores) < 2:
            return self.change_name()
        kind = self.chance.choice(list(NAMED_LISTS))
        here, there = self.chance.sample(cores, 2)
        if isinstance(here.get(kind), list) and here[kind]:
            there.setdefault(kind, [])
            if isinstance(there[kind], list):
                there[kind].append(here[kind].pop(self.chance.randrange(len(here[kind]))))

    def change_points(self):
        tables = [value for kind, value in objects_in(self.config) if kind.name == "table"]
        points = [value for kind, value in objects_in(self.config) if kind.name == "point"]
        if not tables or not points:
            return self.change_number()
        table = self.chance.choice(tables)
        if self.chance.random() < 0.4:
            table["duration"] = self.chance.choice((1, 2, 3, 5, 8, 9, 10, 11, 100, 101))
        else:
            self.chance.choice(points)["offset"] = self.chance.choice((-1, 0, 1, 2, 3, 4, 7, 9, 10, 11, 100))

    def change_script_length(self):
        _, value, member = self.site(Script)
        value[member.name] = ";".join(["work"] * self.chance.choice((255, 256, 256, 257)))

    def configuration(self, base):
        """The text of a configuration with one to three mutations."""
        ways = {
            self.change_number: 20,
            self.change_name: 12,
            self.change_script: 20,
            self.change_action: 10,
            self.change_points: 12,
            self.move_object: 10,
            self.change_list: 8,
            self.change_flag: 3,
            self.change_modes: 4,
            self.change_link: 4,
            self.change_character: 6,
            self.change_members: 6,
            self.change_type: 3,
            self.change_script_length: 1,
        }
        self.config = copy.deepcopy(base)
        for way in self.chance.choices(list(ways), list(ways.values()), k=self.chance.choice((1, 1, 2, 3))):
            # An earlier mutation may have left nothing of the shape that this one needs.
            with contextlib.suppress(IndexError, TypeError, AttributeError):
                way()
        return self.text(self.config)

    # Texts of any kind.

    def text(self, value):
        """A value as JSON, now and then with a mistake in the JSON or with a member that stands twice."""
        text = json.dumps(value, ensure_ascii=self.chance.random() < 0.5, indent=self.chance.choice((None, 1)))
        way = self.chance.random()
        if way < 0.03:
            at = self.chance.randrange(len(text) + 1)
            text = text[:at] + self.chance.choice([""] + list(CHARACTERS)) + text[at + self.chance.randrange(2) :]
        elif way < 0.06:
            text = self.with_member_twice(text)
        data = text.encode("utf-8", "surrogatepass")
        if way > 0.995:
            at = self.chance.randrange(len(data) + 1)
            data = data[:at] + bytes([self.chance.randrange(128, 256)]) + data[at:]
        return data

    def with_member_twice(self, text):
        """A text in which a member of some object stands again, with another value."""
        braces = [at for at, character in enumerate(text) if character == "{"]
        if not braces:
            return text
        at = self.chance.choice(braces) + 1
        value = json.dumps(self.chance.choice(OTHER_VALUES))
        return '%s"%s": %s, %s' % (text[:at], self.chance.choice(MEMBERS[:1] + MEMBERS[3:]), value, text[at:])

    def changed_text(self, text, words):
        """A text of words with one of them changed, or a character."""
        parts = words_of(text)
        way = self.chance.random()
        if way < 0.6:
            parts.insert(self.chance.randrange(len(parts) + 1), self.chance.choice(words))
            return " ".join(parts)
        if way < 0.8:
            at = self.chance.randrange(len(text) + 1)
            return text[:at] + self.chance.choice((" ", "\n", "x", "", "0")) + text[at + self.chance.randrange(2) :]
        return text

    def stimuli(self, base):
        """The text of stimuli with a mutation."""
        value = copy.deepcopy(base)
        key = self.chance.choice(list(value) or ["0"])
        way = self.chance.random()
        if way < 0.5:
            words = ("op", "tick", "op op", "tik", "", "OP", "op\u00e9", "tick;")
            value[key] = self.changed_text(value.get(key, ""), words)
        elif way < 0.8:
            value[self.chance.choice(("0", "1", "2", "7", "8", "15", "16", "00", "01", "-1", "", "a", "10"))] = "op"
        elif way < 0.9:
            value[key] = copy.deepcopy(self.chance.choice(OTHER_VALUES))
        else:
            value = copy.deepcopy(self.chance.choice(OTHER_VALUES))
        return self.text(value)

    def schedule(self, base):
        """The text of a schedule with a mutation."""
        near = ("0o", "0l", "1o", "1l", "0s1", "1s0", "0s0", "7o", "9o", "00o", "0s", "o", "0x", "0s01", "10o", "")
        turns = near + ("15o", "15l", "0s15", "15s8", "8s15", "16o", "16s0", "15s16")
        if self.chance.random() < 0.9:
            return self.text(self.changed_text(base, turns))
        return self.text(copy.deepcopy(self.chance.choice(OTHER_VALUES)))
