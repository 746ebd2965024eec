"""Holds the tables of tools/library/formats.py to docs/FORMATS.md and docs/SERVICES.md, so that none changes alone."""

import os
import re
import sys
import unittest

sys.dont_write_bytecode = True
TOOLS = os.path.dirname(os.path.dirname(os.path.abspath(__file__)))
sys.path.insert(0, TOOLS)
sys.path.insert(0, os.path.dirname(os.path.abspath(__file__)))
import service_checks  # noqa: E402
from library import formats, hints  # noqa: E402

with open(os.path.join(os.path.dirname(TOOLS), "docs", "FORMATS.md"), encoding="utf-8") as _file:
    TEXT = _file.read()
SERVICES = service_checks.document()


def rows_behind(title):
    """The rows of the first table behind a title, without its head, each as its cells."""
    rows = []
    for line in TEXT[TEXT.index("\n## %s\n" % title) :].splitlines():
        if line.startswith("|"):
            rows.append([cell.strip() for cell in re.split(r"(?<!\\)\|", line)[1:-1]])
        elif rows:
            break
    return rows[2:]


def member_rows():
    """The object, the member, the value and the default of each row of the configuration's table."""
    owner = None
    for first, member, value, default in rows_behind("The configuration"):
        owner = first.replace("`", "") or owner
        yield owner, member.strip("`"), value, default


# What the values of members that other members narrow, or that two numbers fit, are called.
SPECIAL_VALUES = {
    ("configuration", "version"): "1 or 2",
    ("configuration", "master"): "the `id` of the core that is started first",
    ("counter", "min"): "1 to `max`",
    ("alarm's auto", "start"): "1 to the counter's `max`",
    ("alarm's auto", "cycle"): "the counter's `min` to its `max`; 0",
    ("point", "offset"): "0 to the table's `duration`",
    ("table's auto", "offset"): "1 to the counter's `max` less the offset of the first point",
}
# The numbers that stand in sentences.
SENTENCES = (
    (formats.MOST_OPERATIONS, "a string of at most {} operations, divided by `;`"),
    (formats.MOST_SUSPENDED, "once more if they are suspended, at most {} times"),
    (formats.MOST_ACTIVATIONS, "whose `activations` sum to at most {}"),
    (formats.MOST_ACTIONS_ABROAD, "The sum is at most {}."),
    (formats.MOST_STIMULI, "A core has at most {}."),
    (formats.MOST_CORES[1], "With `version` 1 there are at most {} cores"),
    (formats.MOST_CORES[1] - 1, "with numbers up to {}."),
    (formats.MOST_TURNS, "one JSON string of at most {} turns"),
    (formats.MOST_LEVELS, "more than {} levels"),
    (formats.GREATEST_COUNT, "1 to {}"),
)


def phrase(value):
    """What docs/FORMATS.md says of a value, in its own words."""
    if isinstance(value, formats.Number):
        return "{:,} to {:,}".format(value.least, value.greatest)
    if isinstance(value, formats.Flag):
        return "`true` or `false`"
    if isinstance(value, formats.OneOf):
        return "`%s` or `%s`" % ("`, `".join(value.words[:-1]), value.words[-1])
    if isinstance(value, formats.ObjectOf):
        return "`null`, or an object"
    if value == formats.MODES:
        return "a list of the modes in which"
    if isinstance(value, formats.ListOf):
        if value.greatest is None:
            return "as many as you like"
        return "at most %d" % value.greatest if value.least == 0 else "%d to %d" % (value.least, value.greatest)
    return {
        formats.NewName: "a name",
        formats.CoreMode: "one of `modes`; or `%s`" % formats.NAMES_NO_MODE,
        formats.CounterName: "the name of its counter, one of its own core",
        formats.SpinlockName: "the name of the spinlock that comes after it, or `null`",
        formats.Script: "a script",
        formats.Action: "`ActivateTask T` or `SetEvent T m`",
    }[type(value)]


class Members(unittest.TestCase):
    """The table of the configuration."""

    def test_the_same_members_in_the_same_order(self):
        written = [(owner, member) for owner, member, _, _ in member_rows()]
        known = [(each.name, member.name) for each in formats.OBJECTS.values() for member in each.members]
        self.assertEqual(written, known)

    def test_the_same_defaults(self):
        words = {"`[]`": (), "`null`": None, "`true`": True, "`false`": False, "none": formats.REQUIRED}
        words["`PRO_SHUTDOWN`"] = "PRO_SHUTDOWN"
        words.update({'`["M"]`': (formats.MODE,), "the first of `modes`": formats.FIRST_MODE})
        for owner, name, _, default in member_rows():
            with self.subTest(owner=owner, member=name):
                known = formats.OBJECTS[owner].member(name).default
                self.assertEqual(repr(known), repr(words[default] if default in words else int(default)))

    def test_the_same_values(self):
        for owner, name, written, _ in member_rows():
            with self.subTest(owner=owner, member=name):
                value = formats.OBJECTS[owner].member(name).value
                expected = SPECIAL_VALUES.get((owner, name)) or phrase(value)
                self.assertIn(expected, written)

    def test_the_bounds_of_what_other_members_narrow(self):
        for (owner, name), written in SPECIAL_VALUES.items():
            value = formats.OBJECTS[owner].member(name).value
            with self.subTest(owner=owner, member=name):
                least = 0 if name in ("master", "cycle") else int(written[0])
                self.assertEqual(least, value.least)
                greatest = {"version": 2, "master": 15}.get(name, formats.GREATEST_COUNT)
                self.assertEqual(greatest, value.greatest)
                self.assertEqual(name in ("version", "min"), value.alone)

    def test_the_elements_of_lists(self):
        row = {(owner, name): value for owner, name, value, _ in member_rows()}
        start = formats.CORE.member("start").value.element
        self.assertIn("each %s" % phrase(start), row["core", "start"])
        self.assertIn("each as that of an alarm", row["point", "actions"])
        self.assertEqual(formats.Action(), formats.POINT.member("actions").value.element)
        for list_name, kind in formats.NAMED_LISTS.items():
            self.assertEqual(formats.ObjectOf(kind), formats.CORE.member(list_name).value.element)


class Operations(unittest.TestCase):
    """The table of the operations."""

    def test_the_same_operations_in_the_same_order(self):
        written = [row[0].strip("`") for row in rows_behind("Scripts")]
        self.assertEqual(written, [operation.form for operation in formats.OPERATIONS.values()])

    def test_the_words_of_objects_and_variables(self):
        for form, text in rows_behind("Scripts"):
            operation = formats.OPERATIONS[form.strip("`").split(" ")[0]]
            for argument in operation.arguments:
                with self.subTest(operation=operation.form, word=argument.word):
                    if argument.is_object:
                        self.assertIn("the %s `%s`" % (argument.kind, argument.word), text)
                    self.assertIn(argument.kind, KINDS_OF_WORDS[argument.word])

    def test_the_numbers_of_the_operations(self):
        self.assertIn("The `n` of `set` and `add` is -2^63 to 2^63 - 1", TEXT)
        self.assertIn("The `n` of `jump` and `jz` counts the operations from 0.", TEXT)
        self.assertIn("The `n`, `s` and `c` of alarms and tables are 0 to %d." % formats.GREATEST_WORD, TEXT)
        self.assertIn("a decimal number of 1 to %d, whose bits are events" % formats.GREATEST_WORD, TEXT)
        self.assertIn("the OS runs already; `k` is 0 to %d" % formats.GREATEST_CORE_NUMBER, TEXT)
        status = "The `n` of the two shutdowns is the number of a [status](#what-run-prints), 0 to %d."
        self.assertIn(status % formats.GREATEST_STATUS, TEXT)
        self.assertEqual(formats.GREATEST_SIGNED, 2**63 - 1)
        for operation in formats.OPERATIONS.values():
            for argument in operation.arguments:
                if argument.word == "n":
                    self.assertEqual(KINDS_OF_N.get(operation.name, "number"), argument.kind, operation.form)

    def test_the_operations_without_a_status(self):
        sentence = TEXT[TEXT.index("- **The last status**") :].split(" have no status, and leave it")[0]
        written = set(re.findall(r"`([A-Z]\w+)`", sentence)) | {"ShutdownOS", "ShutdownAllCores"}
        self.assertIn("and the two shutdowns", sentence)
        self.assertEqual(written, set(formats.WITHOUT_STATUS))
        ignored = re.search(r"(`\w+`, `\w+` and `\w+`) are ignored: no effect", SERVICES)[1]
        self.assertEqual(tuple(re.findall(r"`(\w+)`", ignored)), formats.IGNORED_IF_SUSPENDED)

    def test_what_binds_a_core(self):
        row = next(line for line in TEXT.splitlines() if line.startswith("| `core K separate`"))
        asks = re.search(r"no script of it has `(\w+)` or `(\w+)`", row).groups()
        self.assertEqual(asks, formats.ASKS_SHARED)
        self.assertIn("no script of any core, also of one that is off, has `%s`" % formats.HALTS_ALL, row)
        self.assertIn("After the `stat` of a %s" % formats.WITHOUT_ERROR_HOOK, SERVICES)

    def test_the_numbers_of_statuses(self):
        listed = re.search(r"(?m)^\*\*The statuses\*\*, by their numbers: ((?:\d+ E_\w+(?:, |\.))+)", TEXT)[1]
        numbers = re.findall(r"(\d+) E_\w+", listed)
        self.assertEqual([int(number) for number in numbers], list(range(formats.GREATEST_STATUS + 1)))

    def test_the_operations_on_own_objects_alone(self):
        text = dict(rows_behind("Faults"))["6 WrongCore"]
        written = set(re.findall(r"`([A-Z]\w+)`", text))
        self.assertIn("an operation on tables to a table", text)
        known = {each.name: each.arguments[0] for each in formats.OPERATIONS.values() if each.arguments}
        own = {name for name, argument in known.items() if argument.own_core}
        self.assertEqual(written | {name for name, argument in known.items() if argument.kind == "table"}, own)

    def test_what_an_isr_may_not_call(self):
        found = [name for name, checks in service_checks.in_document(SERVICES).items() if "E_OS_CALLEVEL" in checks]
        self.assertEqual(sorted(found), sorted(formats.FOR_TASKS))

    def test_what_the_script_of_an_isr_has_not(self):
        row = next(text for owner, name, text, _ in member_rows() if (owner, name) == ("ISR", "script"))
        self.assertEqual(re.findall(r"`(\w+)`", row), list(formats.NOT_IN_ISRS))
        self.assertEqual(formats.ISR.member("script").value.without, formats.NOT_IN_ISRS)

    def test_what_an_action_is(self):
        self.assertIn("`ActivateTask T` or `SetEvent T m`, where `T` is a task of any core", TEXT)
        known = [formats.OPERATIONS[name].form for name in formats.ACTION_OPERATIONS]
        self.assertEqual(["ActivateTask T", "SetEvent T m"], known)


KINDS_OF_N = {"set": "signed", "add": "signed", "jump": "place", "jz": "place"}
KINDS_OF_N.update(ShutdownOS="status", ShutdownAllCores="status")
KINDS_OF_WORDS = {
    "T": ("task",),
    "R": ("resource",),
    "C": ("counter",),
    "A": ("alarm",),
    "S": ("table",),
    "U": ("table",),
    "L": ("spinlock",),
    "x": ("variable",),
    "y": ("variable",),
    "m": ("mask",),
    "n": ("signed", "place", "number", "status"),
    "k": ("core",),
    "s": ("number",),
    "c": ("number",),
}


# An object of AUTOSAR, a number that stands in scripts here, and what is fixed.
NO_MEMBERS = {
    "OsResource",
    "OsEventMask",
    "OsStatus",
    "OsStartupHook",
    "OsErrorHook",
    "OsPreTaskHook",
    "OsPostTaskHook",
    "OsProtectionHook",
    "OsShutdownHook",
}


class Standard(unittest.TestCase):
    """The names of the standards, which tools/explain knows."""

    def test_each_member_that_is_hinted_at(self):
        for kind, names in hints.STANDARD_NAMES.items():
            for name, hint in names.items():
                with self.subTest(kind=kind, name=name):
                    self.assertIsNone(formats.OBJECTS[kind].member(name))
                    if hint.member is not None:
                        self.assertIsNotNone(formats.OBJECTS[kind].member(hint.member))

    def test_the_names_of_autosar(self):
        written = set()
        for _, oil, autosar, _ in rows_behind("Names of the standard"):
            written |= set(re.findall(r"\bOs[A-Z]\w+", autosar))
            written |= set(re.findall(r"\b[A-Z]{5,}\b", oil)) & {"PRIORITY", "ACTIVATION", "AUTOSTART", "MINCYCLE"}
        known = {name for names in hints.STANDARD_NAMES.values() for name in names}
        missing = {name for name in written if name.lower() not in known} - NO_MEMBERS
        self.assertEqual(set(), missing)
        unwritten = {name for name in known if name.startswith("os")} - {name.lower() for name in written}
        self.assertEqual({"osappmodes"}, unwritten)


class Words(unittest.TestCase):
    """Faults, names, numbers, stimuli and turns."""

    def test_the_same_faults_in_the_same_order(self):
        written = [row[0] for row in rows_behind("Faults")]
        self.assertEqual(written, ["%d %s" % (fault.number, fault.name) for fault in formats.FAULTS])

    def test_how_a_fault_is_printed(self):
        self.assertIn("the standard error has `fault N Name`", TEXT)
        self.assertEqual("fault 2 Shape", str(formats.SHAPE))

    def test_the_numbers_of_sentences(self):
        for number, sentence in SENTENCES:
            with self.subTest(sentence=sentence):
                self.assertIn(sentence.format("{:,}".format(number)), TEXT)
        self.assertIn("from -2^63 to 2^64 - 1", TEXT)
        self.assertEqual((-(2**63), 2**64 - 1), (formats.LEAST_NUMBER, formats.GREATEST_NUMBER))
        self.assertIn("a file is longer than 1 GiB", TEXT)
        self.assertEqual(2**30, formats.MOST_BYTES)
        self.assertIn("`v0` to `v7`", TEXT)
        self.assertEqual(("v0", "v7", 8), (formats.VARIABLES[0], formats.VARIABLES[-1], len(formats.VARIABLES)))

    def test_names(self):
        self.assertIn("A name is 1 to 128 ASCII letters, digits and underscores, and begins with a letter.", TEXT)
        self.assertIn("Without `modes` there is one mode, `%s`," % formats.MODE, TEXT)
        self.assertIn("none is `%s`, `%s` or `%s`" % formats.NO_MODES, TEXT)
        self.assertIn("A core with `%s` names none" % formats.NAMES_NO_MODE, TEXT)
        self.assertIn("`%s` is an identifier that refers to nothing" % formats.NO_OBJECT, TEXT)
        for name in ("A", "a1_", "x" * 128):
            self.assertTrue(formats.is_name(name), name)
        for name in ("", "1a", "_a", "a b", "a-b", "\u00e4", "x" * 129, "a\n", "?"):
            self.assertFalse(formats.is_name(name), name)

    def test_decimal_numbers(self):
        for text in ("0", "1", "10", "9" * 40):
            self.assertTrue(formats.is_decimal(text) and formats.is_signed_decimal(text), text)
        for text in ("", "00", "01", "+1", "1.0", "0x1", "1e1", " 1", "\u0661"):
            self.assertFalse(formats.is_decimal(text) or formats.is_signed_decimal(text), text)
        self.assertEqual((False, True), (formats.is_decimal("-1"), formats.is_signed_decimal("-1")))
        self.assertFalse(formats.is_signed_decimal("-0"))

    def test_stimuli(self):
        self.assertEqual(list(formats.STIMULUS_WORDS), re.findall(r"(?m)^- \*\*`(\w+)`\*\*", TEXT))

    def test_turns(self):
        written = [row[0].strip("`") for row in rows_behind("A schedule")]
        self.assertEqual(["Ko", "KsD", "Kl"], written)
        for turn in ("0o", "7s0", "3l", "10o"):
            self.assertTrue(formats.TURN.fullmatch(turn), turn)
        for turn in ("o", "0", "0s", "0x", "0oo", " 0o"):
            self.assertFalse(formats.TURN.fullmatch(turn), turn)

    def test_scripts_and_words_are_divided(self):
        self.assertIn("A script is a string of at most 256 operations, divided by `;`. The empty string has none.", TEXT)
        self.assertEqual([], formats.operations_of(""))
        self.assertEqual(["work", ""], formats.operations_of("work;"))
        self.assertEqual([], formats.words_of(""))
        self.assertEqual(["op", "", "op"], formats.words_of("op  op"))


if __name__ == "__main__":
    unittest.main()
