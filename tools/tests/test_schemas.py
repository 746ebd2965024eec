"""The JSON schemas: their files, their patterns in Python and in ECMA 262, and what they refuse."""

import copy
import json
import os
import re
import shutil
import subprocess
import sys
import tempfile
import unittest

sys.path.insert(0, os.path.dirname(os.path.abspath(__file__)))
from sample_runs import PROGRAM, ROOT, TOOLS, needs_program  # noqa: E402
from library import formats, schemas  # noqa: E402

try:
    import jsonschema
except ImportError:
    jsonschema = None

LONG_NAME = "A" * 128
SIGNED = str(2**63 - 1)

SCRIPTS = {
    "": True,
    "work": True,
    "work;work": True,
    ";".join(["work"] * 256): True,
    ";".join(["work"] * 257): False,
    "set v0 -%d;add v7 %s;addv v1 v2;status v3" % (2**63, SIGNED): True,
    "set v0 %d" % 2**63: False,
    "set v0 -%d" % (2**63 + 1): False,
    "set v0 -0": False,
    "set v0 007": False,
    "set v0 1.0": False,
    "set v8 1": False,
    "jump 256;jz v0 0": True,
    "jump 257": False,
    "jump -1": False,
    "jump loop": False,
    "ActivateTask A;ActivateTask ?;ChainTask A_1;TerminateTask;Schedule": True,
    "ActivateTask %s" % LONG_NAME: True,
    "ActivateTask %sA" % LONG_NAME: False,
    "ActivateTask 1A": False,
    "ActivateTask": False,
    "ActivateTask A B": False,
    "ActivteTask A": False,
    "TerminateTask 1": False,
    "GetResource R;ReleaseResource ?": True,
    "SetEvent A 1;ClearEvent 2;GetEvent A v0;WaitEvent 4294967295": True,
    "SetEvent A 0": False,
    "WaitEvent 4294967296": False,
    "WaitEvent Rx": False,
    "WaitEvent 0x3": False,
    "IncrementCounter C;GetCounterValue C v0": True,
    "SetRelAlarm A 0 4294967295;SetAbsAlarm ? 4294967295 0;CancelAlarm A;GetAlarm A v0": True,
    "SetRelAlarm A 4294967296 0": False,
    "SetRelAlarm A 1": False,
    "StartScheduleTableRel S 1;StartScheduleTableAbs S 0;NextScheduleTable S U": True,
    "StopScheduleTable S;GetScheduleTableStatus S v0": True,
    "StartCore ?;StartCore 0;StartCore 255;GetNumberOfActivatedCores v7;ShutdownOS 16;ShutdownAllCores 0": True,
    "GetSpinlock L;TryToGetSpinlock L v0;ReleaseSpinlock L": True,
    "GetSpinlock ?;TryToGetSpinlock ? v7;ReleaseSpinlock ?": True,
    "GetSpinlock": False,
    "TryToGetSpinlock L": False,
    "TryToGetSpinlock L v8": False,
    "ReleaseSpinlock L v0": False,
    "StartCore 256": False,
    "StartCore 01": False,
    "StartCore A": False,
    "ShutdownOS 17": False,
    "ShutdownAllCores ?": False,
    "GetNumberOfActivatedCores v8": False,
    "work;": False,
    ";work": False,
    "work; work": False,
    "work  ": False,
    "work\n": False,
    "WaitEvent  1": False,
}
ACTIONS = {
    "ActivateTask A": True,
    "SetEvent A 1": True,
    "SetEvent A 4294967295": True,
    "SetEvent A 4294967296": False,
    "SetEvent A 0": False,
    "ActivateTask ?": False,
    "ActivateTask A;ActivateTask B": False,
    "IncrementCounter C": False,
    "ActivateTask A\n": False,
    "": False,
}
NAMES = {
    "A": True,
    LONG_NAME: True,
    LONG_NAME + "A": False,
    "M": True,
    "MM": True,
    "M\n": False,
    "_A": False,
    "": False,
}
STIMULI = {
    "": True,
    "op": True,
    "op tick op": True,
    "irq=I1 op irq=a_": True,
    "irq=": False,
    "irq=1": False,
    "irq=I 1": False,
    " ".join(["tick"] * formats.MOST_STIMULI): True,
    " ".join(["op"] * (formats.MOST_STIMULI + 1)): False,
    "op ": False,
    "op  op": False,
    "op\n": False,
    "tik": False,
    "3*op": False,
    "optick": False,
}
SCHEDULES = {
    "": True,
    "0o 7l 0s7 7s0": True,
    "8o 15l 1s15 15s1 10s1 1s11": True,
    "0s0": False,
    "1s1": False,
    "15s15": False,
    "16o": False,
    "0s16": False,
    "09o": False,
    "1s01": False,
    "0x": False,
    "0o ": False,
    "0o  0l": False,
    "0o,0l": False,
}
CONFIGURATION = {
    "version": 1,
    "cap": 16,
    "master": 0,
    "spinlocks": [{"name": "X", "next": "Y"}, {"name": "Y"}],
    "cores": [
        {
            "id": 0,
            "start": [1, 255],
            "protection": "PRO_TERMINATETASKISR",
            "tasks": [{"name": "A", "prio": 31, "auto": ["M"], "activations": 1, "extended": True, "script": "work"}],
            "isrs": [{"name": "I", "level": 16, "budget": 10**9, "script": "SuspendAllInterrupts;ActivateTask A"}],
            "resources": [{"name": "R", "ceiling": 31, "lock": 10**9}],
            "counters": [{"name": "C", "max": 10**9, "min": 1, "software": False}],
            "alarms": [
                {"name": "L", "counter": "C", "action": "SetEvent A 1", "auto": {"modes": [], "start": 1, "cycle": 0}}
            ],
            "tables": [
                {
                    "name": "S",
                    "counter": "C",
                    "duration": 9,
                    "repeating": True,
                    "points": [{"offset": 0, "actions": ["ActivateTask A"]}],
                    "auto": {"modes": ["M", "M"], "offset": 1},
                }
            ],
        }
    ],
}
CORE = ("cores", 0)
TASK = CORE + ("tasks", 0)
# The place of a value, and what is wrong there. Of REMOVED a member is left out.
REMOVED = object()
WRONG = [
    (("version",), 3),
    (("version",), 0),
    (("cap",), 17),
    (("cap",), 0),
    (("cap",), "16"),
    (("master",), 8),
    (("spinlocks",), None),
    (("spinlocks",), [{"name": "L%d" % number} for number in range(17)]),
    (("spinlocks", 0, "name"), REMOVED),
    (("spinlocks", 0, "name"), "1L"),
    (("spinlocks", 0, "next"), "?"),
    (("spinlocks", 0, "next"), 1),
    (("spinlocks", 0, "method"), "LOCK_NOTHING"),
    (("cores",), []),
    (("cores",), REMOVED),
    (CORE + ("id",), 8),
    (CORE + ("id",), "0"),
    (CORE + ("id",), REMOVED),
    (CORE + ("start",), [256]),
    (CORE + ("start",), 1),
    (CORE + ("isrs",), [{"name": "I", "level": 17, "script": ""}]),
    (CORE + ("isrs", 0, "script"), "work;GetResource R"),
    (CORE + ("isrs", 0, "script"), "ReleaseResource ?"),
    (CORE + ("isrs", 0, "script"), "work;"),
    (CORE + ("protection",), "PRO_NONE"),
    (TASK + ("priority",), 1),
    (TASK + ("prio",), REMOVED),
    (TASK + ("prio",), 32),
    (TASK + ("prio",), True),
    (TASK + ("auto",), "M"),
    (TASK + ("auto",), ["none"]),
    (("modes",), []),
    (("modes",), ["M", "conflict"]),
    (("modes",), ["DONOTCARE"]),
    (("modes",), "M"),
    (("modes",), ["1"]),
    (("modes",), ["M1", "M2", "M3", "M4", "M5", "M6", "M7", "M8", "M9"]),
    (CORE + ("mode",), "none"),
    (CORE + ("mode",), ["M"]),
    (CORE + ("mode",), None),
    (CORE + ("mode",), ""),
    (TASK + ("activations",), 2),
    (TASK + ("preemptable",), 1),
    (TASK + ("script",), "work;"),
    (CORE + ("resources", 0, "ceiling"), 32),
    (CORE + ("resources", 0, "lock"), 10**9 + 1),
    (CORE + ("resources", 0, "lock"), -1),
    (CORE + ("resources", 0, "lock"), None),
    (CORE + ("resources", 0, "budget"), 1),
    (CORE + ("counters", 0, "max"), 0),
    (CORE + ("counters", 0, "max"), REMOVED),
    (CORE + ("counters", 0, "max"), 10**9 + 1),
    (CORE + ("alarms", 0, "auto"), True),
    (CORE + ("alarms", 0, "auto", "start"), 0),
    (CORE + ("alarms", 0, "auto", "modes"), REMOVED),
    (CORE + ("alarms", 0, "action"), "ActivateTask ?"),
    (CORE + ("tables", 0, "points"), []),
    (CORE + ("tables", 0, "points", 0, "actions"), []),
    (CORE + ("tables", 0, "points", 0, "actions"), ["ActivateTask A"] * 9),
    (CORE + ("tables", 0, "duration"), 0),
    (CORE + ("tables", 0, "auto", "offset"), 0),
]
# What a schema has to leave to `mcos`, or what is right.
RIGHT = [
    (("version",), REMOVED),
    (("version",), 2),
    (("master",), 7),
    (("modes",), ["N", "conflict_", "DONOTCARES"]),
    (("spinlocks",), []),
    (("spinlocks", 0, "next"), None),
    (("spinlocks", 1, "next"), "X"),
    (CORE + ("mode",), "DONOTCARE"),
    (CORE + ("mode",), "N"),
    (TASK + ("auto",), ["N", "M"]),
    (TASK + ("name",), "M"),
    (CORE + ("tasks",), []),
    (CORE + ("alarms", 0, "auto"), None),
    (CORE + ("tables", 0, "auto"), None),
    (CORE + ("counters", 0, "min"), 10**9),
    (TASK + ("extended",), False),
    (TASK + ("script",), "ActivateTask Unknown"),
    (TASK + ("script",), "GetResource R"),
    (CORE + ("isrs", 0, "script"), "TerminateTask"),
]


def pattern(name):
    """The pattern of a kind of text in the schema of the configuration."""
    with open(os.path.join(ROOT, "docs", "config.schema.json"), encoding="utf-8") as file:
        return json.load(file)["definitions"][name]["pattern"]


def cases():
    """Each pattern of the schemas, with texts and whether they fit."""
    stimuli = next(iter(schemas.stimuli_schema()["patternProperties"].values()))
    return [
        (pattern("script"), SCRIPTS),
        (pattern("action"), ACTIONS),
        (pattern("name"), NAMES),
        (stimuli["pattern"], STIMULI),
        (schemas.schedule_schema()["pattern"], SCHEDULES),
    ]


def changed(place, value):
    """CONFIGURATION with another value at a place."""
    whole = copy.deepcopy(CONFIGURATION)
    within = whole
    for step in place[:-1]:
        within = within[step]
    if value is REMOVED:
        del within[place[-1]]
    else:
        within[place[-1]] = value
    return whole


class Files(unittest.TestCase):
    def test_up_to_date(self):
        done = subprocess.run([os.path.join(TOOLS, "schemas")], capture_output=True, text=True)
        names = ("config", "stimuli", "schedule")
        self.assertEqual(done.stdout, "".join("docs/%s.schema.json is up to date\n" % name for name in names))
        self.assertEqual((done.stderr, done.returncode), ("", 0))

    def test_descriptions_are_those_of_the_document(self):
        with open(os.path.join(ROOT, "docs", "config.schema.json"), encoding="utf-8") as file:
            prio = json.load(file)["definitions"]["task"]["properties"]["prio"]
        expected = {
            "description": "Its priority, 0 to 31; the greater number goes first.",
            "type": "integer",
            "minimum": 0,
            "maximum": 31,
        }
        self.assertEqual(prio, expected)

    def test_each_object_and_member_is_there(self):
        with open(os.path.join(ROOT, "docs", "config.schema.json"), encoding="utf-8") as file:
            whole = json.load(file)
        for each in formats.OBJECTS.values():
            schema = whole["definitions"].get(schemas.definition_name(each.name), whole)
            self.assertEqual(list(schema["properties"]), [member.name for member in each.members])
            required = [member.name for member in each.members if member.is_required]
            self.assertEqual(schema.get("required", []), required)


class Patterns(unittest.TestCase):
    def test_bounds_of_numbers(self):
        for greatest in (1, 7, 9, 10, 12, 99, 100, 256, 1000, 4294967295, 2**63):
            numbers = re.compile(schemas.up_to(greatest))
            near = {greatest + step for step in range(-20, 21)} | {greatest * 10, greatest // 10, greatest + 10**9}
            for number in sorted(near | set(range(0, 1100))):
                with self.subTest(greatest=greatest, number=number):
                    self.assertEqual(bool(numbers.fullmatch(str(number))), 1 <= number <= greatest)

    def test_texts_in_python(self):
        for text_pattern, texts in cases():
            for text, fits in texts.items():
                with self.subTest(text=text[:60]):
                    self.assertEqual(bool(re.search(text_pattern, text)), fits)

    @unittest.skipUnless(shutil.which("node"), "node is not installed, which plays the patterns as ECMA 262 says")
    def test_texts_in_ecma_262(self):
        program = (
            "const cases = JSON.parse(require('fs').readFileSync(0));"
            "console.log(JSON.stringify(cases.map(([p, texts]) => ['', 'u'].map(flag => {"
            "const r = new RegExp(p, flag); return texts.map(t => r.test(t)); }))));"
        )
        given = json.dumps([[text_pattern, list(texts)] for text_pattern, texts in cases()])
        done = subprocess.run(["node", "-e", program], input=given, capture_output=True, text=True, check=True)
        expected = [[list(texts.values())] * 2 for _, texts in cases()]
        self.assertEqual(json.loads(done.stdout), expected)


@unittest.skipUnless(jsonschema, "python3-jsonschema is not installed")
class Values(unittest.TestCase):
    @classmethod
    def setUpClass(cls):
        with open(os.path.join(ROOT, "docs", "config.schema.json"), encoding="utf-8") as file:
            schema = json.load(file)
        jsonschema.Draft7Validator.check_schema(schema)
        cls.configuration = jsonschema.Draft7Validator(schema)
        cls.stimuli = jsonschema.Draft7Validator(schemas.stimuli_schema())

    def test_right_configurations(self):
        for place, value in [(("cap",), 16)] + RIGHT:
            with self.subTest(place=place):
                self.assertEqual([e.message[:200] for e in self.configuration.iter_errors(changed(place, value))], [])

    def test_wrong_configurations(self):
        for place, value in WRONG:
            with self.subTest(place=place, value=str(value)):
                errors = list(self.configuration.iter_errors(changed(place, value)))
                self.assertTrue(errors)
                for error in errors:
                    found = tuple(error.absolute_path)
                    self.assertEqual(found[: len(place)], place[: len(found)])

    def test_versions(self):
        for version, most in formats.MOST_CORES.items():
            for number in (0, most - 1, most):
                for whole in ({"cores": [{"id": number}]}, {"master": number, "cores": [{"id": 0}]}):
                    with self.subTest(version=version, whole=str(whole)):
                        self.assertEqual(self.configuration.is_valid({"version": version, **whole}), number < most)
            for count in (1, most, most + 1):
                with self.subTest(version=version, count=count):
                    whole = {"version": version, "cores": [{"id": 0}] * count}
                    self.assertEqual(self.configuration.is_valid(whole), count <= most)
        self.assertFalse(self.configuration.is_valid({"cores": [{"id": 8}]}))

    def test_stimuli(self):
        for value, fits in (({}, True), ({"0": "op", "15": ""}, True), ({"16": ""}, False), ({"00": ""}, False)):
            with self.subTest(value=value):
                self.assertEqual(self.stimuli.is_valid(value), fits)
        self.assertFalse(self.stimuli.is_valid({"0": ["op"]}))
        self.assertFalse(self.stimuli.is_valid([]))


@needs_program
class AsTheProgram(unittest.TestCase):
    """What a schema refuses, `mcos` refuses too."""

    def setUp(self):
        folder = tempfile.TemporaryDirectory()
        self.addCleanup(folder.cleanup)
        self.folder = folder.name
        self.write("config.json", CONFIGURATION)
        self.write("stimuli.json", {})

    def write(self, name, value):
        with open(os.path.join(self.folder, name), "w", encoding="utf-8") as file:
            json.dump(value, file)

    def status(self, *words):
        """The exit status of a command in the folder."""
        return subprocess.run([PROGRAM] + list(words), cwd=self.folder, capture_output=True, timeout=60).returncode

    def test_configurations(self):
        self.assertEqual(self.status("check", "config.json"), 0)
        for place, value in WRONG:
            with self.subTest(place=place, value=str(value)):
                self.write("wrong.json", changed(place, value))
                self.assertEqual(self.status("check", "wrong.json"), 1)

    def test_texts(self):
        for place, texts in ((TASK + ("script",), SCRIPTS), (CORE + ("alarms", 0, "action"), ACTIONS)):
            for text in (text for text, fits in texts.items() if not fits):
                with self.subTest(text=text[:60]):
                    self.write("wrong.json", changed(place, text))
                    self.assertEqual(self.status("check", "wrong.json"), 1)

    def test_stimuli_and_schedules(self):
        for text in (text for text, fits in STIMULI.items() if not fits):
            with self.subTest(stimuli=text[:60]):
                self.write("wrong.json", {"0": text})
                self.assertEqual(self.status("run", "config.json", "wrong.json"), 1)
        for text in (text for text, fits in SCHEDULES.items() if not fits):
            with self.subTest(schedule=text):
                self.write("wrong.json", text)
                self.assertEqual(self.status("run", "config.json", "stimuli.json", "--schedule", "wrong.json"), 1)


if __name__ == "__main__":
    unittest.main()
