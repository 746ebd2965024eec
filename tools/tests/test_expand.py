"""What `tools/expand` prints, refuses and maps."""

import glob
import json
import os
import runpy
import subprocess
import sys
import tempfile
import unittest

sys.path.insert(0, os.path.dirname(os.path.abspath(__file__)))
import documents  # noqa: E402
from sample_runs import PROGRAM, ROOT, TOOLS, called, needs_program  # noqa: E402
from library import expanding, source_map  # noqa: E402
from library.places import Place, read_document  # noqa: E402

MAIN = runpy.run_path(os.path.join(TOOLS, "expand"))["main"]

# A script of the task `Own` with the events Rx, Tx, Tick, where the task `Far` has the event Go; what it expands to.
SCRIPTS = [
    ("", ""),
    ("work", "work"),
    ("work;add v0 1", "work;add v0 1"),
    (" work ;\tadd  v0\n1 ", "work;add v0 1"),
    ("3*work", "work;work;work"),
    ("3 * add v0 1", "add v0 1;add v0 1;add v0 1"),
    ("2*(work;add v0 1)", "work;add v0 1;work;add v0 1"),
    ("2*(2*work;3*(add v0 1))", "work;work;add v0 1;add v0 1;add v0 1;work;work;add v0 1;add v0 1;add v0 1"),
    ("256*work", ";".join(["work"] * 256)),
    ("loop: work;jump loop", "work;jump 0"),
    ("loop:work;jz v0 done;jump loop;done:", "work;jz v0 3;jump 0"),
    ("jump end;3*work;end: TerminateTask", "jump 4;work;work;work;TerminateTask"),
    ("a: b: work;jump a;jump b", "work;jump 0;jump 0"),
    ("work:work;jump work", "work;jump 0"),
    ("only:", ""),
    ("jump 3;2*work", "jump 3;work;work"),
    ("work;2*(w: GetEvent Own v0;jz v0 w)", "work;GetEvent Own v0;jz v0 1;GetEvent Own v0;jz v0 3"),
    ("2*(jz v0 out;work);out: work", "jz v0 4;work;jz v0 4;work;work"),
    ("2*(jz v0 next;work;next:)", "jz v0 2;work;jz v0 4;work"),
    ("2*(a: 2*(jump a;b: jump b))", "jump 0;jump 1;jump 0;jump 3;jump 4;jump 5;jump 4;jump 7"),
    ("WaitEvent Rx", "WaitEvent 1"),
    ("WaitEvent Rx|Tick;ClearEvent Tx | Tick", "WaitEvent 5;ClearEvent 6"),
    ("SetEvent Far Go;SetEvent Own Tick;SetEvent ? 3", "SetEvent Far 1;SetEvent Own 4;SetEvent ? 3"),
    ("WaitEvent 7;SetEvent Nobody 1", "WaitEvent 7;SetEvent Nobody 1"),
    ("ActivteTask Lgo;WaitEvent 0x3;jump -1;frob a b c", "ActivteTask Lgo;WaitEvent 0x3;jump -1;frob a b c"),
]
# A script of that task; the index of what is wrong, and the message.
WRONG_SCRIPTS = [
    ("work;", 5, "an operation is missing here"),
    (";work", 0, "an operation is missing here"),
    ("work;;work", 5, "an operation is missing here"),
    ("0*work", 0, "a count is 1 to 1000000, not 0"),
    ("1000001*work", 0, "a count is 1 to 1000000, not 1000001"),
    ("99999999999999999999*work", 0, "a count is 1 to 1000000, not 99999999999999999999"),
    ("03*work", 0, "a count stands before `*`, as in `3*work`, not `03`"),
    ("x*work", 0, "a count stands before `*`, as in `3*work`, not `x`"),
    ("*work", 0, "a count stands before `*`, as in `3*work`"),
    ("work*3", 0, "a count stands before `*`, as in `3*work`, not `work`"),
    ("add v0 3*work", 8, "a repetition begins with its count, as in `work;3*work`"),
    ("3*", 2, "behind `3*` nothing stands that it could repeat"),
    ("3*;work", 2, "behind `3*` nothing stands that it could repeat"),
    ("2*3*work", 2, "a repetition of a repetition wants parentheses, as in `3*(2*work)`"),
    ("3*()", 2, "there is nothing in these parentheses"),
    ("3*(a:)", 2, "there is nothing to repeat in these parentheses"),
    ("3*(work", 2, "this `(` has no `)`"),
    ("3*(work;)", 8, "an operation is missing here"),
    ("3*(work))", 8, "this `)` has no `(`"),
    ("work)", 4, "this `)` has no `(`"),
    ("(work)", 0, "a count stands before `(`, as in `3*(work)`"),
    ("3*(work) work", 9, "`work` has no place here"),
    ("work(3)", 4, "an operation has no parentheses: write `work 3`, or a count before them, as in `3*(work)`"),
    (
        "SetRelAlarm(A, 5, 0);work",
        11,
        "an operation has no parentheses: write `SetRelAlarm A 5 0`, or a count before them, as in `3*(work)`",
    ),
    ("work (work)", 5, "an operation has no parentheses: write `work work`, or a count before them, as in `3*(work)`"),
    ("1*(" * 33 + "work" + ")" * 33, 98, "more than 32 parentheses within one another"),
    ("257*work", 0, "with this there are 257 operations in this script, and at most 256 are allowed"),
    ("200*work;50*work;7*work", 17, "with this there are 257 operations in this script, and at most 256 are allowed"),
    ("9*(9*(9*work))", 0, "with this there are 729 operations in this script, and at most 256 are allowed"),
    (
        "1000000*(1000000*work)",
        0,
        "with this there are more than 999999999 operations in this script, and at most 256 are allowed",
    ),
    ("a: ;work", 3, "an operation is missing behind the label"),
    (": work", 0, "a label's name is missing before `:`"),
    ("1a: work", 0, "a label is a name, not `1a`"),
    ("add v0: work", 6, "a label is one word before an operation or a count, as in `loop: work` or `loop: 3*work`"),
    ("3*a: work", 3, "a label is one word before an operation or a count, as in `loop: work` or `loop: 3*work`"),
    ("a: work;a: work", 8, "the label `a` stands twice in this script"),
    ("a: work;2*(a: work)", 11, "the label `a` stands twice in this script"),
    ("loop: work;jump lop", 16, "no label `lop` in this script; did you mean `loop`?"),
    ("work;jump away", 10, "no label `away` in this script"),
    ("2*(a: work);jump a", 17, "the label `a` stands in a repetition, and only an operation in it can jump there"),
    ("WaitEvent Rxx", 10, "the task `Own` has no event `Rxx`; did you mean `Rx`?"),
    ("WaitEvent Rx|Rx", 13, "the event `Rx` stands twice in this mask"),
    ("WaitEvent Rx|4", 13, "`|` joins names of events, not `4`"),
    ("WaitEvent Rx|", 12, "an event's name is missing behind `|`"),
    ("WaitEvent |Rx", 11, "`|` joins the events of a mask, and no mask stands here"),
    ("|Rx", 0, "an event's name is missing before `|`"),
    ("ActivateTask Own|Far", 17, "`|` joins the events of a mask, and no mask stands here"),
    ("SetEvent Far Rx", 13, "the task `Far` has no event `Rx`"),
    ("SetEvent Plain Rx", 15, "`Rx` is no mask, and the task `Plain` has no member `events` with names"),
    ("SetEvent Farr Go", 9, "`Farr` is no task; did you mean `Far`?"),
    ("SetEvent ? Go", 9, "`?` is no task"),
]
ACTIONS = [
    ("ActivateTask Own", "ActivateTask Own"),
    ("SetEvent Own Rx|Tx", "SetEvent Own 3"),
    (" SetEvent  Far  Go ", "SetEvent Far 1"),
    ("SetEvent Own 3", "SetEvent Own 3"),
    ("ActivteTask Own", "ActivteTask Own"),
    ("", ""),
]
WRONG_ACTIONS = [
    ("SetEvent Own Go", 13, "the task `Own` has no event `Go`"),
    ("2*ActivateTask Own", 1, "an action is one operation, without `*`"),
    ("ActivateTask Own;work", 16, "an action is one operation, without `;`"),
    ("a: ActivateTask Own", 1, "an action is one operation, without `:`"),
    ("WaitEvent Rx", 0, "an action is `ActivateTask` or `SetEvent`, not `WaitEvent`"),
]
STIMULI = [
    ("", ""),
    ("op tick", "op tick"),
    (" op   tick ", "op tick"),
    ("3*op", "op op op"),
    ("2*(tick 3*op)", "tick op op op tick op op op"),
    ("2*(2*(tick op) op) tick", "tick op tick op op tick op tick op op tick"),
    ("100000*op", " ".join(["op"] * 100000)),
    ("2*irq=I 2*(irq=Rx_1 op)", "irq=I irq=I irq=Rx_1 op irq=Rx_1 op"),
    (["2*op", "tick"], "op op tick"),
    ([], ""),
]
WRONG_STIMULI = [
    ("tik op", 0, "stimuli are `op`, `tick` and `irq=I`, not `tik`; did you mean `tick`?"),
    ("2*(tick 3*opp)", 10, "stimuli are `op`, `tick` and `irq=I`, not `opp`; did you mean `op`?"),
    ("op irq=1", 3, "stimuli are `op`, `tick` and `irq=I`, not `irq=1`"),
    ("op;op", 0, "stimuli are `op`, `tick` and `irq=I`, not `op;op`"),
    ("op*3", 0, "a count stands before `*`, as in `3*op`, not `op`"),
    ("op (tick)", 3, "a count stands before `(`, as in `3*(op)`"),
    ("3*(tick", 2, "this `(` has no `)`"),
    ("tick)", 4, "this `)` has no `(`"),
    ("3*2*op", 2, "a repetition of a repetition wants parentheses, as in `3*(2*op)`"),
    ("100000*op tick", 10, "with this there are 100001 words of this core, and at most 100000 are allowed"),
]


def configuration(script, action="ActivateTask Own"):
    """A source with a script of the task `Own`, and an action of an alarm."""
    tasks = [
        {"name": "Own", "prio": 1, "events": ["Rx", "Tx", "Tick"], "script": script},
        {"name": "Far", "prio": 1, "events": ["Go"], "script": ""},
        {"name": "Plain", "prio": 1, "script": ""},
    ]
    alarm = {"name": "L", "counter": "C", "action": action}
    return {"cores": [{"id": 0, "tasks": tasks[:1], "alarms": [alarm]}, {"id": 1, "tasks": tasks[1:]}]}


def expansion(source):
    """What the text of a source expands to."""
    document = read_document(source.encode("utf-8"))
    return expanding.expand(document, expanding.kind_of(document.root))


def value_of(source):
    """The JSON value to which a value with shorthand expands."""
    found = expansion(json.dumps(source))
    assert found.refusals == [], found.refusals
    return json.loads(found.text)


class Cases(unittest.TestCase):
    def refused(self, source, text, index, message):
        """Holds the one refusal of a source to what is wrong in a text that it has once."""
        whole = json.dumps(source)
        literal = json.dumps(text)
        # The texts of the cases have no escapes but those that are not behind the mistake.
        column = whole.index(literal) + 2 + index
        self.assertEqual(expansion(whole).refusals, [(Place(1, column), message)])

    def test_scripts(self):
        for text, expected in SCRIPTS:
            with self.subTest(script=text[:60]):
                self.assertEqual(value_of(configuration(text))["cores"][0]["tasks"][0]["script"], expected)

    def test_wrong_scripts(self):
        for text, index, message in WRONG_SCRIPTS:
            with self.subTest(script=text[:60]):
                self.refused(configuration(text), text, index, message)

    def test_lists_of_texts(self):
        for texts, expected in (
            ([], ""),
            (["work"], "work"),
            (["loop:", "work;3*work", "jump loop"], "work;work;work;work;jump 0"),
            (["", "work", " "], "work"),
        ):
            with self.subTest(texts=texts):
                self.assertEqual(value_of(configuration(texts))["cores"][0]["tasks"][0]["script"], expected)
        self.refused(configuration(["3*(work", "work)"]), "3*(work", 2, "this `(` has no `)`")
        self.refused(configuration(["work", "add v0 1;"]), "add v0 1;", 9, "an operation is missing here")

    def test_actions(self):
        for text, expected in ACTIONS:
            with self.subTest(action=text):
                self.assertEqual(value_of(configuration("", text))["cores"][0]["alarms"][0]["action"], expected)

    def test_wrong_actions(self):
        for text, index, message in WRONG_ACTIONS:
            with self.subTest(action=text):
                self.refused(configuration("", text), text, index, message)

    def test_actions_of_tables(self):
        source = configuration("")
        source["cores"][1]["tables"] = [
            {"points": [{"offset": 0, "actions": ["SetEvent Own Tick", "ActivateTask Far"]}]}
        ]
        actions = value_of(source)["cores"][1]["tables"][0]["points"][0]["actions"]
        self.assertEqual(actions, ["SetEvent Own 4", "ActivateTask Far"])

    def test_scripts_of_isrs(self):
        source = configuration("")
        isr = {"name": "I", "level": 1, "script": ["2*(w: SetEvent Own Rx|Tick;jz v0 w)", "work"]}
        source["cores"][1]["isrs"] = [isr]
        expanded = "SetEvent Own 5;jz v0 0;SetEvent Own 5;jz v0 2;work"
        self.assertEqual(value_of(source)["cores"][1]["isrs"][0]["script"], expanded)
        isr["script"] = "WaitEvent Rx"
        self.refused(source, "WaitEvent Rx", 10, "`Rx` is no mask, and an ISR has no events")

    def test_stimuli(self):
        for text, expected in STIMULI:
            with self.subTest(stimuli=str(text)[:60]):
                self.assertEqual(value_of({"0": text, "15": "op"}), {"0": expected, "15": "op"})

    def test_wrong_stimuli(self):
        for text, index, message in WRONG_STIMULI:
            with self.subTest(stimuli=text):
                self.refused({"0": text}, text, index, message)

    def test_schedules(self):
        self.assertEqual(value_of("2*(0o 0s1) 1l"), "0o 0s1 0o 0s1 1l")
        self.assertEqual(value_of(["2*0o", "1l"]), "0o 0o 1l")
        self.assertEqual(value_of("2*(15o 1s15) 15s1"), "15o 1s15 15o 1s15 15s1")
        for word in ("16o", "0s0", "15s15", "00o", "0x", "op"):
            message = "turns are `Ko`, `KsD` and `Kl` of different cores K and D, 0 to 15, not `%s`" % word
            self.refused("0o " + word, "0o " + word, 3, message)
        most = "with this there are 1000001 turns, and at most 1000000 are allowed"
        self.refused("1000000*0o 0o", "1000000*0o 0o", 11, most)

    def test_all_mistakes_come_in_their_order(self):
        found = expansion('{"0": "opp",\n "2": "op*3",\n "1": "3*"}')
        self.assertEqual([refusal.place for refusal in found.refusals], [(1, 8), (2, 8), (3, 10)])


class Events(unittest.TestCase):
    # The members of a task, and what becomes of them.
    LAYOUTS = [
        ('"events": ["A"], "script": ""', '"extended": true, "script": ""'),
        ('"script": "",\n  "events" : [\n    "A"\n  ]', '"script": "",\n  "extended" : true'),
        ('"extended": true, "events": ["A"], "script": ""', '"extended": true, "script": ""'),
        ('"events": ["A"],\n "extended": true', '"extended": true'),
        ('"extended": true,\n "events": ["A"]', '"extended": true'),
    ]
    WRONG = [
        ('"events": []', 21, "`events` is a list of 1 to 32 names"),
        ('"events": "Rx"', 21, "`events` is a list of 1 to 32 names"),
        ('"events": ["A", "A"]', 27, "the event `A` stands twice in this list"),
        ('"events": ["A", 1]', 27, "an event has a name, and 1 is none"),
        ('"events": ["1A"]', 22, 'an event has a name, and "1A" is none'),
        (
            '"extended": false, "events": ["A"]',
            23,
            "a task with `events` is extended: write `true`, or leave the member out",
        ),
    ]

    def test_layouts(self):
        for members, expected in self.LAYOUTS:
            with self.subTest(members=members):
                found = expansion('{"cores": [{"tasks": [{%s}]}]}' % members)
                self.assertEqual(found.refusals, [])
                self.assertEqual(found.text, '{"cores": [{"tasks": [{%s}]}]}' % expected)

    def test_wrong_members(self):
        for members, column, message in self.WRONG:
            with self.subTest(members=members):
                found = expansion('{"cores":\n[{"tasks": [{%s}]}]}' % members)
                self.assertEqual(found.refusals, [(Place(2, column + 3), message)])

    def test_32_events(self):
        names = ["E%d" % number for number in range(32)]
        task = {"name": "T", "events": names, "script": "WaitEvent E31;WaitEvent %s" % "|".join(names)}
        expanded = value_of({"cores": [{"tasks": [task]}]})["cores"][0]["tasks"][0]
        self.assertEqual(expanded["script"], "WaitEvent 2147483648;WaitEvent 4294967295")
        task["events"] = names + ["E32"]
        found = expansion(json.dumps({"cores": [{"tasks": [task]}]}))
        self.assertEqual([refusal.text for refusal in found.refusals], ["`events` is a list of 1 to 32 names"])


SOURCE = """{
  "cores": [
    {"id": 0,
     "tasks": [
       {"name": "Com", "prio": 1, "events": ["Rx", "Tick"],
        "script": ["loop: WaitEvent Rx|Tick",
                   "2*(work;ClearEvent Rx)",
                   "jump loop"]},
       {"name": "Üb\\u0041", "prio": 1, "script": "\\u0077ork;2*work"}]}]}
"""
EXPANDED = """{
  "cores": [
    {"id": 0,
     "tasks": [
       {"name": "Com", "prio": 1, "extended": true,
        "script": "WaitEvent 3;work;ClearEvent 1;work;ClearEvent 1;jump 0"},
       {"name": "Üb\\u0041", "prio": 1, "script": "work;work;work"}]}]}
"""
# A place in the output, as a pointer and perhaps the number of an operation, and its place in the source.
MAPPED = [
    ("", None, (1, 1)),
    ("/cores/0/tasks/0/prio", None, (5, 32)),
    ("/cores/0/tasks/0/extended", None, (5, 35)),
    ("/cores/0/tasks/0/script", None, (6, 19)),
    ("/cores/0/tasks/0/script", 0, (6, 27)),
    ("/cores/0/tasks/0/script", 1, (7, 24)),
    ("/cores/0/tasks/0/script", 2, (7, 29)),
    ("/cores/0/tasks/0/script", 3, (7, 24)),
    ("/cores/0/tasks/0/script", 5, (8, 21)),
    ("/cores/0/tasks/0/script", 6, (6, 19)),
    ("/cores/0/tasks/1/script", 1, (9, 63)),
    ("/cores/0/tasks/1/missing", None, (9, 8)),
]


class Whole(unittest.TestCase):
    def setUp(self):
        folder = tempfile.TemporaryDirectory()
        self.addCleanup(folder.cleanup)
        self.folder = folder.name
        self.addCleanup(os.chdir, os.getcwd())
        os.chdir(self.folder)

    def write(self, name, text):
        with open(os.path.join(self.folder, name), "w", encoding="utf-8") as file:
            file.write(text)

    def test_the_layout_stays(self):
        self.write("a.json", SOURCE)
        done = subprocess.run([os.path.join(TOOLS, "expand"), "a.json"], capture_output=True, encoding="utf-8")
        self.assertEqual((done.returncode, done.stdout, done.stderr), (0, EXPANDED, ""))

    def test_the_document(self):
        self.write("source.json", documents.example("This is `source.json`:"))
        expanded = documents.example("`tools/expand source.json` prints")
        self.assertEqual(called(MAIN, "source.json", "--map", "source.map"), (0, expanded, ""))
        with open("source.map", encoding="utf-8") as file:
            map_lines = [line.rstrip(",}\n") for line in file]
        for line in documents.example("with an entry on each line:").splitlines():
            if line.strip() != "..":
                self.assertIn(line.rstrip(",}"), map_lines)
        self.write("source.json", documents.example("This is `source.json`:").replace("jump again", "jump agian"))
        refused = documents.example("and a word of stimuli or of a schedule that is none.")
        self.assertEqual(called(MAIN, "source.json"), (1, "", refused))

    def test_a_full_disk(self):
        self.write("a.json", SOURCE)
        with open("/dev/full", "wb") as full:
            done = subprocess.run(
                [os.path.join(TOOLS, "expand"), "a.json"], stdout=full, stderr=subprocess.PIPE, encoding="utf-8"
            )
        expected = (1, "the standard output took no more: No space left on device\n")
        self.assertEqual((done.returncode, done.stderr), expected)

    def test_map(self):
        self.write("a.json", SOURCE)
        self.assertEqual(called(MAIN, "--map", "a.map", "a.json"), (0, EXPANDED, ""))
        with open(os.path.join(self.folder, "a.map"), encoding="utf-8") as file:
            places = source_map.read_map(file.read())
        self.assertEqual(places.source, "a.json")
        for pointer, part, place in MAPPED:
            with self.subTest(pointer=pointer, part=part):
                self.assertEqual(places.place(pointer, part), place)

    def test_the_map_has_each_value_of_the_output(self):
        found = expansion(SOURCE)
        document = read_document(found.text.encode("utf-8"))
        pointers = {value.pointer for value in expanding.values_in(document.root)}
        self.assertEqual(set(found.values), pointers)

    def test_from_the_output_to_the_source(self):
        found = expansion(SOURCE)
        places = source_map.SourceMap("a.json", found.values, found.parts)
        document = read_document(found.text.encode("utf-8"))
        script = "/cores/0/tasks/0/script"
        for pointer, column, place in (
            (script, 19, (6, 27)),  # the quote
            (script, 20, (6, 27)),
            (script, 30, (6, 27)),  # the `3` of `WaitEvent 3`
            (script, 32, (7, 24)),
            (script, 48, (7, 29)),  # the `1` of the first `ClearEvent 1`
            (script, 68, (8, 21)),
            ("/cores/0/tasks/0/prio", 40, (5, 32)),
            ("/cores/0/tasks/0/missing", 1, (5, 8)),
        ):
            with self.subTest(pointer=pointer, column=column):
                self.assertEqual(source_map.in_source(places, document, pointer, Place(6, column)), place)
        found = expansion('{"0": "3*(tick op)"}')
        places = source_map.SourceMap("s.json", found.values, found.parts)
        document = read_document(found.text.encode("utf-8"))
        self.assertEqual(source_map.in_source(places, document, "/0", Place(1, 16)), (1, 11))
        self.assertEqual(source_map.in_source(places, document, "/0", Place(1, 21)), (1, 16))

    def test_refused(self):
        self.write("a.json", '{"0": "op",\n "1": "tik"}')
        message = "a.json:2:8: stimuli are `op`, `tick` and `irq=I`, not `tik`; did you mean `tick`?\n"
        self.assertEqual(called(MAIN, "a.json", "--map", "a.map"), (1, "", message))
        self.assertFalse(os.path.exists(os.path.join(self.folder, "a.map")))

    def test_a_member_twice(self):
        self.write("a.json", '{"cores": [],\n "cores": []}')
        message = "a.json:2:2: the member `cores` stands twice in this object, first in line 1\n"
        self.assertEqual(called(MAIN, "a.json"), (1, "", message))

    def test_files(self):
        self.write("a.json", '{"cores": [')
        message = "a.json:1:12: no JSON: the file ends here, and a value is wanted: `[` of line 1 is open\n"
        self.assertEqual(called(MAIN, "a.json"), (1, "", message))
        message = "none.json: cannot be read: No such file or directory\n"
        self.assertEqual(called(MAIN, "none.json"), (1, "", message))
        self.write("b.json", "{}")
        message = "./no/b.map: cannot be written: No such file or directory\n"
        self.assertEqual(called(MAIN, "--map", "./no/b.map", "b.json"), (1, "", message))

    def test_the_standard_input(self):
        self.write("-", '{"0": "op"}')
        self.assertEqual(self.expand_input('{"0": "2*op"}', "-"), (0, '{"0": "op op"}', ""))
        self.assertEqual(self.expand_input("", "./-"), (0, '{"0": "op"}', ""))
        message = "-:1:2: no JSON: the file ends here, and a value is wanted: `[` of line 1 is open\n"
        self.assertEqual(self.expand_input("[", "-"), (1, "", message))
        self.assertEqual(self.expand_input("{}", "--cut", "2", "-"), (0, "{}\n", "-: note: core 2 has no stimuli\n"))
        self.expand_input('"2*0o"', "--map", "a.map", "-")
        with open("a.map", encoding="utf-8") as file:
            self.assertEqual(source_map.read_map(file.read()).source, "-")

    def test_a_closed_standard_input(self):
        words = ["sh", "-c", '"$@" - <&-', "sh", os.path.join(TOOLS, "expand")]
        done = subprocess.run(words, capture_output=True, text=True, timeout=60)
        self.assertEqual((done.returncode, done.stdout), (1, ""))
        self.assertEqual(done.stderr, "-: cannot be read: the standard input is closed\n")

    def expand_input(self, text, *words):
        """The status, the output and the messages of the script with a text as its standard input."""
        line = [os.path.join(TOOLS, "expand"), *words]
        done = subprocess.run(line, input=text, capture_output=True, encoding="utf-8", timeout=60)
        return done.returncode, done.stdout, done.stderr

    def test_kinds(self):
        self.write("a.json", '{"x": "2*op", "0": "2*op"}')
        self.assertEqual(called(MAIN, "a.json"), (0, '{"x": "2*op", "0": "2*op"}', ""))
        self.assertEqual(called(MAIN, "--stimuli", "a.json"), (0, '{"x": "2*op", "0": "op op"}', ""))
        self.write("b.json", '"2*0o"')
        self.assertEqual(called(MAIN, "b.json"), (0, '"0o 0o"', ""))
        self.assertEqual(
            called(MAIN, "--stimuli", "b.json"), (1, "", "b.json:1:1: stimuli are an object, and this is none\n")
        )

    def test_cut(self):
        self.write("s.json", '{"0": "3*tik",\n "2": "2*op tick"}\n')
        self.assertEqual(called(MAIN, "--cut", "2", "s.json", "--map", "s.map"), (0, '{"2": "op op tick"}\n', ""))
        with open(os.path.join(self.folder, "s.map"), encoding="utf-8") as file:
            places = source_map.read_map(file.read())
        self.assertEqual([places.place("/2", number) for number in range(3)], [(2, 10), (2, 10), (2, 13)])
        self.assertEqual(list(places.values), ["", "/2"])
        self.assertEqual(called(MAIN, "--cut", "5", "s.json"), (0, "{}\n", "s.json: note: core 5 has no stimuli\n"))
        self.write("n.json", '{"0": 5}')
        self.assertEqual(
            called(MAIN, "--cut", "0", "n.json"), (1, "", "n.json:1:7: the stimuli of core 0 are no text\n")
        )
        self.write("c.json", SOURCE)
        message = "c.json:1:1: --cut wants stimuli, and this is a configuration\n"
        self.assertEqual(called(MAIN, "--cut", "0", "c.json"), (1, "", message))

    def test_cut_of_several_cores(self):
        self.write("s.json", '{"0": "2*op", "1": "3*tik", "12": "tick"}')
        self.assertEqual(called(MAIN, "--cut", "12,0", "s.json"), (0, '{"0": "op op", "12": "tick"}\n', ""))
        note = "s.json: note: core 5 has no stimuli\n"
        self.assertEqual(called(MAIN, "--cut", "0,5", "s.json"), (0, '{"0": "op op"}\n', note))

    def test_wrong_usage(self):
        cuts = [("--cut", text, "a") for text in ("16", "0,16", "0,", "0 1", "")]
        for words in ((), ("a", "b"), ("--cut",), ("--frob", "a"), *cuts):
            with self.subTest(words=words):
                status, output, _ = called(MAIN, *words)
                self.assertEqual((status, output), (2, ""))

    def test_examples_stay_as_they_are(self):
        left = {"faults/not_json.json", "faults/script.json", "faults/bad_stimuli.json"}
        paths = glob.glob(os.path.join(ROOT, "examples", "*", "*.json"))
        self.assertTrue(paths)
        for path in paths:
            if os.path.relpath(path, os.path.join(ROOT, "examples")) not in left:
                with open(path, encoding="utf-8") as file:
                    text = file.read()
                with self.subTest(path=path):
                    self.assertEqual((expansion(text).refusals, expansion(text).text), ([], text))


@needs_program
class AsTheProgram(unittest.TestCase):
    def setUp(self):
        folder = tempfile.TemporaryDirectory()
        self.addCleanup(folder.cleanup)
        self.folder = folder.name

    def write(self, name, text):
        with open(os.path.join(self.folder, name), "w", encoding="utf-8") as file:
            file.write(text)

    def lines(self, *words):
        """What the program prints for words, in the folder."""
        done = subprocess.run(
            [PROGRAM] + list(words), cwd=self.folder, capture_output=True, encoding="utf-8", timeout=60
        )
        self.assertEqual((done.returncode, done.stderr), (0, ""))
        return done.stdout.splitlines()

    def test_the_document(self):
        self.write("config.json", documents.example("`tools/expand source.json` prints"))
        self.assertEqual(self.lines("check", "config.json"), ["ok", "core 0 separate"])

    def test_a_core_alone(self):
        folder = os.path.join(ROOT, "examples", "application")
        for name in ("config.json", "stimuli.json"):
            with open(os.path.join(folder, name), encoding="utf-8") as file:
                self.write(name, file.read())
        whole = self.lines("run", "config.json", "stimuli.json")
        with open(os.path.join(folder, "stimuli.json"), "rb") as file:
            self.write("cut_stimuli.json", expanding.cut(read_document(file.read()), ["2"]).text)
        self.write("cut.json", "\n".join(self.lines("cut", "config.json", "2")))
        block = whole[whole.index("core 2") : whole.index("core 7")]
        self.assertGreater(len(block), 10)
        self.assertEqual(self.lines("run", "cut.json", "cut_stimuli.json"), block + ["ended"])


if __name__ == "__main__":
    unittest.main()
