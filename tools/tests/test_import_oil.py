"""What `tools/import` makes of OIL: its text, its own words, what it notes, and what it refuses."""

import os
import sys
import unittest

sys.path.insert(0, os.path.dirname(os.path.abspath(__file__)))
from sample_runs import called  # noqa: E402
from test_import import MAIN, InAFolder  # noqa: E402

SKELETONS = "skeletons"


class InOil(InAFolder):
    """Tests with a file of OIL."""

    def of_cpu(self, text, words=()):
        """The source and the notes of a CPU, without the note on skeletons."""
        self.write("a.oil", "CPU c {\n%s\n};\n" % text)
        source, notes = self.source(*words, "a.oil")
        return source, [note for note in notes if SKELETONS not in note]

    def core(self, text):
        """The members of the first core of a CPU, and the notes."""
        source, notes = self.of_cpu(text)
        return source["cores"][0], notes


class Text(InOil):
    """Comments, line ends, strings, numbers and included files."""

    PLAIN = "TASK T { PRIORITY = 3; ACTIVATION = 2; };"

    def test_comments_and_descriptions(self):
        for text in (
            "// one\n/* two\n * lines */ TASK T /*here*/ { PRIORITY = 3; // 3\n ACTIVATION = 2; };",
            'TASK T { PRIORITY = 3 : "what it is"; ACTIVATION = 2; } : "T";',
            'TASK T { PRIORITY = 3; ACTIVATION = 2; } : "a // text /* and \\" a quote";',
            "TASK\tT{PRIORITY=3;ACTIVATION=2;};",
            "TASK T { PRIORITY = 0x3; ACTIVATION = 0X02; };",
            "TASK T { PRIORITY = +3; ACTIVATION = 2; };//",
        ):
            with self.subTest(text=text):
                self.assertEqual(self.core(text), self.core(self.PLAIN))

    def test_line_ends_and_encodings(self):
        text = "CPU c {\n// \u00e9\nTASK T { PRIORITY = 3; };\n};\n"
        for data in (
            text.encode("utf-8"),
            text.encode("utf-8-sig"),
            text.encode("latin-1"),
            text.replace("\n", "\r\n").encode(),
            text.rstrip("\n").encode(),
        ):
            with self.subTest(data=data):
                self.write("a.oil", data)
                status, output, messages = called(MAIN, "a.oil")
                self.assertEqual((status, messages.split(": ")[0]), (0, "a.oil:3:1"))
                self.assertIn('"prio": 3', output)

    def test_implementation(self):
        text = "IMPLEMENTATION i { TASK { ENUM [A, B { X = 1; }] Y[] = (1 + 2); UINT32 [1..9] Z = NO_DEFAULT; }; };\n"
        text += 'TASK U { };\nCPU c { TASK T { PRIORITY = 1; AUTOSTART = AUTO; }; };'
        self.write("a.oil", 'OIL_VERSION = "2.5";\n' + text)
        _, notes = self.source("a.oil")
        self.assertIn("note: TASK U: left out: it stands in no CPU", notes)
        self.assertIn("note: TASK T: AUTOSTART AUTO: no place in the configuration", notes)
        self.assertIn("note: IMPLEMENTATION i: not read, and neither are defaults in it", notes)

    def test_includes(self):
        os.mkdir("parts")
        self.write("a.oil", 'CPU c {\n#include "parts/tasks.oil" // these\n #include <vendor.oil>\n};\n')
        self.write("parts/tasks.oil", '#include "more.oil"\nTASK T { PRIORITY = 1; X = 2; };')
        self.write("parts/more.oil", "TASK U { PRIORITY = 2; };")
        source, notes = self.source("a.oil")
        self.assertEqual([task["name"] for task in source["cores"][0]["tasks"]], ["U", "T"])
        self.assertIn("note: #include <vendor.oil>: not read: it is looked for where a vendor's tool has it", notes)
        places = [line.split(": ")[0] for line in called(MAIN, "a.oil")[2].splitlines()]
        self.assertEqual(places, ["a.oil:3:2", "parts/more.oil:1:1", "parts/tasks.oil:2:24"])

    def test_wrong_includes(self):
        message = "a.oil:2:2: the file to include is not there: `none.oil`"
        self.refused('CPU c {\n #include "none.oil"\n};', message, "a.oil")
        self.refused('CPU c {\n#include "a.oil"\n};', "a.oil:2:1: this file includes itself: `a.oil`", "a.oil")
        message = "a.oil:1:1: of the preprocessor only `#include` is read, not `#define X 1`"
        self.refused("#define X 1\n", message, "a.oil")
        self.write("b.oil", "")
        message = "a.oil:101:1: more than 100 files are included"
        self.refused('#include "b.oil"\n' * 101, message, "a.oil")

    def test_wrong_texts(self):
        for text, message in (
            ("CPU c {\n TASK T { PRIORITY = 1 }\n};", "2:24: `;` is wanted behind `PRIORITY 1`, not `}`"),
            ("CPU c {\n TASK T { PRIORITY 1; };", "2:25: the file ends here, and `}` is wanted: `{` of line 1 is open"),
            ("CPU c {\n TASK T { PRIORITY = ; };\n};", "2:22: a value is wanted behind `=`, not `;`"),
            ("CPU c {\n TASK T { = 1; };\n};", "2:11: an object or an attribute is wanted, not `=`"),
            ("CPU c {\n TASK T { PRIORITY = 1; }\n};", "3:1: `;` is wanted behind `TASK T`, not `}`"),
            ("CPU c {\n TASK T { };\n}", "3:2: `;` is wanted behind `CPU c`, not the end of the file"),
            ("CPU c {\n TASK T { } : 5;\n};", "2:15: a text in quotes is wanted behind `:`, not `5`"),
            ("CPU c {\n /* TASK T { };\n};", "2:2: this comment is not closed"),
            ('CPU c {\n X = "a;\n};', '2:6: this text has no closing `"` in its line'),
            ("CPU c {\n (\n};", "2:2: an object or an attribute is wanted, not `(`"),
            ("IMPLEMENTATION i {\n TASK {\n };", "3:4: the file ends here, and `}` is wanted: `{` of line 1 is open"),
            ("CPU c { };\nCPU d { };", "2:1: a second CPU: the first one stands in line 1"),
            ("{}", "1:1: an object or an attribute is wanted, not `{`"),
        ):
            with self.subTest(text=text):
                self.refused(text, "a.oil:" + message, "a.oil")
        self.refused("OIL_VERSION = \"2.5\";", "a.oil: no CPU is in it", "a.oil")
        self.refused("\x00\x01", "a.oil:1:1: an object or an attribute is wanted, not `\\u0000`", "a.oil")

    def test_too_deep(self):
        text = "CPU c " + "{ A a " * 127 + "{" + "};" * 128
        self.refused(text, "a.oil:1:769: braces stand in one another more than 127 levels deep", "a.oil")

    def test_too_long(self):
        self.refused(" " * (1 << 24) + "x", "a.oil: longer than 16 MiB: no OIL file is", "a.oil")

    def test_several_files(self):
        for name in ("a.oil", "b.oil"):
            self.write(name, "CPU c { };")
        self.write("c.arxml", "<AUTOSAR/>")
        alone = "a.oil: this is no XML, so it is read as OIL, and alone: %s\n"
        message = alone % "OIL files are one with `#include`"
        self.assertEqual(called(MAIN, "a.oil", "b.oil"), (1, "", message))
        self.assertEqual(called(MAIN, "c.arxml", "a.oil"), (1, "", alone % "the others are XML"))


class Words(InOil):
    """What objects and attributes become."""

    def test_auto(self):
        core, notes = self.core(
            "EVENT e { MASK = AUTO; }; EVENT f { MASK = 0x4; };\n"
            "TASK T { PRIORITY = AUTO; EVENT = e; EVENT = f; SCHEDULE = AUTO; };"
        )
        self.assertEqual(core["tasks"][0]["events"], ["e", "unused_1", "f"])
        expected = [
            "note: TASK T: PRIORITY AUTO is no whole number: 0 here",
            "note: TASK T: SCHEDULE AUTO is neither FULL nor NON: FULL here",
        ]
        self.assertEqual(notes, expected)

    def test_what_is_missing(self):
        core, notes = self.core("APPMODE m; COUNTER C { };\nTASK T { AUTOSTART = TRUE; };")
        expected = [
            "note: COUNTER C: MAXALLOWEDVALUE is missing: 65535 here",
            "note: TASK T: PRIORITY is missing: 0 here",
            "note: TASK T, AUTOSTART: no APPMODE: it is m here",
        ]
        self.assertEqual(notes, expected)
        self.assertEqual(core["tasks"][0]["auto"], ["m"])

    def test_notes_have_the_words_of_oil(self):
        _, notes = self.core(
            "OS os { STATUS = STANDARD; ERRORHOOK = FALSE; USERESSCHEDULER = TRUE; MEMMAP = FALSE; };\n"
            "COM com { };\nMESSAGE m { };\n"
            "TASK T { PRIORITY = 1; STACKSIZE = 300; EVENT = nowhere; };\n"
            "ALARM A { COUNTER = T; ACTION = ACTIVATETASK { TASK = T; }; };\n"
            "ISR I { CATEGORY = 1; };"
        )
        expected = [
            "note: OS os: STATUS STANDARD: the checks of a service are those of EXTENDED",
            "note: OS os: ERRORHOOK FALSE: this hook is always called",
            "note: OS os: MEMMAP FALSE: no place in the configuration",
            "note: COM com: left out: no place in the configuration",
            "note: MESSAGE m: left out: no place in the configuration",
            "note: TASK T: STACKSIZE 300: no place in the configuration",
            "note: TASK T: EVENT nowhere leads nowhere: no such EVENT is in the files",
            "note: ALARM A: left out: it has no counter",
            "note: ALARM A: COUNTER T leads nowhere: no such COUNTER is in the files",
            "note: ISR I: left out: an ISR of category 1 is none of the OS",
        ]
        self.assertEqual(notes, expected)

    def test_resources(self):
        core, notes = self.core(
            "RESOURCE R { RESOURCEPROPERTY = STANDARD; };\n"
            "RESOURCE S { RESOURCEPROPERTY = LINKED { LINKEDRESOURCE = R; }; };\n"
            "TASK T { PRIORITY = 1; RESOURCE = S; RESOURCE = RES_SCHEDULER; };\n"
            "TASK U { PRIORITY = 2; RESOURCE = R; }; TASK V { PRIORITY = 3; };"
        )
        ceilings = {resource["name"]: resource["ceiling"] for resource in core["resources"]}
        self.assertEqual(ceilings, {"R": 2, "S": 2, "RES_SCHEDULER": 3})
        note = "note: RESOURCE S: it is linked to R: a resource of its own here, with the ceiling of both"
        self.assertEqual(notes, [note])

    def test_lock_budgets(self):
        _, notes = self.core(
            "RESOURCE R { RESOURCEPROPERTY = STANDARD; };\n"
            "TASK T { PRIORITY = 1; RESOURCE = R;\n"
            "TIMING_PROTECTION = TRUE {\nMAXALLINTERRUPTLOCKTIME = 3;\n"
            "LOCKINGTIME = RESOURCELOCK {\nRESOURCE = R;\nRESOURCELOCKTIME = 2; }; }; };"
        )
        at_resource = "a lock budget stands at the resource here, for all tasks that take it: write `lock` there"
        expected = [
            "note: TASK T: TIMING_PROTECTION TRUE: no place in the configuration",
            "note: TASK T: MAXALLINTERRUPTLOCKTIME 3: there are no time limits on suspended interrupts",
            "note: TASK T: LOCKINGTIME RESOURCELOCK: " + at_resource,
            "note: TASK T: RESOURCE R: no place in the configuration",
            "note: TASK T: RESOURCELOCKTIME 2: " + at_resource,
        ]
        self.assertEqual(notes, expected)

    def test_cores(self):
        source, notes = self.of_cpu(
            "APPMODE m;\nAPPLICATION a { CORE = 2; TASK = T; };\n"
            "TASK T { PRIORITY = 1; };\nTASK U { PRIORITY = 1; CPU_ID = 0x3; };\n"
            'TASK V { PRIORITY = 1; CPU_ID = "cpu1"; };'
        )
        tasks = {core["id"]: [task["name"] for task in core["tasks"]] for core in source["cores"]}
        self.assertEqual(tasks, {1: ["V"], 2: ["T"], 3: ["U"]})
        self.assertEqual(source["master"], 1)
        expected = [
            "note: no file says which core starts which: core 1 starts 2 and 3 here",
            "note: TASK V: CPU_ID cpu1 is no number. It stands on core 1",
        ]
        self.assertEqual(notes, expected)

    def test_spinlocks(self):
        source, notes = self.of_cpu(
            "SPINLOCK a { NEXT_SPINLOCK = b; METHOD = LOCK_NOTHING; }; SPINLOCK b { }; TASK T { PRIORITY = 1; };"
        )
        self.assertEqual((source["spinlocks"], notes), ([{"name": "a", "next": "b"}, {"name": "b"}], []))

    TABLE = "COUNTER C { MAXALLOWEDVALUE = 99; }; EVENT e { MASK = AUTO; }; APPMODE m;\n"
    TABLE += "TASK T { PRIORITY = 1; EVENT = e; }; SCHEDULETABLE S { COUNTER = C; %s };"

    def test_tables(self):
        auto = "AUTOSTART = TRUE { APPMODE = m; %s };"
        actions = "ACTION = SETEVENT { TASK = T; EVENT = e; OFFSET = 4; };"
        actions += "ACTION = ACTIVATETASK { TASK = T; OFFSET = 2; };"
        points = "%s = POINT { OFFSET = 2; ACTION = ACTIVATETASK { TASK = T; }; };"
        points += "%s P { OFFSET = 4; ACTION = SETEVENT { TASK = T; EVENT = e; }; };"
        old = "LENGTH = 10; PERIODIC = TRUE; LOCAL_TO_GLOBAL_TIME_SYNCHRONIZATION = FALSE;"
        new = "DURATION = 10; REPEATING = TRUE;"
        texts = [
            old + auto % "OFFSET = 3;" + actions,
            new + auto % "TYPE = ABSOLUTE { START = 3; };" + actions,
            new + auto % "TYPE = RELATIVE; START_VALUE = 3;" + points % (("EXPIRYPOINT",) * 2),
            new + auto % "START = 3;" + points % (("EXPIRY_POINT",) * 2),
        ]
        expected = {"name": "S", "counter": "C", "duration": 10, "repeating": True}
        expected["auto"] = {"modes": ["m"], "offset": 3}
        expected["points"] = [
            {"offset": 2, "actions": ["ActivateTask T"]},
            {"offset": 4, "actions": ["SetEvent T e"]},
        ]
        for text in texts:
            with self.subTest(text=text):
                core, notes = self.core(self.TABLE % text)
                self.assertEqual((core["tables"], notes), ([expected], []))

    def test_one_object_in_two_parts(self):
        task = "TASK %s { PRIORITY = 1; %s };\n"
        core, notes = self.core(task % ("T", "") + task % ("T", "ACTIVATION = 2;") + task % ("U", ""))
        self.assertEqual([task["name"] for task in core["tasks"]], ["T", "U"])
        self.assertEqual((core["tasks"][0]["activations"], notes), (2, []))
        notes = self.core("TASK T { PRIORITY = 1; };\nTASK T { PRIORITY = 2; };")[1]
        self.assertEqual(notes, ["note: TASK T: PRIORITY stands 2 times: the first one counts, 1"])

    def test_an_old_file(self):
        core, notes = self.core(
            'OS os { EE_OPT = "DEBUG"; CPU_DATA = PIC30 { APP_SRC = "a.c"; }; };\n'
            "TASK T { PRIORITY = 0x80; STACK = SHARED; AUTOSTART = TRUE; };\n"
            'COUNTER C;\nALARM A { COUNTER = "C"; ACTION = ACTIVATETASK { TASK = "T"; }; };'
        )
        self.assertEqual(core["alarms"], [{"name": "A", "counter": "C", "action": "ActivateTask T"}])
        self.assertEqual((core["tasks"][0]["prio"], core["tasks"][0]["auto"]), (0, ["M"]))
        expected = [
            "note: OS os: EE_OPT DEBUG: no place in the configuration",
            "note: OS os: CPU_DATA PIC30: no place in the configuration",
            "note: OS os: APP_SRC a.c: no place in the configuration",
            "note: core 0 has priorities from 128 to 128, and `prio` is 0 to 31: each is its rank here, 0 to 0",
            "note: TASK T: STACK SHARED: no place in the configuration",
            "note: TASK T, AUTOSTART: no APPMODE: it is M here",
            "note: COUNTER C: MAXALLOWEDVALUE is missing: 65535 here",
        ]
        self.assertEqual(notes, expected)

    def test_what_stands_in_braces_is_noted(self):
        _, notes = self.core(
            "APPMODE m; COUNTER C { MAXALLOWEDVALUE = 9; TYPE = HARDWARE { DEVICE = GPT { CHANNEL = 3; }; }; };\n"
            "TASK T { PRIORITY = 1; STACK = PRIVATE { SIZE = 64; }; SCHEDULE = NON { X = 1; }; };\n"
            "ALARM A { COUNTER = C; ACTION = ACTIVATETASK { TASK = T; X = 1 { Y = 2; }; }; };\n"
            "APPLICATION a { CORE = 0; TRUSTED = TRUE { FUNCTION = f; }; TASK = T; ALARM = A; COUNTER = C; };"
        )
        found = [note.split(": ")[-2].split(" ")[0] for note in notes]
        self.assertEqual(found, ["DEVICE", "CHANNEL", "STACK", "SIZE", "X", "X", "Y", "FUNCTION"])

    def test_an_offset_where_none_counts(self):
        text = "EXPIRYPOINT P { OFFSET = 2; ACTION = ACTIVATETASK { TASK = T; OFFSET = 3; }; };"
        notes = self.core(self.TABLE % ("DURATION = 9;" + text))[1]
        expected = "SCHEDULETABLE S, EXPIRYPOINT of offset 2, ACTIVATETASK: OFFSET 3: no place in the configuration"
        self.assertEqual(notes, ["note: " + expected])

    def test_what_stands_twice_is_noted(self):
        text = "APPMODE m; COUNTER C { MAXALLOWEDVALUE = 9; }; COUNTER D { MAXALLOWEDVALUE = 9; };\n"
        text += "TASK T { PRIORITY = 1; AUTOSTART = TRUE { APPMODE = m; };\nAUTOSTART = TRUE { APPMODE = m; }; };\n"
        act = "ACTION = ACTIVATETASK { TASK = T; };"
        text += "ALARM A { COUNTER = C; COUNTER = D; %s %s };\n" % (act, act)
        text += "APPLICATION a { CORE = 0; CORE = 1; TASK = T; ALARM = A; COUNTER = C; COUNTER = D; };"
        expected = [
            "note: TASK T: AUTOSTART stands 2 times: the first one counts, in line 3",
            "note: ALARM A: COUNTER stands 2 times: the first one counts, COUNTER C",
            "note: ALARM A: ACTION stands 2 times: the first one counts, in line 5",
            "note: APPLICATION a: it stands on several cores: the first one counts",
        ]
        self.assertEqual(self.core(text)[1], expected)


if __name__ == "__main__":
    unittest.main()
