"""What `tools/import` makes of the Os files of a project, what it notes, and what it refuses."""

import json
import os
import re
import runpy
import subprocess
import sys
import tempfile
import unittest
from unittest import mock

sys.path.insert(0, os.path.dirname(os.path.abspath(__file__)))
import documents  # noqa: E402
import os_files  # noqa: E402
from os_files import ACTIVATES_T, MODE, CannotBeSaid, alarm_start, application, arxml, budget, container  # noqa: E402
from os_files import os_alarm, os_counter, os_task, reference  # noqa: E402
from sample_runs import EXAMPLES, PROGRAM, ROOT, TOOLS, called, needs_program, read, sessions, sources  # noqa: E402
from library import expanding, importing  # noqa: E402
from library.places import read_document  # noqa: E402

MAIN = runpy.run_path(os.path.join(TOOLS, "import"))["main"]
# What no Os file can say of the examples.
NOT_SAID = {
    "listed/config.json": "`cap` has another value",
    "locks/config.json": "a lock budget is that of a task and a resource",
    "resources/refusals.json": "a ceiling is not the priority of a task",
}


class InAFolder(unittest.TestCase):
    """Tests with files in a folder that is the current one."""

    def setUp(self):
        folder = tempfile.TemporaryDirectory()
        self.addCleanup(folder.cleanup)
        self.addCleanup(os.chdir, os.getcwd())
        os.chdir(folder.name)

    def write(self, name, text):
        with open(name, "wb") as file:
            file.write(text if isinstance(text, bytes) else text.encode("utf-8"))

    def source(self, *words):
        """The source that an import prints, and its notes without the places."""
        status, output, messages = called(MAIN, *words)
        self.assertEqual(status, 0, messages)
        return json.loads(output), [line.split(": ", 1)[1] for line in messages.splitlines()]

    def of_os(self, *containers, words=()):
        """The source and the notes of an Os module with these containers."""
        self.write("Os.arxml", arxml(("Os", os_files.OS, containers)))
        return self.source(*words, "Os.arxml")

    def notes(self, *containers, words=()):
        return self.of_os(*containers, words=words)[1]

    def refused(self, text, message, name="Os.arxml"):
        """Holds that a file is refused with a message and nothing else."""
        self.write(name, text)
        self.assertEqual(called(MAIN, name), (1, "", message + "\n"))


def expanded(text):
    """The configuration that `tools/expand` makes of a source."""
    found = expanding.expand(read_document(text.encode("utf-8")), expanding.CONFIGURATION)
    return found.text if not found.refusals else found.refusals


@needs_program
class Examples(InAFolder):
    """Each example as an Os file, and back: the program prints the same."""

    def printed(self, *words):
        done = subprocess.run([PROGRAM, *words], capture_output=True, encoding="utf-8", timeout=60)
        return done.returncode, done.stdout, done.stderr

    def imported(self, configuration, files, leave=""):
        """The path of the configuration that an import of some files gives."""
        for name, text in files.items():
            self.write(name, text.replace(leave, "") if leave else text)
        self.write("scripts.json", os_files.scripts_text(configuration))
        words = ["--scripts", "scripts.json", "--master", str(configuration.get("master", 0)), *files]
        status, output, messages = called(MAIN, *words)
        notes = [line for line in messages.splitlines() if "IMPLEMENTATION none: not read" not in line]
        self.assertEqual((status, notes), (0, []))
        self.write("config.json", expanded(output))
        return "config.json"

    def compare(self, files_of):
        """Compares the runs of all examples that such files can say. Gives how many, and why not of the others."""
        compared, not_said = 0, {}
        for source in sources():
            with open(source.configuration, encoding="utf-8") as file:
                configuration = json.load(file)
            name = os.path.relpath(source.configuration, EXAMPLES)
            try:
                files = files_of(configuration)
            except CannotBeSaid as reason:
                not_said[name] = str(reason)
                continue
            with self.subTest(name=name):
                path = self.imported(configuration, files)
                schedule = ["--schedule", source.schedule] if source.schedule else []
                expected = self.printed("run", source.configuration, source.stimuli, *schedule)
                self.assertEqual(self.printed("run", path, source.stimuli, *schedule), expected)
                self.assertEqual(self.printed("check", path), self.printed("check", source.configuration))
            compared += 1
        return compared, not_said

    def test_arxml(self):
        compared, not_said = self.compare(lambda each: dict(zip(("Os.arxml", "EcuC.arxml"), os_files.os_arxml(each))))
        self.assertEqual(not_said, NOT_SAID)
        self.assertGreater(compared, 25)

    def test_oil(self):
        compared, not_said = self.compare(lambda each: {"project.oil": os_files.os_oil(each)})
        budgets = {"%s/config.json" % name: "OIL has no budgets" for name in ("budgets", "import")}
        self.assertEqual(not_said, {**NOT_SAID, **budgets})
        self.assertGreater(compared, 25)

    def test_a_task_left_out_is_told(self):
        path = os.path.join(EXAMPLES, "first", "config.json")
        with open(path, encoding="utf-8") as file:
            configuration = json.load(file)
        names = [task["name"] for core in configuration["cores"] for task in core["tasks"]]
        texts = os_files.os_arxml(configuration)
        self.write("scripts.json", os_files.scripts_text(configuration))
        self.write("EcuC.arxml", texts[1])
        for name in names:
            wrong = texts[0].replace("<SHORT-NAME>%s</SHORT-NAME>" % name, "<SHORT-NAME>Gone</SHORT-NAME>")
            self.assertNotEqual(wrong, texts[0])
            self.write("Os.arxml", wrong)
            _, output, messages = called(MAIN, "--scripts", "scripts.json", "Os.arxml", "EcuC.arxml")
            self.assertIn("no task and no ISR of the import is called `%s`" % name, messages)
            self.write("config.json", expanded(output))
            stimuli = os.path.join(EXAMPLES, "first", "stim.json")
            self.assertNotEqual(self.printed("run", "config.json", stimuli), self.printed("run", path, stimuli))


LAUGHS = """<?xml version="1.0"?>
<!DOCTYPE AUTOSAR [
 <!ENTITY a "ha">
 <!ENTITY b "&a;&a;&a;&a;&a;&a;&a;&a;&a;&a;">
]>
<AUTOSAR>&b;</AUTOSAR>
"""
DOCTYPE = "a DOCTYPE or an entity is declared here: ARXML has none, and it is not read"


class Refused(InAFolder):
    def test_entities(self):
        for text, line in ((LAUGHS, 2), ('<!DOCTYPE AUTOSAR SYSTEM "x.dtd">\n<AUTOSAR/>', 1)):
            self.write("Os.arxml", text)
            status, output, message = called(MAIN, "Os.arxml")
            self.assertEqual((status, output), (1, ""))
            self.assertRegex(message, r"\AOs\.arxml:%d:\d+: %s\n\Z" % (line, DOCTYPE))
        self.refused("<AUTOSAR>\n &who;</AUTOSAR>", "Os.arxml:2:2: no XML: undefined entity")

    def test_no_xml(self):
        for text, message in (
            ("<AUTOSAR>\n <A>\n</AUTOSAR>", "3:3: no XML: mismatched tag"),
            ("<AUTOSAR>\n <A b=c/></AUTOSAR>", "2:7: no XML: not well-formed (invalid token)"),
            ("<AUTOSAR><A>", "1:13: no XML: no element found"),
            ("<AUTOSAR/>\n<AUTOSAR/>", "2:1: no XML: junk after document element"),
            (b"<AUTOSAR>\xff</AUTOSAR>", "1:10: no XML: not well-formed (invalid token)"),
            ("<?xml version='1.0' encoding='no-such'?><AUTOSAR/>", "1:31: no XML: unknown encoding: no-such"),
        ):
            with self.subTest(text=text):
                self.refused(text, "Os.arxml:" + message)

    def test_too_deep(self):
        self.refused(
            "<AUTOSAR>" + "<A>" * 127 + "</A>" * 127 + "</AUTOSAR>",
            "Os.arxml:1:388: elements stand in one another more than 127 levels deep",
        )
        self.refused("<AUTOSAR>" + "<A>" * 126 + "</A>" * 126 + "</AUTOSAR>", "Os.arxml: no Os module is in it")

    def test_too_long(self):
        self.write("Os.arxml", b" " * ((1 << 20) + 1))
        message = "Os.arxml: longer than 1 MiB: give the file of the Os module alone\n"
        with mock.patch.object(importing, "MOST_BYTES", 1 << 20):
            self.assertEqual(called(MAIN, "Os.arxml"), (1, "", message))

    def test_other_files(self):
        self.refused("", "Os.arxml: the file is empty")
        self.refused("<html/>", "Os.arxml:1:1: no ARXML: the first element is `html`, not `AUTOSAR`")
        text = '<?xml version="1.0"?>\n<datamodel version="7.0"/>'
        self.refused(text, "Os.arxml:2:1: this is an XDM of EB tresos: export it as ARXML")
        text = arxml(("Com", "/AUTOSAR/EcucDefs/Com", []), ("Can", "/AUTOSAR/EcucDefs/Can", []))
        text = text.replace("<CONTAINERS>\n\n</CONTAINERS>", "", 1)
        self.refused(text, "Os.arxml: no Os module is in it; there is Com and Can")
        status, output, messages = called(MAIN, "none.arxml")
        self.assertEqual((status, output), (1, ""))
        self.assertEqual(messages, "none.arxml: cannot be read: No such file or directory\n")
        self.assertEqual(called(MAIN, ".")[2], ".: cannot be read: Is a directory\n")

    def test_scripts(self):
        self.write("Os.arxml", arxml(("Os", os_files.OS, [os_task("T")])))
        for text, message in (
            ("{", "1:2: no JSON: the file ends here, and `}` or a member is wanted: `{` of line 1 is open"),
            ("[]", "1:1: scripts are an object, with the names of tasks and ISRs"),
            ('{"T": 5}', "1:7: the script of `T` is no text, and no list of texts"),
            ('{"T": ["work", 5]}', "1:7: the script of `T` is no text, and no list of texts"),
            ('{"T": "",\n "T": ""}', "2:2: `T` stands twice in this object"),
            ('{"0": ""}', "1:7: of core 0 an object is wanted, with `mode`, `start` and `protection`"),
            ('{"0": {"mod": ""}}', "1:8: a core has `mode`, `start` and `protection`, not `mod`; did you mean `mode`?"),
            ('{"0": {"mode": 1}}', "1:16: `mode` is a text"),
            ('{"0": {"start": 1}}', "1:17: `start` is a list of numbers"),
            ('{"0": {"start": ["1"]}}', "1:17: `start` is a list of numbers"),
            ('{"1000": {}}', "1:2: `1000` is no number of a core"),
        ):
            with self.subTest(text=text):
                self.write("s.json", text)
                self.assertEqual(called(MAIN, "--scripts", "s.json", "Os.arxml"), (1, "", "s.json:%s\n" % message))
        message = "none.json: cannot be read: No such file or directory\n"
        self.assertEqual(called(MAIN, "--scripts", "none.json", "Os.arxml"), (1, "", message))

    def test_wrong_usage(self):
        wrong = [(), ("-", "-"), ("--frob", "a"), ("--master", "16", "a"), ("--tick", "0", "a"), ("--tick", "x", "a")]
        for words in wrong:
            with self.subTest(words=words):
                status, output, _ = called(MAIN, *words)
                self.assertEqual((status, output), (2, ""))


class Imported(InAFolder):
    """What the source has."""

    def tasks(self, *containers, words=()):
        source = self.of_os(*containers, words=words)[0]
        return {task["name"]: task for core in source["cores"] for task in core["tasks"]}

    def test_skeletons(self):
        tasks = self.tasks(
            container("OsResource", "R"),
            container("OsResource", "S"),
            container("OsEvent", "E"),
            container("OsEvent", "F"),
            os_task("Basic", ("OsTaskResourceRef", "R"), ("OsTaskResourceRef", "S")),
            os_task("Extended", ("OsTaskEventRef", "E"), ("OsTaskEventRef", "F"), ("OsTaskResourceRef", "R")),
        )
        script = "GetResource R; GetResource S; work; ReleaseResource S; ReleaseResource R; TerminateTask"
        self.assertEqual(tasks["Basic"]["script"], script)
        script = ["loop: WaitEvent E|F; ClearEvent E|F", "GetResource R; work; ReleaseResource R", "jump loop"]
        self.assertEqual(tasks["Extended"]["script"], script)

    def test_given_scripts(self):
        text = '{"T": ["a: work", "jump a"], "0": {"protection": "PRO_IGNORE", "mode": "DONOTCARE"}, "U": "", "3": {}}'
        self.write("s.json", text)
        source, notes = self.of_os(MODE, os_task("T"), words=["--scripts", "s.json"])
        self.assertEqual(source["cores"][0]["tasks"][0]["script"], ["a: work", "jump a"])
        said = {name: source["cores"][0][name] for name in ("protection", "mode")}
        self.assertEqual(said, {"protection": "PRO_IGNORE", "mode": "DONOTCARE"})
        expected = ["note: no task and no ISR of the import is called `U`", "note: the import has no core 3"]
        self.assertEqual(notes, expected)

    def test_a_wrong_script_is_said_in_its_file(self):
        for script, wrong in (
            ('"work;wrok;TerminateTask"', "operation 1 `wrok`: no operation is called `wrok`; did you mean `work`?"),
            ('["work", "jump lop"]', "no label `lop` in this script"),
            ('["work", "2*(work"]', "this `(` has no `)`"),
        ):
            with self.subTest(script):
                self.write("s.json", '{"T": "work",\n "U": %s}' % script)
                self.write("Os.arxml", arxml(("Os", os_files.OS, [MODE, os_task("T"), os_task("U")])))
                status, _, messages = called(MAIN, "--scripts", "s.json", "Os.arxml")
                self.assertEqual(status, 0)
                self.assertIn("s.json:2:2: note: the script of `U`: " + wrong, messages)

    def test_which_scripts_are_skeletons(self):
        self.write("s.json", '{"T": "work"}')
        objects = [os_task("T"), os_task("U"), os_task("V")]
        given = self.of_os(MODE, *objects, words=["--scripts", "s.json"])[1]
        self.assertEqual(given, ["note: s.json has no scripts of U and V: they are skeletons"])
        none = self.of_os(MODE, *objects)[1]
        text = "no file has the scripts of T, U and V: they are skeletons; --scripts gives others"
        self.assertTrue(none[0].endswith(text), none)

    def test_masks(self):
        names = "ABCD"
        masks = {"A": "0x8", "B": "AUTO", "C": "0b1", "D": None}
        events = [container("OsEvent", name, [("OsEventMask", mask)] if mask else []) for name, mask in masks.items()]
        tasks = self.tasks(*events, os_task("T", *(("OsTaskEventRef", name) for name in names)))
        self.assertEqual(tasks["T"]["events"], ["C", "B", "D", "A"])
        tasks = self.tasks(events[0], os_task("T", ("OsTaskEventRef", "A")))
        self.assertEqual(tasks["T"]["events"], ["unused_0", "unused_1", "unused_2", "A"])
        self.assertEqual(tasks["T"]["script"][0], "loop: WaitEvent A; ClearEvent A")

    def test_numbers(self):
        numbers = {"0x1F": 31, "0b11": 3, "017": 15, "10.0": 10, "1E1": 10, "+5": 5, " 7 ": 7}
        for text, priority in numbers.items():
            with self.subTest(text=text):
                self.assertEqual(self.tasks(os_task("T", OsTaskPriority=text))["T"]["prio"], priority)
        for text in ("09", "1e9999", "1e-999", "9" * 41, "NaN", "1_0", "\u0661"):
            with self.subTest(text=text):
                notes = self.notes(os_task("T", OsTaskPriority=text))
                self.assertIn("OsTaskPriority %s is no whole number: 0 here" % text, " ".join(notes))

    def test_ceilings_by_rank(self):
        containers = [container("OsResource", "R"), container("OsResource", "S", [("OsResourceProperty", "LINKED")])]
        containers[1] = container(
            "OsResource", "S", [("OsResourceProperty", "LINKED")], [("OsResourceLinkedResourceRef", reference("R"))]
        )
        containers += [os_task("T", ("OsTaskResourceRef", "R"), OsTaskPriority=500)]
        containers += [os_task("U", ("OsTaskResourceRef", "S"), OsTaskPriority=20), os_task("V", OsTaskPriority=900)]
        core = self.of_os(*containers)[0]["cores"][0]
        self.assertEqual({task["name"]: task["prio"] for task in core["tasks"]}, {"T": 1, "U": 0, "V": 2})
        self.assertEqual(core["resources"], [{"name": "R", "ceiling": 1}, {"name": "S", "ceiling": 1}])

    def test_budgets(self):
        parts = budget("OsTask", "0.01")
        counters = [os_counter("C", OsSecondsPerTick="1.0E-3")]
        counters.append(os_counter("D", OsSecondsPerTick="0.002", OsCounterType="SOFTWARE"))
        self.assertEqual(self.tasks(*counters, os_task("T", parts=parts))["T"]["budget"], 10)
        self.assertEqual(self.tasks(os_task("T", parts=parts))["T"]["budget"], 10)
        self.assertEqual(self.tasks(*counters, os_task("T", parts=parts), words=["--tick", "0.005"])["T"]["budget"], 2)
        self.assertNotIn("budget", self.tasks(os_task("T", parts=budget("OsTask", "0")))["T"])
        self.assertEqual(self.tasks(os_task("T", parts=budget("OsTask", "1E-9")))["T"]["budget"], 1)

    def test_several_files(self):
        first = arxml(("Os", os_files.OS, [os_task("T"), os_alarm("A", *ACTIVATES_T)]))
        second = arxml(("Os", os_files.OS, [os_counter(), os_task("U")]))
        self.write("a.arxml", first)
        self.write("b.arxml", second)
        source, _ = self.source("a.arxml", "b.arxml")
        core = source["cores"][0]
        self.assertEqual([task["name"] for task in core["tasks"]], ["T", "U"])
        self.assertEqual(core["alarms"], [{"name": "A", "counter": "C", "action": "ActivateTask T"}])

    def test_one_container_in_two_files(self):
        self.write("a.arxml", arxml(("Os", os_files.OS, [os_task("T", OsTaskPriority=5)])))
        parts = [container("OsTask/OsTaskAutostart", "Auto", (), [("OsTaskAppModeRef", reference("M"))])]
        self.write("b.arxml", arxml(("Os", os_files.OS, [MODE, container("OsTask", "T", parts=parts)])))
        source, _ = self.source("a.arxml", "b.arxml")
        task = source["cores"][0]["tasks"][0]
        self.assertEqual((task["name"], task["prio"], task["auto"]), ("T", 5, ["M"]))

    def test_encodings(self):
        text = arxml(("Os", os_files.OS, [os_task("T")]))
        for encoding, name in (("utf-8-sig", "UTF-8"), ("utf-16", "UTF-16"), ("iso-8859-1", "ISO-8859-1")):
            with self.subTest(encoding=encoding):
                self.write("Os.arxml", text.replace("UTF-8", name).encode(encoding))
                self.assertEqual(self.source("Os.arxml")[0]["cores"][0]["tasks"][0]["name"], "T")

    def test_a_master_of_its_own(self):
        containers = [application("A", 0, OsAppTaskRef="T"), application("B", 1), os_task("T")]
        source = self.of_os(*containers, words=["--master", "7"])[0]
        self.assertEqual((source["master"], source["cores"][-1]), (7, {"id": 7, "start": [0, 1]}))
        self.assertNotIn("version", source)

    def test_cores_of_version_2(self):
        containers = [application("A", 9, OsAppTaskRef="T"), application("B", 15), os_task("T")]
        source = self.of_os(*containers)[0]
        self.assertEqual((source["version"], source["master"]), (2, 9))
        self.assertEqual([core["id"] for core in source["cores"]], [9, 15])

    def names(self, source, members):
        """The names of the objects in a list of each core."""
        return {core["id"]: [each["name"] for each in core.get(members, [])] for core in source["cores"]}

    def test_an_alarm_stands_with_its_counter(self):
        containers = [application("First", 0, OsAppTaskRef="T", OsAppAlarmRef="A")]
        containers += [application("Second", 1, OsAppCounterRef="C"), os_counter(), os_task("T")]
        source, _ = self.of_os(*containers, os_alarm("A", *ACTIVATES_T))
        self.assertEqual(self.names(source, "alarms"), {0: [], 1: ["A"]})

    def test_cores_of_great_numbers(self):
        containers = [application("First", 2, OsAppTaskRef="T"), application("Second", 16, OsAppTaskRef="U")]
        source, _ = self.of_os(*containers, os_task("T"), os_task("U"))
        self.assertEqual(self.names(source, "tasks"), {0: ["T"], 1: ["U"]})

    def test_a_start_of_0(self):
        start = alarm_start(OsAlarmAlarmTime=0, OsAlarmCycleTime=5)
        source, _ = self.of_os(MODE, os_counter(), os_alarm("A", *ACTIVATES_T, parts=start), os_task("T"))
        self.assertEqual(source["cores"][0]["alarms"][0]["auto"], {"modes": ["M"], "start": 1, "cycle": 5})

    def test_the_standard_input(self):
        text = arxml(("Os", os_files.OS, [os_task("T")]))
        words = [os.path.join(TOOLS, "import"), "-"]
        done = subprocess.run(words, input=text, capture_output=True, encoding="utf-8", timeout=60)
        self.assertEqual((done.returncode, len(json.loads(done.stdout)["cores"])), (0, 1))
        self.assertTrue(done.stderr.startswith("-:"), done.stderr)
        done = subprocess.run(["sh", "-c", '"$@" - <&-', "sh", words[0]], capture_output=True, text=True, timeout=60)
        self.assertEqual((done.returncode, done.stdout), (1, ""))
        self.assertEqual(done.stderr, "-: cannot be read: the standard input is closed\n")

    def test_a_full_disk(self):
        self.write("Os.arxml", arxml(("Os", os_files.OS, [os_task("T")])))
        with open("/dev/full", "wb") as full:
            words = [os.path.join(TOOLS, "import"), "Os.arxml"]
            done = subprocess.run(words, stdout=full, stderr=subprocess.PIPE, encoding="utf-8", timeout=60)
        self.assertEqual(done.returncode, 1)
        self.assertEqual(done.stderr, "the standard output took no more: No space left on device\n")


class Document(InAFolder):
    """docs/TOOLS.md, and the example that it runs."""

    def setUp(self):
        super().setUp()
        for name in ("tools", "examples"):
            os.symlink(os.path.join(ROOT, name), name)

    def shell(self, command):
        with tempfile.TemporaryDirectory() as scratch:
            os.symlink(PROGRAM, os.path.join(scratch, "mcos"))
            environment = {**os.environ, "PATH": scratch + os.pathsep + os.environ["PATH"]}
            words = ["sh", "-c", command]
            done = subprocess.run(words, env=environment, capture_output=True, encoding="utf-8", timeout=60)
        return done.returncode, done.stdout, done.stderr

    def test_the_example(self):
        command = documents.example("These two commands run them:").splitlines()[0]
        status, output, notes = self.shell(command)
        self.assertEqual((status, output), (0, ""))
        self.assertTrue(documents.is_part_of(documents.part("The first command prints, among others,"), notes), notes)
        self.assertEqual(len(notes.splitlines()), 11)
        self.assertEqual(read("examples", "import", "config.json"), sample_text("config.json"))

    @needs_program
    def test_the_run(self):
        first, second = documents.example("These two commands run them:").splitlines()
        self.shell(first)
        printed = self.shell(second)
        words, lines = next(each for each in sessions("import") if each[0][0] == "run")
        self.assertEqual((printed[0], printed[1].splitlines(), printed[2]), (0, lines[:-1], ""))

    def test_the_work_list(self):
        command = documents.example("says what the scripts have still to do:").strip()
        command = command.replace(" Os.arxml EcuC.arxml", " examples/import/Os.arxml examples/import/EcuC.arxml")
        status, lines, _ = self.shell(command)
        self.assertEqual(status, 0)
        self.assertIn("nothing increments the `software` counter `Tooth`", lines)

    def test_scripts(self):
        self.write("s.json", documents.example("each of which may be left out:"))
        text = os_task("Load"), os_task("Com", ("OsTaskEventRef", "Rx"), ("OsTaskEventRef", "Tick"))
        events = [container("OsEvent", name) for name in ("Rx", "Tick")]
        _, notes = self.of_os(*text, *events, words=["--scripts", "s.json"])
        self.assertEqual(notes, [])

    def test_options(self):
        """Each option of the help stands in the document, and no other; the help has the exit statuses."""
        help_text = called(MAIN, "--help")[1]
        usage = documents.example("## import").splitlines()[0]
        options = set(re.findall(r"(--[a-z]+) [A-Z]+", help_text)) - {"--help"}
        self.assertEqual(set(re.findall(r"\[(--[a-z]+) [A-Z]+\]", usage)), options)
        section = read("docs", "TOOLS.md").split("\n## import\n")[1].split("\n## ")[0]
        self.assertEqual(set(re.findall(r"(?<!-)--[a-z]+", section)), options)
        self.assertEqual(re.findall(r"([0-9]) (?:printed|a file|wrong)", help_text), ["0", "1", "2"])


def sample_text(name):
    with open(name, encoding="utf-8") as file:
        return file.read()


if __name__ == "__main__":
    unittest.main()
