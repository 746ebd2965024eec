"""How `tools/stats` writes verdicts for a CI, read back as a CI reads them."""

import os
import re
import runpy
import shutil
import subprocess
import sys
import tempfile
import unittest
from xml.etree import ElementTree

sys.path.insert(0, os.path.dirname(os.path.abspath(__file__)))
import sample_runs  # noqa: E402
from sample_runs import PROGRAM, TOOLS, called, needs_program  # noqa: E402
from library import verdict_formats  # noqa: E402
from library.requirements import Requirement, Verdict  # noqa: E402

MAIN = runpy.run_path(os.path.join(TOOLS, "stats"))["main"]
FORMATS = verdict_formats.FORMATS

# Whatever a format has to escape: `<`, quotes, `#`, a backslash, `,`, `:`, `%`, a control character, a line end, and half
# of a surrogate pair, as a path has it that is no UTF-8.
STRANGE = Requirement("chain A\x01 > B<&\"' broken=0", "S#1,%2C:\\", "a\n,:%\udc80.txt", 3)
VERDICTS = [
    Verdict("A lost=0", True, "0", Requirement("A lost=0", "R-1", "a.txt", 1)),
    Verdict("B lost=0", False, "1", Requirement("B lost=0")),
    Verdict(STRANGE.text, False, "this run has no such chain", STRANGE),
    Verdict("the run ends", False, "it stalled"),
]
COMMAND = re.compile(r"::error (?P<properties>[^:]*)::(?P<message>.*)")
JUNIT = """\
<?xml version="1.0" encoding="UTF-8"?>
<testsuites>
  <testsuite name="c.json, s.json" tests="2" failures="1" errors="0" skipped="0">
    <testcase classname="c.json, s.json" name="R-1: A lost=0" file="a.txt" line="1"/>
    <testcase classname="c.json, s.json" name="B lost=0">
      <failure message="not met: B lost=0 (1)" type="requirement"/>
    </testcase>
  </testsuite>
</testsuites>
"""

TAP = """\
TAP version 13
1..2
ok 1 - T1ms lost=0
not ok 2 - all cores lost=0
  ---
  found: "1"
  ...
"""


def unescaped(text):
    """A text as GitHub reads it from a command."""
    for code, character in (("%0D", "\r"), ("%0A", "\n"), ("%3A", ":"), ("%2C", ","), ("%25", "%")):
        text = text.replace(code, character)
    return text


def commands_in(text):
    """The properties and the message of each command in a text of GitHub's commands."""
    found = []
    for line in text.splitlines():
        command = COMMAND.fullmatch(line)
        pairs = [pair.split("=") for pair in command["properties"].split(",")]
        found.append(({name: unescaped(value) for name, value in pairs}, unescaped(command["message"])))
    return found


def proved(text):
    """The status and the output of Perl's `prove`, which reads TAP."""
    with tempfile.TemporaryDirectory() as folder:
        path = os.path.join(folder, "a.tap")
        with open(path, "w", encoding="utf-8", errors="backslashreplace") as file:
            file.write(text)
        done = subprocess.run(["prove", "-v", "-e", "cat", path], capture_output=True, text=True, timeout=60)
    return done.returncode, done.stdout + done.stderr


class Text(unittest.TestCase):
    def test_the_lines(self):
        self.assertEqual(FORMATS["text"].of_verdicts("run", VERDICTS), "".join("%s\n" % each for each in VERDICTS))
        self.assertEqual(FORMATS["text"].of_failure("run", "reason"), "")


class JUnit(unittest.TestCase):
    def test_the_whole(self):
        self.assertEqual(FORMATS["junit"].of_verdicts("c.json, s.json", VERDICTS[:2]), JUNIT)

    def test_what_is_escaped(self):
        suite = ElementTree.fromstring(FORMATS["junit"].of_verdicts('"\x00<', VERDICTS).encode())[0]
        self.assertEqual((suite.get("name"), suite.get("tests"), suite.get("failures")), ('"\\u0000<', "4", "3"))
        case = suite[2]
        self.assertEqual(case.get("name"), "S#1,%2C:\\: chain A\\u0001 > B<&\"' broken=0")
        self.assertEqual((case.get("file"), case.get("line")), ("a\\n,:%\\udc80.txt", "3"))
        self.assertEqual([len(case) for case in suite], [0, 1, 1, 1])
        self.assertEqual(suite[3][0].get("message"), "not met: the run ends (it stalled)")

    def test_no_run(self):
        suite = ElementTree.fromstring(FORMATS["junit"].of_failure("run", "a & b\n\x02").encode())[0]
        self.assertEqual([suite.get(name) for name in ("tests", "failures", "errors")], ["1", "0", "1"])
        self.assertEqual((suite[0][0].tag, suite[0][0].get("message")), ("error", "a & b\\n\\u0002"))


class GitHub(unittest.TestCase):
    def test_the_lines(self):
        text = FORMATS["github"].of_verdicts("run", VERDICTS[:2])
        self.assertEqual(text, "::error title=requirement::not met: B lost=0 (1)\n")
        self.assertEqual(FORMATS["github"].of_verdicts("run", VERDICTS[:1]), "")

    def test_what_is_escaped(self):
        found = commands_in(FORMATS["github"].of_verdicts("run", VERDICTS))
        self.assertEqual(found[1], ({"file": STRANGE.path, "line": "3", "title": STRANGE.id}, str(VERDICTS[2])))
        self.assertEqual(found[2], ({"title": "requirement"}, "not met: the run ends (it stalled)"))

    def test_no_run(self):
        found = commands_in(FORMATS["github"].of_failure("c,s", "100%\nb"))
        self.assertEqual(found, [({"title": "c,s"}, "100%\nb")])


class Tap(unittest.TestCase):
    def test_what_is_escaped(self):
        lines = FORMATS["tap"].of_verdicts("run", VERDICTS).splitlines()
        self.assertEqual(lines[:3], ["TAP version 13", "1..4", "ok 1 - R-1: A lost=0"])
        self.assertEqual(lines[3:7], ["not ok 2 - B lost=0", "  ---", '  found: "1"', "  ..."])
        self.assertEqual(lines[7], "not ok 3 - S\\#1,%2C:\\\\: chain A\\\\u0001 > B<&\"' broken=0")
        self.assertEqual(lines[10:12], ['  file: "a\\\\n,:%\\\\udc80.txt"', "  line: 3"])

    def test_no_run(self):
        self.assertEqual(FORMATS["tap"].of_failure("run", "a\nb"), "TAP version 13\nBail out! a\\nb\n")

    @unittest.skipUnless(shutil.which("prove"), "prove is not installed")
    def test_as_a_reader_has_it(self):
        status, output = proved(FORMATS["tap"].of_verdicts("run", VERDICTS[:1]))
        self.assertEqual(status, 0, output)
        status, output = proved(FORMATS["tap"].of_verdicts("run", VERDICTS))
        self.assertNotEqual(status, 0)
        self.assertRegex(output, r"Tests: 4 Failed: 3\)\n *Failed tests: *2-4\n")
        self.assertNotIn("Parse errors", output)
        status, output = proved(FORMATS["tap"].of_failure("run", "no run"))
        self.assertNotEqual(status, 0)
        self.assertIn("Bailout called.  Further testing stopped:  no run", output)


class WrongUsage(unittest.TestCase):
    def test_no_requirements(self):
        status, output, messages = called(MAIN, "--format", "tap", "a", "b")
        self.assertEqual((status, output), (2, ""))
        self.assertIn("error: --format is for requirements, and there are none\n", messages)


@needs_program
class Commands(unittest.TestCase):
    def run_stats(self, form, *words, files=sample_runs.ENGINE):
        """What the script prints in a format."""
        return called(MAIN, "--mcos", PROGRAM, "--format", form, *words, *files)

    def test_the_status(self):
        for form in FORMATS:
            with self.subTest(form=form):
                self.assertEqual(self.run_stats(form, "--require", "T1ms lost=0")[0], 0)
                self.assertEqual(self.run_stats(form, "--require", "all cores lost=0")[0], 1)
                status, output, messages = self.run_stats(form, "--require", "T1m lost=0")
                self.assertEqual((status, output), (2, ""))

    def test_tap(self):
        wanted = ["--require", "T1ms lost=0", "--require", "all cores lost=0"]
        self.assertEqual(self.run_stats("tap", *wanted), (1, TAP, ""))

    def test_the_text_is_as_without_a_format(self):
        words = ["--require", "T1ms lost=0", "--require", "all cores lost=0"]
        plain = called(MAIN, "--mcos", PROGRAM, *words, *sample_runs.ENGINE)
        self.assertEqual(self.run_stats("text", *words), plain)

    def test_a_fault(self):
        files = [sample_runs.ENGINE[0], sample_runs.ENGINE[0]]
        for form, words in (("text", ""), ("junit", "<error "), ("github", "::error "), ("tap", "Bail out! ")):
            with self.subTest(form=form):
                status, output, messages = self.run_stats(form, "--require", "T1ms lost=0", files=files)
                self.assertEqual(status, 1)
                self.assertIn("fault 12 BadStimulus", messages)
                self.assertIn("fault 12 BadStimulus" if words else "", output)
                self.assertIn(words, output)

    def test_modes_in_conflict(self):
        files = [os.path.join(sample_runs.EXAMPLES, "modes", name) for name in ("conflict.json", "stimuli.json")]
        status, output, _ = self.run_stats("junit", "--require", "all cores refused=0", files=files)
        suite = ElementTree.fromstring(output.encode())[0]
        self.assertEqual((status, suite.get("tests"), suite.get("failures")), (1, "2", "1"))


if __name__ == "__main__":
    unittest.main()
