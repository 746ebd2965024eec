"""Holds tools/problem-matcher.json to the lines that `tools/explain` prints."""

import json
import os
import re
import shutil
import subprocess
import sys
import unittest

sys.path.insert(0, os.path.dirname(os.path.abspath(__file__)))
from sample_runs import read  # noqa: E402
from test_explain import BASE, CASES, INTERRUPTS, ISRS, SCHEDULES, STIMULI  # noqa: E402
from library.findings import Finding  # noqa: E402
from library.formats import BAD_SCRIPT  # noqa: E402
from library.judging import judge_configuration, judge_schedule, judge_stimuli  # noqa: E402
from library.places import Place  # noqa: E402

MATCHERS = json.loads(read("tools", "problem-matcher.json"))["problemMatcher"]
PATHS = ("config.json", "/a b/c.json", "-", "./a:1.json", "C:\\a.json")
# What a text may quote of a file.
LIKE_LINES = ("a:3:4: note: b", "a:3:4: fault 3 Limit: b")
# Lines of other tools, and of a build.
OTHER_LINES = (
    "",
    "fault 5 UnknownName",
    "not met: all cores lost=0 (1)",
    "source.json:9:108: no label `agian` in this script; did you mean `again`?",
    "config.json: cannot be read: No such file or directory",
    "main.c:3:5: error: expected `;`",
)
# Reads patterns and lines as JSON, and prints for each line the groups of the first pattern that matches.
IN_NODE = """
const [patterns, lines] = JSON.parse(require("fs").readFileSync(0, "utf8"));
const groups = line => patterns.map(pattern => new RegExp(pattern).exec(line)).find(found => found);
console.log(JSON.stringify(lines.map(line => groups(line).slice(1))));
"""


def findings():
    """What is found in each of the texts for tools/explain."""
    draft = judge_configuration(BASE.encode()).draft
    judgements = [judge_configuration(case.text.encode()) for case in CASES]
    judgements += [judge_stimuli(each.text.encode(), draft) for each in STIMULI]
    judgements += [judge_schedule(each.text.encode(), draft) for each in SCHEDULES]
    draft = judge_configuration(ISRS.encode()).draft
    judgements += [judge_stimuli(each.text.encode(), draft) for each in INTERRUPTS]
    quoted = [Finding(fault, Place(1, 2), "", "`%s`" % line) for fault in (None, BAD_SCRIPT) for line in LIKE_LINES]
    return quoted + [finding for judgement in judgements for finding in judgement.findings]


def matched(line):
    """The matchers that match a line, each with what it has found."""
    return [(each, found) for each in MATCHERS if (found := re.search(each["pattern"][0]["regexp"], line, re.ASCII))]


class Matcher(unittest.TestCase):
    def test_what_is_in_the_file(self):
        self.assertEqual([each["owner"] for each in MATCHERS], ["mcos-fault", "mcos-note"])
        self.assertEqual([each["severity"] for each in MATCHERS], ["error", "warning"])
        self.assertEqual([len(each["pattern"]) for each in MATCHERS], [1, 1])

    def test_each_line(self):
        for finding in findings():
            for path in PATHS:
                line = finding.line(path)
                with self.subTest(line=line):
                    self.judge(path, finding, line)

    def judge(self, path, finding, line):
        """Holds the only match of a line to the finding."""
        [(matcher, found)] = matched(line)
        pattern = matcher["pattern"][0]
        self.assertEqual(matcher["severity"], "error" if finding.fault is not None else "warning")
        place = tuple(found[pattern[name]] for name in ("file", "line", "column"))
        self.assertEqual(place, (path, str(finding.place.line), str(finding.place.column)))
        self.assertEqual("%s:%s:%s: %s" % (*place, found[pattern["message"]]), line)
        if finding.fault is not None:
            self.assertEqual("fault " + found[pattern["code"]], str(finding.fault))

    def test_other_lines(self):
        for line in OTHER_LINES:
            with self.subTest(line=line):
                self.assertEqual(matched(line), [])

    @unittest.skipUnless(shutil.which("node"), "node is not installed")
    def test_in_a_language_with_these_expressions(self):
        lines = [finding.line(path) for finding in findings() for path in PATHS]
        patterns = [each["pattern"][0]["regexp"] for each in MATCHERS]
        text = json.dumps([patterns, lines])
        done = subprocess.run(["node", "-e", IN_NODE], input=text, capture_output=True, text=True, timeout=60)
        self.assertEqual(done.stderr, "")
        self.assertEqual(json.loads(done.stdout), [list(matched(line)[0][1].groups()) for line in lines])


if __name__ == "__main__":
    unittest.main()
