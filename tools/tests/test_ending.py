"""How the tools end if the standard output takes no more or is closed, and if a file is not there."""

import os
import subprocess
import sys
import tempfile
import unittest

sys.path.insert(0, os.path.dirname(os.path.abspath(__file__)))
from sample_runs import PROGRAM, ROOT, TOOLS, needs_program  # noqa: E402
from library import ending  # noqa: E402

# Tools that need no program, with words by which each of them prints something.
WORDS = [
    ["border", "examples/first/config.json"],
    ["expand", "examples/first/config.json"],
    ["explain", "examples/faults/limit.json"],
    ["explain", "--json", "examples/faults/limit.json"],
    ["schemas"],
    ["import", "--scripts", "examples/import/scripts.json", "examples/import/Os.arxml", "examples/import/EcuC.arxml"],
]
# Those that run the program, and how.
FIRST = ["examples/first/config.json", "examples/first/stim.json"]
RUNS = [["timeline"], ["timeline", "--check", "1"], ["stats"], ["stats", "--json"], ["export", "vcd"], ["gantt"]]
RUNS += [["stats", "--require", "A lost=0"], ["stats", "--format", "junit", "--require", "A lost=0"]]
RUNS += [["shake", "--schedules", "2", "--processes", "1"], ["shake", "--schedules", "2", "--json"], ["coverage"]]


def shell(command, words):
    """What a shell does by a command in which "$@" stands for a tool with its words."""
    line = ["sh", "-c", command, "sh", os.path.join(TOOLS, words[0]), *words[1:]]
    environment = {**os.environ, "MCOS": PROGRAM}
    return subprocess.run(line, cwd=ROOT, env=environment, capture_output=True, text=True, timeout=60)


class StandardOutput(unittest.TestCase):
    def judge(self, words):
        """Holds a tool to a line on the standard error and status 1."""
        for where, reason in (
            (">/dev/full", "the standard output took no more: No space left on device\n"),
            (">&-", "the standard output is closed\n"),
        ):
            with self.subTest(words=words, where=where):
                done = shell('"$@" ' + where, words)
                self.assertEqual((done.returncode, done.stdout, done.stderr), (1, "", reason))

    def test_of_texts(self):
        for words in WORDS:
            self.judge(words)

    @needs_program
    def test_of_runs(self):
        for words in RUNS:
            self.judge(words + FIRST)

    def test_a_reader_that_ends_early(self):
        for words in WORDS:
            with self.subTest(words=words):
                done = shell('"$@" | true', words)
                self.assertEqual((done.returncode, done.stdout, done.stderr), (0, "", ""))

    def test_a_locale_without_utf8(self):
        with tempfile.TemporaryDirectory() as folder:
            path = os.path.join(folder, "a.json")
            ending.save(path, '"\u00e4"\n')
            done = shell('LC_ALL=C PYTHONCOERCECLOCALE=0 PYTHONUTF8=0 "$@"', ["explain", path])
        self.assertEqual((done.returncode, done.stderr), (1, ""))
        self.assertIn("fault 2 Shape", done.stdout)


class Files(unittest.TestCase):
    def test_read(self):
        with self.assertRaisesRegex(ending.Failed, "^none.json: cannot be read: No such file or directory$"):
            ending.read("none.json")

    def test_save(self):
        with self.assertRaisesRegex(ending.Failed, "^no/such/folder: cannot be written: No such file or directory$"):
            ending.save("no/such/folder", "text")
        with self.assertRaisesRegex(ending.Failed, "^/dev/full: cannot be written: No space left on device$"):
            ending.save("/dev/full", "text")


if __name__ == "__main__":
    unittest.main()
