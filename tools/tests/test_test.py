"""Holds tools/test to what it says: its last line, its reasons and its exit status."""

import os
import shutil
import subprocess
import sys
import tempfile
import unittest

TOOLS = os.path.dirname(os.path.dirname(os.path.abspath(__file__)))

PASSES = """
import unittest
class Passes(unittest.TestCase):
    def test_one(self):
        print("noise")
    @unittest.expectedFailure
    def test_two(self):
        self.fail()
"""
FAILS = """
import unittest
class Fails(unittest.TestCase):
    def test_wrong(self):
        self.fail("told so")
    def test_parts(self):
        for part in (1, 2):
            with self.subTest(part=part):
                self.fail()
    @unittest.expectedFailure
    def test_passes(self):
        pass
"""
SKIPS = """
import unittest
@unittest.skip("no such thing here")
class Skips(unittest.TestCase):
    def test_one(self):
        pass
"""
BROKEN = "import no_such_module\n"

# The files of tools/tests, the words behind tools/test, its last line, and its status.
CASES = [
    ({}, [], "0 passed, 0 failed, 0 skipped", 1),
    ({"test_a.py": PASSES}, [], "2 passed, 0 failed, 0 skipped", 0),
    ({"test_a.py": FAILS}, [], "0 passed, 3 failed, 0 skipped", 1),
    ({"test_a.py": SKIPS}, [], "0 passed, 0 failed, 1 skipped", 0),
    ({"test_a.py": BROKEN, "test_b.py": PASSES}, [], "2 passed, 1 failed, 0 skipped", 1),
    ({"test_a.py": PASSES, "test_b.py": FAILS, "test_c.py": SKIPS}, [], "2 passed, 3 failed, 1 skipped", 1),
    ({"test_a.py": PASSES, "test_b.py": FAILS}, ["a"], "2 passed, 0 failed, 0 skipped", 0),
    ({"helper.py": FAILS, "test_a.py": PASSES}, [], "2 passed, 0 failed, 0 skipped", 0),
]


def run(files, words):
    """Runs tools/test in a folder that has these files as its tests; the lines that it prints, and its status."""
    with tempfile.TemporaryDirectory() as folder:
        shutil.copy(os.path.join(TOOLS, "test"), folder)
        os.mkdir(os.path.join(folder, "tests"))
        for name, text in files.items():
            with open(os.path.join(folder, "tests", name), "w", encoding="utf-8") as file:
                file.write(text)
        command = [sys.executable, os.path.join(folder, "test"), *words]
        done = subprocess.run(command, capture_output=True, text=True, timeout=60)
    return done.stdout.splitlines(), done.returncode


class Runner(unittest.TestCase):
    def test_counts_and_status(self):
        for files, words, last_line, status in CASES:
            with self.subTest(files=list(files), words=words, last_line=last_line):
                lines, returned = run(files, words)
                self.assertEqual((lines[-1], returned), (last_line, status))

    def test_reason_of_a_skip(self):
        lines, _ = run({"test_a.py": SKIPS}, [])
        self.assertIn("skipped test_a.Skips.test_one: no such thing here", lines)

    def test_failures_are_shown_and_noise_is_not(self):
        lines, _ = run({"test_a.py": PASSES, "test_b.py": FAILS}, [])
        self.assertIn("AssertionError: told so", lines)
        self.assertNotIn("noise", lines)

    def test_a_name_without_a_file_is_wrong_usage(self):
        self.assertEqual(run({"test_a.py": PASSES}, ["b"]), ([], 2))


if __name__ == "__main__":
    unittest.main()
