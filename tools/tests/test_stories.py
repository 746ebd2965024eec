"""Holds what the README of an example quotes to the program: the indented blocks.

A block with lines `$ COMMAND` is a session: each command is followed by what it prints, in a copy of the folder. Any
other block stands so in the folder's `expected`; behind two spaces a line may have a remark.
"""

import glob
import os
import re
import shutil
import subprocess
import sys
import tempfile
import unittest

sys.path.insert(0, os.path.dirname(os.path.abspath(__file__)))
from sample_runs import PROGRAM, ROOT, needs_program  # noqa: E402

STORIES = sorted(glob.glob(os.path.join(ROOT, "examples", "*", "README.md")))


def read(path):
    with open(path, encoding="utf-8") as file:
        return file.read()


def blocks(story):
    """The indented blocks of a text, each a list of its lines."""
    found = re.findall(r"(?:^    .*\n)+", read(story), re.MULTILINE)
    return [[line[4:] for line in block.splitlines()] for block in found]


def is_session(block):
    return block[0].startswith("$ ")


def without_remarks(block):
    return "".join(re.split("  +", line)[0] + "\n" for line in block)


def played(block, folder, environment):
    """The commands of a session, each with what it prints now."""
    lines = []
    for line in block:
        if line.startswith("$ "):
            done = subprocess.run(
                ["sh", "-c", line[2:]], cwd=folder, env=environment, capture_output=True, text=True, timeout=60
            )
            lines += [line] + (done.stdout + done.stderr).splitlines()
    return lines


class Stories(unittest.TestCase):
    def test_there_are_stories(self):
        self.assertTrue(STORIES)

    def test_quoted_lines_are_expected(self):
        for story in STORIES:
            expected = "\n" + read(os.path.join(os.path.dirname(story), "expected"))
            for block in blocks(story):
                if not is_session(block):
                    self.assertIn("\n" + without_remarks(block), expected, story)

    @needs_program
    def test_sessions_print_what_they_say(self):
        for story in STORIES:
            with tempfile.TemporaryDirectory() as scratch:
                folder = shutil.copytree(os.path.dirname(story), os.path.join(scratch, "folder"))
                os.symlink(PROGRAM, os.path.join(scratch, "mcos"))
                environment = {**os.environ, "PATH": scratch + os.pathsep + os.environ["PATH"]}
                for block in filter(is_session, blocks(story)):
                    self.assertEqual(played(block, folder, environment), block, story)


if __name__ == "__main__":
    unittest.main()
