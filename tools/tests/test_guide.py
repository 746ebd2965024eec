"""Runs docs/GUIDE.md in an empty folder: writes its files, runs its commands, and compares what they print."""

import os
import re
import subprocess
import sys
import tempfile
import unittest
from dataclasses import dataclass
from typing import Iterator, List, Union

sys.path.insert(0, os.path.dirname(os.path.abspath(__file__)))
from sample_runs import PROGRAM, ROOT, needs_program  # noqa: E402

GUIDE = os.path.join(ROOT, "docs", "GUIDE.md")
# A paragraph that ends so names the file that follows it.
NAMES_A_FILE = re.compile(r"This is `([\w.]+)`:$")
LEFT_OUT = ".."


@dataclass(frozen=True)
class File:
    name: str
    text: str


@dataclass(frozen=True)
class Command:
    words: str
    printed: List[str]


def blocks(document: str) -> Iterator[List[str]]:
    """The indented blocks of a document, each behind the paragraph before it. Within one, empty lines count."""
    for part in re.split(r"\n\n(?=\S)", document):
        paragraph, *rest = re.split(r"\n\n(?= {4})", part)
        yield [paragraph.splitlines()[-1], *(line[4:] for line in "\n\n".join(rest).splitlines())]


def steps(document: str) -> Iterator[Union[File, Command]]:
    """The files and the commands of the guide, in their order."""
    for before, *lines in blocks(document):
        named = NAMES_A_FILE.search(before)
        commands = [at for at, line in enumerate(lines) if line.startswith("$ ")]
        if named:
            yield File(named.group(1), "\n".join(lines[: commands[0] if commands else None]).rstrip("\n") + "\n")
        for at, end in zip(commands, commands[1:] + [len(lines)]):
            yield Command(lines[at][2:], lines[at + 1 : end])


def matches(wanted: List[str], printed: List[str]) -> bool:
    """Whether these lines were printed, where `..` stands for any."""
    pattern = "".join(r"(.*\n)*" if line == LEFT_OUT else re.escape(line) + r"\n" for line in wanted)
    return re.fullmatch(pattern, "".join(line + "\n" for line in printed)) is not None


@needs_program
class Guide(unittest.TestCase):
    def setUp(self):
        folder = tempfile.TemporaryDirectory()
        self.addCleanup(folder.cleanup)
        self.folder = os.path.join(folder.name, "work")
        os.mkdir(self.folder)
        installed = os.path.join(folder.name, "installed")
        environment = {**os.environ, "MCOS": PROGRAM}
        subprocess.run([os.path.join(ROOT, "install"), installed], check=True, capture_output=True, env=environment)
        path = os.path.join(installed, "bin") + os.pathsep + os.environ["PATH"]
        self.environment = {**os.environ, "PATH": path, "MCOS": ""}

    def play(self, step):
        if isinstance(step, File):
            with open(os.path.join(self.folder, step.name), "w", encoding="utf-8") as file:
                file.write(step.text)
            return
        words = ["sh", "-c", step.words]
        done = subprocess.run(words, cwd=self.folder, env=self.environment, capture_output=True, text=True)
        printed = (done.stdout + done.stderr).splitlines()
        if not matches(step.printed, printed):
            self.assertEqual(printed, step.printed, step.words)

    def test_each_command_prints_what_stands_there(self):
        with open(GUIDE, encoding="utf-8") as document:
            found = list(steps(document.read()))
        self.assertGreater(len([step for step in found if isinstance(step, Command)]), 15)
        for step in found:
            with self.subTest(step):
                self.play(step)


if __name__ == "__main__":
    unittest.main()
