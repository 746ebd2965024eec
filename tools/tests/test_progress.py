"""The line of progress, on a terminal of the test's own, and that there is none elsewhere."""

import fcntl
import os
import pty
import struct
import subprocess
import sys
import tempfile
import termios
import unittest

sys.path.insert(0, os.path.dirname(os.path.abspath(__file__)))
from sample_runs import EXAMPLES, PROGRAM, TOOLS, needs_program  # noqa: E402
from library import ending  # noqa: E402

FIRST = [os.path.join(EXAMPLES, "first", name) for name in ("config.json", "stim.json")]
# With these each tool prints something for examples/first.
RUNS = [["stats"], ["gantt"], ["timeline"], ["timeline", "--check", "2"], ["export", "btf"], ["export", "vcd"]]
# What a script begins with; and one whose line comes at once.
BEGIN = "import sys, time; sys.path.insert(0, %r); from library import ending, progress; " % TOOLS
QUICK = BEGIN + "progress.PATIENCE, progress.PAUSE = 0, 0.02\n"
# Runs a tool whose line comes at once.
TOOL = QUICK + "import runpy; sys.argv = sys.argv[1:]; runpy.run_path(sys.argv[0], run_name='__main__')\n"


def on_terminal(script, *words, columns=0):
    """The status and the output of a script, and what it writes to a terminal that is its standard error."""
    master, slave = pty.openpty()
    fcntl.ioctl(slave, termios.TIOCSWINSZ, struct.pack("HHHH", 24, columns, 0, 0))
    line = [sys.executable, "-c", script, *words]
    with subprocess.Popen(line, stdin=subprocess.DEVNULL, stdout=subprocess.PIPE, stderr=slave, text=True) as child:
        os.close(slave)
        seen = b"".join(iter(lambda: read_terminal(master), b""))
        output, _ = child.communicate(timeout=60)
    os.close(master)
    return child.returncode, output, seen.decode("ascii")


def read_terminal(master):
    """What comes next; nothing once the script has ended, which Linux reports as an error."""
    try:
        return os.read(master, 4096)
    except OSError:
        return b""


def screen_of(seen):
    """What a terminal shows in the end."""
    lines = []
    for written in seen.split("\n"):
        shown = ""
        for part in written.split("\r"):
            shown = part + shown[len(part) :]
        lines.append(shown.rstrip(" "))
    return "\n".join(lines)


class Line(unittest.TestCase):
    def test_shown_and_erased(self):
        script = QUICK + "with progress.shown('counting', 7) as work:\n  work.done = 3; time.sleep(0.3)"
        status, _, seen = on_terminal(script)
        self.assertEqual((status, screen_of(seen)), (0, ""))
        self.assertRegex(seen, r"\A(\rcounting, 42 %, 0 s *)+\r +\r\Z")

    def test_without_steps(self):
        script = QUICK + "with progress.shown('counting'):\n  time.sleep(0.2)"
        self.assertRegex(on_terminal(script)[2], r"\A(\rcounting, 0 s)+\r +\r\Z")

    def test_a_shorter_line_covers_a_longer_one(self):
        script = QUICK + "with progress.shown('a long word') as work:\n"
        script += "  time.sleep(0.2); work.text = 'a'; time.sleep(0.2)"
        lines = on_terminal(script)[2].split("\r")
        self.assertIn("a, 0 s".ljust(len("a long word, 0 s")), lines)

    def test_quick_work_shows_nothing(self):
        script = BEGIN + "\nwith progress.shown('counting'):\n  time.sleep(0.2)"
        self.assertEqual(on_terminal(script)[2], "")

    def test_work_of_more_than_two_seconds(self):
        script = BEGIN + "\nwith progress.shown('counting'):\n  time.sleep(2.3)"
        self.assertRegex(on_terminal(script)[2], r"\A\rcounting, 2 s\r +\r\Z")

    def test_the_line_is_never_wrapped(self):
        script = QUICK + "with progress.shown('counting all of it'):\n  time.sleep(0.2)"
        self.assertRegex(on_terminal(script, columns=9)[2], r"\A(\rcounting)+\r {8}\r\Z")

    def test_work_within_work(self):
        script = QUICK + "with progress.shown('outer'), progress.shown('inner'):\n  time.sleep(0.2)\n"
        script += "with progress.shown('behind'):\n  time.sleep(0.2)"
        seen = on_terminal(script)[2]
        self.assertEqual(("outer" in seen, "inner" in seen, "behind" in seen), (True, False, True))

    def test_a_failure(self):
        script = QUICK + "def main():\n"
        script += "  with progress.shown('counting'):\n    time.sleep(0.2); raise ending.Failed('no')\n"
        status, _, seen = on_terminal(script + "sys.exit(ending.ended(main))")
        self.assertIn("counting", seen)
        self.assertEqual((status, screen_of(seen)), (1, "no\n"))

    def test_no_terminal(self):
        script = "with progress.shown('counting') as work:\n  work.done = 3; time.sleep(0.2)"
        for before in ("", "sys.stderr = None\n"):
            with self.subTest(before=before):
                words = [sys.executable, "-c", QUICK + before + script]
                done = subprocess.run(words, capture_output=True, text=True, timeout=60)
                self.assertEqual((done.returncode, done.stdout, done.stderr), (0, "", ""))


@needs_program
class Tools(unittest.TestCase):
    """The tools that look at runs, with a program that takes its time."""

    def setUp(self):
        folder = tempfile.TemporaryDirectory()
        self.addCleanup(folder.cleanup)
        self.slow = os.path.join(folder.name, "mcos")
        ending.save(self.slow, '#!/bin/sh\nsleep 0.1\nexec "%s" "$@"\n' % PROGRAM)
        os.chmod(self.slow, 0o755)

    def test_each(self):
        for tool, *words in RUNS:
            with self.subTest(tool=tool, words=words):
                line = [os.path.join(TOOLS, tool), *words, "--mcos", self.slow, *FIRST]
                done = subprocess.run([sys.executable, *line], capture_output=True, text=True, timeout=60)
                status, output, seen = on_terminal(TOOL, *line)
                self.assertEqual((done.returncode, done.stderr), (0, ""))
                self.assertEqual((status, output), (0, done.stdout))
                self.assertEqual(screen_of(seen), "")
                self.assertIn("running mcos, 33 %, ", seen)
                self.assertIn("running mcos, 66 %, ", seen)
                self.assertEqual("comparing" in seen, "--check" in words)

    def test_a_fault(self):
        limit = os.path.join(EXAMPLES, "faults", "limit.json")
        line = [os.path.join(TOOLS, "stats"), "--mcos", self.slow, limit, FIRST[1]]
        status, output, seen = on_terminal(TOOL, *line)
        self.assertEqual((status, output), (1, ""))
        self.assertIn("running mcos, ", seen)
        self.assertRegex(screen_of(seen), r"\A\S*mcos run \S* \S*: fault 3 Limit; tools/explain .*\n\Z")


if __name__ == "__main__":
    unittest.main()
