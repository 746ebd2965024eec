"""Installs below a folder of its own, and runs what is there."""

import os
import subprocess
import sys
import tempfile
import unittest

sys.path.insert(0, os.path.dirname(os.path.abspath(__file__)))
from sample_runs import ENGINE, PROGRAM, ROOT, TOOLS, needs_program  # noqa: E402

# Tools for who develops mcos.
FOR_DEVELOPERS = {"schemas", "test"}


def install(*words, **variables):
    """What ./install does with these words and variables of the environment."""
    environment = {**os.environ, "MCOS": PROGRAM, **variables}
    return subprocess.run([os.path.join(ROOT, "install"), *words], capture_output=True, text=True, env=environment)


def tools():
    """The names of the tools for users."""
    names = [name for name in os.listdir(TOOLS) if "." not in name and os.path.isfile(os.path.join(TOOLS, name))]
    return sorted(set(names) - FOR_DEVELOPERS)


@needs_program
class Install(unittest.TestCase):
    def setUp(self):
        folder = tempfile.TemporaryDirectory()
        self.addCleanup(folder.cleanup)
        self.prefix = folder.name

    def run_installed(self, name, *words):
        """Runs an installed command, with the installed program first on the path."""
        binaries = os.path.join(self.prefix, "bin")
        environment = {"PATH": binaries + os.pathsep + os.environ["PATH"], "HOME": self.prefix}
        return subprocess.run([os.path.join(binaries, name), *words], capture_output=True, text=True, env=environment)

    def test_each_path_that_is_printed_is_a_file(self):
        done = install(self.prefix)
        binaries = os.path.join(self.prefix, "bin")
        self.assertEqual((done.stderr, done.returncode), ("install: %s is not on the path\n" % binaries, 0))
        self.assertEqual(install(self.prefix, PATH=binaries + os.pathsep + os.environ["PATH"]).stderr, "")
        printed = done.stdout.splitlines()
        self.assertEqual([path for path in printed if not os.path.isfile(path)], [])
        installed = {os.path.join(folder, name) for folder, _, names in os.walk(self.prefix) for name in names}
        self.assertEqual(set(printed), installed)

    def test_the_program_and_each_tool_run(self):
        install(self.prefix)
        self.assertEqual(self.run_installed("mcos", "--version").returncode, 0)
        for name in tools():
            with self.subTest(name):
                self.assertEqual(self.run_installed("mcos-" + name, "--help").returncode, 0)

    def test_a_tool_finds_the_installed_program(self):
        install(self.prefix)
        done = self.run_installed("mcos-stats", *ENGINE)
        self.assertEqual((done.stderr, done.returncode), ("", 0))
        self.assertIn("default schedule: ended", done.stdout)

    def test_a_package_has_the_paths_of_its_prefix(self):
        install("/usr", DESTDIR=self.prefix)
        with open(os.path.join(self.prefix, "usr", "bin", "mcos-stats"), encoding="utf-8") as command:
            self.assertIn('exec "/usr/lib/mcos/tools/stats" "$@"', command.read())

    def test_what_is_there_is_replaced(self):
        self.assertEqual(install(self.prefix).returncode, 0)
        self.assertEqual(install(self.prefix).returncode, 0)

    def test_it_tells_what_is_missing_or_wrong(self):
        done = install(self.prefix, MCOS=os.path.join(self.prefix, "none"))
        self.assertEqual((done.stdout, done.returncode), ("", 1))
        self.assertIn("install: no program at ", done.stderr)
        self.assertEqual(install("/proc/none").returncode, 1)
        self.assertEqual(install("one", "two").returncode, 2)
        self.assertEqual(install("--unknown").returncode, 2)
        self.assertEqual(install("--help").returncode, 0)


if __name__ == "__main__":
    unittest.main()
