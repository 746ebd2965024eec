"""What `tools/coverage` counts: by hand on a small run, and by what the program prints on the examples."""

import json
import os
import runpy
import sys
import unittest

sys.path.insert(0, os.path.dirname(os.path.abspath(__file__)))
import documents  # noqa: E402
import help_texts  # noqa: E402
import sample_runs  # noqa: E402
from sample_runs import PROGRAM, TOOLS, called, first_run, needs_program, point_run  # noqa: E402
from library import coverage_text, covering, formats, runs, statuses  # noqa: E402
from library.covering import Seen, Spot  # noqa: E402

COVERAGE = runpy.run_path(os.path.join(TOOLS, "coverage"))
MAIN = COVERAGE["main"]
INTERRUPTS = os.path.join(sample_runs.EXAMPLES, "interrupts")

# A task whose `jz` never jumps in its first job, and jumps in its second one; with an operation behind a `jump`.
WAYS = """{"cores": [{"id": 0, "tasks": [
  {"name": "T", "prio": 1, "auto": ["M"], "script": "add v0 1;add v1 -1;jz v%d 5;jump 6;work;work;TerminateTask"},
  {"name": "U", "prio": 2, "script": "TerminateTask"}]}]}"""
NEVER = """\
  core 0  task T  operation 2 `jz v%d 5` never %s
  core 0  task T  operation %s
  core 0  task T  operation 4 `work`
"""
# A core that is off, with a task and an alarm.
OFF = """{"cores": [{"id": 0}, {"id": 1,
  "counters": [{"name": "C", "max": 9}],
  "alarms": [{"name": "A", "counter": "C", "action": "ActivateTask T"}],
  "tasks": [{"name": "T", "prio": 1, "script": "TerminateTask"}, {"name": "N", "prio": 1, "script": ""}]}]}"""
WRONG_USAGE = [(), ("a",), ("a", "b", "--require", "101"), ("a", "b", "--require", "-1"), ("a", "b", "--require", "x")]


def coverage_of(run):
    """The coverage of one run."""
    seen = Seen(run.draft)
    seen.add(run)
    return covering.coverage_of(seen)


def kinds(found):
    """By kind how much there is, and how much of it is seen."""
    return {row["kind"]: (row["all"], row["seen"]) for row in found["kinds"]}


def covered(*words, files):
    """The status, the output and the messages of the script."""
    return called(MAIN, "--mcos", PROGRAM, *words, *files)


class Statuses(unittest.TestCase):
    def test_each_service_has_some(self):
        services = {name for name, each in formats.OPERATIONS.items() if each.is_service}
        self.assertEqual(services, set(statuses.CHECKED))

    def test_statuses(self):
        self.assertEqual(statuses.statuses_of("GetCounterValue"), ("E_OK", "E_OS_DISABLEDINT", "E_OS_ID"))
        self.assertEqual(statuses.statuses_of("GetSpinlock")[:2], ("E_OK", "E_OS_ID"))
        self.assertEqual(statuses.statuses_of("StartCore"), ("E_OS_DISABLEDINT", "E_OS_ID", "E_OS_ACCESS"))
        self.assertEqual(statuses.statuses_of("work"), ())


class Counts(unittest.TestCase):
    def test_first(self):
        found = coverage_of(first_run())
        self.assertEqual((found["all"], found["seen"], found["share"]), (3, 3, 100.0))
        self.assertEqual((found["never"], found["off"]), ([], []))
        times = {(row["service"], row["status"]): row["times"] for row in found["services"] if row["times"]}
        self.assertEqual(times, {("ActivateTask", "E_OK"): 1, ("TerminateTask", "E_OK"): 2})

    def test_a_point(self):
        run = point_run()
        seen = Seen(run.draft)
        seen.add(run)
        self.assertEqual(seen.spots, {Spot("point", 0, "S", 0)})
        wanted = {"operation": (2, 0), "way": (0, 0), "alarm": (0, 0), "point": (1, 1)}
        self.assertEqual(kinds(covering.coverage_of(seen)), wanted)

    def test_nothing_to_see(self):
        found = coverage_of(runs.run_of('{"cores": [{"id": 0}]}', {0: []}, {0: []}))
        self.assertEqual((found["all"], found["share"]), (0, 100.0))
        self.assertIn("Never seen\n  nothing\n\nServices\n  none\n", coverage_text.text_of(found))

    def test_a_core_that_is_off(self):
        text = coverage_text.text_of(coverage_of(runs.run_of(OFF, {0: [], 1: []}, {0: [], 1: []})))
        self.assertIn("core 1, off  task T   never ran, 1 operation\n  core 1, off  alarm A  never expired\n", text)


class WrongUsage(unittest.TestCase):
    def test_wrong_usage(self):
        for words in WRONG_USAGE:
            with self.subTest(words=words):
                self.assertEqual(called(MAIN, *words)[:2], (2, ""))


class Documents(unittest.TestCase):
    def test_the_section_has_each_option(self):
        options = help_texts.options(COVERAGE["command_words"]())
        self.assertEqual(help_texts.usage("coverage"), options)
        self.assertEqual(help_texts.described("coverage"), set(options) - {"--mcos"})

    @needs_program
    def test_the_example(self):
        lines = documents.part("`tools/coverage --require 95 config.json stimuli.json` prints, in part,")
        files = [os.path.join(INTERRUPTS, name) for name in ("config.json", "stimuli.json")]
        status, output, messages = covered("--require", "95", files=files)
        self.assertEqual((status, messages), (1, ""))
        self.assertTrue(documents.is_part_of(lines, output), output)
        self.assertIn("\n  ActivateTask   2 E_OK, 1 E_OS_DISABLEDINT  E_OS_ID, E_OS_CORE, E_OS_LIMIT\n", output)


@needs_program
class Runs(unittest.TestCase):
    def test_ways(self):
        for variable, way, operation in ((0, "jumps", "5 `work`"), (7, "goes on", "3 `jump 6`")):
            with self.subTest(way=way), sample_runs.written(WAYS % variable, {"0": "op op op op op op"}) as source:
                text = coverage_text.text_of(coverage_of(runs.read_run(source)))
                never = text.split("Never seen\n")[1].split("\n\n")[0].splitlines()
                wanted = (NEVER % (variable, way, operation)).splitlines()
                wanted.append("  core 0  task U  never ran, 1 operation")
                self.assertEqual(sorted(never), sorted(wanted))

    def test_several_runs_together(self):
        with sample_runs.written(WAYS % 0, {"0": "op op"}) as source:
            shares = []
            for words in ((), ("op",), ("op", "op"), ("op",) * 4):
                path = source.stimuli + str(len(words))
                with open(path, "w", encoding="utf-8") as file:
                    json.dump({"0": " ".join(words)}, file)
                shares.append(json.loads(covered("--json", files=[source.configuration, path])[1])["seen"])
            whole = json.loads(covered("--json", files=[source.configuration, path, source.stimuli])[1])
            self.assertEqual((shares, whole["seen"]), ([0, 1, 2, 5], 5))
            self.assertEqual([run["stimuli"] for run in whole["runs"]], [path, source.stimuli])

    def test_a_schedule_shows_more(self):
        files = [os.path.join(sample_runs.EXAMPLES, "circle", name) for name in ("config.json", "stimuli.json")]
        schedule = os.path.join(sample_runs.EXAMPLES, "circle", "schedule.json")
        alone, both = (
            json.loads(covered("--json", *words, files=files)[1]) for words in ((), ("--schedule", schedule))
        )
        self.assertEqual([run["schedule"] for run in both["runs"]], [None, schedule])
        times = [sum(row["times"] for row in found["services"]) for found in (alone, both)]
        self.assertGreater(times[1], times[0])

    def test_require(self):
        files = [os.path.join(INTERRUPTS, name) for name in ("config.json", "stimuli.json")]
        for percent, status, line in (("92.8", 0, "met: 92.8 % seen (13 of 14)"), ("93", 1, "not met: 93 % seen")):
            with self.subTest(percent=percent):
                found = covered("--require", percent, files=files)
                self.assertEqual(found[0], status)
                self.assertTrue(found[1].splitlines()[-1].startswith(line))
                self.assertEqual(covered("--json", "--require", percent, files=files)[0], status)

    def test_a_fault(self):
        status, output, messages = covered(files=sample_runs.ENGINE[:1] * 2)
        self.assertEqual((status, output), (1, ""))
        self.assertIn("fault 12 BadStimulus; tools/explain says where", messages)

    def test_the_statuses_of_the_examples(self):
        """Each status of a job's service is one of its own, and each line `stat` is counted."""
        for source in sample_runs.sources():
            run = runs.read_run(source)
            seen = Seen(run.draft)
            seen.add(run)
            with self.subTest(files=[source.configuration, source.stimuli]):
                for service, status in seen.statuses:
                    if service in statuses.CHECKED:
                        self.assertIn(status, statuses.statuses_of(service))
                lines = [line.split(" ") for block in run.blocks.values() for line in block if line.startswith("stat ")]
                counted = {(words[2], words[3]) for words in lines}
                self.assertLessEqual(counted, set(seen.statuses))
                for service, status in counted:
                    times = sum((words[2], words[3]) == (service, status) for words in lines)
                    self.assertLessEqual(times, seen.statuses[service, status])


if __name__ == "__main__":
    unittest.main()
