"""Why a run stalled, as `tools/stats` says it: on runs of the program that stall."""

import dataclasses
import json
import os
import runpy
import sys
import unittest

sys.path.insert(0, os.path.dirname(os.path.abspath(__file__)))
import sample_runs  # noqa: E402
from sample_runs import PROGRAM, TOOLS, called, needs_program  # noqa: E402
from library import ending, jobs, runs, stalls, timeline, turns  # noqa: E402

MAIN = runpy.run_path(os.path.join(TOOLS, "stats"))["main"]

# Main of core 0 gets L, and core 0 has no `op` to give it back.
KEPT = """{"spinlocks": [{"name": "L"}], "cores": [
  {"id": 0, "start": [1], "tasks": [
    {"name": "Main", "prio": 1, "auto": ["M"], "script": "GetSpinlock L;ReleaseSpinlock L;TerminateTask"}]},
  {"id": 1, "tasks": [
    {"name": "Poll", "prio": 1, "auto": ["M"],
     "script": "work;GetSpinlock L;ReleaseSpinlock L;TerminateTask"}]}]}"""
POLL_WAITS = "core 1: task Poll, operation 1, waits for the spinlock L, which task Main of core 0 holds"
# Each tick of core 0 sends an envelope to core 1, and one is the most that a mailbox holds.
MAIL = """{"cap": 1, "cores": [
  {"id": 0, "start": [1], "counters": [{"name": "C", "max": 9}],
   "alarms": [
     {"name": "A", "counter": "C", "action": "ActivateTask B", "auto": {"modes": ["M"], "start": 1, "cycle": 1}}]},
  {"id": 1, "tasks": [{"name": "B", "prio": 1, "activations": 9, "script": "TerminateTask"}]}]}"""
NO_OTHER = "core %d: waits for no other core: the schedule ends before its next turn"

CIRCLE_OF_TWO = [
    "core 0: ISR Knock0, operation 0, waits for the spinlock L1, which task Low1 of core 1 holds",
    "core 1: ISR Knock1, operation 0, waits for the spinlock L0, which task Low0 of core 0 holds",
    "core 2: task Late, operation 3, waits for the spinlock L0, which task Low0 of core 0 holds",
    "a circle of spinlocks: core 0 waits for L1 of task Low1 of core 1, core 1 waits for L0 of task Low0 of core 0",
]


def circle(cores):
    """A configuration in which some cores wait for one another in a circle, a further one for the first, and stimuli.

    Core K has the spinlock of its number, and an ISR of it asks for the next one.
    """
    found, stimuli = [{"id": 0, "start": list(range(1, cores + 1))}], {}
    found += [{"id": core} for core in range(1, cores + 1)]
    for core in range(cores):
        script = "GetSpinlock L%d;work;ReleaseSpinlock L%d;TerminateTask" % (core, core)
        found[core]["tasks"] = [{"name": "Low%d" % core, "prio": 1, "auto": ["M"], "script": script}]
        script = "GetSpinlock L%d" % ((core + 1) % cores)
        found[core]["isrs"] = [{"name": "Knock%d" % core, "level": 1, "script": script}]
        stimuli[str(core)] = "op irq=Knock%d op op op op op" % core
    script = "work;work;work;GetSpinlock L0;TerminateTask"
    found[cores]["tasks"] = [{"name": "Late", "prio": 1, "auto": ["M"], "script": script}]
    stimuli[str(cores)] = "op op op op op op"
    spinlocks = [{"name": "L%d" % core} for core in range(cores)]
    return json.dumps({"spinlocks": spinlocks, "cores": found}), stimuli


def example(folder, configuration, stimuli):
    """A run of an example, whose files are copied."""
    texts = (sample_runs.read("examples", folder, name) for name in (configuration, stimuli))
    return sample_runs.written(next(texts), json.loads(next(texts)))


def stall_of(source):
    """Why a run of the program stalled."""
    return stalls.stall_of(jobs.jobs_of(sample_runs.timeline_of(source)))


def lines_of(stall):
    """What is said of a stall."""
    return [each["text"] for part in stall.figures.values() for each in part]


def listed(source, words):
    """The same run by a schedule of these turns, which is written beside its files."""
    path = os.path.join(os.path.dirname(source.configuration), "schedule.json")
    ending.save(path, json.dumps(" ".join(words)))
    return dataclasses.replace(source, schedule=path)


@needs_program
class Spinlocks(unittest.TestCase):
    def test_circles(self):
        for cores in (2, 3):
            with self.subTest(cores=cores), sample_runs.written(*circle(cores)) as source:
                stall = stall_of(source)
                self.assertEqual([wait.core for wait in stall.waits], list(range(cores + 1)))
                self.assertEqual({wait.kind for wait in stall.waits}, {"spinlock"})
                self.assertEqual([[wait.core for wait in each] for each in stall.circles], [list(range(cores))])
                self.assertEqual(stall.kept, ())

    def test_the_text_of_a_circle(self):
        with sample_runs.written(*circle(2)) as source:
            expected = [
                "core 0: ISR Knock0, operation 0, waits for the spinlock L1, which task Low1 of core 1 holds",
                "core 1: ISR Knock1, operation 0, waits for the spinlock L0, which task Low0 of core 0 holds",
                "core 2: task Late, operation 3, waits for the spinlock L0, which task Low0 of core 0 holds",
                "a circle of spinlocks: core 0 waits for L1 of task Low1 of core 1, "
                "core 1 waits for L0 of task Low0 of core 0",
            ]
            self.assertEqual(lines_of(stall_of(source)), expected)

    def test_a_drained_core_keeps_one(self):
        with sample_runs.written(KEPT, {"0": "op", "1": "op op op op"}) as source:
            stall = stall_of(source)
        expected = [
            "core 0: has drained, and waits at the last barrier for core 1",
            POLL_WAITS,
            "the stimuli of core 0 end while task Main holds L: they may be too short, and this is no circle",
        ]
        self.assertEqual(lines_of(stall), expected)
        self.assertEqual(stall.circles, ())

    def test_with_longer_stimuli_it_ends(self):
        with sample_runs.written(KEPT, {"0": "op op", "1": "op op op op"}) as source:
            self.assertIsNone(stall_of(source))
            status, output, _ = called(MAIN, "--mcos", PROGRAM, "--json", source.configuration, source.stimuli)
            self.assertEqual((status, "stalled" in json.loads(output)), (0, False))
            _, output, _ = called(MAIN, "--mcos", PROGRAM, source.configuration, source.stimuli)
            self.assertNotIn("\nStalled\n", output)

    def test_one_that_is_to_be_given_back(self):
        # The job ends, or the core is down.
        for script in ("GetSpinlock L", "GetSpinlock L;ShutdownOS 0"):
            text = KEPT.replace("GetSpinlock L;ReleaseSpinlock L;TerminateTask", script, 1)
            with self.subTest(script=script), sample_runs.written(text, {"0": "op op", "1": "op op op op"}) as source:
                run = runs.read_run(source)
                freed = next(item for item in timeline.timeline_of(run).items if item.text == "freed L")
                stall = stall_of(listed(source, turns.first_turns(run, freed.turn - 1)))
                expected = [NO_OTHER % 0, POLL_WAITS.replace("task Main of core 0 holds", "core 0 has to give back")]
                self.assertEqual((lines_of(stall), stall.kept, stall.circles), (expected, (), ()))

    def test_a_halt_drops_the_call(self):
        with example("spinlocks", "halt.json", "halt_stimuli.json") as source:
            run = runs.read_run(source)
            halt = next(item for item in timeline.timeline_of(run).by_core[1] if item.words[0] == "halt")
            before, behind = (stall_of(listed(source, turns.first_turns(run, halt.turn - n))) for n in (1, 0))
        self.assertIn("core 1: task Send, operation 0, waits for the spinlock Bus", lines_of(before)[1])
        self.assertEqual(lines_of(behind)[1], NO_OTHER % 1)


@needs_program
class Listed(unittest.TestCase):
    """Schedules that end too early."""

    def test_barriers(self):
        with sample_runs.written(KEPT, {"0": "op"}) as source:
            for words, expected in (
                ("", [NO_OTHER % 0, "core 1: is not started yet, and waits for core 0"]),
                ("0o 0o", ["core 0: waits at the first barrier for core 1", NO_OTHER % 1]),
                ("0o 1l 1o", [NO_OTHER % 0, "core 1: waits at the first barrier for core 0"]),
                ("0o 1l 0o 1o 0l 1l 0o", ["core 0: waits at the second barrier for core 1", NO_OTHER % 1]),
                ("0o 1l 0o 1o", [NO_OTHER % 0, NO_OTHER % 1]),
            ):
                with self.subTest(words=words):
                    self.assertEqual(lines_of(stall_of(listed(source, words.split(" ") if words else []))), expected)

    def test_a_reply(self):
        expected = "core 0: task A, operation 0, waits for the reply of core 1 to ActivateTask B"
        with example("first", "config.json", "stim.json") as source:
            run = runs.read_run(source)
            # Turn 26 sends the request, and the reply comes in turn 37.
            for turn in (26, 32, 34, 36):
                lines = lines_of(stall_of(listed(source, turns.first_turns(run, turn))))
                self.assertEqual(lines[0], expected)
            self.assertEqual(lines_of(stall_of(listed(source, turns.first_turns(run, 37))))[0], NO_OTHER % 0)

    def test_a_full_mailbox(self):
        words = "0o 1l 0o 1o 0l 1l 0o 1o 0l 1l 0o 0o 0o"
        with sample_runs.written(MAIL, {"0": "tick tick"}) as source:
            lines = lines_of(stall_of(listed(source, words.split(" "))))
            self.assertEqual(lines, ["core 0: waits for room in the mailbox to core 1", NO_OTHER % 1])
            # The envelope is served, but core 0 takes no further turn.
            lines = lines_of(stall_of(listed(source, [*words.split(" "), "1s0"])))
            self.assertEqual(lines, [NO_OTHER % 0, NO_OTHER % 1])

    def test_each_prefix(self):
        with sample_runs.written(KEPT, {"0": "op op", "1": "op op op op"}) as source:
            run = runs.read_run(source)
            for count in range(0, timeline.timeline_of(run).turns, 5):
                with self.subTest(count=count):
                    self.judge(source, turns.first_turns(run, count))

    def judge(self, source, words):
        """Holds a stall to the program: who has not ended, and who can do something by a turn of its own."""
        found = runs.read_run(listed(source, words))
        stall = stalls.stall_of(jobs.jobs_of(timeline.timeline_of(found)))
        ended = [core for core, log in found.logs.items() if log[-1:] == ("last",)]
        self.assertEqual([wait.core for wait in stall.waits], [core for core in (0, 1) if core not in ended])
        for wait in stall.waits:
            logs = []
            for turn in ("%do", "%dl"):
                further = listed(source, [*words, turn % wait.core])
                logs.append(tuple(further.printed("--items", str(wait.core)).text.splitlines()))
            self.assertEqual(wait.kind == stalls.TURN, any(log != found.logs[wait.core] for log in logs), wait)


@needs_program
class Examples(unittest.TestCase):
    def test_those_that_stall(self):
        for source in sample_runs.sources():
            with self.subTest(source=source):
                run = runs.read_run(source)
                stall = stalls.stall_of(jobs.jobs_of(timeline.timeline_of(run)))
                self.assertEqual(stall is None, run.has_ended)

    def test_short(self):
        folder = os.path.join(sample_runs.EXAMPLES, "listed")
        words = [os.path.join(folder, name) for name in ("short.json", "config.json", "stimuli.json")]
        status, output, messages = called(MAIN, "--mcos", PROGRAM, "--schedule", *words)
        self.assertEqual((status, messages), (0, ""))
        self.assertIn("\n\nStalled\n  %s\n  %s\n\nCores\n" % (NO_OTHER % 0, NO_OTHER % 1), output)

    def test_the_lines(self):
        with sample_runs.written(*circle(2)) as source:
            self.assertEqual(lines_of(stall_of(source)), CIRCLE_OF_TWO)


if __name__ == "__main__":
    unittest.main()
