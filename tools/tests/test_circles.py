"""Tests of the notes of tools/explain on circles of waits, and that such a circle can come."""

import glob
import json
import os
import sys
import unittest

sys.path.insert(0, os.path.dirname(os.path.abspath(__file__)))
from sample_runs import EXAMPLES, needs_program, timeline_of, written  # noqa: E402
from library import circles, held, jobs, stalls  # noqa: E402
from library.judging import judge_configuration  # noqa: E402

ORDERED = [{"name": "A", "next": "B"}, {"name": "B", "next": "C"}, {"name": "C"}]


def getting(*spinlocks):
    """A script that gets spinlocks one in another, with an operation while it has all."""
    gets = ["GetSpinlock %s" % name for name in spinlocks]
    return ";".join(gets + ["work"] + ["ReleaseSpinlock %s" % name for name in reversed(spinlocks)])


def task(name, prio, script, **members):
    """A task that autostarts, unless its members say otherwise."""
    return {"name": name, "prio": prio, "auto": ["M"], **members, "script": script + ";TerminateTask"}


def configuration(*cores, modes=("M",)):
    """The text of a configuration: core 0 starts the others."""
    members = [{"id": number, **core} for number, core in enumerate(cores)]
    members[0]["start"] = list(range(1, len(cores)))
    return json.dumps({"modes": list(modes), "spinlocks": ORDERED, "cores": members})


def interrupted(script, isr, low="Low", knock="Knock"):
    """A core with a task and an ISR that can interrupt it."""
    return {"tasks": [task(low, 1, script)], "isrs": [{"name": knock, "level": 1, "script": isr}]}


def holding(*spinlocks, **members):
    """A core with a task that gets spinlocks."""
    return {"tasks": [task("Far", 1, getting(*spinlocks), **members)]}


KNOCK = interrupted(getting("B"), getting("A"))
SUSPENDED = interrupted("SuspendAllInterrupts;%s;ResumeAllInterrupts" % getting("B"), getting("A"))
FAR = "`Far` of core 0 waits for `B` while it holds `A`"

# What the configuration is, and the texts of each circle that is noted.
CASES = [
    ("an ISR", configuration(holding("A", "B"), KNOCK), [[FAR]]),
    ("the ISR keeps to the order", configuration(holding("A", "B"), interrupted(getting("B"), getting("C"))), []),
    ("interrupts are suspended", configuration(holding("A", "B"), SUSPENDED), []),
    ("the ISR only tries", configuration(holding("A", "B"), interrupted(getting("B"), "TryToGetSpinlock A v0")), []),
    ("nobody waits for what is held", configuration(holding("A", "C"), KNOCK), []),
    ("another mode", configuration(holding("A", "B", auto=["N"]), KNOCK, modes=("M", "N")), []),
    (
        "a task",
        configuration(
            {"tasks": [task("Far", 1, getting("A", "B") + ";ActivateTask High")]},
            {"tasks": [task("Low", 1, getting("B")), task("High", 2, getting("A"), auto=[])]},
        ),
        [[FAR]],
    ),
    (
        "three cores",
        configuration(
            holding("A", "B"),
            interrupted(getting("C"), getting("A")),
            {"tasks": [task("Third", 1, getting("B", "C"))]},
        ),
        [[FAR, "`Third` of core 2 waits for `C` while it holds `B`"]],
    ),
    (
        "two ISRs",
        configuration(interrupted(getting("A"), getting("B"), "Under", "Ring"), KNOCK),
        [
            ["`Knock` of core 1 can wait for `A` while `Low` holds `B`"],
            ["`Ring` of core 0 can wait for `B` while `Under` holds `A`"],
        ],
    ),
]

# By these stimuli the circles come, with an interrupt where the task below holds its spinlock.
RUNS = [
    (CASES[0][1], {"0": "op op op", "1": "op irq=Knock op"}),
    (CASES[-2][1], {"0": "op op", "1": "op irq=Knock op", "2": "op op"}),
    (CASES[-1][1], {"0": "op irq=Ring op", "1": "op irq=Knock op"}),
]


def found_in(text):
    """The circles of a configuration: the first part of each by itself, and the texts of the others."""
    draft = judge_configuration(text.encode("utf-8")).draft
    return [[str(edge) for edge in circle[1:]] for circle in circles.circles(draft, held.walks_of(draft))]


class Circles(unittest.TestCase):
    def test_each_case(self):
        for name, text, wanted in CASES:
            with self.subTest(name):
                self.assertEqual(found_in(text), wanted)

    def test_the_note(self):
        judgement = judge_configuration(CASES[0][1].encode("utf-8"))
        notes = [finding.text for finding in judgement.findings if "circle" in finding.text]
        text = "operation 1 `work`: the job can hold `B` here, and `Knock` can interrupt it and wait for `A`; "
        self.assertEqual(notes, [text + FAR + ": a circle of waits can come"])

    def test_the_examples_have_one(self):
        noted = set()
        for path in glob.glob(os.path.join(EXAMPLES, "*", "*.json")):
            with open(path, "rb") as file:
                judgement = judge_configuration(file.read())
            if any("circle of waits" in finding.text for finding in judgement.findings):
                noted.add(os.path.relpath(path, EXAMPLES))
        self.assertEqual(noted, {os.path.join("circle", "config.json")})


@needs_program
class Program(unittest.TestCase):
    def test_each_circle_can_come(self):
        for text, stimuli in RUNS:
            with self.subTest(stimuli), written(text, stimuli) as source:
                stall = stalls.stall_of(jobs.jobs_of(timeline_of(source)))
                self.assertIsNotNone(stall)
                self.assertEqual(len(stall.circles), 1)


if __name__ == "__main__":
    unittest.main()
