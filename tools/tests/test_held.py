"""Tests of the notes of tools/explain on what jobs hold: they are what a run of the program answers."""

import json
import os
import re
import sys
import unittest
from typing import List

sys.path.insert(0, os.path.dirname(os.path.abspath(__file__)))
from sample_runs import ROOT, needs_program, timeline_of, written  # noqa: E402
from library import held  # noqa: E402
from library.judging import judge_configuration  # noqa: E402

# One core and a second one that is off; %s is the script of its task, and then that of its ISR.
FRAME = """\
{"spinlocks": [{"name": "X", "next": "Y"}, {"name": "Y", "next": "Z"}, {"name": "Z"}],
 "cores": [
  {"id": 0, "resources": [{"name": "Low", "ceiling": 0}, {"name": "R", "ceiling": 1}, {"name": "S", "ceiling": 2}],
   "tasks": [{"name": "T", "prio": 1, "extended": true, "auto": ["M"], "script": "%s"},
             {"name": "B", "prio": 0, "activations": 2, "script": "TerminateTask"}],
   "isrs": [{"name": "I", "level": 1, "script": "%s"}]},
  {"id": 1, "tasks": [{"name": "Far", "prio": 1, "script": "TerminateTask"}]}]}
"""
# Scripts of the task, with the operations that are refused for what it holds.
SCRIPTS = (
    # Resources.
    ("GetResource R;work;TerminateTask", ("2 the job holds the resource `R`: E_OS_RESOURCE",)),
    ("GetResource R;ChainTask B", ("1 the job holds the resource `R`: E_OS_RESOURCE",)),
    ("GetResource R;Schedule;ReleaseResource R;TerminateTask", ("1 the job holds the resource `R`: E_OS_RESOURCE",)),
    ("GetResource R;WaitEvent 1;ReleaseResource R;TerminateTask", ("1 the job holds the resource `R`: E_OS_RESOURCE",)),
    (
        "GetResource S;GetResource R;WaitEvent 1;ReleaseResource R;ReleaseResource S;TerminateTask",
        ("2 the job holds the resources `S` and `R`: E_OS_RESOURCE",),
    ),
    ("GetResource R;ReleaseResource R;TerminateTask", ()),
    ("ReleaseResource R;TerminateTask", ("0 the job does not hold `R`: E_OS_NOFUNC",)),
    (
        "GetResource R;GetResource S;ReleaseResource R;ReleaseResource S;ReleaseResource R;TerminateTask",
        ("2 the job still holds `S`, which it took later: E_OS_NOFUNC",),
    ),
    (
        "GetResource R;GetResource R;ReleaseResource R;TerminateTask",
        ("1 the job holds `R` already: E_OS_ACCESS",),
    ),
    # Spinlocks.
    ("GetSpinlock X;TerminateTask", ("1 the job holds the spinlock `X`: E_OS_SPINLOCK",)),
    ("GetSpinlock X;Schedule;ReleaseSpinlock X;TerminateTask", ("1 the job holds the spinlock `X`: E_OS_SPINLOCK",)),
    (
        "GetSpinlock X;GetSpinlock Z;WaitEvent 1;ReleaseSpinlock Z;ReleaseSpinlock X;TerminateTask",
        ("2 the job holds the spinlocks `X` and `Z`: E_OS_SPINLOCK",),
    ),
    (
        "GetResource R;GetSpinlock X;Schedule;ReleaseSpinlock X;ReleaseResource R;TerminateTask",
        ("2 the job holds the resource `R`: E_OS_RESOURCE",),
    ),
    (
        "GetSpinlock Y;GetSpinlock X;ReleaseSpinlock Y;TerminateTask",
        ("1 the job holds `Y`, and by `next` `X` does not come after it: E_OS_NESTING_DEADLOCK",),
    ),
    (
        "GetSpinlock X;GetSpinlock Z;GetSpinlock Y;ReleaseSpinlock Z;ReleaseSpinlock X;TerminateTask",
        ("2 the job holds `Z`, and by `next` `Y` does not come after it: E_OS_NESTING_DEADLOCK",),
    ),
    (
        "GetSpinlock Z;TryToGetSpinlock X v0;ReleaseSpinlock Z;TerminateTask",
        ("1 the job holds `Z`, and by `next` `X` does not come after it: E_OS_NESTING_DEADLOCK",),
    ),
    (
        "GetSpinlock X;GetSpinlock X;ReleaseSpinlock X;TerminateTask",
        ("1 the job holds `X` already: E_OS_INTERFERENCE_DEADLOCK",),
    ),
    ("ReleaseSpinlock X;TerminateTask", ("0 the job does not hold `X`: E_OS_STATE",)),
    (
        "GetSpinlock X;GetSpinlock Y;ReleaseSpinlock X;ReleaseSpinlock Y;ReleaseSpinlock X;TerminateTask",
        ("2 the job still holds `Y`, which it got later: E_OS_NOFUNC",),
    ),
    # What another check refuses first is not noted for what is held.
    ("GetResource R;ChainTask ?;ReleaseResource R;TerminateTask", ()),
    ("GetResource R;ChainTask Far;ReleaseResource R;TerminateTask", ()),
    ("GetResource ?;ReleaseResource ?;GetSpinlock ?;ReleaseSpinlock ?;TerminateTask", ()),
    ("GetResource Low;ReleaseResource Low;TerminateTask", ()),
    ("GetResource R;SuspendAllInterrupts;WaitEvent 1;ResumeAllInterrupts;ReleaseResource R;TerminateTask", ()),
    # The services of spinlocks act while interrupts are suspended.
    (
        "SuspendAllInterrupts;GetSpinlock X;ReleaseSpinlock Y;ReleaseSpinlock X;ResumeAllInterrupts;TerminateTask",
        ("2 the job does not hold `Y`: E_OS_STATE",),
    ),
    # The answer of a TryToGetSpinlock is followed.
    ("TryToGetSpinlock X v0;jz v0 0;ReleaseSpinlock X;TerminateTask", ()),
    ("TryToGetSpinlock X v0;jz v0 3;ReleaseSpinlock X;TerminateTask", ()),
    (
        "TryToGetSpinlock X v0;jz v0 4;Schedule;ReleaseSpinlock X;TerminateTask",
        ("2 the job holds the spinlock `X`: E_OS_SPINLOCK",),
    ),
    (
        "TryToGetSpinlock X v0;jz v0 3;jump 4;ReleaseSpinlock X;ReleaseSpinlock X;TerminateTask",
        ("3 the job does not hold `X`: E_OS_STATE", "4 after operation 3 the job does not hold `X`: E_OS_STATE"),
    ),
    ("TryToGetSpinlock X v0;add v0 0;jz v0 4;ReleaseSpinlock X;TerminateTask", ()),
    ("TryToGetSpinlock X v0;TerminateTask", ()),
    # So is whether a service was refused.
    ("GetResource R;status v0;jz v0 4;TerminateTask;ReleaseResource R;TerminateTask", ()),
    ("GetSpinlock X;status v0;jz v0 4;TerminateTask;ReleaseSpinlock X;TerminateTask", ()),
    (
        "GetResource R;GetResource R;status v0;jz v0 6;ReleaseResource R;TerminateTask;TerminateTask",
        ("1 the job holds `R` already: E_OS_ACCESS",),
    ),
    # Two ways, of which one takes the resource, and each asks for the same variable.
    ("jz v0 2;GetResource R;work;jz v0 5;ReleaseResource R;TerminateTask", ()),
    ("jz v0 2;GetResource R;add v0 1;jz v0 5;ReleaseResource R;TerminateTask", ()),
    # Loops: what was forgotten shows when a job comes there again.
    (
        "WaitEvent 1;GetSpinlock X;work;jump 0",
        ("0 after operation 3 the job holds the spinlock `X`: E_OS_SPINLOCK",),
    ),
    (
        "WaitEvent 1;jz v0 4;GetResource R;jump 0;GetSpinlock X;jump 0",
        (
            "0 after operation 3 the job holds the resource `R`: E_OS_RESOURCE; and "
            "after operation 5 the job holds the spinlock `X`: E_OS_SPINLOCK",
        ),
    ),
    (
        "ReleaseResource R;GetResource R;work;jump 0",
        ("0 at its beginning the job does not hold `R`: E_OS_NOFUNC",),
    ),
    ("WaitEvent 1;GetSpinlock X;work;ReleaseSpinlock X;jump 0", ()),
    # On some ways alone.
    ("jz v0 2;GetResource R;work;WaitEvent 1;TerminateTask", ()),
    (
        "jz v0 2;GetResource R;WaitEvent 1;set v0 1;TerminateTask",
        ("2 after operation 1 the job holds the resource `R`: E_OS_RESOURCE",),
    ),
    (
        "jz v0 3;GetSpinlock X;jump 4;GetResource R;work;Schedule;TerminateTask",
        (
            "5 the job holds the resource `R`: E_OS_RESOURCE; or the job holds the spinlock `X`: E_OS_SPINLOCK",
            "6 the job holds the resource `R`: E_OS_RESOURCE; or the job holds the spinlock `X`: E_OS_SPINLOCK",
        ),
    ),
    # What no job comes to.
    ("TerminateTask;ReleaseResource R", ()),
    ("ShutdownOS 3;ReleaseResource R", ()),
    # ChainTask of another task can be refused; that of the own one cannot.
    ("ChainTask T;ReleaseResource R", ()),
    ("ChainTask B;ReleaseResource R;TerminateTask", ("1 the job does not hold `R`: E_OS_NOFUNC",)),
)
ISR_SCRIPTS = (
    ("GetSpinlock X;ReleaseSpinlock X", ()),
    ("GetSpinlock X;TerminateTask;ReleaseSpinlock X", ()),
    ("GetSpinlock Y;ReleaseSpinlock X;ReleaseSpinlock Y", ("1 the job does not hold `X`: E_OS_STATE",)),
)
# Of each of the examples the notes on what jobs hold: they are refused on purpose.
EXAMPLES = {
    "events/refusals.json": ("4 E_OS_RESOURCE",),
    "resources/holder.json": ("2 E_OS_RESOURCE",),
    "resources/refusals.json": ("3 E_OS_ACCESS", "5 E_OS_NOFUNC", "7 E_OS_RESOURCE"),
    "spinlocks/config.json": ("1 E_OS_INTERFERENCE_DEADLOCK", "2 E_OS_NESTING_DEADLOCK", "3 E_OS_SPINLOCK"),
}
# A core with the tasks and ISRs of a case and an alarm with its action, and a second core that gets both spinlocks.
PAIR_FRAME = """\
{"modes": ["M", "N"], "spinlocks": [{"name": "X", "next": "Y"}, {"name": "Y"}],
 "cores": [
  {"id": 0, "start": [1], "counters": [{"name": "C", "max": 9}],
   "resources": [{"name": "R", "ceiling": 2}],
   "tasks": [%s], "isrs": [%s],
   "alarms": [{"name": "A", "counter": "C", "action": "ActivateTask %s",
               "auto": {"modes": ["M"], "start": 3, "cycle": 3}}]},
  {"id": 1, "tasks": [{"name": "Far", "prio": 1, "auto": ["M", "N"],
    "script": "GetSpinlock X;GetSpinlock Y;ReleaseSpinlock Y;ReleaseSpinlock X;TerminateTask"}]}]}
"""
TASK = '{"name": "%s", "prio": %d, %s"script": "%s"}'
END = "TerminateTask"
LONG = "GetSpinlock X;work;work;work;ReleaseSpinlock X;" + END
SHORT = "GetSpinlock X;ReleaseSpinlock X;" + END
AUTO, NONE = '"auto": ["M"], ', ""
LOW = TASK % ("Low", 1, AUTO, LONG)
PREEMPTED = ("1 `High` can preempt",)


def tasks(*members):
    """The tasks of a pair's configuration."""
    return ", ".join(members)


PAIRS = (
    ("an alarm", tasks(LOW, TASK % ("High", 2, NONE, SHORT)), "", "High", PREEMPTED),
    ("an equal priority", tasks(LOW, TASK % ("High", 1, NONE, SHORT)), "", "High", ()),
    ("what only autostarts has run", tasks(LOW, TASK % ("High", 2, AUTO, SHORT)), "", "Low", ()),
    (
        "what only autostarts and goes on by itself",
        tasks(LOW, TASK % ("High", 2, AUTO, SHORT.replace("TerminateTask", "ChainTask High"))),
        "",
        "Low",
        (),
    ),
    (
        "the holder activates it",
        tasks(TASK % ("Low", 1, AUTO, LONG.replace("work", "ActivateTask High", 1)), TASK % ("High", 2, NONE, SHORT)),
        "",
        "Low",
        PREEMPTED,
    ),
    (
        "the holder activates it before",
        tasks(TASK % ("Low", 1, AUTO, "ActivateTask High;" + LONG), TASK % ("High", 2, NONE, SHORT)),
        "",
        "Low",
        (),
    ),
    (
        "it waits for an event of the alarm's task",
        tasks(
            LOW,
            TASK % ("High", 2, AUTO + '"extended": true, ', "WaitEvent 1;" + SHORT),
            TASK % ("Top", 3, NONE, "SetEvent High 1;TerminateTask"),
        ),
        "",
        "Top",
        PREEMPTED,
    ),
    (
        "a lower task activates it",
        tasks(LOW, TASK % ("High", 2, NONE, SHORT), TASK % ("Idle", 0, AUTO, "ActivateTask High;TerminateTask")),
        "",
        "Low",
        (),
    ),
    (
        "not preemptable",
        tasks(TASK % ("Low", 1, AUTO + '"preemptable": false, ', LONG), TASK % ("High", 2, NONE, SHORT)),
        "",
        "High",
        (),
    ),
    (
        "a ceiling",
        tasks(
            TASK % ("Low", 1, AUTO, "GetResource R;GetSpinlock X;work;ReleaseSpinlock X;ReleaseResource R;" + END),
            TASK % ("High", 2, NONE, SHORT),
        ),
        "",
        "High",
        (),
    ),
    (
        "a resource that is given back too early",
        tasks(
            TASK % ("Low", 1, AUTO, "GetResource R;GetSpinlock X;ReleaseResource R;work;work;ReleaseSpinlock X;" + END),
            TASK % ("High", 2, NONE, SHORT),
        ),
        "",
        "High",
        ("3 `High` can preempt",),
    ),
    (
        "a lower task activates it, again and again",
        tasks(LOW, TASK % ("High", 2, NONE, SHORT), TASK % ("Idle", 0, NONE, "ActivateTask High;" + END)),
        "",
        "Idle",
        (),
    ),
    (
        "a ChainTask that is refused",
        tasks(
            TASK % ("Low", 1, AUTO, "GetSpinlock X;ChainTask High;ReleaseSpinlock X;" + END),
            TASK % ("High", 2, NONE, SHORT),
        ),
        "",
        "Low",
        (),
    ),
    (
        "an alarm of another mode",
        tasks(TASK % ("Low", 1, '"auto": ["N"], ', LONG), TASK % ("High", 2, '"auto": ["N"], ', SHORT)),
        "",
        "High",
        (),
    ),
    ("another spinlock", tasks(LOW, TASK % ("High", 2, NONE, SHORT.replace("X", "Y"))), "", "High", ()),
    ("another mode", tasks(LOW, TASK % ("High", 2, '"auto": ["N"], ', SHORT)), "", "Low", ()),
    (
        "an alarm that another mode sets",
        tasks(TASK % ("Low", 1, '"auto": ["N"], ', LONG), TASK % ("High", 2, NONE, SHORT)),
        "",
        "High",
        (),
    ),
    (
        "an ISR",
        LOW,
        '{"name": "I", "level": 1, "script": "GetSpinlock X;ReleaseSpinlock X"}',
        "Low",
        ("1 `I` can interrupt",),
    ),
    (
        "an ISR and suspended interrupts",
        TASK % ("Low", 1, AUTO, "SuspendAllInterrupts;GetSpinlock X;work;ReleaseSpinlock X;ResumeAllInterrupts;" + END),
        '{"name": "I", "level": 1, "script": "GetSpinlock X;ReleaseSpinlock X"}',
        "Low",
        (),
    ),
    (
        "an ISR and a task",
        tasks(LOW, TASK % ("High", 2, NONE, SHORT)),
        '{"name": "I", "level": 1, "script": "GetSpinlock X;ReleaseSpinlock X"}',
        "High",
        ("1 `High` and `I` can interrupt or preempt", "1 `I` can interrupt"),
    ),
)
PAIR_NOTE = re.compile(
    r"operation ([0-9]+) `[^`]*`: the job can hold `X` here, and (.*) it and ask for that: E_OS_INTERFERENCE_DEADLOCK"
)
NOTE = re.compile(r"operation ([0-9]+) `[^`]*`: (.*\bthe job (?:holds|still holds|does not hold) .*)")


def held_notes(text: bytes) -> List[str]:
    """The notes on what jobs hold: the number of the operation, and the text."""
    findings = judge_configuration(text).findings
    return [" ".join(found.groups()) for found in map(NOTE.fullmatch, (each.text for each in findings)) if found]


def pair_notes(text: str) -> List[str]:
    """The notes on pairs of jobs: the number of the operation, and who can preempt the job."""
    judgement = judge_configuration(text.encode())
    found = (PAIR_NOTE.fullmatch(each.text) for each in judgement.findings)
    return [" ".join(each.groups()) for each in found if each]


class Notes(unittest.TestCase):
    """What is noted of scripts."""

    def test_each_script(self):
        for script, notes in SCRIPTS:
            with self.subTest(script=script):
                self.assertEqual(list(notes), held_notes((FRAME % (script, "")).encode()))

    def test_each_script_of_an_isr(self):
        for script, notes in ISR_SCRIPTS:
            with self.subTest(script=script):
                self.assertEqual(list(notes), held_notes((FRAME % ("TerminateTask", script)).encode()))

    def test_places(self):
        for script, word in (("GetResource R;TerminateTask", "TerminateTask"), ("ReleaseSpinlock X;work", "X;")):
            with self.subTest(script=script):
                text = FRAME % (script, "")
                judgement = judge_configuration(text.encode())
                notes = [each for each in judgement.findings if NOTE.fullmatch(each.text)]
                column = text.splitlines()[3].index(word) + 1
                self.assertEqual([(4, column)], [(each.place.line, each.place.column) for each in notes])

    def test_a_fault_elsewhere(self):
        text = FRAME % ("GetResource R;TerminateTask", "ActivateTask Nobody")
        self.assertEqual([], held_notes(text.encode()))

    def test_a_script_with_very_many_ways(self):
        asking = "jz v%d %d;GetSpinlock L%d;add v%d 1"
        taking = ";".join(asking % (each % 8, each * 3 + 2, each, each % 8) for each in range(16))
        names = ["L%d" % each for each in range(16)]
        links = [{"name": name, "next": following} for name, following in zip(names, names[1:] + [None])]
        task = {"name": "T", "prio": 1, "script": taking + ";ReleaseSpinlock L0;TerminateTask"}
        text = json.dumps({"spinlocks": links, "cores": [{"id": 0, "tasks": [task]}]})
        self.assertEqual([], held_notes(text.encode()))

    def test_spinlocks_after(self):
        draft = judge_configuration((FRAME % ("", "")).encode()).draft
        self.assertEqual({"X": {"Y", "Z"}, "Y": {"Z"}, "Z": set()}, held.spinlocks_after(draft))

    def test_examples(self):
        found = {}
        for folder, _, files in os.walk(os.path.join(ROOT, "examples")):
            for name in files:
                if name.endswith(".json"):
                    path = os.path.join(folder, name)
                    with open(path, "rb") as file:
                        notes = [note.split() for note in held_notes(file.read())]
                    if notes:
                        key = os.path.relpath(path, os.path.join(ROOT, "examples"))
                        found[key] = tuple("%s %s" % (note[0], note[-1]) for note in notes)
        self.assertEqual(EXAMPLES, found)

    def test_pairs(self):
        for title, members, isrs, alarm, notes in PAIRS:
            with self.subTest(title):
                self.assertEqual(list(notes), pair_notes(PAIR_FRAME % (members, isrs, alarm)))

    def test_no_pair_of_the_examples(self):
        for folder, _, files in os.walk(os.path.join(ROOT, "examples")):
            for name in files:
                if name.endswith(".json"):
                    with open(os.path.join(folder, name), encoding="utf-8") as file:
                        self.assertEqual([], pair_notes(file.read()), name)


@needs_program
class Program(unittest.TestCase):
    """The program answers what the notes say."""

    def answers(self, script, isr):
        """What a run answers at each operation, with the operation that the job did before: None if it did none."""
        stimuli = {"0": " ".join(["op", "irq=I"] + ["op"] * 30)}
        found, places, runner = {}, {}, None
        with written(FRAME % (script, isr), stimuli) as source:
            for item in timeline_of(source).items:
                if item.runner is not None:
                    runner = item.runner.name
                    places[runner] = (places.get(runner, (None, None))[1], item.place)
                for line in item.lines:
                    if line.startswith("stat "):
                        before, place = places[runner]
                        found.setdefault((runner, place), []).append((before, line.split(" ")[3]))
                    if line.startswith(("end ", "leave ")):
                        places.pop(line.split(" ")[1], None)
        return found

    def assert_answered(self, name, notes, answers):
        """Each answer at a noted operation, if the job comes from where the note says, is one that the note names."""
        for note in notes:
            number, text = note.split(" ", 1)
            for part in text.split("; and "):
                words = re.match("(at its beginning)?(?: and )?(?:after operations? ([0-9, and]+) )?", part)
                origins = set(map(int, re.findall("[0-9]+", words[2] or ""))) | ({None} if words[1] else set())
                for before, status in answers.get((name, int(number)), ()):
                    if not origins or before in origins:
                        self.assertIn(status, re.findall("E_OS_[A-Z_]+", part), note)

    def test_each_script(self):
        for script, notes in SCRIPTS:
            with self.subTest(script=script):
                self.assert_answered("T", notes, self.answers(script, "SetEvent T 1"))

    def test_each_script_of_an_isr(self):
        for script, notes in ISR_SCRIPTS:
            with self.subTest(script=script):
                self.assert_answered("I", notes, self.answers("TerminateTask", script))

    def test_each_pair(self):
        """A run has the refusal if it is noted, and has none if it is not."""
        words = ["op", "op", "irq=I", "op", "tick", "op", "tick"] + ["tick", "op"] * 20
        for title, members, isrs, alarm, notes in PAIRS:
            stimuli = {"0": " ".join(word for word in words if isrs or word != "irq=I"), "1": "op op op op op"}
            with self.subTest(title), written(PAIR_FRAME % (members, isrs, alarm), stimuli) as source:
                self.assertEqual(bool(notes), "E_OS_INTERFERENCE_DEADLOCK" in source.printed().text)


if __name__ == "__main__":
    unittest.main()
