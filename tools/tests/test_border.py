"""What `tools/border` prints, and that its words for the cores and its groups are those of the program."""

import glob
import json
import os
import runpy
import subprocess
import sys
import tempfile
import unittest

sys.path.insert(0, os.path.dirname(os.path.abspath(__file__)))
import documents  # noqa: E402
from sample_runs import PROGRAM, ROOT, TOOLS, called, needs_program  # noqa: E402
from library import border, judging, model  # noqa: E402

MAIN = runpy.run_path(os.path.join(TOOLS, "border"))["main"]

# Three cores with starts, an alarm, a table, requests and a reference that does not cross; three that are off.
CONFIGURATION = """{"cores": [
  {"id": 0, "start": [1, 2, 2, 9, 0],
   "counters": [{"name": "Ms", "max": 99}],
   "alarms": [
     {"name": "Al1ms", "counter": "Ms", "action": "ActivateTask T1ms"},
     {"name": "AlLog", "counter": "Ms", "action": "ActivateTask Log"}],
   "tables": [{"name": "Slow", "counter": "Ms", "duration": 9, "points": [
     {"offset": 3, "actions": ["ActivateTask T10ms", "SetEvent Com 2", "SetEvent Com 2"]},
     {"offset": 6, "actions": ["SetEvent Com 2", "ActivateTask Sound"]}]}],
   "tasks": [
     {"name": "T1ms", "prio": 3, "script": "ActivateTask ?;TerminateTask"},
     {"name": "T10ms", "prio": 2,
      "script": "SetEvent Com 1;work;SetEvent Com 1;SetEvent Com 1;SetEvent Com 1;jump 0"},
     {"name": "Ack", "prio": 1, "script": "TerminateTask"}]},
  {"id": 1, "start": [2],
   "tasks": [{"name": "Com", "prio": 1, "extended": true, "script": "WaitEvent 3;ClearEvent 3;ActivateTask Log"}]},
  {"id": 2,
   "counters": [{"name": "Crank", "max": 9, "software": true}],
   "tasks": [{"name": "Log", "prio": 1, "script": "GetAlarm AlLog v0;IncrementCounter Crank;ChainTask Ack"}]},
  {"id": 5, "tasks": [{"name": "Sound", "prio": 1, "script": "ChainTask Never"}]},
  {"id": 4, "start": [5], "tasks": [{"name": "Never", "prio": 1, "script": "work"}]},
  {"id": 3, "tasks": [{"name": "Lone", "prio": 1, "script": "IncrementCounter Crank"}]}]}
"""
REPORT = """Cores
  core 0 bound
    its `start` is not empty: 1, 2, 2, 9 and 0
    it refers to core 1: task Com
    it refers to core 2: task Log
    it refers to core 5: task Sound
    core 2 refers to it: alarm AlLog and task Ack
  core 1 bound
    its `start` is not empty: 2
    it refers to core 2: task Log
    core 0 refers to it: task Com
  core 2 bound
    it refers to core 0: alarm AlLog and task Ack
    core 0 refers to it: task Log
    core 1 refers to it: task Log
    core 3, which is off, refers to it: counter Crank
  core 3 off
    no start list leads to it from core 0, the master
  core 4 off
    no start list leads to it from core 0, the master
  core 5 off
    no start list leads to it from core 0, the master

Groups
  core 0 group 0 1 2 3 4 5
    core 1: core 0 refers to it: task Com
    core 2: core 0 refers to it: task Log
    core 3 through core 2: it refers to core 2: counter Crank
    core 4 through core 5: core 5 refers to it: task Never
    core 5: core 0 refers to it: task Sound
  core 1 group 0 1 2 3 4 5
    core 0: it refers to core 1: task Com
    core 2: core 1 refers to it: task Log
    core 3 through core 2: it refers to core 2: counter Crank
    core 4 through core 5: core 5 refers to it: task Never
    core 5 through core 0: core 0 refers to it: task Sound
  core 2 group 0 1 2 3 4 5
    core 0: it refers to core 2: task Log
    core 1: it refers to core 2: task Log
    core 3: it refers to core 2: counter Crank
    core 4 through core 5: core 5 refers to it: task Never
    core 5 through core 0: core 0 refers to it: task Sound
  core 3 group 0 1 2 3 4 5
    core 0 through core 2: it refers to core 2: task Log
    core 1 through core 2: it refers to core 2: task Log
    core 2: core 3 refers to it: counter Crank
    core 4 through core 5: core 5 refers to it: task Never
    core 5 through core 0: core 0 refers to it: task Sound
  core 4 group 0 1 2 3 4 5
    core 0 through core 5: it refers to core 5: task Sound
    core 1 through core 0: core 0 refers to it: task Com
    core 2 through core 0: core 0 refers to it: task Log
    core 3 through core 2: it refers to core 2: counter Crank
    core 5: it refers to core 4: task Never
  core 5 group 0 1 2 3 4 5
    core 0: it refers to core 5: task Sound
    core 1 through core 0: core 0 refers to it: task Com
    core 2 through core 0: core 0 refers to it: task Log
    core 3 through core 2: it refers to core 2: counter Crank
    core 4: core 5 refers to it: task Never

Starts
  core 0 is the master
  core 0 starts core 1
  core 0 starts core 2 (E_OS_STATE if another core was first)
  core 0 starts core 2 (E_OS_STATE; core 2 is started already)
  core 0 starts core 9 (E_OS_ID; there is no core 9)
  core 0 starts core 0 (E_OS_STATE; core 0 is started already)
  core 1 starts core 2 (E_OS_STATE if another core was first)
  core 4 starts core 5 (never done; core 4 is off)

Crossings
  core 0 to core 1
    SetEvent Com 1  task T10ms, operations 0 and 2 to 4  request; core 0 waits for the reply
    SetEvent Com 2  table Slow, offsets 3 and 6          action; no reply
  core 0 to core 2
    ActivateTask Log  alarm AlLog  action; no reply
  core 0 to core 5
    ActivateTask Sound  table Slow, offset 6  nothing crosses; E_OS_CORE, since core 5 is off
  core 1 to core 2
    ActivateTask Log  task Com, operation 2  request; core 1 waits for the reply
  core 2 to core 0
    GetAlarm AlLog v0  task Log, operation 0  request; core 2 waits for the reply
    ChainTask Ack      task Log, operation 2  request; core 2 waits for the reply
  core 3 to core 2
    IncrementCounter Crank  task Lone, operation 0  never done; core 3 is off
  core 5 to core 4
    ChainTask Never  task Sound, operation 0  never done; core 5 is off

What a change of a core's work can reach
  core 0
    core 1: it serves SetEvent Com 1 (task T10ms, operations 0 and 2 to 4)
    core 2: it serves ActivateTask Log (alarm AlLog)
  core 1
    core 0: it waits for the reply to SetEvent Com 1 (task T10ms, operations 0 and 2 to 4)
    core 2: it serves ActivateTask Log (task Com, operation 2)
  core 2
    core 0: it serves GetAlarm AlLog v0 (task Log, operation 0)
    core 1: it waits for the reply to ActivateTask Log (task Com, operation 2)
  core 3: no other core, since it is off
  core 4: no other core, since it is off
  core 5: no other core, since it is off
"""
GRAPH = r"""digraph border {
  rankdir=LR;
  node [shape=box, fontname="sans-serif"];
  edge [fontname="sans-serif", fontsize=10];
  core0 [label="core 0\nbound, master", style=solid];
  core1 [label="core 1\nbound", style=solid];
  core2 [label="core 2\nbound", style=solid];
  core3 [label="core 3\noff", style=dashed];
  core4 [label="core 4\noff", style=dashed];
  core5 [label="core 5\noff", style=dashed];
  core0 -> core1 [label="starts", style=dashed];
  core0 -> core2 [label="starts", style=dashed];
  core1 -> core2 [label="starts", style=dashed];
  core0 -> core1 [label="SetEvent Com 1: task T10ms, operations 0 and 2 to 4\l", dir=both, arrowtail=odot];
  core0 -> core1 [label="SetEvent Com 2: table Slow, offsets 3 and 6\l", style=solid];
  core0 -> core2 [label="ActivateTask Log: alarm AlLog\l", style=solid];
  core0 -> core5 [label="ActivateTask Sound: table Slow, offset 6\l", style=dotted, color=gray50];
  core1 -> core2 [label="ActivateTask Log: task Com, operation 2\l", dir=both, arrowtail=odot];
  core2 -> core0 [label="GetAlarm AlLog v0: task Log, operation 0\lChainTask Ack: task Log, operation 2\l", REQUEST];
  core3 -> core2 [label="IncrementCounter Crank: task Lone, operation 0\l", style=dotted, color=gray50];
  core5 -> core4 [label="ChainTask Never: task Sound, operation 0\l", style=dotted, color=gray50];
}
""".replace(
    "REQUEST", "dir=both, arrowtail=odot"
)


def core(number, *scripts, **members):
    """A core with tasks `X<number>`, `U<number>` of these scripts."""
    tasks = [{"name": letter + str(number), "prio": 1, "script": script} for letter, script in zip("XU", scripts)]
    return dict({"id": number, "tasks": tasks}, **members)


def counter(name, software=False):
    """The members of a core with a counter alone."""
    return {"name": name, "max": 9, "software": software}


def alarm(name, action):
    """An alarm of the counter `C`."""
    return {"name": name, "counter": "C", "action": action}


def table(action):
    """A table of the counter `C` with one point."""
    return {"name": "S", "counter": "C", "duration": 5, "points": [{"offset": 2, "actions": [action]}]}


def isr(script):
    """The ISRs of a core with one of this script."""
    return [{"name": "I", "level": 1, "script": script}]


START = core(0, start=[1, 2])
# One reason each: the cores, and the words for them with their reasons.
REASONS = [
    ([core(0, "work")], {0: ("separate", [])}),
    ([core(0, start=[0])], {0: ("bound", ["its `start` is not empty: 0"])}),
    ([core(0, start=[9])], {0: ("bound", ["its `start` is not empty: 9"])}),
    (
        [core(0, "work"), core(1, "work", start=[0])],
        {0: ("separate", []), 1: ("off", ["no start list leads to it from core 0, the master"])},
    ),
    (
        [START, core(1, "ActivateTask X2"), core(2, "work")],
        {1: ("bound", ["it refers to core 2: task X2"]), 2: ("bound", ["core 1 refers to it: task X2"])},
    ),
    (
        [START, core(1, "ChainTask X2"), core(2, "work")],
        {1: ("bound", ["it refers to core 2: task X2"]), 2: ("bound", ["core 1 refers to it: task X2"])},
    ),
    (
        [START, core(1, "SetEvent X2 1"), core(2, "work")],
        {1: ("bound", ["it refers to core 2: task X2"]), 2: ("bound", ["core 1 refers to it: task X2"])},
    ),
    (
        [START, core(1, "IncrementCounter D"), core(2, counters=[counter("D")])],
        {1: ("bound", ["it refers to core 2: counter D"]), 2: ("bound", ["core 1 refers to it: counter D"])},
    ),
    (
        [START, core(1, isrs=isr("ActivateTask X2")), core(2, "work")],
        {1: ("bound", ["it refers to core 2: task X2"]), 2: ("bound", ["core 1 refers to it: task X2"])},
    ),
    (
        [START, core(1, "work", isrs=isr("ActivateTask X1;SuspendAllInterrupts")), core(2)],
        {1: ("separate", []), 2: ("separate", [])},
    ),
    (
        [START, core(1, "work;StartCore ?", "StartCore 2;GetNumberOfActivatedCores v0"), core(2, "ShutdownOS 0")],
        {
            1: ("bound", ["it has `StartCore`: task X1 and task U1", "it has `GetNumberOfActivatedCores`: task U1"]),
            2: ("separate", []),
        },
    ),
    (
        [START, dict(core(1), mode="DONOTCARE"), core(2)],
        {1: ("bound", ["it names no mode"]), 2: ("separate", [])},
    ),
    (
        [START, core(1, isrs=isr("ShutdownAllCores 0")), core(2, "work")],
        {1: ("bound", ["it has `ShutdownAllCores`: ISR I"]), 2: ("bound", ["core 1 has `ShutdownAllCores`: ISR I"])},
    ),
    (
        [core(0, "work"), core(1, "ShutdownAllCores 15")],
        {0: ("bound", ["core 1, which is off, has `ShutdownAllCores`: task X1"])},
    ),
    (
        [
            START,
            core(1, "SetRelAlarm A 1 0;SetAbsAlarm B 1 0", "CancelAlarm A;GetAlarm B v0"),
            core(2, "", counters=[counter("C")], alarms=[alarm("A", "ActivateTask X2"), alarm("B", "ActivateTask X2")]),
        ],
        {
            1: ("bound", ["it refers to core 2: alarm A and alarm B"]),
            2: ("bound", ["core 1 refers to it: alarm A and alarm B"]),
        },
    ),
    (
        [START, core(1, counters=[counter("C")], alarms=[alarm("A", "ActivateTask X2")]), core(2, "work")],
        {1: ("bound", ["it refers to core 2: task X2"]), 2: ("bound", ["core 1 refers to it: task X2"])},
    ),
    (
        [START, core(1, counters=[counter("C")], tables=[table("SetEvent X2 1")]), core(2, "work")],
        {1: ("bound", ["it refers to core 2: task X2"]), 2: ("bound", ["core 1 refers to it: task X2"])},
    ),
    (
        [START, core(1, "work"), core(2, "work"), core(3, "ActivateTask X2")],
        {
            1: ("separate", []),
            2: ("bound", ["core 3, which is off, refers to it: task X2"]),
            3: ("off", ["no start list leads to it from core 0, the master"]),
        },
    ),
    (
        [START, core(1, "ActivateTask X3"), core(2, "work"), core(3, "work")],
        {
            1: ("bound", ["it refers to core 3: task X3"]),
            2: ("separate", []),
            3: ("off", ["no start list leads to it from core 0, the master"]),
        },
    ),
    (
        [
            START,
            core(
                1,
                "ActivateTask X1;ActivateTask ?;SetEvent U1 1;GetResource R;ReleaseResource R",
                "IncrementCounter C;GetCounterValue C v0;GetAlarm A v0;StartScheduleTableRel S 1;NextScheduleTable S ?",
                counters=[counter("C", True)],
                alarms=[alarm("A", "ActivateTask X1")],
                tables=[table("SetEvent X1 1")],
                resources=[{"name": "R", "ceiling": 1}],
            ),
            core(2),
        ],
        {0: ("bound", ["its `start` is not empty: 1 and 2"]), 1: ("separate", []), 2: ("separate", [])},
    ),
]
# The cores, and from each the ones that a change can reach, with the core before on the way.
REACHES = [
    ([core(0, start=[1]), core(1)], {0: {}, 1: {}}),
    ([START, core(1, "ActivateTask X2"), core(2, "work")], {0: {}, 1: {2: 1}, 2: {1: 2}}),
    ([START, core(1, isrs=isr("ActivateTask X2")), core(2, "work")], {0: {}, 1: {2: 1}, 2: {1: 2}}),
    (
        [START, core(1, counters=[counter("C")], alarms=[alarm("A", "ActivateTask X2")]), core(2, "work")],
        {0: {}, 1: {2: 1}, 2: {}},
    ),
    (
        [core(0, "ActivateTask X1", start=[1, 2]), core(1, "ChainTask X2"), core(2, "work")],
        {0: {1: 0, 2: 1}, 1: {0: 1, 2: 1}, 2: {0: 1, 1: 2}},
    ),
    (
        [
            core(0, counters=[counter("C")], tables=[table("ActivateTask X1")], start=[1, 2]),
            core(1, "ActivateTask X2"),
            core(2, "work"),
        ],
        {0: {1: 0, 2: 1}, 1: {2: 1}, 2: {1: 2}},
    ),
    ([START, core(1, "IncrementCounter D"), core(2, counters=[counter("D")])], {0: {}, 1: {}, 2: {}}),
    ([START, core(1, "ActivateTask X3"), core(2), core(3, "ActivateTask X1")], {1: {}, 2: {}, 3: {}}),
    ([START, core(1, "ShutdownAllCores 0"), core(2)], {0: {}, 1: {0: 1, 2: 1}, 2: {}}),
    ([core(0), core(1, "ShutdownAllCores 0")], {0: {}, 1: {}}),
    ([START, core(1, "StartCore 2;GetNumberOfActivatedCores v0"), core(2)], {0: {}, 1: {}, 2: {}}),
]

# An alarm of core 0 acts on core 1, a task of core 1 calls core 2, and core 3 is separate.
EACH_COUNT = {"modes": ["M"], "start": 1, "cycle": 1}
CHAIN = [
    core(0, counters=[counter("C")], alarms=[dict(alarm("A", "ActivateTask X1"), auto=EACH_COUNT)], start=[1, 2, 3]),
    core(1, "ActivateTask X2;TerminateTask"),
    core(2, "work;TerminateTask"),
    core(3, "work;TerminateTask"),
]


def model_of(text):
    """The model of a configuration, which has no fault."""
    judgement = judging.judge_configuration(text.encode("utf-8"))
    assert judgement.least == 0, judgement.findings
    return model.model_of(judgement.draft)


def model_of_cores(cores):
    """The model of a configuration of these cores."""
    return model_of(json.dumps({"cores": cores}))


def words_of_program(path):
    """What `mcos check` prints for a configuration, by core; none if it has a fault."""
    done = subprocess.run([PROGRAM, "check", path], capture_output=True, encoding="utf-8", timeout=60)
    if done.returncode != 0:
        return None
    lines = [line.split(" ") for line in done.stdout.splitlines()[1:]]
    return {int(number): word for _, number, word in lines}


class Reports(unittest.TestCase):
    maxDiff = None

    def test_report(self):
        self.assertEqual(border.report(model_of(CONFIGURATION)), REPORT)

    def test_graph(self):
        self.assertEqual(border.graph(model_of(CONFIGURATION)), GRAPH)

    def test_the_document(self):
        with open(os.path.join(ROOT, "examples", "application", "config.json"), encoding="utf-8") as file:
            printed = border.report(model_of(file.read()))
        lines = documents.part("Of `examples/application`, in part:")
        self.assertTrue(documents.is_part_of(lines, printed), printed)

    def test_one_core(self):
        expected = (
            "Cores\n  core 0 separate\n\nGroups\n  core 0 group 0\n\nStarts\n  core 0 is the master\n\nCrossings\n  none\n\n"
            "What a change of a core's work can reach\n  core 0: no other core\n"
        )
        self.assertEqual(border.report(model_of_cores([core(0, "work")])), expected)

    def test_an_isr(self):
        report = border.report(model_of_cores([core(0, start=[1], isrs=isr("ActivateTask X1")), core(1, "work")]))
        self.assertIn("    ActivateTask X1  ISR I, operation 0  request; core 0 waits for the reply\n", report)

    def test_modes(self):
        modes = {0: "M", 1: "N", 2: "DONOTCARE", 3: "N"}
        cores = [dict(core(number, start=[1, 2] if number == 0 else []), mode=mode) for number, mode in modes.items()]
        whole = model_of(json.dumps({"modes": ["M", "N"], "cores": cores}))
        differ = "the started cores name different modes: `M` (core 0) and `N` (core 1)"
        self.assertEqual([whole.standing(number) for number in modes], ["bound", "bound", "bound", "off"])
        self.assertEqual(border.reasons(whole, 1), [differ])
        self.assertEqual(border.reasons(whole, 2), ["it names no mode", differ])
        # A core that is never started binds nobody by its mode.
        cores[1]["mode"] = "M"
        self.assertEqual(model_of(json.dumps({"modes": ["M", "N"], "cores": cores})).standing(1), "separate")

    def test_a_shutdown_of_all_cores(self):
        cores = [core(0, start=[1]), core(1, "work;ShutdownAllCores 8"), core(2, "ShutdownAllCores 0")]
        report = border.report(model_of_cores(cores))
        halt = "ShutdownAllCores 8  task X1, operation 1  halt; unless core 0 has drained or is down\n"
        self.assertIn("  core 1 to core 0\n    " + halt, report)
        self.assertIn("ShutdownAllCores 0  task X2, operation 0  never done; core 2 is off\n", report)
        self.assertIn("  core 1\n    core 0: it is halted by ShutdownAllCores 8 (task X1, operation 1)\n", report)

    def test_a_spinlock(self):
        scripts = {0: "GetSpinlock L", 1: "work;TryToGetSpinlock L v0", 2: "ReleaseSpinlock L", 3: "GetSpinlock ?;GetSpinlock K"}
        cores = [core(number, script, start=[1, 2, 4] if number == 0 else []) for number, script in scripts.items()]
        locks = [{"name": "L"}, {"name": "K"}]
        whole = model_of(json.dumps({"spinlocks": locks, "cores": cores + [core(4, "GetSpinlock ?")]}))
        self.assertEqual([whole.standing(number) for number in range(5)], ["bound"] * 3 + ["off", "separate"])
        self.assertEqual(border.reasons(whole, 1), ["it refers to the spinlock L, as cores 0 and 2 do"])
        report = border.report(whole)
        # A core that only gives a spinlock back never has it.
        get = "GetSpinlock L  task X0, operation 0  spinlock; core 1 waits for it, or finds it taken\n"
        self.assertIn("  core 0 to core 1\n    " + get, report)
        self.assertNotIn("core 0 to core 2", report)
        self.assertIn("    core 0: it shares the spinlock of TryToGetSpinlock L v0 (task X1, operation 1)\n", report)
        self.assertIn("  core 3: no other core, since it is off\n", report)

    def test_groups_by_spinlocks(self):
        scripts = {0: "GetSpinlock L", 1: "ReleaseSpinlock L", 2: "GetSpinlock K", 3: "GetSpinlock ?"}
        cores = [core(number, script, start=[1, 2] if number == 0 else []) for number, script in scripts.items()]
        whole = model_of(json.dumps({"spinlocks": [{"name": "L"}, {"name": "K"}], "cores": cores}))
        lines = ["core 0 group 0 1", "core 1 group 0 1", "core 2 group 2", "core 3 group 3"]
        self.assertEqual([border.group_line(whole, number) for number in range(4)], lines)
        why = "  core 0 group 0 1\n    core 1: it refers to the spinlock L, as core 0 does\n"
        self.assertIn(why, border.report(whole))

    def test_who_shuts_all_cores_down_is_in_each_group(self):
        whole = model_of_cores([core(0, "work", start=[1]), core(1, "work"), core(2, "ShutdownAllCores 0")])
        lines = ["core 0 group 0 2", "core 1 group 1 2", "core 2 group 2"]
        self.assertEqual([border.group_line(whole, number) for number in range(3)], lines)
        self.assertIn("  core 1 group 1 2\n    core 2: it has `ShutdownAllCores`\n", border.report(whole))

    def test_quoting(self):
        self.assertEqual(border.quoted(['a "b" \\', "c"]), r'"a \"b\" \\\nc"')
        self.assertEqual(border.quoted(["a", "b"], r"\l"), r'"a\lb\l"')

    def test_reasons(self):
        for cores, expected in REASONS:
            whole = model_of_cores(cores)
            for number, (word, reasons) in expected.items():
                with self.subTest(cores=json.dumps(cores), core=number):
                    self.assertEqual(whole.standing(number), word)
                    self.assertEqual(border.reasons(whole, number), reasons)

    def test_a_core_is_bound_exactly_for_a_reason(self):
        for cores, _ in REASONS:
            whole = model_of_cores(cores)
            for number in whole.started:
                with self.subTest(cores=json.dumps(cores), core=number):
                    self.assertEqual(whole.standing(number) == "bound", border.reasons(whole, number) != [])

    def test_reach(self):
        for cores, expected in REACHES:
            whole = model_of_cores(cores)
            steps = border.steps(border.crossings(whole))
            for number, reached in expected.items():
                with self.subTest(cores=json.dumps(cores), core=number):
                    found = {other: step.source for other, step in border.reach(steps, number).items()}
                    self.assertEqual(found, reached)


class Commands(unittest.TestCase):
    def test_printed(self):
        with tempfile.TemporaryDirectory() as folder:
            path = os.path.join(folder, "c.json")
            with open(path, "w", encoding="utf-8") as file:
                file.write(CONFIGURATION)
            self.assertEqual(called(MAIN, path), (0, REPORT, ""))
            self.assertEqual(called(MAIN, "--dot", path), (0, GRAPH, ""))

    def test_refused(self):
        for name, fault in (("limit", "fault 3 Limit"), ("not_json", "fault 1 NotJson"), ("shape", "fault 2 Shape")):
            path = os.path.join(ROOT, "examples", "faults", name + ".json")
            with self.subTest(name=name):
                expected = "%s: %s; run tools/explain %s\n" % (path, fault, path)
                self.assertEqual(called(MAIN, path), (1, "", expected))
        expected = "none.json: cannot be read: No such file or directory\n"
        self.assertEqual(called(MAIN, "none.json"), (1, "", expected))

    def test_wrong_usage(self):
        for words in ((), ("a", "b"), ("--svg", "a")):
            with self.subTest(words=words):
                self.assertEqual(called(MAIN, *words)[:2], (2, ""))


@needs_program
class AsTheProgram(unittest.TestCase):
    def hold(self, path):
        """Holds the words and the groups to those of the program, and says whether it accepts the configuration."""
        expected = words_of_program(path)
        if expected is not None:
            with open(path, encoding="utf-8") as file:
                whole = model_of(file.read())
            self.assertEqual({number: whole.standing(number) for number in whole.ids}, expected)
            groups = subprocess.run([PROGRAM, "groups", path], capture_output=True, encoding="utf-8", timeout=60).stdout
            self.assertEqual([border.group_line(whole, number) for number in whole.ids], groups.splitlines())
        return expected is not None

    def test_examples(self):
        accepted = 0
        for path in sorted(glob.glob(os.path.join(ROOT, "examples", "*", "*.json"))):
            with self.subTest(path=path):
                accepted += self.hold(path)
        self.assertGreater(accepted, 20)

    def test_reasons(self):
        texts = [json.dumps({"cores": cores}) for cores, _ in REASONS + REACHES] + [CONFIGURATION]
        with tempfile.TemporaryDirectory() as folder:
            path = os.path.join(folder, "c.json")
            for text in texts:
                with open(path, "w", encoding="utf-8") as file:
                    file.write(text)
                with self.subTest(configuration=text):
                    self.assertTrue(self.hold(path))

    def blocks(self, folder, cores, stimuli):
        """The lines of each core in a run."""
        for name, value in (("c.json", {"cores": cores}), ("s.json", stimuli)):
            with open(os.path.join(folder, name), "w", encoding="utf-8") as file:
                json.dump(value, file)
        words = [PROGRAM, "run", "c.json", "s.json"]
        done = subprocess.run(words, cwd=folder, capture_output=True, encoding="utf-8", timeout=60)
        self.assertEqual((done.returncode, done.stderr), (0, ""))
        texts = done.stdout.split("core ")[1:]
        return {int(text.split("\n", 1)[0]): text.split("\n")[1:-1] for text in texts}

    def test_a_change_reaches_what_is_listed(self):
        steps = border.steps(border.crossings(model_of_cores(CHAIN)))
        stimuli = {str(number): " ".join(["tick", "op", "op", "op"] * 6) for number in range(4)}
        with tempfile.TemporaryDirectory() as folder:
            before = self.blocks(folder, CHAIN, stimuli)
            for number in range(4):
                reached = set()
                for text in ("", "op op", "tick tick " + stimuli["0"]):
                    after = self.blocks(folder, CHAIN, dict(stimuli, **{str(number): text}))
                    reached |= {other for other in before if other != number and after[other] != before[other]}
                with self.subTest(core=number):
                    self.assertEqual(reached, set(border.reach(steps, number)))


if __name__ == "__main__":
    unittest.main()
