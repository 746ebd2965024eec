"""The notes of `tools/import`: on each thing of an Os configuration that has no place here."""

import json
import os
import re
import sys
import unittest

sys.path.insert(0, os.path.dirname(os.path.abspath(__file__)))
import os_files  # noqa: E402
from os_files import ACTIVATES_T, HOOKS, MODE, alarm_start, application, arxml, budget, container  # noqa: E402
from os_files import lock_budgets, os_alarm, os_counter, os_isr, os_table, os_task, reference  # noqa: E402
from sample_runs import EXAMPLES, called  # noqa: E402
from test_import import MAIN, InAFolder  # noqa: E402

# Containers of an Os module, and the notes on them beside the one on skeletons.
NOTES = {
    "a parameter without a place": (
        [os_task("T", OsTaskStackSize=400)],
        ["note: OsTask T: OsTaskStackSize 400: no place in the configuration"],
    ),
    "the same of several tasks": (
        [os_task("T", OsTaskStackSize=400), os_task("U", OsTaskStackSize=300), os_task("V", OsTaskStackSize=200)],
        ["note: OsTask T: OsTaskStackSize 400: no place in the configuration; so for 2 more OsTask"],
    ),
    "a container without a place": (
        [os_task("T"), container("OsIoc", "Ioc", parts=[container("OsIoc/OsIocCommunication", "Com")])],
        ["note: OsIoc Ioc: left out: there is no IOC"],
    ),
    "a part without a place": (
        [os_task("T", parts=[container("OsTask/OsTaskX", "X")])],
        ["note: OsTask T: OsTaskX X: no place in the configuration"],
    ),
    "the checks of the OS": (
        [os_task("T"), container("OsOS", "OS", [("OsStatus", "STANDARD"), ("OsNumberOfCores", 1)])],
        ["note: OsOS OS: OsStatus STANDARD: the checks of a service are those of EXTENDED"],
    ),
    "a hook that is not called": (
        [
            os_task("T"),
            container("OsOS", "OS", parts=[container("OsOS/OsHooks", "H", HOOKS)]),
        ],
        ["note: OsOS OS, OsHooks H: OsErrorHook false: this hook is always called"],
    ),
    "an ISR of category 1": (
        [os_isr("I", OsIsrCategory="CATEGORY_1"), os_task("T")],
        ["note: OsIsr I: left out: an ISR of category 1 is none of the OS"],
    ),
    "an ISR without a level": ([os_isr("I")], ["note: OsIsr I: no priority or level: `level` is 1 here"]),
    "an ISR with a resource": (
        [
            os_isr("I", ("OsIsrResourceRef", "R"), OsIsrPriority=2),
            container("OsResource", "R"),
            os_task("T", ("OsTaskResourceRef", "R")),
        ],
        ["note: OsIsr I: it takes R, and here an ISR takes no resource"],
    ),
    "an alarm with a callback": (
        [os_counter(), os_alarm("A", "OsAlarmCallback"), os_task("T")],
        ["note: OsAlarm A: left out: an alarm has no callback"],
    ),
    "an alarm that increments a counter": (
        [os_counter(), os_alarm("A", "OsAlarmIncrementCounter"), os_task("T")],
        ["note: OsAlarm A: left out: an alarm increments no counter"],
    ),
    "an alarm whose task is nowhere": (
        [os_counter(), os_alarm("A", *ACTIVATES_T), os_task("Tt")],
        [
            "note: OsAlarm A, OsAlarmAction Action, OsAlarmActivateTask Act: OsAlarmActivateTaskRef "
            "/Project/Config/Os/T leads nowhere: no such OsTask is in the files; did you mean `Tt`?",
            "note: OsAlarm A: left out: it has no action",
        ],
    ),
    "an alarm whose counter is no counter": (
        [os_alarm("A", *ACTIVATES_T, counter="T"), os_task("T")],
        [
            "note: OsAlarm A: OsAlarmCounterRef /Project/Config/Os/T leads to the OsTask `T`: it is left out, since "
            "OsCounter is wanted",
            "note: OsAlarm A: left out: it has no counter",
        ],
    ),
    "an event that a task does not have": (
        [
            os_counter(),
            os_alarm("A", "OsAlarmSetEvent", ("OsAlarmSetEventTaskRef", "T"), ("OsAlarmSetEventRef", "E")),
            container("OsEvent", "E"),
            os_task("T"),
        ],
        [
            "note: OsTask T: it has no reference to OsEvent E, which OsAlarm A, OsAlarmAction Action, "
            "OsAlarmSetEvent Act sets for it"
        ],
    ),
    "an event of no task": ([container("OsEvent", "E"), os_task("T")], ["note: OsEvent E: left out: no task has it"]),
    "masks": (
        [
            container("OsEvent", "E", [("OsEventMask", 3)]),
            container("OsEvent", "F", [("OsEventMask", 2)]),
            container("OsEvent", "G", [("OsEventMask", "0x2")]),
            os_task("T", *(("OsTaskEventRef", name) for name in "EFG")),
        ],
        [
            "note: OsEvent E: OsEventMask 3 is not one of the bits 1 to 2147483648: it gets a free one",
            "note: OsTask T: OsEvent G has the mask of another event of it: it gets a free bit",
        ],
    ),
    "activations of a task with events": (
        [container("OsEvent", "E"), os_task("T", ("OsTaskEventRef", "E"), OsTaskActivation=3)],
        ["note: OsTask T: OsTaskActivation 3: 1 here, since it has events"],
    ),
    "an internal resource": (
        [container("OsResource", "R", [("OsResourceProperty", "INTERNAL")])]
        + [os_task(name, ("OsTaskResourceRef", "R")) for name in "TU"],
        ["note: OsResource R: left out: there are no internal resources; T and U preempt one another here"],
    ),
    "a linked resource": (
        [
            container("OsResource", "R"),
            container(
                "OsResource", "S", [("OsResourceProperty", "LINKED")], [("OsResourceLinkedResourceRef", reference("R"))]
            ),
            os_task("T", ("OsTaskResourceRef", "R"), ("OsTaskResourceRef", "S")),
        ],
        ["note: OsResource S: it is linked to R: a resource of its own here, with the ceiling of both"],
    ),
    "a resource of no task": (
        [container("OsResource", "R"), os_task("T")],
        ["note: OsResource R: left out: no task takes it"],
    ),
    "a counter with ticks of its own": (
        [os_counter(OsCounterTicksPerBase=10), os_task("T")],
        ["note: OsCounter C: OsCounterTicksPerBase 10: each `tick` increments a counter by one"],
    ),
    "a counter that is too great": (
        [os_counter(OsCounterMaxAllowedValue="0xFFFFFFFF"), os_task("T")],
        [
            "note: OsCounter C: OsCounterMaxAllowedValue 0xFFFFFFFF: 1 to 1000000000 are allowed, "
            "so it is 1000000000 here"
        ],
    ),
    "a counter without its greatest value": (
        [container("OsCounter", "C"), os_task("T")],
        ["note: OsCounter C: OsCounterMaxAllowedValue is missing: 65535 here"],
    ),
    "counters of two ticks": (
        [os_counter("C", OsSecondsPerTick="0.001"), os_counter("D", OsSecondsPerTick="1E-4"), os_task("T")],
        [
            "note: OsCounter C: its tick is 0.001 s, and that of another one of core 0 0.0001 s: "
            "each `tick` increments both"
        ],
    ),
    "a tick that is no length of time": (
        [os_counter(OsSecondsPerTick="INF"), os_task("T")],
        ["note: OsCounter C: OsSecondsPerTick INF is no length of time"],
    ),
    "a budget of a part of a tick": (
        [os_counter(OsSecondsPerTick="0.001")]
        + [os_task("T", parts=budget("OsTask", "0.0015")), os_task("U", parts=budget("OsTask", "0.002"))],
        ["note: OsTask T: OsTaskExecutionBudget 0.0015 s: `budget` is 2 ticks of 0.001 s here"],
    ),
    "a budget without a tick": (
        [os_task("T", parts=budget("OsTask", "0.002")), os_isr("I", OsIsrPriority=1, parts=budget("OsIsr", "1"))],
        ["note: OsIsr I: no counter says how long a tick is: 0.001 s here, for budgets; --tick says another length"],
    ),
    "a name with a line end": (
        [os_task("T\nU")],
        ["note: OsTask T\\nU: a name is a letter, and up to 127 letters, digits and underscores"],
    ),
    "references to two counters": (
        [
            os_counter("C"),
            os_counter("D"),
            os_task("T"),
            container("OsAlarm", "A", (), [("OsAlarmCounterRef", reference(name)) for name in "CD"]),
        ],
        [
            "note: OsAlarm A: OsAlarmCounterRef stands 2 times: the first one counts, OsCounter C",
            "note: OsAlarm A: left out: it has no action",
        ],
    ),
    "lock budgets": (
        [
            os_task("T", parts=lock_budgets("OsTask", "0.002")),
            os_task("U", parts=lock_budgets("OsTask", "0.003")),
            os_isr("I", OsIsrPriority=1, parts=lock_budgets("OsIsr", "0.001")),
        ],
        [
            "note: OsTask T, OsTaskTimingProtection TimingProtection: OsTaskAllInterruptLockBudget 0.002: "
            "there are no time limits on suspended interrupts; so for 1 more OsTaskTimingProtection",
            "note: OsTask T, OsTaskTimingProtection TimingProtection: OsTaskResourceLock Lock: "
            "a lock budget stands at the resource here, for all tasks that take it: write `lock` there; "
            "so for 1 more OsTaskTimingProtection",
            "note: OsIsr I, OsIsrTimingProtection TimingProtection: OsIsrAllInterruptLockBudget 0.001: "
            "there are no time limits on suspended interrupts",
            "note: OsIsr I, OsIsrTimingProtection TimingProtection: OsIsrResourceLock Lock: "
            "a lock budget stands at the resource here, for all tasks that take it: write `lock` there",
        ],
    ),
    "a budget that is no number": (
        [os_task("T", parts=budget("OsTask", "long"))],
        ["note: OsTask T: OsTaskExecutionBudget long is no length of time: no `budget` here"],
    ),
    "a start of 0": (
        [MODE, os_counter(), os_alarm("A", *ACTIVATES_T, parts=alarm_start(OsAlarmAlarmTime=0)), os_task("T")],
        ["note: OsAlarm A: OsAlarmAlarmTime 0: 1 here, since the counter is 0 at the start"],
    ),
    "an autostart in no mode": (
        [MODE, os_task("T", parts=[container("OsTask/OsTaskAutostart", "Auto")])],
        ["note: OsTask T, OsTaskAutostart Auto: no OsTaskAppModeRef: it is M here"],
    ),
    "priorities": (
        [os_task("T", OsTaskPriority=200), os_task("U", OsTaskPriority=7)],
        ["note: core 0 has priorities from 7 to 200, and `prio` is 0 to 31: each is its rank here, 0 to 1"],
    ),
    "levels": (
        [os_isr("I", OsIsrPriority=200), os_isr("J", OsIsrInterruptPriority=3)],
        ["note: core 0 has priorities from 3 to 200, and `level` is 1 to 16: each is its rank here, 1 to 2"],
    ),
    "no priority": (
        [container("OsTask", "T"), container("OsTask", "U")],
        ["note: OsTask T: OsTaskPriority is missing: 0 here; so for 1 more OsTask"],
    ),
    "no number": (
        [os_task("T", OsTaskPriority="high", OsTaskActivation="2.5")],
        [
            "note: OsTask T: OsTaskActivation 2.5 is no whole number: 1 here",
            "note: OsTask T: OsTaskPriority high is no whole number: 0 here",
        ],
    ),
    "no word": (
        [os_task("T", OsTaskSchedule="SOMETIMES")],
        ["note: OsTask T: OsTaskSchedule SOMETIMES is neither FULL nor NON: FULL here"],
    ),
    "a parameter twice": (
        [container("OsTask", "T", [("OsTaskPriority", 3), ("OsTaskPriority", 4)])],
        ["note: OsTask T: OsTaskPriority stands 2 times: the first one counts, 3"],
    ),
    "a spinlock that locks interrupts": (
        [container("OsSpinlock", "L", [("OsSpinlockLockMethod", "LOCK_ALL_INTERRUPTS")]), os_task("T")],
        [
            "note: OsSpinlock L: OsSpinlockLockMethod LOCK_ALL_INTERRUPTS: GetSpinlock locks nothing else: "
            "call SuspendAllInterrupts before it"
        ],
    ),
    "an application that is not trusted": (
        [container("OsApplication", "App", [("OsTrusted", False), ("OsApplicationCoreAssignment", 0)])],
        ["note: OsApplication App: OsTrusted false: there is no memory protection"],
    ),
    "a task of no application": (
        [application("App", 1), os_task("T")],
        ["note: OsTask T: it is in no OsApplication: it stands on core 1"],
    ),
    "an application without a core": (
        [container("OsApplication", "App", (), [("OsAppTaskRef", reference("T"))]), os_task("T")],
        ["note: OsApplication App: no core is said: it stands on core 0"],
    ),
    "an application whose core is nowhere": (
        [container("OsApplication", "App", (), [("OsApplicationCoreRef", "/X/EcuC/Hw/Core3")])],
        [
            "note: OsApplication App: OsApplicationCoreRef /X/EcuC/Hw/Core3 leads nowhere: is the file of the module "
            "EcuC missing? It stands on core 3"
        ],
    ),
    "an application of what is nowhere": (
        [application("App", 0, OsAppTaskRef=["U"], OsAppIsrRef=["T"]), os_task("T")],
        [
            "note: OsApplication App: OsAppTaskRef /Project/Config/Os/U leads to no OsTask",
            "note: OsApplication App: OsAppIsrRef /Project/Config/Os/T leads to no OsIsr",
            "note: OsTask T: it is in no OsApplication: it stands on core 0",
        ],
    ),
    "a task of two applications": (
        [application("A", 0, OsAppTaskRef="T"), application("B", 1, OsAppTaskRef="T"), os_task("T"), MODE],
        [
            "note: OsApplication B: OsTask T stands on core 0 by another one, and stays there",
            "note: no file says which core starts which: core 0 starts 1 here",
        ],
    ),
    "a counter of another core": (
        [
            application("First", 0, OsAppTaskRef="T", OsAppAlarmRef="A"),
            application("Second", 1, OsAppCounterRef="C"),
            os_counter(),
            os_task("T"),
            os_alarm("A", *ACTIVATES_T),
            MODE,
        ],
        [
            "note: OsAlarm A: it stands on core 0, and its counter on core 1: it stands there too",
            "note: no file says which core starts which: core 0 starts 1 here",
        ],
    ),
    "a resource of two cores": (
        [
            application("A", 0, OsAppTaskRef="T"),
            application("B", 1, OsAppTaskRef="U"),
            *(os_task(name, ("OsTaskResourceRef", "R")) for name in "TU"),
            container("OsResource", "R"),
            MODE,
        ],
        [
            "note: OsResource R: tasks of the cores 0 and 1 take it: it stands on core 0, and each core has resources "
            "of its own",
            "note: no file says which core starts which: core 0 starts 1 here",
        ],
    ),
    "cores of great numbers": (
        [application("A", 2, OsAppTaskRef="T"), application("B", 16, OsAppTaskRef="U")]
        + [os_task("T"), os_task("U"), MODE],
        [
            "note: the cores have numbers up to 16, and here up to 15: 2 is 0, 16 is 1",
            "note: no file says which core starts which: core 0 starts 1 here",
        ],
    ),
    "several modes": (
        [MODE, container("OsAppMode", "N"), os_task("T")],
        ["note: no file says in which mode a core starts: in M here"],
    ),
    "a table without a point": (
        [container("OsScheduleTable", "S", (), [("OsScheduleTableCounterRef", reference("C"))])]
        + [os_counter(), os_task("T")],
        [
            "note: OsScheduleTable S: OsScheduleTableDuration is missing: 1 here",
            "note: OsScheduleTable S: left out: it has no expiry point",
        ],
    ),
    "too many": (
        [os_task("T%d" % number) for number in range(33)],
        ["note: core 0 has 33 tasks: at most 32 are allowed"],
    ),
    "too many activations": (
        [os_task("T", OsTaskActivation=60), os_task("U", OsTaskActivation=5)],
        ["note: the activations of the tasks of core 0 sum to 65: at most 64 are allowed"],
    ),
    "too many cores": (
        [application("App%d" % core, core, OsAppTaskRef=["T%d" % core]) for core in range(17)]
        + [os_task("T%d" % core) for core in range(17)],
        [
            "note: 17 cores: at most 16 are allowed",
            "note: no file says which core starts which: core 0 starts 1, 2, 3, 4, 5, 6, 7, 8, 9, 10, 11, 12, 13, 14, "
            "15 and 16 here",
        ],
    ),
    "too many modes": (
        [container("OsAppMode", "M%d" % number) for number in range(9)] + [os_task("T")],
        [
            "note: no file says in which mode a core starts: in M0 here",
            "note: OsAppMode M8: 9 modes: at most 8 are allowed",
        ],
    ),
    "too many events": (
        [container("OsEvent", "E%d" % number) for number in range(33)]
        + [os_task("T", *(("OsTaskEventRef", "E%d" % number) for number in range(33)))],
        ["note: OsTask T: it has 33 events: at most 32 are allowed"],
    ),
    "too many points and actions": (
        [
            os_counter(),
            os_task("T"),
            os_table("S", *([offset, ["T"] * (9 if offset == 3 else 1)] for offset in range(17))),
        ],
        [
            "note: OsScheduleTable S: 17 expiry points: at most 16 are allowed",
            "note: OsScheduleTable S: offset 3 has 9 actions: at most 8 are allowed",
        ],
    ),
    "a point without an action": (
        [os_counter(), os_task("T"), os_table("S", [0, ["T"]], [5, []])],
        ["note: OsScheduleTable S, OsScheduleTableExpiryPoint P5: left out: it has no action"],
    ),
    "a table without a counter": (
        [os_task("T"), os_table("S", [0, ["T"]])],
        [
            "note: OsScheduleTable S: OsScheduleTableCounterRef /Project/Config/Os/C leads nowhere: no such OsCounter "
            "is in the files",
            "note: OsScheduleTable S: left out: it has no counter",
        ],
    ),
    "no truth value": (
        [os_counter(), os_task("T"), os_table("S", [0, ["T"]], OsScheduleTableRepeating="perhaps")],
        ["note: OsScheduleTable S: OsScheduleTableRepeating perhaps is neither true nor false: false here"],
    ),
    "a kind of autostart": (
        [MODE, os_counter(), os_task("T")]
        + [os_alarm("A", *ACTIVATES_T, parts=alarm_start(OsAlarmAlarmTime=1, OsAlarmAutostartType="SYNCHRON"))],
        ["note: OsAlarm A: OsAlarmAutostartType SYNCHRON: it starts by its counter here"],
    ),
    "an alarm that sets nothing": (
        [os_counter(), os_task("T"), os_alarm("A", "OsAlarmSetEvent", ("OsAlarmSetEventTaskRef", "T"))],
        ["note: OsAlarm A: left out: it has no action"],
    ),
    "a kind of resource": (
        [container("OsResource", "R", [("OsResourceProperty", "SHARED")]), os_task("T", ("OsTaskResourceRef", "R"))],
        ["note: OsResource R: OsResourceProperty SHARED: STANDARD here"],
    ),
    "a name twice": (
        [os_task("X"), container("OsAppMode", "X")],
        ["note: OsTask X: OsAppMode X in line 24 has this name too, and each name stands once"],
    ),
    "no name": (
        [os_task("_T")],
        ["note: OsTask _T: a name is a letter, and up to 127 letters, digits and underscores"],
    ),
    "an event without a name": (
        [container("OsEvent", "_E"), os_task("T", ("OsTaskEventRef", "_E"))],
        ["note: OsEvent _E: a name is a letter, and up to 127 letters, digits and underscores"],
    ),
    "a mode of a name that none may have": (
        [container("OsAppMode", "conflict"), os_task("T")],
        ["note: OsAppMode conflict: no mode may be called so"],
    ),
}


class Noted(InAFolder):
    def test_each_kind(self):
        for what, (containers, expected) in NOTES.items():
            with self.subTest(what=what):
                notes = [note for note in self.notes(*containers) if "skeletons" not in note]
                self.assertEqual(sorted(notes), sorted(expected))

    def test_nothing_is_dropped_without_a_word(self):
        """A wrong value in place of any one changes the source or the notes."""
        with open(os.path.join(EXAMPLES, "application", "config.json"), encoding="utf-8") as file:
            texts = os_files.os_arxml(json.load(file))
        self.write("EcuC.arxml", texts[1])
        self.write("Os.arxml", texts[0])
        right = self.source("Os.arxml", "EcuC.arxml")
        values = list(re.finditer(r"(?<=<VALUE>)[^<]*|(?<=<VALUE-REF DEST='ECUC-CONTAINER-VALUE'>)[^<]*", texts[0]))
        self.assertGreater(len(values), 70)
        for value in values:
            self.write("Os.arxml", texts[0][: value.start()] + "Wrong" + texts[0][value.end() :])
            self.assertNotEqual(self.source("Os.arxml", "EcuC.arxml"), right, value.group())

    def test_places(self):
        self.write("Os.arxml", arxml(("Os", os_files.OS, [os_task("T", OsTaskStackSize=400)])))
        _, _, messages = called(MAIN, "Os.arxml")
        lines = arxml(("Os", os_files.OS, [os_task("T", OsTaskStackSize=400)])).splitlines()
        places = [line.split(": ")[0] for line in messages.splitlines()]
        task = lines.index("<SHORT-NAME>T</SHORT-NAME>")
        stack = next(number for number, line in enumerate(lines) if line.endswith("OsTaskStackSize</DEFINITION-REF>"))
        self.assertEqual(places, ["Os.arxml:%d:1" % task, "Os.arxml:%d:1" % stack])

    def test_a_part_that_holds_in_some_variants(self):
        text = arxml(("Os", os_files.OS, [os_task("T")]))
        note = "note: holds in some variants only, and is read as if it held in all"
        whole = text.replace("<PARAMETER-VALUES>", "<VARIATION-POINT/>\n<PARAMETER-VALUES>")
        self.write("Os.arxml", whole)
        self.assertIn(note, self.source("Os.arxml")[1])
        self.write("Os.arxml", whole.replace("<VALUE>1</VALUE>", "<VARIATION-POINT/>\n<VALUE>1</VALUE>"))
        self.assertIn(note + "; and so 1 more place", self.source("Os.arxml")[1])

    def test_a_core_without_an_application(self):
        self.write("EcuC.arxml", os_files.hardware_arxml({"cores": [{"id": 0}, {"id": 5}]}))
        self.write("Os.arxml", arxml(("Os", os_files.OS, [application("App", 0, OsAppTaskRef="T"), os_task("T")])))
        notes = self.source("Os.arxml", "EcuC.arxml")[1]
        core = "note: EcucHardware Hardware, EcucCoreDefinition Core_f"
        self.assertIn(core + ": left out: no OsApplication stands on this core, 5", notes)

    def test_two_modules(self):
        self.write("Os.arxml", arxml(("Os", os_files.OS, [os_task("T")]), ("Os2", os_files.OS, [os_task("U")])))
        source, notes = self.source("Os.arxml")
        text = "note: a second Os module, /Project/Config/Os2: it is read together with /Project/Config/Os"
        self.assertIn(text, notes)
        self.assertEqual([task["name"] for task in source["cores"][0]["tasks"]], ["T", "U"])


if __name__ == "__main__":
    unittest.main()
