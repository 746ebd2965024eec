"""What `tools/timeline` says of each line, and that `mcos run --schedule` prints the lines at these turns."""

import json
import os
import runpy
import sys
import tempfile
import unittest

sys.path.insert(0, os.path.dirname(os.path.abspath(__file__)))
import documents  # noqa: E402
import sample_runs  # noqa: E402
from sample_runs import PROGRAM, TOOLS, called, first_run, first_timeline, needs_program  # noqa: E402
from library import checking, ending, items, runs, timeline, turns  # noqa: E402

MAIN = runpy.run_path(os.path.join(TOOLS, "timeline"))["main"]

# Of examples/first: the turn, the round, the core, the item, its stimulus, and the line.
FIRST = [
    (2, 1, 0, "began 1 E_OK", 0, "start 1 E_OK"),
    (12, 2, 1, "pass1 M", 0, "hook Startup"),
    (15, 3, 0, "pass1 M", 0, "hook Startup"),
    (21, 4, 0, "pass2 0 1", 0, "act A"),
    (21, 4, 0, "pass2 0 1", 0, "pre A"),
    (26, 5, 0, "stim op", 1, "out 1 ActivateTask B"),
    (34, 6, 1, "in 0 0 req ActivateTask B", 1, "act B"),
    (34, 6, 1, "in 0 0 req ActivateTask B", 1, "in 0 ActivateTask B E_OK"),
    (34, 6, 1, "in 0 0 req ActivateTask B", 1, "pre B"),
    (37, 7, 0, "in 1 0 rep E_OK", 1, "stat A ActivateTask E_OK"),
    (38, 7, 0, "stim op", 2, "post A"),
    (38, 7, 0, "stim op", 2, "end A"),
    (41, 7, 1, "stim op", 2, "post B"),
    (41, 7, 1, "stim op", 2, "end B"),
]

START = ["entered", "pass1 M", "readied", "pass2 0"]
PROTECTED = "hook Protection E_OS_PROTECTION_TIME"
LOCKED = "hook Protection E_OS_PROTECTION_LOCKED"
# Scripts of a task X, each with the stimuli that its core takes, and the lines that each of them prints.
SCRIPTS = [
    ("work;jump 3;set v0 1;TerminateTask", 3, [[], [], ["post X", "end X"]]),
    ("jz v0 2;set v0 9;add v0 1;TerminateTask", 3, [[], ["var X v0 1"], ["post X", "end X"]]),
    ("set v0 1;jz v0 0;status v1", 3, [["var X v0 1"], [], ["var X v1 0"]]),
    ("add v0 -1;jz v0 3;jump 0;work", 3, [["var X v0 -1"], [], []]),
    ("work", 3, [[], ["hook Error E_OS_MISSINGEND", "post X", "end X"], []]),
    ("", 2, [["hook Error E_OS_MISSINGEND", "post X", "end X"], []]),
    ("ActivateTask ?;work", 2, [["stat X ActivateTask E_OS_ID", "hook Error E_OS_ID"], []]),
    (
        "GetResource R;TerminateTask",
        2,
        [
            ["stat X GetResource E_OK"],
            ["stat X TerminateTask E_OS_RESOURCE", "hook Error E_OS_RESOURCE"],
        ],
    ),
    ("ChainTask X;work", 2, [["post X", "end X", "act X", "pre X"], ["post X", "end X", "act X", "pre X"]]),
    (
        "ActivateTask Y;work",
        2,
        [["act Y", "stat X ActivateTask E_OK", "post X", "pre Y"], ["post Y", "end Y", "pre X"]],
    ),
    (
        "IncrementCounter C;GetCounterValue C v0;jz v0 4;set v1 7",
        5,
        [
            ["alarm A", "act Y", "stat X IncrementCounter E_OK", "post X", "pre Y"],
            ["post Y", "end Y", "pre X"],
            ["stat X GetCounterValue E_OK 1"],
            [],
            ["var X v1 7"],
        ],
    ),
    (
        "IncrementCounter C;work",
        2,
        [["alarm A", "act Y", "stat X IncrementCounter E_OK", "post X", "pre Y"], ["post Y", "end Y", "pre X"]],
    ),
    ("WaitEvent 1;work", 2, [["stat X WaitEvent E_OS_ACCESS", "hook Error E_OS_ACCESS"], []]),
]
# The same of starts and shutdowns.
SCRIPTS += [
    (
        "StartCore ?;StartCore 0;GetNumberOfActivatedCores v0;jz v0 0;status v1",
        5,
        [
            ["stat X StartCore E_OS_ID"],
            ["stat X StartCore E_OS_ACCESS"],
            ["var X v0 1"],
            [],
            ["var X v1 1"],
        ],
    ),
    (
        "SuspendAllInterrupts;GetNumberOfActivatedCores v0;ShutdownOS 0;ShutdownAllCores 0;StartCore 0;jz v0 5",
        6,
        [[], [], [], [], ["stat X StartCore E_OS_DISABLEDINT"], []],
    ),
    ("work;ShutdownOS 5", 2, [[], ["hook Shutdown E_OS_NOFUNC"]]),
    ("work;ShutdownAllCores 5", 2, [[], []]),
]
# The scripts of the task X and of the ISR I, the budget of both, and the core's `protection`; then its stimuli, and what
# each of them prints. J has a greater level than I, Y a greater priority than X; the first `tick` activates Y. R has a
# lock budget of one tick.
INTERRUPTS = [
    (
        ("work;TerminateTask", "ActivateTask Y", 0, ""),
        [
            ("irq=I", ["irq I", "enter I"]),
            ("op", ["act Y", "stat I ActivateTask E_OK"]),
            ("op", ["leave I", "post X", "pre Y"]),
            ("op", ["post Y", "end Y", "pre X"]),
            ("op", []),
            ("op", ["post X", "end X"]),
            ("irq=I", ["irq I", "enter I"]),
        ],
    ),
    (
        ("work", "add v0 1;work", 0, ""),
        [
            ("irq=I", ["irq I", "enter I"]),
            ("op", ["var I v0 1"]),
            ("irq=J", ["irq J", "enter J"]),
            ("irq=I", ["irq I"]),
            ("irq=I", ["lost I"]),
            ("op", []),
            ("op", ["leave J"]),
            ("op", []),
            ("op", ["leave I", "enter I"]),
            ("op", ["var I v0 2"]),
        ],
    ),
    (
        ("SuspendAllInterrupts;SuspendAllInterrupts;TerminateTask;ResumeAllInterrupts;ResumeAllInterrupts", "", 0, ""),
        [
            ("op", []),
            ("op", []),
            ("irq=I", ["irq I"]),
            ("tick", ["tick", "alarm B", "act Y"]),
            ("op", ["stat X TerminateTask E_OS_DISABLEDINT", "hook Error E_OS_DISABLEDINT"]),
            ("op", []),
            ("op", ["enter I"]),
            ("op", ["leave I", "post X", "pre Y"]),
        ],
    ),
    (
        ("SuspendAllInterrupts;work;ResumeAllInterrupts", "", 0, ""),
        [
            ("op", []),
            ("tick", ["tick", "alarm B", "act Y"]),
            ("op", []),
            ("op", ["post X", "pre Y"]),
        ],
    ),
    (
        ("SuspendAllInterrupts", "TerminateTask;SuspendAllInterrupts", 0, ""),
        [
            ("op", []),
            ("irq=I", ["irq I"]),
            ("op", ["hook Error E_OS_MISSINGEND", "post X", "end X", "enter I"]),
            ("op", ["stat I TerminateTask E_OS_CALLEVEL", "hook Error E_OS_CALLEVEL"]),
            ("op", []),
            ("irq=J", ["irq J"]),
            ("op", ["hook Error E_OS_DISABLEDINT", "leave I", "enter J"]),
        ],
    ),
    (
        ("work;jump 0", "SuspendAllInterrupts;work", 1, "PRO_TERMINATETASKISR"),
        [
            ("op", []),
            ("irq=I", ["irq I", "enter I"]),
            ("op", []),
            ("tick", ["tick", PROTECTED, "leave I", "alarm B", "act Y", "post X", "pre Y"]),
            ("op", ["post Y", "end Y", "pre X"]),
            ("tick", ["tick", PROTECTED, "end X"]),
        ],
    ),
    (
        ("work", "", 1, "PRO_IGNORE"),
        [("op", []), ("tick", ["tick", PROTECTED, "hook Shutdown E_OS_PROTECTION_TIME"])],
    ),
    (
        ("GetResource R;jump 1", "", 0, "PRO_TERMINATETASKISR"),
        [
            ("op", ["stat X GetResource E_OK"]),
            ("irq=I", ["irq I", "enter I"]),
            ("tick", ["tick", "alarm B", "act Y"]),
            ("op", ["leave I", "post X", "pre Y"]),
            ("tick", ["tick"]),
            ("op", ["post Y", "end Y", "pre X"]),
            ("tick", ["tick", LOCKED, "end X"]),
        ],
    ),
    (
        ("GetResource R;jump 1", "", 0, "PRO_IGNORE"),
        [
            ("op", ["stat X GetResource E_OK"]),
            ("tick", ["tick", LOCKED, "hook Shutdown E_OS_PROTECTION_LOCKED"]),
        ],
    ),
]
CONFIGURATION = {
    "resources": [{"name": "R", "ceiling": 1}],
    "counters": [{"name": "C", "max": 9, "software": True}],
    "alarms": [
        {"name": "A", "counter": "C", "action": "ActivateTask Y", "auto": {"modes": ["M"], "start": 1, "cycle": 0}}
    ],
}


def run_of_script(script, count, lines):
    """A run of one core whose task X has a script."""
    tasks = [{"name": "X", "prio": 1, "auto": ["M"], "script": script}]
    tasks.append({"name": "Y", "prio": 2, "script": "TerminateTask"})
    text = json.dumps({"cores": [dict(CONFIGURATION, id=0, tasks=tasks)]})
    block = ["hook Startup", "act X", "pre X"] + lines
    return runs.run_of(text, {0: block}, {0: START + ["stim op"] * count})


def run_with_interrupts(script, isr_script, budget, protection):
    """A configuration of one core, as INTERRUPTS has it."""
    tasks = [{"name": "X", "prio": 1, "auto": ["M"], "budget": budget, "script": script}]
    tasks.append({"name": "Y", "prio": 2, "script": "TerminateTask"})
    isrs = [{"name": "I", "level": 1, "budget": budget, "script": isr_script}]
    isrs.append({"name": "J", "level": 2, "script": "work"})
    alarm = {"name": "B", "counter": "D", "action": "ActivateTask Y", "auto": {"modes": ["M"], "start": 1, "cycle": 0}}
    core = {"id": 0, "tasks": tasks, "isrs": isrs, "counters": [{"name": "D", "max": 9}], "alarms": [alarm]}
    core["resources"] = [{"name": "R", "ceiling": 1, "lock": 1}]
    return json.dumps({"cores": [dict(core, protection=protection) if protection else core]})


class Items(unittest.TestCase):
    def test_lines_of_an_op(self):
        for script, count, lines in SCRIPTS:
            with self.subTest(script=script):
                run = run_of_script(script, count, [line for each in lines for line in each])
                found = items.items_of(run, 0)[len(START) :]
                self.assertEqual([item.lines for item in found], lines)

    def test_lines_with_interrupts(self):
        for given, stimuli in INTERRUPTS:
            with self.subTest(given=given):
                lines = ["hook Startup", "act X", "pre X"] + [line for _, each in stimuli for line in each]
                log = START + ["stim " + word for word, _ in stimuli]
                found = items.items_of(runs.run_of(run_with_interrupts(*given), {0: lines}, {0: log}), 0)
                self.assertEqual([item.lines for item in found[len(START) :]], [each for _, each in stimuli])

    def test_the_actions_of_a_point(self):
        deeds = items.items_of(sample_runs.point_run(), 0)[-1].deeds
        expected = [("ActivateTask T", "E_OK"), ("ActivateTask T", "E_OS_LIMIT")]
        expected += [("SetEvent E 1", "E_OS_STATE"), ("SetEvent E 2", "E_OS_STATE")]
        self.assertEqual([(deed.operation, deed.status) for deed in deeds], expected)
        self.assertEqual({(deed.name, deed.place) for deed in deeds}, {("S", 0)})

    def test_numbers(self):
        found = items.items_of(first_run(), 0)
        self.assertEqual([item.number for item in found], list(range(1, 13)))
        self.assertEqual([item.place for item in found if item.runner == ("task", "A")], [0, 1])

    def test_a_block_of_another_run(self):
        for lines, text in (
            (["var X v0 1"], "is printed by no item"),
            (["stat X GetResource E_OK"], "is printed by no item"),
        ):
            with self.subTest(lines=lines), self.assertRaisesRegex(ending.Failed, text):
                items.items_of(run_of_script("work;work", 2, lines), 0)
        with self.assertRaisesRegex(ending.Failed, "core 0, item 5 `stim op`: the end of the block is not what"):
            items.items_of(run_of_script("set v0 1", 1, []), 0)


# Two cores of which the second one shuts all down: what they print, and their logs. Core 0 has an envelope on its way.
HALTED = {
    0: "start 1 E_OK|hook Startup|act A|pre A|out 1 ActivateTask B|stat A ActivateTask E_OS_CORE|hook Error E_OS_CORE"
    "|halt 1 E_OS_ID|hook Shutdown E_OS_ID",
    1: "hook Startup|act X|pre X|halt 1 E_OS_ID|hook Shutdown E_OS_ID",
}
HALTED_LOGS = {
    0: "began 1 E_OK|entered|pass1 M|readied|pass2 0 1|stim op|stim op|post 1|in 1 0 rep E_OS_CORE|stim op|halt 1 E_OS_ID"
    "|drained|passend|last 1 E_OS_ID",
    1: "on|entered|pass1 M|readied|pass2 0 1|stim op|halt 1 E_OS_ID|in 0 0 req ActivateTask B|post 0|drained|passend"
    "|last 1 E_OS_ID",
}
HALTED_TEXT = {
    "cores": [
        {
            "id": 0,
            "start": [1],
            "tasks": [{"name": "A", "prio": 1, "auto": ["M"], "script": "work;ActivateTask B;work"}],
        },
        {
            "id": 1,
            "tasks": [
                {"name": "X", "prio": 1, "auto": ["M"], "script": "ShutdownAllCores 3"},
                {"name": "B", "prio": 1, "script": ""},
            ],
        },
    ]
}


def halted_run(turns_of_run=None):
    """The run of HALTED."""
    texts = ({core: lines.split("|") for core, lines in each.items()} for each in (HALTED, HALTED_LOGS))
    run = runs.run_of(json.dumps(HALTED_TEXT), *texts)
    return runs.Run(run.draft, run.blocks, run.logs, True, turns_of_run)


class Shutdowns(unittest.TestCase):
    def test_who_asked(self):
        for core, asked in ((0, False), (1, True)):
            item = next(each for each in items.items_of(halted_run(), core) if each.words[0] == "halt")
            self.assertEqual((item.asked, item.lines), (asked, ["halt 1 E_OS_ID"]))

    def test_what_comes_to_a_halted_core(self):
        found = next(each for each in items.items_of(halted_run(), 1) if each.words[0] == "in")
        self.assertEqual([(deed.operation, deed.status) for deed in found.deeds], [("ActivateTask B", "E_OS_CORE")])
        self.assertEqual(found.lines, [])

    def test_the_turns_of_the_default_schedule(self):
        placed = turns.placed_items(halted_run())
        halts = [(item.core, item.round, str(item.turn % 6)) for item in placed if item.words[0] == "halt"]
        # Core 1 by its own turn, core 0 by a look behind the reply.
        self.assertEqual(halts, [(1, 6, "5"), (0, 8, "3")])

    def test_listed_turns(self):
        words = "0o 1l 1o 0o 0l 1l 0o 1o 0l 1l 0o 0o 0o 1o 0l 1l 1o 1s0 0l 1o 0l 0s1 0o 0l 1o 0o 0l 1l 0l 1l"
        words = words.split(" ")
        placed = turns.placed_items(halted_run(words))
        halts = [(item.core, item.turn) for item in placed if item.words[0] == "halt"]
        self.assertEqual(halts, [(1, 17), (0, 24)])

    def test_from_when_on_a_core_runs_no_job(self):
        down = timeline.timeline_of(halted_run()).down
        self.assertEqual({core: item.text for core, item in down.items()}, {0: "halt 1 E_OS_ID", 1: "halt 1 E_OS_ID"})

    def test_a_conflict_of_modes(self):
        text = json.dumps({"cores": [{"id": 0}]})
        run = runs.run_of(text, {0: ["conflict"]}, {0: ["entered", "pass1 conflict"]})
        self.assertEqual([item.lines for item in items.items_of(run, 0)], [[], ["conflict"]])

    def test_what_autostarts_in_a_mode(self):
        tasks = [{"name": "A", "prio": 1, "auto": ["M", "N"], "script": ""}]
        tasks.append({"name": "B", "prio": 2, "auto": ["M"], "script": ""})
        text = json.dumps({"modes": ["M", "N"], "cores": [{"id": 0, "mode": "DONOTCARE", "tasks": tasks}]})
        for mode, lines in (("N", ["act A", "pre A"]), ("M", ["act A", "act B", "pre B"]), ("none", [])):
            with self.subTest(mode=mode):
                log = ["entered", "pass1 " + mode, "readied", "pass2 0"]
                run = runs.run_of(text, {0: ["hook Startup"] + lines}, {0: log})
                self.assertEqual(items.items_of(run, 0)[-1].lines, lines)


class Turns(unittest.TestCase):
    def test_a_round(self):
        words = "0s1 0s2 0o 0l 1s0 1s2 1o 1l 2s0 2s1 2o 2l"
        self.assertEqual(" ".join(map(str, turns.default_round([0, 1, 2]))), words)
        self.assertEqual([turns.turn_of(word) for word in words.split(" ")], turns.default_round([0, 1, 2]))
        self.assertRaises(ValueError, turns.turn_of, "0x")

    def test_first_turns(self):
        self.assertEqual(turns.first_turns(first_run(), 8), "0s1 0o 0l 1s0 1o 1l 0s1 0o".split(" "))

    def test_a_log_of_another_schedule(self):
        run = first_run()
        run.logs[1] = ("on", "pass1 M")
        with self.assertRaisesRegex(ending.Failed, "has no turn"):
            turns.placed_items(runs.Run(run.draft, {0: run.blocks[0], 1: ("hook Startup",)}, run.logs, True))

    def test_spread(self):
        for values, most, expected in (
            ([], 3, []),
            ([1, 2], 3, [1, 2]),
            ([1, 2, 3], 1, [1]),
            (list(range(11)), 3, [0, 5, 10]),
            (list(range(10)), 4, [0, 3, 6, 9]),
        ):
            with self.subTest(values=values, most=most):
                self.assertEqual(checking.spread(values, most), expected)


class Records(unittest.TestCase):
    def test_first(self):
        found = timeline.records(first_timeline().items)
        names = ("turn", "round", "core", "by", "stimulus", "line")
        self.assertEqual([tuple(record[name] for name in names) for record in found], FIRST)

    def test_the_document(self):
        found = [timeline.text_of(record) for record in timeline.records(first_timeline().items)]
        lines = documents.example("in the order of the turns. Of `examples/first`:").splitlines()
        self.assertEqual([line for line in found if line in lines], lines)

    @needs_program
    def test_whose_an_op_is(self):
        found = [timeline.text_of(each) for each in timeline.records(sample_runs.interrupts().by_core[0])]
        self.assertIn('"by":"stim op","isr":"J","operation":1,"line":"leave J"}', " ".join(found))
        self.assertIn('"by":"stim op","task":"H","operation":0,"line":"post H"}', " ".join(found))

    def test_a_line(self):
        record = next(each for each in timeline.records(first_timeline().items) if each["line"] == "post A")
        self.assertEqual(
            timeline.text_of(record),
            '{"turn":38,"round":7,"core":0,"item":9,"stimulus":2,"tick":0,"by":"stim op","task":"A","operation":1,'
            '"line":"post A"}',
        )


class Commands(unittest.TestCase):
    def test_wrong_usage(self):
        for words in ((), ("a",), ("a", "b", "--check", "0"), ("a", "b", "--core", "16")):
            with self.subTest(words=words):
                self.assertEqual(called(MAIN, *words)[:2], (2, ""))

    def test_no_program(self):
        with self.assertRaisesRegex(ending.Failed, "no/such/mcos: cannot be run: No such file or directory"):
            MAIN(["--mcos", "no/such/mcos", *sample_runs.ENGINE])

    @needs_program
    def test_a_fault(self):
        path = os.path.join(sample_runs.EXAMPLES, "faults", "limit.json")
        with self.assertRaisesRegex(ending.Failed, "fault 3 Limit"):
            MAIN(["--mcos", PROGRAM, path, sample_runs.ENGINE[1]])

    @needs_program
    def test_printed(self):
        status, output, messages = called(MAIN, "--mcos", PROGRAM, *sample_runs.ENGINE)
        lines = [json.loads(line) for line in output.splitlines()]
        self.assertEqual((status, messages), (0, ""))
        self.assertEqual([line["turn"] for line in lines], sorted(line["turn"] for line in lines))
        status, output, _ = called(MAIN, "--mcos", PROGRAM, "--core", "1", *sample_runs.ENGINE)
        self.assertEqual([json.loads(line) for line in output.splitlines()], [x for x in lines if x["core"] == 1])

    @needs_program
    def test_check(self):
        status, output, _ = called(MAIN, "--mcos", PROGRAM, "--check", "5", *sample_runs.ENGINE)
        self.assertEqual(
            (status, output), (0, "10 runs of first turns and 10 replays of first items compared, 0 differences\n")
        )


@needs_program
class AsTheProgram(unittest.TestCase):
    def test_each_line_stands_once(self):
        count = 0
        for source in sample_runs.sources():
            with self.subTest(source=source):
                found = sample_runs.timeline_of(source)
                for core, block in found.run.blocks.items():
                    self.assertEqual(tuple(line for item in found.by_core[core] for line in item.lines), block)
                count += 1
        self.assertGreater(count, 20)

    def test_turns(self):
        for source in sample_runs.sources():
            with self.subTest(source=source):
                self.assertEqual(checking.check(sample_runs.timeline_of(source), source, 6).differences, ())

    def test_interrupts(self):
        for given, stimuli in INTERRUPTS:
            words = " ".join(word for word, _ in stimuli)
            with self.subTest(given=given), sample_runs.written(run_with_interrupts(*given), {"0": words}) as source:
                found = sample_runs.timeline_of(source)
                taken = [item.lines for item in found.items if item.text.startswith("stim ")]
                self.assertEqual(taken, [lines for _, lines in stimuli])

    def test_a_core_that_is_down(self):
        with sample_runs.written(sample_runs.INTERRUPTS, sample_runs.INTERRUPTS_STIMULI) as source:
            found = sample_runs.timeline_of(source)
            self.assertEqual(checking.check(found, source, 1000).differences, ())
        served = [item for item in found.by_core[1] if item.text.startswith("in ")]
        self.assertEqual(
            [(item.text, item.lines, item.deeds[0].status) for item in served],
            [
                ("in 0 0 req ActivateTask B", ["act B", "in 0 ActivateTask B E_OK"], "E_OK"),
                ("in 0 1 act ActivateTask B", [], "dropped"),
                ("in 0 2 req ActivateTask B", [], "E_OS_CORE"),
            ],
        )
        self.assertEqual({core: item.tick for core, item in found.down.items()}, {1: 2})

    def test_full_mailboxes(self):
        # At each tick of core 0 four actions go to core 1, into a mailbox for one envelope. In each round of this
        # schedule core 0 has two turns, and core 1 serves once.
        points = [{"offset": 0, "actions": ["ActivateTask X"] * 4}]
        table = {"name": "S", "counter": "C", "duration": 1, "points": points, "repeating": True}
        table["auto"] = {"modes": ["M"], "offset": 1}
        cores = [
            {"id": 0, "start": [1], "counters": [{"name": "C", "max": 9}], "tables": [table]},
            {"id": 1, "tasks": [{"name": "X", "prio": 1, "activations": 9, "script": "TerminateTask"}]},
        ]
        stimuli = {"0": "tick tick tick", "1": "op op op op op"}
        texts = [{"cap": 1, "cores": cores}, stimuli, " ".join(["0s1 0o 0l 0o 1s0 1o 1l"] * 40)]
        with tempfile.TemporaryDirectory() as folder:
            paths = [os.path.join(folder, name) for name in ("config.json", "stimuli.json", "schedule.json")]
            for path, value in zip(paths, texts):
                with open(path, "w", encoding="utf-8") as file:
                    json.dump(value, file)
            source = runs.Source(PROGRAM, *paths)
            found = sample_runs.timeline_of(source)
            self.assertEqual(checking.check(found, source, 1000).differences, ())
        levels = [level for _, level in timeline.mailbox_levels(found)[0, 1]]
        self.assertEqual((max(levels), levels.count(1)), (1, 12))

    def test_the_check_finds_a_wrong_turn(self):
        source = next(source for source in sample_runs.sources() if os.sep + "first" + os.sep in source.stimuli)
        for change in (-1, 1):
            found = sample_runs.timeline_of(source)
            next(item for item in found.items if item.text == "stim op").turn += change
            with self.subTest(change=change):
                self.assertNotEqual(checking.check(found, source, 1000).differences, ())

    def test_the_check_finds_a_wrong_item(self):
        source = next(source for source in sample_runs.sources() if os.sep + "first" + os.sep in source.stimuli)
        found = sample_runs.timeline_of(source)
        before, behind = (item for item in found.by_core[1] if item.lines and item.number > 5)
        before.lines.append(behind.lines.pop(0))
        texts = checking.check(found, source, 1000).differences
        self.assertIn("after 7 items of core 1, line 5: mcos prints no line; here stands `post B`", texts)

    def test_a_stalled_run(self):
        with tempfile.TemporaryDirectory() as folder:
            path = os.path.join(folder, "schedule.json")
            with open(path, "w", encoding="utf-8") as file:
                json.dump(" ".join(turns.first_turns(sample_runs.engine().run, 200)), file)
            source = runs.Source(PROGRAM, *sample_runs.ENGINE, path)
            found = sample_runs.timeline_of(source)
            whole = sample_runs.engine()
        self.assertFalse(found.run.has_ended)
        placed = [(item.turn, item.core, item.lines) for item in found.items]
        self.assertEqual(placed, [(item.turn, item.core, item.lines) for item in whole.items if item.turn <= 200])


if __name__ == "__main__":
    unittest.main()
