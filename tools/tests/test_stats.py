"""What `tools/stats` counts: by hand on a small run, and by counting lines of the trace on the examples."""

import json
import os
import re
import runpy
import sys
import tempfile
import unittest

sys.path.insert(0, os.path.dirname(os.path.abspath(__file__)))
import documents  # noqa: E402
import sample_runs  # noqa: E402
from sample_runs import PROGRAM, TOOLS, called, first_timeline, needs_program  # noqa: E402
from library import columns, ending, figure_tables, figures, jobs, requirements, runs, timeline, turns  # noqa: E402
from library.requirement_files import read_requirements  # noqa: E402
from library.requirements import Requirement  # noqa: E402

MAIN = runpy.run_path(os.path.join(TOOLS, "stats"))["main"]

LIMIT = "E_OS_LIMIT"
FIRST_TIMES = {"ticks": [0, 0, 0.0], "stimuli": [1, 1, 1.0], "rounds": [1, 1, 1.0]}
# Of examples/first: requirements, with whether they are met and what was found.
VERDICTS = [
    ("A lost=0", True, "0"),
    ("A lost!=0", False, "0"),
    ("A  activations >= 1", True, "1"),
    ("B load<50", False, "50"),
    ("B response<=1 stimuli", True, "1 to 1 stimuli"),
    ("B response<1 stimuli", False, "1 to 1 stimuli"),
    ("B response=0", True, "0 to 0 ticks"),
    ("A waiting>=1 rounds", False, "0 to 0 rounds"),
    ("core 0 load=100", True, "100"),
    ("core 1 idle=1", True, "1"),
    ("all cores refused=0", True, "0"),
    ("mailbox 0 to 1 fullest<=1", True, "1"),
    ("mailbox 1 to 0 envelopes=2", False, "1"),
    ("chain A > B complete=1", True, "1"),
    ("chain A > B broken=0", True, "0"),
    ("chain A > B length<=3", True, "3 to 3 rounds"),
    ("chain B > A broken=0", False, "this run has no such chain"),
]
WRONG = [
    ("A", "is no requirement"),
    ("A lost", "is no requirement"),
    ("A lost=-1", "is no requirement"),
    ("AA lost=0", "no task and no ISR is called `AA`; did you mean `A`"),
    ("A lots=0", "`A` has the figures activations, preempted, lost"),
    ("A lost=0 ticks", "a unit stands only behind a time"),
    ("A response<=1 tick", "the unit is ticks, stimuli and rounds"),
    ("A response!=1", "a time has <, <=, =, >= or >"),
    ("core 2 load<1", "no core 2 is configured"),
    ("core 0 waiting<1", "`core 0` has the figures"),
    ("all cores load<1", "`all cores` has the figures lost, refused, errors, protection and down"),
    ("mailbox 0 to 0 fullest<1", "there is no mailbox from core 0 to core 0"),
    ("chain A > B fullest<1", "has the figures complete, open, broken and length"),
    ("chain A > B length<9 ticks", "the unit is rounds"),
]
# The text of a file of requirements, and what is in it: the line, the id and the requirement.
FILES = [
    ("A lost=0", [(1, None, "A lost=0")]),
    ("\ufeff# of A\r\n\r\n  R-1 :A lost=0  # none\r\n", [(3, "R-1", "A lost=0")]),
    ("R-1: A lost=0\nR-1: B lost=0\n", [(1, "R-1", "A lost=0"), (2, "R-1", "B lost=0")]),
    ("SYS#12: A lost=0\t#", [(1, "SYS#12", "A lost=0")]),
    ("doors:12: chain A > B broken=0", [(1, "doors:12", "chain A > B broken=0")]),
    ("\u00e4: A\x0clost=0\n\n", [(1, "\u00e4", "A\x0clost=0")]),
]
ONE_WORD = "an id is one word, as in `BRK-12: T1ms lost=0`"
WRONG_FILES = [
    (b"", ": there is no requirement in it"),
    (b"# A lost=0\n \n", ": there is no requirement in it"),
    (b"A lost=0\nR 1: A lost=0\n", ":2: 'R 1: A lost=0' is no requirement: " + ONE_WORD),
    (b": A lost=0\n", ":1: ': A lost=0' is no requirement: " + ONE_WORD),
    (b"\xff", ": this is no UTF-8"),
]
# Of examples/locks: each resource with its task, its lock budget, what of it was used at most, and how often it was
# reached. Of Map the execution budget comes first, and Watch takes Bus anew.
LOCK_BUDGETS = [
    ("Frame", "Send", 4, 4, 1),
    ("Bus", "Send", 2, 2, 1),
    ("Bus", "Watch", 2, 0, 0),
    ("Flash", "Store", 2, 2, 1),
    ("Map", "Lookup", 2, 2, 0),
]
LOCK_TABLE = """
Lock budgets
  core  resource  task    lock  used  reached
  0     Frame     Send       4     4        1
  0     Bus       Send       2     2        1
  0     Bus       Watch      2     0        0
  1     Flash     Store      2     2        1
  2     Map       Lookup     2     2        0

"""
LOCK_VERDICTS = [
    ("resource Frame used<=4", True, "4"),
    ("resource Bus used<2", False, "2"),
    ("resource Bus reached=1", True, "1"),
    ("resource Map reached=0", True, "0"),
    ("Lookup reached=1", True, "1"),
    ("Send reached=0", True, "0"),
    ("Store used<=3", True, "3"),
    ("all cores protection=3", True, "3"),
]
LOCK_WRONG = [
    ("resource Bsu used<=2", "no resource is called `Bsu`; did you mean `Bus`"),
    ("resource Send used<=2", "no resource is called `Send`"),
    ("resource Bus held<=2", "`resource Bus` has the figures used and reached"),
    ("resource Bus used<=2 ticks", "a unit stands only behind a time"),
    ("Bus used<=2", "no task and no ISR is called `Bus`"),
]
# What is marked where the hooks of protection and shutdown are called, in the order of the turns.
LOCK_MARKS = [
    "Protection E_OS_PROTECTION_TIME",
    "Protection E_OS_PROTECTION_LOCKED: Flash 2 of 2",
    "Shutdown E_OS_PROTECTION_LOCKED",
    "Protection E_OS_PROTECTION_LOCKED: Frame 4 of 4 and Bus 2 of 2",
]
# A time of a job that still goes on: the requirement, what is done, what still goes on, and whether it is met.
STILL = [
    ("X response<=5", [3], [5], True),
    ("X response<=5", [3], [6], False),
    ("X response<5", [3], [5], False),
    ("X response=3", [3], [3], True),
    ("X response=3", [3], [4], False),
    ("X response>=3", [3], [9], True),
    ("X response<=5", [], [0], False),
    ("X response<=5", [], [], False),
]

# A core with a task of two activations, one that waits for events, an alarm, and calls that are refused.
CONFIGURATION = """{"cores": [{"id": 0,
  "counters": [{"name": "C", "max": 9}],
  "alarms": [{"name": "A", "counter": "C", "action": "SetEvent E 1", "auto": {"modes": ["M"], "start": 1, "cycle": 1}}],
  "resources": [{"name": "R", "ceiling": 2}],
  "tasks": [
    {"name": "T", "prio": 1, "activations": 2, "script": "GetResource R;ReleaseResource R;TerminateTask"},
    {"name": "E", "prio": 3, "extended": true, "auto": ["M"],
     "script": "WaitEvent 1;ClearEvent 1;ActivateTask T;jump 0"}]}]}"""
STIMULI = "op tick op op op op op tick op op op op tick op op op op op op tick op"
LOG = ["entered", "pass1 M", "readied", "pass2 0"] + ["stim " + word for word in STIMULI.split(" ")]
LOG += ["drained", "passend", "last"]
SERVED = ["alarm A", "ev E 1", "free E"]
CALL = ["clr E 1", "stat E ClearEvent E_OK", "act T", "stat E ActivateTask E_OK"]
BLOCK = (
    ["hook Startup", "act E", "pre E", "post E", "wait E 1"]
    + ["tick", *SERVED, "pre E", *CALL, "post E", "wait E 1", "pre T", "stat T GetResource E_OK"]
    + ["tick", *SERVED, "post T", "pre E", *CALL, "post E", "wait E 1", "pre T"]
    + ["tick", *SERVED, "post T", "pre E", *CALL[:2], "stat E ActivateTask E_OS_LIMIT", "hook Error E_OS_LIMIT"]
    + ["post E", "wait E 1", "pre T", "stat T ReleaseResource E_OK", "post T", "end T", "pre T"]
    + ["tick", *SERVED, "post T", "pre E", "clr E 1", "stat E ClearEvent E_OK"]
)


def first_figures():
    """The figures of examples/first."""
    return figures.figures_of(jobs.jobs_of(first_timeline()))


def small_figures():
    """The figures of the run above."""
    run = runs.run_of(CONFIGURATION, {0: BLOCK}, {0: LOG})
    return figures.figures_of(jobs.jobs_of(timeline.timeline_of(run)))


def count_of(status, block):
    """How often ProtectionHook was called with a status."""
    return len(re.findall("^hook Protection %s$" % status, block, re.MULTILINE))


def found_for(rows, **members):
    """The row with these members."""
    return next(row for row in rows if all(row[name] == value for name, value in members.items()))


class Counts(unittest.TestCase):
    maxDiff = None

    def test_first(self):
        found = first_figures()
        self.assertEqual(
            found["run"], {"ended": True, "conflict": False, "schedule": "default", "turns": 57, "rounds": 10}
        )
        response = found_for(found["tasks"], task="B")["response"]
        shown = {unit: [times["least"], times["greatest"], times["mean"]] for unit, times in response.items()}
        self.assertEqual(shown, FIRST_TIMES)
        chain = found["chains"][0]
        self.assertEqual(
            (chain["chain"], chain["complete"], chain["rounds"]["sum"], chain["ticks"]), ("A > B", 1, 3, None)
        )

    def test_tasks(self):
        found = small_figures()
        task, waiter = (found_for(found["tasks"], task=name) for name in "TE")
        names = ("activations", "lost", "ended", "live", "preempted", "op", "refused")
        self.assertEqual([task[name] for name in names], [2, 1, 1, 1, 3, 3, 0])
        self.assertEqual([waiter[name] for name in names], [1, 0, 0, 1, 0, 14, 1])
        self.assertEqual([row["times"] for row in found["preemptions"]], [3])
        # E is released four times, and the last time it has not waited again; of T the second job still runs.
        self.assertEqual((waiter["response"]["stimuli"]["count"], waiter["response"]["stimuli"]["open"]), (4, 1))
        self.assertEqual((task["waiting"]["stimuli"]["least"], task["waiting"]["stimuli"]["greatest"]), (2, 9))
        self.assertEqual(task["response"]["stimuli"]["open_greatest"], 11)

    def test_refusals(self):
        expected = {
            "core": 0,
            "caller": "E",
            "who": "task E, operation 2",
            "operation": "ActivateTask T",
            "status": "E_OS_LIMIT",
            "lost": "T",
            "times": 1,
        }
        self.assertEqual(small_figures()["refused"], [expected])

    def test_chains(self):
        chain = small_figures()["chains"]
        self.assertEqual([each["chain"] for each in chain], ["A > E > T"])
        self.assertEqual((chain[0]["complete"], chain[0]["open"], chain[0]["lost"]), (1, 1, {"E_OS_LIMIT": 1}))

    def test_a_chain_ends_where_a_name_would_stand_twice(self):
        tasks = [{"name": "A", "prio": 1, "auto": ["M"], "script": "ChainTask B"}]
        tasks.append({"name": "B", "prio": 1, "script": "ChainTask A"})
        block = ["hook Startup", "act A", "pre A"]
        for one, other in ("AB", "BA", "AB", "BA"):
            block += ["post " + one, "end " + one, "act " + other, "pre " + other]
        log = LOG[:4] + ["stim op"] * 4
        run = runs.run_of(json.dumps({"cores": [{"id": 0, "tasks": tasks}]}), {0: block}, {0: log})
        chains = figures.figures_of(jobs.jobs_of(timeline.timeline_of(run)))["chains"]
        self.assertEqual([(each["chain"], each["complete"], each["open"]) for each in chains], [("A > B", 2, 0)])

    def test_resources(self):
        held = small_figures()["resources"]
        self.assertEqual([(row["resource"], row["task"], row["times"]) for row in held], [("R", "T", 1)])
        self.assertEqual(held[0]["held"]["stimuli"]["sum"], 11)

    def test_a_listed_schedule(self):
        run = sample_runs.first_run()
        listed = runs.Run(run.draft, run.blocks, run.logs, True, tuple(turns.first_turns(run, 57)))
        found = figures.figures_of(jobs.jobs_of(timeline.timeline_of(listed)))
        self.assertEqual(
            found["run"], {"ended": True, "conflict": False, "schedule": "listed", "turns": 57, "rounds": None}
        )
        self.assertEqual(found["chains"][0]["turns"]["sum"], 41 - 21)
        self.assertIn("listed schedule: ended, 57 turns\n", figure_tables.tables(found))
        self.assertTrue(requirements.judge(found, "chain A > B length<=20 turns").is_met)

    def test_columns(self):
        self.assertEqual(columns.columns([["a", "10"], ["bcd", "9"]], [1]), ["a    10", "bcd   9"])
        self.assertEqual(columns.columns([]), [])

    def test_nothing(self):
        run = runs.run_of('{"cores": [{"id": 0}]}', {0: []}, {0: []})
        text = figure_tables.tables(figures.figures_of(jobs.jobs_of(timeline.timeline_of(run))))
        self.assertIn("Tasks\n  none\n", text)
        self.assertIn("default schedule: ended, 0 rounds, 0 turns", text)


class LockBudgets(unittest.TestCase):
    """The run of examples/locks, counted by hand: what is preempted, interrupted, or given back does not count."""

    @classmethod
    def setUpClass(cls):
        cls.jobs = jobs.jobs_of(sample_runs.locks_timeline())
        cls.found = figures.figures_of(cls.jobs)

    def test_figures(self):
        names = ("resource", "task", "lock", "used", "reached")
        rows = [tuple(row[name] for name in names) for row in self.found["lock_budgets"]]
        self.assertEqual(rows, LOCK_BUDGETS)
        self.assertEqual([row["core"] for row in self.found["lock_budgets"]], [0, 0, 0, 1, 2])

    def test_the_table(self):
        self.assertIn(LOCK_TABLE, figure_tables.tables(self.found))

    def test_resources_that_nothing_takes_or_that_have_no_lock_budget(self):
        found = small_figures()
        row = {"core": 0, "resource": "R", "task": "T", "lock": 0, "used": 2, "reached": 0}
        self.assertEqual(found["lock_budgets"], [row])
        self.assertIn("\nLock budgets\n  none\n", figure_tables.tables(found))
        resources = [{"name": "R", "ceiling": 1, "lock": 5}]
        run = runs.run_of(json.dumps({"cores": [{"id": 0, "resources": resources}]}), {0: []}, {0: []})
        found = figures.figures_of(jobs.jobs_of(timeline.timeline_of(run)))
        self.assertIn("\n  0     R         -        5     0        0\n", figure_tables.tables(found))
        self.assertTrue(requirements.judge(found, "resource R used=0").is_met)

    def test_requirements(self):
        for text, is_met, words in LOCK_VERDICTS:
            with self.subTest(text=text):
                verdict = requirements.judge(self.found, text)
                self.assertEqual((verdict.is_met, verdict.found), (is_met, words))
        for text, words in LOCK_WRONG:
            with self.subTest(text=text), self.assertRaisesRegex(requirements.WrongRequirement, re.escape(words)):
                requirements.judge(self.found, text)

    def test_marks(self):
        self.assertEqual([mark.text for mark in self.jobs.marks], LOCK_MARKS)


class Requirements(unittest.TestCase):
    def test_verdicts(self):
        found = first_figures()
        for text, is_met, words in VERDICTS:
            with self.subTest(text=text):
                verdict = requirements.judge(found, text)
                self.assertEqual((verdict.is_met, verdict.found), (is_met, words))

    def test_wrong(self):
        found = first_figures()
        for text, words in WRONG:
            with self.subTest(text=text), self.assertRaisesRegex(requirements.WrongRequirement, re.escape(words)):
                requirements.judge(found, text)

    def test_what_still_goes_on(self):
        for text, done, still, is_met in STILL:
            found = first_figures()
            found["tasks"].append({"task": "X", "response": {"ticks": figures.times(done, still)}})
            with self.subTest(text=text, done=done, still=still):
                self.assertEqual(requirements.judge(found, text).is_met, is_met)

    def test_a_stalled_run_meets_none(self):
        found = first_figures()
        found["run"]["ended"] = False
        verdicts = requirements.judge_all(found, ["A lost=0"])
        self.assertEqual(
            [str(verdict) for verdict in verdicts], ["met: A lost=0 (0)", "not met: the run ends (it stalled)"]
        )
        self.assertEqual(requirements.judge_all(found, []), [])

    def test_modes_in_conflict_meet_none(self):
        blocks, logs = {0: ["conflict"]}, {0: ["on", "entered", "pass1 conflict"]}
        found = figures.figures_of(jobs.jobs_of(timeline.timeline_of(runs.run_of(CONFIGURATION, blocks, logs))))
        self.assertTrue(found["run"]["conflict"])
        verdicts = requirements.judge_all(found, ["all cores refused=0"])
        self.assertEqual(
            [str(verdict) for verdict in verdicts],
            [
                "met: all cores refused=0 (0)",
                "not met: the cores agree on a mode (their modes are in conflict)",
            ],
        )
        self.assertIn("default schedule: ended in a conflict of modes, ", figure_tables.tables(found))
        self.assertEqual(requirements.judge_all(found, []), [])

    def test_an_id_and_a_place(self):
        found = first_figures()
        given = [Requirement("A lost=0", "R-1", "a.txt", 7), Requirement("B lost=1")]
        lines = [str(verdict) for verdict in requirements.judge_given(found, given)]
        self.assertEqual(lines, ["met: R-1: A lost=0 (0)", "not met: B lost=1 (0)"])
        with self.assertRaisesRegex(requirements.WrongRequirement, "^a.txt:7: 'A' is no requirement"):
            requirements.judge_given(found, [Requirement("A", "R-1", "a.txt", 7)])

    @needs_program
    def test_the_modes_of_an_example_are_in_conflict(self):
        files = [os.path.join(sample_runs.EXAMPLES, "modes", name) for name in ("conflict.json", "stimuli.json")]
        status, printed, _ = called(MAIN, "--mcos", PROGRAM, "--require", "all cores refused=0", *files)
        self.assertEqual((status, printed.splitlines()[-1][:9]), (1, "not met: "))


class RequirementFiles(unittest.TestCase):
    def setUp(self):
        folder = tempfile.TemporaryDirectory()
        self.addCleanup(folder.cleanup)
        self.path = os.path.join(folder.name, "requirements.txt")

    def read(self, data):
        """The requirements in a file of these bytes."""
        with open(self.path, "wb") as file:
            file.write(data)
        return read_requirements(self.path)

    def test_right_files(self):
        for text, expected in FILES:
            with self.subTest(text=text):
                found = [(each.line, each.id, each.text) for each in self.read(text.encode())]
                self.assertEqual(found, expected)

    def test_wrong_files(self):
        for data, words in WRONG_FILES:
            with self.subTest(data=data), self.assertRaises(requirements.WrongRequirement) as wrong:
                self.read(data)
            self.assertEqual(str(wrong.exception), self.path + words)

    def test_no_file(self):
        with self.assertRaisesRegex(ending.Failed, "cannot be read"):
            read_requirements(self.path)

    def test_a_wrong_file_is_reported_before_the_run(self):
        with open(self.path, "wb"):
            pass
        status, output, messages = called(MAIN, "--mcos", "none", "--requirements", self.path, "a", "b")
        self.assertEqual((status, output), (2, ""))
        self.assertIn("requirements.txt: there is no requirement in it\n", messages)


@needs_program
class Interrupts(unittest.TestCase):
    """The run with interrupts, counted by hand."""

    @classmethod
    def setUpClass(cls):
        cls.found = figures.figures_of(jobs.jobs_of(sample_runs.interrupts()))

    def test_cores(self):
        names = ("stimuli", "ticks", "irq", "op", "idle", "lost", "refused", "errors", "protection", "down")
        # Lost are an interrupt of I, and what A and X wanted of B.
        self.assertEqual([self.found["cores"][0][name] for name in names], [16, 3, 4, 9, 0, 3, 2, 1, 1, 0])
        self.assertEqual([self.found["cores"][1][name] for name in names], [11, 2, 0, 9, 0, 0, 0, 0, 1, 1])

    def test_isrs(self):
        names = ("isr", "level", "interrupts", "lost", "ended", "live", "interrupted", "op")
        names += ("budget", "used", "reached")
        rows = [[row[name] for name in names] for row in self.found["isrs"]]
        self.assertEqual(rows, [["I", 1, 2, 1, 2, 0, 1, 2, 2, 2, 1], ["J", 2, 1, 0, 1, 0, 0, 2, 0, 0, 0]])
        # The second job of I is pending while the first one is interrupted, and until it has reached its budget.
        isr = self.found["isrs"][0]
        self.assertEqual((isr["waiting"]["stimuli"]["least"], isr["waiting"]["stimuli"]["greatest"]), (1, 4))
        self.assertEqual((isr["response"]["ticks"]["least"], isr["response"]["ticks"]["greatest"]), (1, 2))

    def test_tasks(self):
        rows = [[row[name] for name in ("task", "interrupted", "used", "reached")] for row in self.found["tasks"]]
        # Ticks while an ISR runs are not charged to X.
        self.assertEqual(rows, [["X", 2, 1, 0], ["H", 0, 0, 0], ["B", 0, 2, 1]])

    def test_who_interrupts_whom(self):
        found = [(row["who"], row["by"], row["times"]) for row in self.found["interruptions"]]
        self.assertEqual(found, [("X", "I", 2), ("I", "J", 1)])
        self.assertEqual([(row["task"], row["by"]) for row in self.found["preemptions"]], [("X", "H")])

    def test_what_comes_to_a_core_that_is_down(self):
        found = [(row["who"], row["status"]) for row in self.found["refused"]]
        self.assertEqual(found, [("alarm A", "dropped"), ("task X, operation 2", "E_OS_CORE")])
        lost = {chain["chain"]: chain["lost"] for chain in self.found["chains"]}
        self.assertEqual(lost, {"J > B": {}, "I > H": {}, "A > B": {"dropped": 1}, "X > B": {"E_OS_CORE": 1}})
        self.assertEqual([(row["sent"], row["served"]) for row in self.found["crossings"]], [(3, 2)])

    def test_tables(self):
        text = figure_tables.tables(self.found)
        self.assertIn("ISRs\n  core  isr  level  interrupts  lost  ended  live  op    load\n  0     I        1 ", text)
        budgets = "  core  who  budget  used  reached\n  0     X         9     1        0\n  1     B         2     2"
        self.assertIn("Budgets\n" + budgets, text)

    def test_requirements(self):
        for text, is_met in (
            ("I lost=0", False),
            ("I interrupts=2", True),
            ("J response<=0 ticks", True),
            ("X used<=1", True),
            ("B reached=0", False),
            ("all cores down=0", False),
            ("core 0 irq=4", True),
        ):
            with self.subTest(text=text):
                self.assertEqual(requirements.judge(self.found, text).is_met, is_met)
        for text in ("I preempted=0", "X interrupts=0"):
            with self.subTest(text=text), self.assertRaisesRegex(requirements.WrongRequirement, "has the figures"):
                requirements.judge(self.found, text)


@needs_program
class Spinlocks(unittest.TestCase):
    """The runs of examples/spinlocks, counted by hand."""

    def found(self, name, stimuli):
        paths = (os.path.join(sample_runs.EXAMPLES, "spinlocks", each) for each in (name, stimuli))
        return figures.figures_of(jobs.jobs_of(sample_runs.timeline_of(runs.Source(PROGRAM, *paths))))

    def test_waited_for_and_held(self):
        found = self.found("config.json", "stimuli.json")["spinlocks"]
        keys = [[row[name] for name in ("core", "spinlock", "who", "times")] for row in found]
        expected = [[0, "Bus", "Main", 1], [0, "Log", "Main", 1], [1, "Log", "Careless", 1], [1, "Log", "Poll", 1]]
        self.assertEqual(keys, expected)
        # Main asks for Log in the fifth round before core 1 gives back what Careless had. A try is answered in one.
        waited = [row["waited"]["rounds"]["sum"] for row in found]
        self.assertEqual(waited[0::3], [1, 1])
        self.assertGreater(waited[1], 1)
        # Careless holds Log from its first `op` to the turn behind its end, in the fifth one.
        self.assertEqual(found[2]["held"]["stimuli"]["sum"], 4)
        self.assertEqual([row["held"]["rounds"]["open"] for row in found], [0] * 4)

    def test_a_wait_that_a_halt_drops(self):
        found = self.found("halt.json", "halt_stimuli.json")
        send = found["spinlocks"][-1]
        self.assertEqual((send["who"], send["times"], send["waited"]["rounds"]["open"]), ("Send", 0, 1))
        held = [row["held"]["rounds"]["open"] for row in found["spinlocks"]]
        self.assertEqual(held, [0, 0, 0])
        self.assertRegex(figure_tables.tables(found), r"Spinlocks, waited for[^\n]*\n.*\n.*\n.*\n  1     Bus       Send      0 .* 1\n")


@needs_program
class Commands(unittest.TestCase):
    def run_stats(self, *words):
        """What the script does on examples/engine."""
        return called(MAIN, "--mcos", PROGRAM, *words, *sample_runs.ENGINE)

    def test_the_document(self):
        status, output, messages = self.run_stats()
        self.assertEqual((status, messages), (0, ""))
        lines = documents.part("Of `examples/engine`, the tables in part:")
        self.assertTrue(documents.is_part_of(lines, output), output)
        self.assertGreater(len(lines), 15)

    def test_json(self):
        status, output, _ = self.run_stats("--json")
        self.assertEqual((status, found_for(json.loads(output)["tasks"], task="T1ms")["activations"]), (0, 20))

    def test_requirements(self):
        status, output, _ = self.run_stats("--require", "T1ms lost=0", "--require", "T10ms response<=2 ticks")
        self.assertEqual((status, output), (0, "met: T1ms lost=0 (0)\nmet: T10ms response<=2 ticks (2 to 2 ticks)\n"))
        status, output, _ = self.run_stats("--require", "all cores lost=0")
        self.assertEqual((status, output), (1, "not met: all cores lost=0 (1)\n"))

    def test_a_file_of_requirements(self):
        text, printed = documents.example("This is `requirements.txt`:").split("$ tools/stats --requirements ")
        text = text.strip("\n") + "\n"
        with tempfile.TemporaryDirectory() as folder:
            path = os.path.join(folder, "requirements.txt")
            ending.save(path, text)
            status, output, messages = self.run_stats("--requirements", path)
            self.assertEqual((status, output, messages), (0, printed.partition("\n")[2], ""))
            status, output, _ = self.run_stats("--requirements", path, "--require", "all cores lost=0")
            self.assertEqual(status, 1)
            self.assertEqual(output.splitlines()[:2], ["not met: all cores lost=0 (1)", "met: ENG-1: T1ms lost=0 (0)"])
            ending.save(path, text + "ENG-4: T1m lost=0\n")
            status, output, messages = self.run_stats("--requirements", path)
            self.assertEqual((status, output), (2, ""))
            self.assertIn(":5: 'T1m lost=0': no task and no ISR is called `T1m`; did you mean", messages)

    def test_wrong_usage(self):
        status, output, messages = self.run_stats("--require", "T1m lost=0")
        self.assertEqual((status, output), (2, ""))
        self.assertIn("no task and no ISR is called `T1m`; did you mean `T1ms`?", messages)


@needs_program
class SixQuestions(unittest.TestCase):
    """What docs/TOOLS.md answers of examples/engine."""

    @classmethod
    def setUpClass(cls):
        cls.found = figures.figures_of(jobs.jobs_of(sample_runs.engine()))

    def range_of(self, times, unit):
        """The least and the greatest of some times."""
        return times[unit]["least"], times[unit]["greatest"]

    def test_lost_activations(self):
        self.assertEqual([(task["task"], task["lost"]) for task in self.found["tasks"] if task["lost"]], [("Ack", 1)])
        self.assertEqual(
            [(row["who"], row["status"]) for row in self.found["refused"]], [("task Log, operation 2", LIMIT)]
        )
        self.assertEqual(found_for(self.found["tasks"], task="T1ms")["activations"], 20)

    def test_preemptions(self):
        found = {(row["task"], row["by"]): row["times"] for row in self.found["preemptions"]}
        expected = {("T100ms", "T1ms"): 9, ("T5ms", "T1ms"): 3, ("T10ms", "T1ms"): 2, ("Ack", "T1ms"): 1}
        self.assertEqual(found, {**expected, ("T10ms", "T5ms"): 2, ("Log", "Edge"): 2})

    def test_times(self):
        task = found_for(self.found["tasks"], task="T10ms")
        self.assertEqual([self.range_of(task["waiting"], unit) for unit in ("ticks", "stimuli")], [(0, 0), (3, 3)])
        self.assertEqual([self.range_of(task["response"], unit) for unit in ("ticks", "stimuli")], [(2, 2), (26, 26)])
        self.assertEqual((task["load"], found_for(self.found["cores"], core=0)["load"]), (12.5, 88.75))

    def test_resources(self):
        held = {row["task"]: self.range_of(row["held"], "stimuli") for row in self.found["resources"]}
        self.assertEqual(held, {"T10ms": (8, 8), "T5ms": (2, 6)})

    def test_the_chain(self):
        chain = found_for(self.found["chains"], chain="Slow > T10ms > Com > Log > Ack")
        self.assertEqual((chain["complete"], chain["open"], chain["lost"]), (1, 0, {LIMIT: 1}))
        self.assertEqual((chain["rounds"]["sum"], chain["ticks"]["sum"]), (144, 15))

    def test_crossings(self):
        found = {row["operation"]: row["sent"] for row in self.found["crossings"]}
        expected = {"SetEvent Com 1": 2, "ActivateTask Log": 2, "ChainTask Ack": 2, "ActivateTask InjCalc": 1}
        self.assertEqual(found, expected)
        self.assertEqual({row["fullest"] for row in self.found["mailboxes"]}, {1})


@needs_program
class AsTheTrace(unittest.TestCase):
    """The figures, counted again from the text of the trace and of the logs."""

    def test_examples(self):
        for source in sample_runs.sources():
            with self.subTest(source=source):
                found = sample_runs.timeline_of(source)
                self.hold(found.run, figures.figures_of(jobs.jobs_of(found)))

    def test_interrupts(self):
        found = sample_runs.interrupts()
        self.hold(found.run, figures.figures_of(jobs.jobs_of(found)))

    def test_the_small_run(self):
        with sample_runs.written(CONFIGURATION, {"0": STIMULI}) as source:
            run = runs.read_run(source)
        self.assertEqual((list(run.blocks[0]), list(run.logs[0])), (BLOCK, LOG))

    def test_the_run_of_examples_locks(self):
        paths = (os.path.join(sample_runs.EXAMPLES, "locks", name) for name in ("config.json", "stimuli.json"))
        run, by_hand = runs.read_run(runs.Source(PROGRAM, *paths)), sample_runs.locks_timeline().run
        self.assertEqual((run.blocks, run.logs), (by_hand.blocks, by_hand.logs))

    def hold(self, run, found):
        """Holds the figures of a run to its lines."""
        for core in found["cores"]:
            block = "".join(line + "\n" for line in run.blocks[core["core"]])
            log = run.logs[core["core"]]
            self.assertEqual(core["errors"], len(re.findall("^hook Error ", block, re.MULTILINE)))
            self.assertEqual(core["ticks"], log.count("stim tick"))
            self.assertEqual(core["op"], log.count("stim op"))
            self.assertEqual(core["irq"], sum(item.startswith("stim irq=") for item in log))
            self.assertEqual(core["protection"], len(re.findall("^hook Protection ", block, re.MULTILINE)))
            self.assertEqual(core["down"], len(re.findall("^hook Shutdown ", block, re.MULTILINE)))
            tasks, isrs = ([row for row in found[kind] if row["core"] == core["core"]] for kind in ("tasks", "isrs"))
            self.assertEqual(sum(row["op"] for row in tasks + isrs) + core["idle"], core["op"])
            self.assertEqual(sum(row["reached"] for row in tasks + isrs), count_of("E_OS_PROTECTION_TIME", block))
            # One call of the hook can be for several resources.
            reached = [row["reached"] for row in found["lock_budgets"] if row["core"] == core["core"]]
            locked = count_of("E_OS_PROTECTION_LOCKED", block)
            self.assertTrue(max(reached, default=0) <= locked <= sum(reached))
            sent = sum(row["envelopes"] for row in found["mailboxes"] if row["from"] == core["core"])
            self.assertEqual(sent, sum(item.startswith("post ") for item in log))
            for task in tasks:
                self.hold_task(block, task)
            for isr in isrs:
                self.hold_isr(block, isr)
        outs = [line for block in run.blocks.values() for line in block if line.startswith("out ")]
        self.assertEqual(sum(row["sent"] for row in found["crossings"]), len(outs))

    def hold_task(self, block, task):
        """Holds the figures of a task to the lines of its core."""
        name = task["task"]
        self.assertEqual(task["activations"], len(re.findall("^act %s$" % name, block, re.MULTILINE)))
        self.assertEqual(task["ended"], len(re.findall("^end %s$" % name, block, re.MULTILINE)))
        self.assertEqual(task["preempted"], len(re.findall("^post %s\npre " % name, block, re.MULTILINE)))
        parts = len(re.findall("^(?:act|free) %s$" % name, block, re.MULTILINE))
        times = task["response"]["ticks"]
        self.assertEqual(times["count"] + times["open"], parts)
        self.assertEqual(times["count"], len(re.findall("^(?:end|wait) %s(?: |$)" % name, block, re.MULTILINE)))

    def hold_isr(self, block, isr):
        """Holds the figures of an ISR to the lines of its core."""
        for figure, word in (("interrupts", "irq"), ("lost", "lost"), ("ended", "leave")):
            self.assertEqual(isr[figure], len(re.findall("^%s %s$" % (word, isr["isr"]), block, re.MULTILINE)))
        started = len(re.findall("^enter %s$" % isr["isr"], block, re.MULTILINE))
        self.assertEqual(isr["waiting"]["ticks"]["count"], started)
        self.assertEqual(isr["response"]["ticks"]["count"], isr["ended"])

    def test_lost_activations(self):
        # In examples/engine one activation is lost; with two activations of Ack none is.
        text = sample_runs.read("examples", "engine", "config.json")
        mended = text.replace('"name":"Ack",', '"name":"Ack","activations":2,')
        with tempfile.TemporaryDirectory() as folder:
            path = os.path.join(folder, "config.json")
            for configuration, lost in ((text, 1), (mended, 0)):
                with open(path, "w", encoding="utf-8") as file:
                    file.write(configuration)
                found = sample_runs.timeline_of(runs.Source(PROGRAM, path, sample_runs.ENGINE[1]))
                tasks = figures.figures_of(jobs.jobs_of(found))["tasks"]
                self.assertEqual(
                    {task["task"]: task["lost"] for task in tasks if task["lost"]}, {"Ack": 1} if lost else {}
                )


if __name__ == "__main__":
    unittest.main()
