"""What `tools/shake` finds, made small and played again; and that it finds the same however the work is shared."""

import io
import json
import os
import re
import runpy
import subprocess
import sys
import tempfile
import time
import unittest
from types import SimpleNamespace
from unittest import mock
from xml.etree import ElementTree

sys.path.insert(0, os.path.dirname(os.path.abspath(__file__)))
import documents  # noqa: E402
import help_texts  # noqa: E402
import sample_runs  # noqa: E402
from sample_runs import PROGRAM, TOOLS, called, needs_program  # noqa: E402
from library import drawing, ending, pausing, runs, shake_report, shake_text  # noqa: E402
from library import shaking, shrinking, stalls, workers  # noqa: E402
from library.error_lines import ErrorLine, error_lines  # noqa: E402
from library.items import Runner  # noqa: E402
from library.model import TASK  # noqa: E402
from library.pausing import Move, Pause, Rounds  # noqa: E402
from library.playing import Outcome, Player  # noqa: E402
from library.stalls import SPINLOCK, Wait  # noqa: E402
from library.verdict_formats import FORMATS  # noqa: E402

SHAKE = runpy.run_path(os.path.join(TOOLS, "shake"))
MAIN = SHAKE["main"]
PLACE = ("examples", "circle")
FOLDER = os.path.join(sample_runs.ROOT, *PLACE)
CIRCLE = [os.path.join(FOLDER, name) for name in ("config.json", "stimuli.json")]
# The lines of the circle of examples/circle.
WAITS = [
    "core 0: task Send, operation 2, waits for the spinlock Log, which task Dump of core 1 holds",
    "core 1: ISR Knock, operation 0, waits for the spinlock Signals, which task Send of core 0 holds",
]
LIMIT = "in 0 ActivateTask Dump E_OS_LIMIT"

# A program that changes a line of core 2, which is separate, if some words are among its arguments.
MISTAKEN = """#!/bin/sh
case "$*" in
  *--items*) exec %(program)s "$@" ;;
  %(words)s) %(program)s "$@" > %(file)s.$$; status=$?; sed 's/^var Brake v0 4$/var Brake v0 5/' %(file)s.$$
    rm %(file)s.$$; exit $status ;;
  *) exec %(program)s "$@" ;;
esac
"""

# A core that drains while it holds a spinlock, if it has few stimuli, and one that waits for it.
KEPT = """{"spinlocks": [{"name": "L"}], "cores": [
  {"id": 0, "start": [1], "tasks": [
    {"name": "A", "prio": 1, "auto": ["M"], "script": "GetSpinlock L;work;work;ReleaseSpinlock L;TerminateTask"}]},
  {"id": 1, "tasks": [
    {"name": "B", "prio": 1, "auto": ["M"], "script": "work;GetSpinlock L;ReleaseSpinlock L;TerminateTask"}]}]}"""

# Lines of a block, and what is counted of them.
ERRORS = [
    (["stat A ActivateTask E_OK"], []),
    (["stat A ActivateTask E_OS_LIMIT", "hook Error E_OS_LIMIT"], ["stat A ActivateTask E_OS_LIMIT"]),
    (["start 1 E_OS_STATE"], ["start 1 E_OS_STATE"]),
    (["in 0 ActivateTask B E_OS_LIMIT", "hook Error E_OS_LIMIT"], ["in 0 ActivateTask B E_OS_LIMIT"]),
    (["lost I"], ["lost I"]),
    (["tick", "alarm A", "hook Error E_OS_STATE"], ["hook Error E_OS_STATE, alarm A"]),
    (
        ["tick", "point S 3", "act T", "hook Error E_OS_LIMIT", "hook Error E_OS_STATE"],
        ["hook Error E_OS_LIMIT, point S 3", "hook Error E_OS_STATE, point S 3"],
    ),
    (["alarm A", "act T", "hook Error E_OS_MISSINGEND", "post X", "end X"], ["hook Error E_OS_MISSINGEND, end X"]),
    (["hook Error E_OS_DISABLEDINT", "leave I"], ["hook Error E_OS_DISABLEDINT, leave I"]),
    (["hook Protection E_OS_PROTECTION_TIME", "end T"], ["hook Protection E_OS_PROTECTION_TIME, end T"]),
    (["hook Shutdown E_OS_LIMIT"], ["hook Shutdown E_OS_LIMIT"]),
    (["stat A ActivateTask E_OS_LIMIT", "hook Error E_OS_LIMIT", "tick", "alarm A", "act B"],
     ["stat A ActivateTask E_OS_LIMIT"]),
]
WRONG_USAGE = [
    (),
    ("a",),
    ("a", "b", "--schedules", "0"),
    ("a", "b", "--processes", "x"),
    ("a", "b", "--shard", "0/2"),
    ("a", "b", "--shard", "3/2"),
    ("a", "b", "--shard", "1"),
    ("a", "b", "--jitter", "-1"),
    ("a", "b", "--merge", "c"),
    ("a", "b", "--json", "--format", "tap"),
    ("a", "b", "--format", "xml"),
]


def shaken(*words, files=CIRCLE, program=PROGRAM):
    """The status, the output and the messages of the script."""
    return called(MAIN, "--mcos", program, *words, *files)


# A seed whose first schedules show all that the default seed shows.
FEW = ("--seed", "8", "--schedules", "40")


def report(*words, **options):
    """What the script prints as JSON."""
    return json.loads(shaken("--json", *words, **options)[1])


def told(found):
    """What tells the findings of a report apart."""
    return [(each["kind"], each["cores"], each["lines"]) for each in found["findings"]]


def lines_of(*words):
    """The lines that the program prints."""
    return subprocess.run([PROGRAM, *words], capture_output=True, text=True, timeout=60).stdout.splitlines()


def enumerate_words(words):
    """The words, each made another one by its number behind it."""
    return ["%s_%d" % (word, number) for number, word in enumerate(words)]


def interrupt(words, move):
    """The word of a moved interrupt."""
    return words[pausing.interrupts_in(words)[move.interrupt - 1]]


class Schedules(unittest.TestCase):
    def test_a_pause_leaves_out_the_turns_of_its_core(self):
        rounds = Rounds((0, 1), [Pause(1, 2, 2)], 4)
        self.assertEqual(" ".join(rounds.words), "0s1 0o 0l 1s0 1o 1l 0s1 0o 0l 0s1 0o 0l 0s1 0o 0l 1s0 1o 1l")
        self.assertEqual(rounds.numbers, [1] * 6 + [2] * 3 + [3] * 3 + [4] * 6)
        self.assertEqual(Rounds((0, 1), [Pause(0, 1, 9), Pause(1, 1, 2)], 3).words, ["1s0", "1o", "1l"])

    def test_the_shorthand_of_the_first_turns(self):
        pauses = [Pause(1, 2, 2), Pause(0, 3, 1), Pause(0, 6, 1), Pause(1, 6, 1)]
        rounds = Rounds((0, 1, 2), pauses, 8)
        for turns in range(1, len(rounds.words) + 1):
            with self.subTest(turns=turns):
                self.assertEqual(shrinking.expanded(rounds.shorthand(turns)), rounds.words[:turns])
        self.assertEqual(Rounds((0, 1), [], 9).shorthand(54), "9*(0s1 0o 0l 1s0 1o 1l)")
        self.assertEqual(Rounds((0, 1), [Pause(0, 1, 1), Pause(1, 1, 1)], 1).shorthand(0), "")

    def test_moved_interrupts(self):
        stimuli = {0: ("op", "irq=I", "tick", "irq=J", "op"), 1: ("op",)}
        for moves, words in (
            ([Move(0, 1, 1)], "op tick irq=I irq=J op"),
            ([Move(0, 2, -9)], "irq=J op irq=I tick op"),
            ([Move(0, 1, 9), Move(0, 2, -1)], "op irq=J tick op irq=I"),
            ([], "op irq=I tick irq=J op"),
        ):
            with self.subTest(moves=moves):
                moved = pausing.moved(stimuli, moves)
                self.assertEqual((" ".join(moved[0]), moved[1]), (words, ("op",)))

    def test_texts(self):
        self.assertEqual(str(Pause(1, 3, 1)), "core 1 pauses in round 3")
        self.assertEqual(str(Pause(1, 3, 2)), "core 1 pauses in the rounds 3 to 4")
        self.assertEqual(str(Move(1, 3, 1)), "core 1's interrupt 3 comes 1 word later")
        self.assertEqual(str(Move(1, 3, -2)), "core 1's interrupt 3 comes 2 words earlier")


@needs_program
class Draws(unittest.TestCase):
    """How the schedules are drawn."""

    def drawn(self, draws, count):
        """The changes of the first schedules of examples/circle."""
        with tempfile.TemporaryDirectory() as folder:
            found = drawing.Drawing(Player(runs.Source(PROGRAM, *CIRCLE), 0, folder), draws)
            return [found.changes_of(number) for number in range(count)]

    def test_within_the_bounds(self):
        found = self.drawn(drawing.Draws(3, 2, 30, 5), 200)
        self.assertEqual(found[0], ())
        for changes in found[1:]:
            pauses = pausing.pauses_in(changes)
            self.assertTrue(1 <= len(pauses) <= 2)
            self.assertTrue(all(1 <= pause.count <= 30 and 1 <= pause.first <= 120 for pause in pauses))
            self.assertTrue(all(1 <= abs(move.shift) <= 5 for move in pausing.moves_in(changes)))
        self.assertEqual(max(pause.count for changes in found for pause in pausing.pauses_in(changes)), 30)
        self.assertGreater(max(len(pausing.moves_in(changes)) for changes in found), 0)

    def test_without_jitter_nothing_moves(self):
        found = self.drawn(drawing.Draws(1, 4, 30, 0), 50)
        self.assertEqual([move for changes in found for move in pausing.moves_in(changes)], [])

    def test_an_interrupt_comes_right_behind_the_call_for_a_spinlock(self):
        with tempfile.TemporaryDirectory() as folder:
            found = drawing.Drawing(Player(runs.Source(PROGRAM, *CIRCLE), 0, folder), drawing.Draws(1, 4, 30, 9))
            gets = [item for item in found.player.gets if item.core == 1]
            moves = [(item, move) for item in gets for move in found._near(item)]
            self.assertEqual({move.shift > 0 for _, move in moves}, {True, False})
            for item, move in moves:
                stimuli = {1: tuple(enumerate_words(found.player.stimuli[1]))}
                words = pausing.moved(stimuli, [move])[1]
                behind = words[words.index(stimuli[1][item.stimulus - 1]) + 1]
                self.assertEqual(behind, interrupt(stimuli[1], move))


class Errors(unittest.TestCase):
    def test_lines(self):
        for lines, wanted in ERRORS:
            with self.subTest(lines=lines):
                self.assertEqual(list(error_lines({1: lines})), [ErrorLine(1, text) for text in wanted])

    def test_counts(self):
        lines = ["stat A ActivateTask E_OS_LIMIT", "hook Error E_OS_LIMIT", "lost I"] * 3
        self.assertEqual(error_lines({0: lines, 1: []}), {ErrorLine(0, lines[0]): 3, ErrorLine(0, "lost I"): 3})


class Circles(unittest.TestCase):
    def circles(self, *waits):
        """The circles of cores, each waiting for a spinlock that another one has."""
        holder = Runner(TASK, "U")
        found = [Wait(core, SPINLOCK, "L%d" % other, (other,), holder=holder) for core, other in waits]
        return [[wait.core for wait in circle] for circle in stalls._circles(found)]

    def test_circles(self):
        self.assertEqual(self.circles((0, 1), (1, 0)), [[0, 1]])
        self.assertEqual(self.circles((2, 1), (1, 3), (3, 2)), [[1, 3, 2]])
        self.assertEqual(self.circles((0, 2), (1, 2), (2, 3), (3, 2)), [[2, 3]])
        self.assertEqual(self.circles((0, 1), (1, 0), (2, 3), (3, 2), (4, 0)), [[0, 1], [2, 3]])

    def test_none(self):
        self.assertEqual(self.circles((0, 1), (1, 2)), [])
        self.assertEqual(self.circles(), [])


class Smaller(unittest.TestCase):
    def test_the_needed_change_is_left_and_short(self):
        def shows(changes):
            return any(each.core == 1 and each.first <= 40 < each.first + each.count for each in changes)

        changes = (Pause(0, 1, 9), Pause(1, 10, 90), Pause(1, 70, 9))
        self.assertEqual(shrinking.smallest(changes, shows), (Pause(1, 40, 1),))

    def test_two_that_are_needed_together(self):
        def shows(changes):
            has_pause = any(isinstance(each, Pause) and each.count > 4 for each in changes)
            return has_pause and any(isinstance(each, Move) and each.shift < -2 for each in changes)

        changes = (Move(0, 1, -9), Pause(1, 10, 64), Move(0, 2, 8), Pause(1, 1, 3))
        self.assertEqual(shrinking.smallest(changes, shows), (Move(0, 1, -3), Pause(1, 10, 5)))

    def test_two_pauses_of_one_core_become_one(self):
        def shows(changes):
            return sum(each.count for each in changes if each.core == 1) >= 12

        changes = (Pause(1, 10, 9), Pause(0, 1, 4), Pause(1, 40, 9))
        self.assertEqual(shrinking.smallest(changes, shows), (Pause(1, 10, 12),))

    def test_a_pause_from_one_to_the_other(self):
        def shows(changes):
            return {10, 39} <= {each.first + place for each in changes for place in range(each.count)}

        self.assertEqual(shrinking.smallest((Pause(1, 10, 2), Pause(1, 38, 2)), shows), (Pause(1, 10, 30),))

    def test_nothing_is_needed(self):
        self.assertEqual(shrinking.smallest((Pause(0, 1, 9), Pause(0, 1, 9)), lambda changes: True), ())


class Processes(unittest.TestCase):
    def test_the_order_is_that_of_the_values(self):
        for count in (1, 3):
            with self.subTest(count=count), workers.Workers(None, count) as some:
                self.assertEqual(some._done(abs, [-3, 2, -1, 0], "numbers"), [3, 2, 1, 0])

    def test_what_fails_is_reported(self):
        for count in (1, 3):
            with self.subTest(count=count), workers.Workers(None, count) as some:
                with self.assertRaisesRegex(ending.Failed, "^no: cannot be read: No such file or directory$"):
                    some._done(ending.read, ["no"], "files")

    def test_a_process_that_ends_early(self):
        with workers.Workers(None, 2) as some, self.assertRaisesRegex(ending.Failed, "has ended early"):
            some._done(os._exit, [1, 1, 1], "ends")

    def test_a_process_that_ended_while_values_are_handed_out(self):
        broken = mock.patch.object(workers.ProcessPoolExecutor, "submit", side_effect=workers.BrokenProcessPool)
        with broken, workers.Workers(None, 2) as some, self.assertRaisesRegex(ending.Failed, "has ended early"):
            some._done(abs, [1, 1, 1], "numbers")

    def test_the_first_process_alone_shows_how_far_it_is(self):
        terminal = io.StringIO()
        terminal.isatty = lambda: True
        patience = mock.patch.multiple("library.progress", PATIENCE=0, PAUSE=0.01)
        with mock.patch("sys.stderr", terminal), patience, workers.Workers(None, 2) as some:
            some._done(time.sleep, [0.2, 0.2, 0.2], "sleeping")
        self.assertRegex(terminal.getvalue(), r"^\rsleeping, 0 %, \d+ s")
        self.assertIn("sleeping, 66 %", terminal.getvalue())


class WrongUsage(unittest.TestCase):
    def test_wrong_usage(self):
        for words in WRONG_USAGE:
            with self.subTest(words=words):
                self.assertEqual(called(MAIN, *words)[:2], (2, ""))

    def test_what_is_no_report(self):
        for text in ("", "[]", "{}", '{"format": "x"}'):
            with self.subTest(text=text), tempfile.TemporaryDirectory() as folder:
                path = os.path.join(folder, "a.json")
                ending.save(path, text)
                status, output, messages = called(MAIN, "--merge", path)
                self.assertEqual((status, output), (1, ""))
                self.assertIn("%s: this is no output of tools/shake --json" % path, messages)


class Documents(unittest.TestCase):
    def test_the_section_has_each_option(self):
        options = help_texts.options(SHAKE["command_words"]())
        self.assertEqual(help_texts.usage("shake"), options)
        self.assertEqual(help_texts.described("shake") - {"--json"}, set(options) - {"--json", "--mcos"})

    @needs_program
    def test_the_members_of_a_finding(self):
        sentence = help_texts.section("shake").split("With `--json`, the members of a finding are ")[1].split("\n\n")[0]
        members = re.findall(r"`(\w+)`", sentence)
        self.assertEqual(list(report(*FEW)["findings"][0]), members)

    @needs_program
    def test_the_example(self):
        here = os.getcwd()
        os.chdir(FOLDER)
        try:
            status, output, messages = shaken(files=["config.json", "stimuli.json"])
        finally:
            os.chdir(here)
        lines = documents.part("`tools/shake config.json stimuli.json` prints, among others,")
        self.assertEqual((status, messages), (1, ""))
        self.assertTrue(documents.is_part_of(lines, output), output)


@needs_program
class Circle(unittest.TestCase):
    """What is found in examples/circle."""

    @classmethod
    def setUpClass(cls):
        cls.found = report()
        cls.few = report(*FEW)

    def played(self, finding, stimuli=CIRCLE[1]):
        """The lines that the program prints by the schedule of a finding, expanded by the script for that."""
        with tempfile.TemporaryDirectory() as folder:
            source, schedule = (os.path.join(folder, name) for name in ("source.json", "schedule.json"))
            ending.save(source, json.dumps(finding["shorthand"]))
            command = [os.path.join(TOOLS, "expand"), source]
            ending.save(schedule, subprocess.run(command, capture_output=True, text=True, timeout=60).stdout)
            return lines_of("run", CIRCLE[0], stimuli, "--schedule", schedule)

    def test_the_findings(self):
        self.assertEqual(told(self.found)[0], ("circle", [0, 1], WAITS))
        self.assertEqual([each["kind"] for each in self.found["findings"]], ["circle", "kept", "error"])
        self.assertEqual(told(self.found)[2], ("error", [1], [LIMIT]))
        self.assertEqual(self.found["findings"][0]["pauses"], [{"core": 0, "first": 19, "count": 3}])

    def test_each_is_played_again_by_the_program(self):
        circle, kept, error = (self.played(each) for each in self.found["findings"])
        self.assertEqual((circle[-1], kept[-1]), ("stalled", "stalled"))
        self.assertIn(LIMIT, error)
        self.assertTrue(all(each["shown"] for each in self.found["findings"]))

    def test_the_schedule_of_the_example_is_the_one_that_is_found(self):
        words = shrinking.expanded(self.found["findings"][0]["shorthand"])
        self.assertEqual(json.loads(sample_runs.read("examples", "circle", "schedule.json")).split(), words)

    def test_more_turns_change_nothing(self):
        finding = self.found["findings"][0]
        whole = self.played(finding)
        more = {"shorthand": finding["shorthand"] + " 90*(0s1 0s2 0o 0l 1s0 1s2 1o 1l 2s0 2s1 2o 2l)"}
        core_2 = whole.index("core 2")
        self.assertEqual(self.played(more)[:core_2], whole[:core_2])
        self.assertEqual(self.played(more)[-1], "stalled")

    def test_one_turn_less_does_not_show_an_error(self):
        words = shrinking.expanded(self.found["findings"][2]["shorthand"])
        self.assertNotIn(LIMIT, self.played({"shorthand": " ".join(words[:-1])}))

    def test_the_separate_core_never_differs(self):
        self.assertEqual([each["differs"] > 0 for each in self.found["cores"]], [True, True, False])
        self.assertEqual([each["standing"] for each in self.found["cores"]], ["bound", "bound", "separate"])

    def test_the_same_whatever_the_number_of_processes(self):
        self.assertEqual(report(*FEW, "--processes", "1"), self.few)
        self.assertEqual(report(*FEW, "--processes", "3"), self.few)

    def test_another_seed_finds_the_circle_too(self):
        self.assertNotEqual(self.few["findings"], self.found["findings"])
        self.assertEqual(told(self.few), told(self.found))

    def test_shards(self):
        with tempfile.TemporaryDirectory() as folder:
            paths = [os.path.join(folder, "%d.json" % number) for number in (1, 2, 3)]
            for number, path in enumerate(paths, 1):
                ending.save(path, shaken("--json", *FEW, "--shard", "%d/3" % number)[1])
            status, output, messages = called(MAIN, "--json", "--merge", paths[1], paths[0], paths[2])
            self.assertEqual((status, json.loads(output), messages), (1, self.few, ""))
            status, output, messages = called(MAIN, "--merge", *paths[:2])
            self.assertEqual((status, output, messages), (1, "", "missing: 3/3\n"))
            self.assertEqual(called(MAIN, "--merge", paths[0], *paths)[0], 1)
            ending.save(paths[2], shaken("--json", *FEW, "--shard", "3/3", "--seed", "2")[1])
            self.assertIn("`seed` is not that of", called(MAIN, "--merge", *paths)[2])
            ending.save(paths[2], shaken("--json", *FEW, "--shard", "3/3", "--require", "Brake lost=0")[1])
            self.assertIn("its requirements are not those of", called(MAIN, "--merge", *paths)[2])
            with sample_runs.written(sample_runs.read(*PLACE, "config.json") + " ", {}) as source:
                files = [source.configuration, CIRCLE[1]]
                ending.save(paths[1], shaken("--json", *FEW, "--shard", "2/3", files=files)[1])
            status, output, messages = called(MAIN, "--merge", paths[1], "--save", os.path.join(folder, "a"))
            self.assertEqual((status, output), (1, ""))
            self.assertIn("missing: 1/3, 3/3", messages)
            changed = json.loads(sample_runs.read(paths[1]))
            ending.save(paths[1], json.dumps({**changed, "configuration": CIRCLE[0]}))
            self.assertIn("`digest` is not that of", called(MAIN, "--merge", *paths)[2])

    def test_what_is_saved_of_a_report(self):
        with tempfile.TemporaryDirectory() as folder:
            path, prefix = os.path.join(folder, "1.json"), os.path.join(folder, "found")
            for digest in (self.few["digest"], "0"):
                ending.save(path, json.dumps({**self.few, "shard": [1, 1], "digest": digest}))
                found = called(MAIN, "--merge", path, "--save", prefix)
                self.assertEqual(found[0], 1)
            self.assertEqual(found[1:], ("", "%s, %s: these are not the files that were played\n" % tuple(CIRCLE)))
            self.assertEqual(lines_of("run", *CIRCLE, "--schedule", prefix + "-1.json")[-1], "stalled")

    def test_what_is_saved(self):
        with tempfile.TemporaryDirectory() as folder:
            prefix = os.path.join(folder, "found")
            output = shaken("--save", prefix, "--more", "9", "--jitter", "6", "--schedules", "40")[1]
            commands = [line.split("mcos ")[1].split(" ") for line in output.splitlines() if "mcos run" in line]
            self.assertEqual(lines_of(*commands[0])[-1], "stalled")
            self.assertEqual(commands[0][2:], [prefix + "-1-stimuli.json", "--schedule", prefix + "-1.json"])
            ended = lines_of("run", CIRCLE[0], CIRCLE[1])
            self.assertEqual(ended[-1], "ended")
            self.assertNotIn("E_OS_", "".join(ended))

    def test_without_its_last_pause_it_is_not_shown(self):
        whole = Rounds.shorthand
        with mock.patch.object(Rounds, "shorthand", lambda self, turns: whole(Rounds(self.cores, [], 99), turns)):
            found = report("--processes", "1", "--seed", "8", "--schedules", "32")
        self.assertEqual([each["shown"] for each in found["findings"]], [False] * 3)
        self.assertIn("NOT SHOWN when it was played again", shake_text.text_of(found))


@needs_program
class Requirements(unittest.TestCase):
    def test_met_and_not_met(self):
        words = ["--require", "Brake lost=0", "--require", "Dump response<=9 rounds", "--schedules", "12"]
        found = report(*words)
        self.assertEqual(told(found), [("requirement", [], ["Dump response<=9 rounds"])])
        self.assertTrue(found["findings"][0]["shown"])
        self.assertFalse(shake_report.is_clean(found))
        text = shake_text.text_of(found)
        self.assertIn("  met: Brake lost=0 (0 in all of 12 schedules)\n", text)
        unmet = "(6 to 28 rounds; not met by 6 of 12 schedules, first by 1: 6 to 11 rounds)"
        self.assertIn("  not met: Dump response<=9 rounds %s\n" % unmet, text)

    def test_verdicts(self):
        words = ["--seed", "24", "--schedules", "34", "--require", "Dump lost=0"]
        with tempfile.TemporaryDirectory() as folder:
            path = os.path.join(folder, "requirements.txt")
            ending.save(path, "R-1: Brake lost=0\n")
            verdicts = shake_text.verdicts_of(report(*words, "--requirements", path))
        lines = [str(verdict) for verdict in verdicts]
        suite = ElementTree.fromstring(FORMATS["junit"].of_verdicts("run", verdicts).encode())[0]
        self.assertEqual(lines[0], "not met: Dump lost=0 (0 to 1; not met by 2 of 34 schedules, first by 6: 1)")
        self.assertEqual(lines[1], "met: R-1: Brake lost=0 (0 in all of 34 schedules)")
        circle = "; ".join(["in 1 schedule", *WAITS, "if core 0 pauses in the rounds 83 to 85"])
        self.assertEqual(lines[2], "not met: no circle of waits (%s)" % circle)
        self.assertTrue(lines[3].startswith("not met: no spinlock is kept by a core that has drained (in 1 schedule; "))
        self.assertTrue(lines[4].startswith("not met: core 1 does not print `%s` (in 2 schedules; if " % LIMIT))
        self.assertEqual([suite.get(name) for name in ("tests", "failures", "errors")], ["5", "4", "0"])
        self.assertEqual((suite[1].get("name"), suite[1].get("file")), ("R-1: Brake lost=0", path))

    def test_verdicts_on_a_clean_run_and_on_a_fault(self):
        files = [os.path.join(sample_runs.EXAMPLES, "first", name) for name in ("config.json", "stim.json")]
        status, output, _ = shaken("--format", "tap", "--schedules", "3", files=files)
        self.assertEqual((status, output), (0, "TAP version 13\n1..1\nok 1 - nothing is found\n"))
        status, output, messages = shaken("--format", "tap", files=files[:1] * 2)
        self.assertEqual((status, output.splitlines()[:1]), (1, ["TAP version 13"]))
        self.assertIn("Bail out! ", output)
        self.assertIn("fault 12 BadStimulus", messages)

    def test_a_clean_run(self):
        files = [os.path.join(sample_runs.EXAMPLES, "first", name) for name in ("config.json", "stim.json")]
        words = ["--require", "A response<=40 rounds", "--schedules", "20", "--processes", "1"]
        status, output, messages = shaken(*words, files=files)
        self.assertEqual((status, messages), (0, ""))
        self.assertTrue(output.endswith("\nFindings\n  none\n"), output)

    def test_one_of_a_file_that_the_default_schedule_does_not_meet(self):
        with tempfile.TemporaryDirectory() as folder:
            path = os.path.join(folder, "requirements.txt")
            ending.save(path, "R-1: core 2 ticks=7\n")
            words = ["--requirements", path, "--schedules", "2", "--processes", "1"]
            status, output, _ = shaken(*words)
            self.assertEqual(status, 1)
            line = "not met: R-1: core 2 ticks=7 (6; not met by 2 of 2 schedules, first by the default one: 6)"
            self.assertIn(line, output)
            self.assertEqual(told(report(*words)), [])

    def test_shards(self):
        words = ["--require", "Dump response<=12 rounds", "--require", "chain X > Y open=0", "--schedules", "12"]
        with tempfile.TemporaryDirectory() as folder:
            paths = [os.path.join(folder, "%d.json" % number) for number in (1, 2)]
            for number, path in enumerate(paths, 1):
                ending.save(path, shaken("--json", "--shard", "%d/2" % number, *words)[1])
            merged = json.loads(called(MAIN, "--json", "--merge", *reversed(paths))[1])
        self.assertEqual(merged, report(*words))
        response, chain = merged["requirements"]
        self.assertLess(response["least"], response["greatest"])
        self.assertEqual((chain["schedule"], chain["not_met"], chain["greatest"]), (0, 12, None))

    def test_wrong_ones(self):
        status, output, messages = shaken("--require", "Dmup lost=0")
        self.assertEqual((status, output), (2, ""))
        self.assertIn("no task and no ISR is called `Dmup`; did you mean `Dump`", messages)

    def test_modes_in_conflict(self):
        files = [os.path.join(sample_runs.EXAMPLES, "modes", name) for name in ("conflict.json", "stimuli.json")]
        status, output, _ = shaken("--schedules", "2", "--processes", "1", files=files)
        self.assertEqual(status, 1)
        self.assertIn("in a conflict of modes, so no core does any work", output)


@needs_program
class Stalls(unittest.TestCase):
    """A run that stalls by the default schedule, since its stimuli are short."""

    def test_more_stimuli_help(self):
        with sample_runs.written(KEPT, {"0": "op op", "1": "op op"}) as source:
            files = [source.configuration, source.stimuli]
            status, output, _ = shaken("--schedules", "3", files=files)
            self.assertEqual(status, 1)
            self.assertIn("default schedule: stalled, ", output)
            self.assertIn("in 3 schedules, by the default schedule too\n", output)
            self.assertIn("     the stimuli of core 0 end while task A holds L: ", output)
            self.assertIn("     core 1: task B, operation 1, waits for the spinlock L, which task A of core 0", output)
            self.assertEqual(shaken("--schedules", "3", "--more", "9", files=files)[0], 0)

    def test_too_many_stimuli(self):
        with sample_runs.written(KEPT, {"0": "op"}) as source:
            status, output, messages = shaken("--more", "100000", files=[source.configuration, source.stimuli])
            self.assertEqual((status, output), (1, ""))
            self.assertEqual(messages, "core 0 would have 100001 stimuli, and at most 100000 are allowed\n")

    def test_a_run_that_goes_on_where_a_schedule_is_full(self):
        with tempfile.TemporaryDirectory() as folder:
            player = Player(runs.Source(PROGRAM, *CIRCLE), 0, folder)
            with mock.patch("library.playing.most_rounds", lambda cores: 130):
                self.assertEqual(player.outcome((Pause(0, 10, 9),)).end, "ended")
                self.assertEqual(player.outcome((Pause(0, 10, 90),)).end, "unfinished")

    def test_a_run_that_no_schedule_has_room_for(self):
        player = SimpleNamespace(cores=[0, 1], default=SimpleNamespace(rounds=400), spare_rounds=9)
        self.assertEqual(drawing.longest_for(player, 4, None), 2)
        self.assertEqual(drawing.longest_for(player, 4, 1), 1)
        player.spare_rounds = 3
        text = "the default schedule has 400 rounds, and a schedule of 2 cores at most 166666: no pauses fit in"
        with self.assertRaisesRegex(ending.Failed, text):
            drawing.longest_for(player, 4, None)


@needs_program
class Mistakes(unittest.TestCase):
    """A program that breaks the promise of a separate core is told."""

    def program(self, folder, words):
        """A program in a folder that makes mistakes if these words are among its arguments."""
        program = os.path.join(folder, "mcos")
        ending.save(program, MISTAKEN % {"program": PROGRAM, "words": words, "file": os.path.join(folder, "out")})
        os.chmod(program, 0o755)
        return program

    def test_a_separate_core_that_never_differs_and_prints_another_text_alone(self):
        with tempfile.TemporaryDirectory() as folder:
            program = self.program(folder, "*alone*")
            found = report("--schedules", "2", "--processes", "1", program=program)
        self.assertEqual(told(found), [("mistake", [2], [])])
        self.assertEqual(found["cores"][2]["differs"], 0)

    def test_a_separate_core_that_differs(self):
        with tempfile.TemporaryDirectory() as folder:
            program = self.program(folder, "*--schedule*")
            words = ["--schedules", "4", "--processes", "2"]
            status, output, _ = shaken(*words, program=program)
            self.assertEqual(status, 1)
            self.assertIn("1. MISTAKE OF mcos: the block of core 2 differs, and must not, in 4 schedules", output)
            found = report(*words, program=program)
            words += ["--require", "Brake lost=0"]
            self.assertEqual(told(report(*words, program=program)), told(found))
        self.assertEqual(told(found), [("mistake", [2], [])])
        self.assertEqual(found["cores"][2]["differs"], 4)

    def test_a_separate_core_may_be_cut_short_and_a_bound_one_may_differ(self):
        with tempfile.TemporaryDirectory() as folder:
            player = Player(runs.Source(PROGRAM, *CIRCLE), 0, folder)
            shake = shaking.Shake(player, drawing.Draws(1, 4, 30, 0), ())
            blocks = dict(player.default.blocks)
            blocks[1] += ("lost Knock",)
            blocks[2] = blocks[2][:-9]
            for changes, end, cores in (
                ((Pause(0, 1, 1),), "stalled", []),
                ((Pause(0, 1, 1),), "ended", [2]),
                ((Pause(0, 1, 1), Move(2, 1, 1)), "ended", []),
                ((), "ended", [1, 2]),
            ):
                with self.subTest(changes=changes, end=end):
                    signs = shake.signs(changes, Outcome(blocks, end, 9))
                    found = [sign.cores[0] for sign in signs if sign.kind == shaking.MISTAKE]
                    self.assertEqual(found, cores)

    def test_a_fault(self):
        status, output, messages = shaken(files=[CIRCLE[0], CIRCLE[0]])
        self.assertEqual((status, output), (1, ""))
        self.assertIn("fault 12 BadStimulus; tools/explain says where", messages)


@needs_program
class Examples(unittest.TestCase):
    """Of each example a few schedules: no separate core differs, and each finding is shown again."""

    def test_examples(self):
        for source in sample_runs.sources():
            if source.schedule is None:
                files = [source.configuration, source.stimuli]
                with self.subTest(files=files), tempfile.TemporaryDirectory() as folder:
                    player = Player(runs.Source(PROGRAM, *files), 0, folder)
                    draws = drawing.Draws(1, 3, drawing.longest_for(player, 3, None), 0)
                    shake = shaking.Shake(player, draws, ())
                    looks = [shake.look(number) for number in range(6)]
                    for sign, look in shake_report.signs_in(looks).items():
                        self.assertNotEqual(sign.kind, shaking.MISTAKE)
                        self.assertTrue(shrinking.small_of(shake, sign, look.changes).is_shown, sign)


if __name__ == "__main__":
    unittest.main()
