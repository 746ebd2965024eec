"""What `tools/export` prints, read back by readers that know the formats and not the tool."""

import json
import os
import re
import runpy
import shutil
import subprocess
import sys
import tempfile
import unittest
from unittest import mock

sys.path.insert(0, os.path.dirname(os.path.abspath(__file__)))
import sample_runs  # noqa: E402
from sample_runs import PROGRAM, TOOLS, called, first_timeline, needs_program  # noqa: E402
from library import btf, chrome, jobs, runs, timeline, vcd  # noqa: E402
from library.ending import Failed  # noqa: E402

MAIN = runpy.run_path(os.path.join(TOOLS, "export"))["main"]

# ---------------------------------------------------------------------------------------------------------------------
# BTF
# ---------------------------------------------------------------------------------------------------------------------

# The columns of a row: time, source, source instance, type, target, target instance, event, and perhaps a note.
BTF_ROW = re.compile(r"(\d+),([A-Za-z]\w*),(\d+),([A-Z]+),([A-Za-z]\w*),(\d+),([a-z_]+)(?:,.*)?")
BTF_SCALES = ("ps", "ns", "us", "ms", "s")
# Of a task or an ISR: the states between which an event leads, and what its source is.
BTF_EVENTS = {
    "activate": ("none", "active", "stimulus"),
    "start": ("active", "running", "core"),
    "preempt": ("running", "ready", "core"),
    "resume": ("ready", "running", "core"),
    "wait": ("running", "waiting", "core"),
    "release": ("waiting", "ready", "core"),
    "terminate": ("running", "terminated", "core"),
    "poll": ("running", "polling", "core"),
    "run": ("polling", "running", "core"),
}
# What a job does with a semaphore or an event, and whose name the event has: task and mask.
BTF_SEMAPHORE = ("requestsemaphore", "waiting", "assigned", "released")
BTF_OS_EVENT = ("set_event", "clear_event", "wait_event")
BTF_OS_EVENT_NAME = re.compile(r"EVENT_(\w+)_(\d+)")
BTF_FIRST = """#version 2.2.0
#creator mcos tools/export
#inputFile config.json stim.json
#timeScale us
# a time is the number of a turn of the default schedule
21,SIM,0,STI,STI_autostart_A,0,trigger
21,STI_autostart_A,0,T,A,0,activate
21,Core_0,0,T,A,0,start
34,A,0,STI,STI_A_B,0,trigger
34,STI_A_B,0,T,B,0,activate
34,Core_1,0,T,B,0,start
38,Core_0,0,T,A,0,terminate
41,Core_1,0,T,B,0,terminate
"""


class BtfReader:
    """Reads a trace by the rules of the columns: times ascend, and each job goes through the states of the standard."""

    def __init__(self, text):
        self.header = {}
        self.events = []
        self.states = {}
        self.running = {}
        self.triggered = set()
        self.requested = set()
        self.waiting = set()
        self.owners = {}
        self.time = 0
        for line in text.splitlines():
            if line.startswith("#"):
                self.read_header(line)
            else:
                self.read_row(line)
        assert self.header["timeScale"] in BTF_SCALES, self.header
        assert re.fullmatch(r"\d+\.\d+\.\d+", self.header["version"]), self.header

    def read_header(self, line):
        """A line before the rows: a parameter with its value, or a comment."""
        assert not self.events, "a header behind a row"
        name = re.match(r"#([A-Za-z]+) (.+)", line)
        if name is not None:
            self.header[name[1]] = name[2]

    def read_row(self, line):
        row = BTF_ROW.fullmatch(line)
        assert row is not None, line
        time, source, number, kind, target, instance, event = row.groups()
        assert int(time) >= self.time, line
        self.time = int(time)
        if kind == "STI":
            assert event == "trigger" and (target, instance) not in self.triggered, line
            assert source == "SIM" or self.states.get((source, number)) is not None, line
            self.triggered.add((target, instance))
        elif kind == "SEM":
            assert instance == "0" and event in BTF_SEMAPHORE and (source, number) in self.states, line
            self.read_semaphore(line, (source, number), target, event)
        elif kind == "EVENT":
            assert instance == "0" and event in BTF_OS_EVENT, line
            self.read_os_event(line, source, number, target, event)
        else:
            assert kind == "T" or kind == "I" and event not in ("wait", "release"), line
            self.read_job(line, source, number, target, instance, event)
        self.events.append((self.time, event, target))

    def read_semaphore(self, line, job, name, event):
        """One job at a time is assigned to a semaphore, after its request; and one waits while another one is."""
        request, owner = (job, name), self.owners.get(name)
        if event == "requestsemaphore":
            assert request not in self.requested and owner != job, line
            self.requested.add(request)
        elif event == "waiting":
            assert request in self.requested and owner not in (None, job), line
            self.waiting.add(job)
        elif event == "assigned":
            assert request in self.requested and owner is None, line
            self.requested.remove(request)
            self.waiting.discard(job)
            self.owners[name] = job
        else:
            assert owner == job, line
            del self.owners[name]

    def read_os_event(self, line, source, number, target, event):
        """A job of any task sets an event, or the simulation does; a running one of its task clears or awaits it."""
        name = BTF_OS_EVENT_NAME.fullmatch(target)
        assert name is not None and int(name[2]).bit_count() == 1, line
        if event == "set_event":
            assert source == "SIM" or (source, number) in self.states, line
            live = (owner == name[1] and state != "terminated" for (owner, _), state in self.states.items())
            assert any(live), line
        else:
            assert name[1] == source and self.states[source, number] == "running", line

    def read_job(self, line, source, number, owner, instance, event):
        if event == "mtalimitexceeded":
            assert (source, number) in self.triggered, line
            return
        before, after, from_whom = BTF_EVENTS[event]
        assert self.states.get((owner, instance), "none") == before, line
        if "polling" in (before, after):
            assert ((owner, instance) in self.waiting) == (after == "polling"), line
        if from_whom == "stimulus":
            assert (source, number) in self.triggered, line
        else:
            assert re.fullmatch(r"Core_\d+", source), line
            # One job runs on a core.
            running = self.running.setdefault(source, set())
            running.discard((owner, instance))
            if after in ("running", "polling"):
                assert not running, line
                running.add((owner, instance))
        self.states[owner, instance] = after


# ---------------------------------------------------------------------------------------------------------------------
# VCD
# ---------------------------------------------------------------------------------------------------------------------

VCD_STATES = ("suspended", "ready", "waiting", "running", "interrupted")  # a number is the place in it
VCD_FIRST = {
    "mcos.core_0.A": [(0, "suspended"), (21, "running"), (38, "suspended")],
    "mcos.core_1.B": [(0, "suspended"), (34, "running"), (41, "suspended")],
    "mcos.mailboxes.from_0_to_1": [(0, 0), (32, 1), (34, 0)],
    "mcos.mailboxes.from_1_to_0": [(0, 0), (35, 1), (37, 0)],
}


def read_vcd(text, kinds=("event", "integer", "reg", "wire", "string")):
    """The values of each variable, by its whole name, as IEEE 1364 (18.2) has them; and words, which it has not."""
    words = iter(text.split())
    scopes, names, found, strings = [], {}, {}, set()
    time = None
    for word in words:
        if word in ("$comment", "$timescale", "$date", "$version"):
            while next(words) != "$end":
                pass
        elif word == "$scope":
            assert next(words) in ("module", "task", "function", "begin", "fork")
            scopes.append(next(words))
            assert next(words) == "$end"
        elif word == "$upscope":
            scopes.pop()
            assert next(words) == "$end"
        elif word == "$var":
            kind, size, code, name = (next(words) for _ in range(4))
            # GTKWave gives a string no bits.
            assert kind in kinds and (int(size) >= 1 or kind == "string")
            strings |= {code} if kind == "string" else set()
            rest = next(words)
            if rest != "$end":  # a range of bits
                assert next(words) == "$end"
            names.setdefault(code, []).append(".".join(scopes + [name]))
        elif word == "$enddefinitions":
            assert next(words) == "$end" and not scopes
        elif word.startswith("#"):
            assert time is None or int(word[1:]) > time, word
            time = int(word[1:])
        elif word[0] in "bs":
            code = next(words)
            assert (code in strings) == (word[0] == "s"), word
            note_vcd(found, names, code, time, word[1:] if word[0] == "s" else int(word[1:], 2))
        elif word[0] in "01":
            note_vcd(found, names, word[1:], time, int(word[0]))
        else:
            assert word in ("$dumpvars", "$end"), word
    return found


def note_vcd(found, names, code, time, value):
    """Notes a value of a declared variable."""
    for name in names[code]:
        found.setdefault(name, []).append((time, value))


def as_words(numbers, found):
    """The values of an export with numbers, in which those of tasks and ISRs are the words of their states."""
    are_words = [name for name, values in found.items() if any(isinstance(value, str) for _, value in values)]
    words = {name: [(time, VCD_STATES[value]) for time, value in numbers[name]] for name in are_words}
    return {**numbers, **words}


def without_repeats(values):
    """The values that differ from the one before."""
    return [pair for index, pair in enumerate(values) if index == 0 or pair[1] != values[index - 1][1]]


# ---------------------------------------------------------------------------------------------------------------------
# Chrome
# ---------------------------------------------------------------------------------------------------------------------


def read_chrome(text):
    """The events by their phases. Slices of a thread do not overlap, and flows bind to slices."""
    events = json.loads(text)["traceEvents"]
    phases = {}
    for event in events:
        assert {"ph", "pid", "tid"} <= event.keys(), event
        phases.setdefault(event["ph"], []).append(event)
    slices = {}
    for each in phases.get("X", []):
        assert each["dur"] > 0, each
        slices.setdefault((each["pid"], each["tid"]), []).append((each["ts"], each["ts"] + each["dur"]))
    for spans in slices.values():
        spans.sort()
        for before, behind in zip(spans, spans[1:]):
            assert before[1] <= behind[0] + 1e-6, (before, behind)
    starts = {each["id"]: each for each in phases.get("s", [])}
    assert sorted(starts) == sorted(each["id"] for each in phases.get("f", []))
    for each in phases.get("f", []):
        assert each["bp"] == "e" and starts[each["id"]]["ts"] < each["ts"], each
        for end in (each, starts[each["id"]]):
            assert any(span[0] <= end["ts"] <= span[1] for span in slices[end["pid"], end["tid"]]), end
    opened = {(each["cat"], each["id"]): each["ts"] for each in phases.get("b", [])}
    closed = {(each["cat"], each["id"]): each["ts"] for each in phases.get("e", [])}
    assert opened.keys() == closed.keys() and all(opened[key] <= closed[key] for key in opened)
    return phases


# ---------------------------------------------------------------------------------------------------------------------
# The tests
# ---------------------------------------------------------------------------------------------------------------------


class First(unittest.TestCase):
    maxDiff = None

    def setUp(self):
        environment = mock.patch.dict(os.environ)
        environment.start()
        self.addCleanup(environment.stop)
        os.environ.pop("SOURCE_DATE_EPOCH", None)
        self.jobs = jobs.jobs_of(first_timeline())

    def test_btf(self):
        text = btf.text(self.jobs, "config.json stim.json")
        self.assertEqual(text, BTF_FIRST)
        self.assertEqual(set(BtfReader(text).states.values()), {"terminated"})

    def test_vcd(self):
        found = read_vcd(vcd.text(self.jobs, "x"))
        self.assertEqual({name: found[name] for name in VCD_FIRST}, VCD_FIRST)

    def test_vcd_with_numbers(self):
        found = read_vcd(vcd.text(self.jobs, "x"))
        numbers = read_vcd(vcd.text(self.jobs, "x", has_words=False), ("event", "integer", "reg", "wire"))
        self.assertEqual(numbers["mcos.core_0.A"], [(0, 0), (21, 3), (38, 0)])
        self.assertEqual(as_words(numbers, found), found)

    def test_chrome(self):
        phases = read_chrome(chrome.text(self.jobs, "x"))
        running = [(each["name"], each["ts"], each["dur"]) for each in phases["X"] if each["cat"] == "running"]
        self.assertEqual(running, [("A", 21, 17), ("B", 34, 7)])
        self.assertEqual([each["name"] for each in phases["f"]], ["ActivateTask B", "reply"])

    def test_marks_of_one_turn(self):
        found = jobs.jobs_of(timeline.timeline_of(sample_runs.point_run()))
        names = [each["name"] for each in read_chrome(chrome.text(found, "x"))["i"]]
        self.assertEqual(names, ["tick 1", "E_OS_LIMIT", "E_OS_STATE", "E_OS_STATE"])

    def test_short_names(self):
        names = [vcd.short_name(number) for number in range(94 * 95)]
        self.assertEqual((names[0], names[93], names[94], len(set(names))), ("!", "~", "!!", len(names)))
        self.assertTrue(all(re.fullmatch("[!-~]{1,2}", name) for name in names))


@needs_program
class Interrupts(unittest.TestCase):
    """The run with interrupts: who runs, and what is marked."""

    @classmethod
    def setUpClass(cls):
        cls.jobs = jobs.jobs_of(sample_runs.interrupts())

    def test_btf(self):
        read = BtfReader(btf.text(self.jobs, "x"))
        found = [event for _, event, target in read.events if target == "I"]
        first, second = ["activate", "start", "preempt", "activate"], ["resume", "terminate", "start", "terminate"]
        self.assertEqual(found, first + ["mtalimitexceeded"] + second)
        # The jobs of the core that is down do not end.
        self.assertEqual((read.states["B", "0"], read.states["B", "1"]), ("running", "active"))

    def test_vcd(self):
        found = read_vcd(vcd.text(self.jobs, "x"))
        for name, values in (
            ("core_0.I", ["suspended", "ready", "running", "interrupted", "running", "suspended"]),
            ("core_0.J", ["suspended", "running", "suspended"]),
            ("core_0.X", ["suspended", "running", "interrupted", "ready", "running", "suspended"]),
            ("core_1.B", ["suspended", "running", "suspended"]),
            ("core_0.lost", [1]),
            ("core_0.protection", [1]),
            ("core_1.protection", [1]),
            ("core_1.shutdown", [1]),
        ):
            with self.subTest(name=name):
                self.assertEqual([value for _, value in without_repeats(found["mcos." + name])], values)
        self.assertNotIn("mcos.core_0.shutdown", found)

    def test_chrome(self):
        phases = read_chrome(chrome.text(self.jobs, "x"))
        threads = {each["args"]["name"]: each["tid"] for each in phases["M"] if each["name"] == "thread_name"}
        self.assertEqual([name for name in threads if "(" in name][:3], ["J (level 2)", "I (level 1)", "H (prio 2)"])
        states = [each["name"] for each in phases["X"] if (each["pid"], each["tid"]) == (0, threads["I (level 1)"])]
        self.assertEqual(states, ["ready", "I", "interrupted", "I", "I"])
        marks = [each["name"] for each in phases["i"] if not each["name"].startswith("tick ")]
        protected, shut = "Protection E_OS_PROTECTION_TIME", "Shutdown E_OS_PROTECTION_TIME"
        self.assertEqual(marks, ["lost I", protected, protected, shut, "E_OS_CORE"])
        # What comes to the core that is down is served without a line, and one of it has a reply.
        self.assertEqual([each["name"] for each in phases["f"]].count("reply"), 2)


def task(name, script, **members):
    """A task that autostarts."""
    return {"name": name, "prio": 1, "auto": ["M"], "script": script, **members}


@needs_program
class Semaphores(unittest.TestCase):
    """What jobs do with resources, spinlocks and events, in BTF."""

    def read(self, folder, configuration, stimuli):
        """The rows of a run of an example, without their times and the instance of the target."""
        paths = (os.path.join(sample_runs.EXAMPLES, folder, name) for name in (configuration, stimuli))
        text = btf.text(jobs.jobs_of(sample_runs.timeline_of(runs.Source(PROGRAM, *paths))), "x")
        rows = [line.split(",") for line in text.splitlines() if not line.startswith("#")]
        return BtfReader(text), [(row[1], row[4], row[6]) for row in rows]

    def test_spinlocks(self):
        reader, rows = self.read("spinlocks", "config.json", "stimuli.json")
        found = [(source, event) for source, target, event in rows if target == "Log"]
        gets = ("requestsemaphore", "assigned")
        careless, poll = ([(name, event) for event in gets] for name in ("Careless", "Poll"))
        main = [("Main", event) for event in ("requestsemaphore", "waiting")]
        # Careless ends without giving Log back, and its core does. A TryToGetSpinlock does not wait.
        expected = [*careless, *main, ("Careless", "released"), ("Main", "assigned")]
        expected += [poll[0], ("Main", "released"), poll[1], ("Poll", "released")]
        self.assertEqual(found, expected)
        for name, events in (("Main", ["start", "poll", "run", "terminate"]), ("Poll", ["start", "terminate"])):
            found = [event for _, target, event in rows if target == name]
            self.assertEqual(found, ["activate", *events])
        self.assertEqual(reader.owners, {})

    def test_a_wait_that_a_halt_drops(self):
        reader, rows = self.read("spinlocks", "halt.json", "halt_stimuli.json")
        send = [event for source, target, event in rows if "Send" in (source, target)]
        self.assertEqual(send, ["activate", "start", "requestsemaphore", "waiting", "poll"])
        self.assertEqual((reader.states["Send", "0"], reader.owners), ("polling", {}))

    def test_a_spinlock_that_another_core_gets_after_the_halt(self):
        # B asks for the free spinlock, and C gets it before or after B's core is halted in the same round.
        stimuli = {core: "op op op op" for core in "012"}
        for works, state in ((1, "polling"), (2, "running")):
            scripts = ["ShutdownAllCores 0", "work;" * works + "GetSpinlock L"]
            scripts.append("work;" * (works - 1) + "TryToGetSpinlock L v0")
            cores = [{"id": core, "tasks": [task("ABC"[core], script)]} for core, script in enumerate(scripts)]
            cores[0]["start"] = [1, 2]
            text = json.dumps({"spinlocks": [{"name": "L"}], "cores": cores})
            with self.subTest(works=works), sample_runs.written(text, stimuli) as source:
                found = BtfReader(btf.text(jobs.jobs_of(sample_runs.timeline_of(source)), "x"))
                self.assertEqual(found.states["B", "0"], state)
                self.assertIn("assigned", [event for _, event, name in found.events if name == "L"])

    def test_the_newest_is_released_first(self):
        resources = [{"name": name, "ceiling": 1} for name in ("R", "S")]
        core = {"id": 0, "resources": resources, "tasks": [task("A", "GetResource R;GetResource S")]}
        with sample_runs.written(json.dumps({"cores": [core]}), {"0": "op op op"}) as source:
            found = BtfReader(btf.text(jobs.jobs_of(sample_runs.timeline_of(source)), "x")).events
        released = [(event, name) for _, event, name in found[-3:]]
        self.assertEqual(released, [("released", "S"), ("released", "R"), ("terminate", "A")])

    def test_resources(self):
        _, rows = self.read("engine", "config.json", "stimuli.json")
        found = [(source, event) for source, target, event in rows if target == "Map"]
        events = ("requestsemaphore", "assigned", "released")
        self.assertEqual(found[:6], [(task, event) for task in ("T10ms", "T5ms") for event in events])

    def test_events(self):
        _, rows = self.read("engine", "config.json", "stimuli.json")
        found = [row for row in rows if row[1].startswith("EVENT_")]
        waits = [("Com", "EVENT_Com_%d" % bit, "wait_event") for bit in (1, 2)]
        cleared = ("Com", "EVENT_Com_1", "clear_event")
        self.assertEqual(found[:4], [*waits, ("T10ms", "EVENT_Com_1", "set_event"), cleared])
        # An alarm sets the other one.
        self.assertIn(("SIM", "EVENT_Com_2", "set_event"), found)

    def test_events_that_are_set_already(self):
        tasks = [task("E", "SetEvent E 6;WaitEvent 4;ClearEvent 2", extended=True)]
        with sample_runs.written(json.dumps({"cores": [{"id": 0, "tasks": tasks}]}), {"0": "op op op"}) as source:
            found = BtfReader(btf.text(jobs.jobs_of(sample_runs.timeline_of(source)), "x")).events
        shown = [(event, target) for _, event, target in found if target.startswith("EVENT_")]
        expected = [("set_event", "EVENT_E_2"), ("set_event", "EVENT_E_4")]
        self.assertEqual(shown, [*expected, ("wait_event", "EVENT_E_4"), ("clear_event", "EVENT_E_2")])

    def test_a_point_activates_a_task_and_sets_its_events(self):
        point = {"offset": 0, "actions": ["SetEvent E 1", "ActivateTask E"]}
        core = {"id": 0, "counters": [{"name": "C", "max": 9}]}
        table = {"name": "S", "counter": "C", "duration": 5, "points": [point], "auto": {"modes": ["M"], "offset": 1}}
        core["tables"] = [table]
        core["tasks"] = [{"name": "E", "prio": 1, "extended": True, "script": "WaitEvent 1;TerminateTask"}]
        with sample_runs.written(json.dumps({"cores": [core]}), {"0": "tick op op"}) as source:
            found = BtfReader(btf.text(jobs.jobs_of(sample_runs.timeline_of(source)), "x")).events
        expected = ["trigger", "activate", "set_event", "start", "wait_event", "terminate"]
        self.assertEqual([event for _, event, _ in found], expected)


class CreationDate(unittest.TestCase):
    def text(self, seconds):
        """The export of a run with this in the environment."""
        with mock.patch.dict(os.environ, {"SOURCE_DATE_EPOCH": seconds}):
            return btf.text(jobs.jobs_of(first_timeline()), "config.json stim.json")

    def test_dates(self):
        for seconds, date in (("0", "1970-01-01T00:00:00Z"), ("1700000000", "2023-11-14T22:13:20Z")):
            with self.subTest(seconds=seconds):
                line = "#creationDate %s\n" % date
                self.assertIn(line, self.text(seconds))
                self.assertEqual(self.text(seconds).replace(line, ""), BTF_FIRST)

    def test_no_date(self):
        for seconds in ("", "-1", "1.5", "today", "9" * 20):
            with self.subTest(seconds=seconds), self.assertRaisesRegex(Failed, "no number of seconds"):
                self.text(seconds)


class Readers(unittest.TestCase):
    """The readers refuse what is wrong."""

    def test_btf(self):
        for old, new in (
            ("38,Core_0,0,T,A,0,terminate", "38,Core_0,0,T,A,0,resume"),
            ("34,STI_A_B,0,T", "34,STI_B_A,0,T"),
            ("38,Core_0", "33,Core_0"),
            ("41,Core_1,0,", "41,Core_1,"),
            ("timeScale us", "timeScale turns"),
        ):
            with self.subTest(new=new):
                self.assertIn(old, BTF_FIRST)
                self.assertRaises((AssertionError, KeyError), BtfReader, BTF_FIRST.replace(old, new))

    def test_btf_of_semaphores_and_events(self):
        rows = ["22,A,0,SEM,R,0,requestsemaphore", "22,A,0,SEM,R,0,assigned", "23,A,0,SEM,R,0,released"]
        rows += ["34,A,0,SEM,R,0,requestsemaphore", "34,A,0,SEM,R,0,assigned"]
        before, behind = BTF_FIRST.split("34,A,0,STI")
        behind = "34,A,0,STI" + behind
        waits = ["35,B,0,SEM,R,0,requestsemaphore", "35,B,0,SEM,R,0,waiting", "35,Core_1,0,T,B,0,poll"]
        waits += ["37,A,0,SEM,R,0,released", "37,B,0,SEM,R,0,assigned", "37,Core_1,0,T,B,0,run"]
        events = ["37,B,0,EVENT,EVENT_B_4,0,wait_event", "37,SIM,0,EVENT,EVENT_A_1,0,set_event"]
        first, last = behind.split("38,Core_0")
        all_rows = [before[:-1], *rows, first[:-1], *waits, *events, "38,Core_0" + last]
        BtfReader("\n".join(all_rows))
        for row in rows + waits:
            with self.subTest(left_out=row):
                left = "\n".join(each for each in all_rows if each != row)
                self.assertRaises((AssertionError, KeyError), BtfReader, left)
        for old, new in (("EVENT_B_4,", "EVENT_B_5,"), ("EVENT_B_4,", "EVENT_A_4,"), ("EVENT_A_1,", "EVENT_C_1,")):
            with self.subTest(new=new):
                self.assertRaises(AssertionError, BtfReader, "\n".join(all_rows).replace(old, new))

    def test_vcd(self):
        text = vcd.text(jobs.jobs_of(first_timeline()), "x")
        for old, new in (
            ("#38", "#20"),
            ("srunning #", "srunning ~"),
            ("srunning #", "b11 #"),
            ("$var string 1 #", "$var reg 3 #"),
            ("$enddefinitions", "$upscope $end $enddefinitions"),
        ):
            with self.subTest(new=new):
                self.assertIn(old, text)
                self.assertRaises((AssertionError, KeyError, IndexError), read_vcd, text.replace(old, new, 1))
        # IEEE 1364 has no strings.
        self.assertRaises(AssertionError, read_vcd, text, ("event", "integer", "reg", "wire"))


class Commands(unittest.TestCase):
    def test_wrong_usage(self):
        for words in (("vcd", "a"), ("otf", "a", "b"), ("btf", "--numbers", "a", "b")):
            with self.subTest(words=words):
                self.assertEqual(called(MAIN, *words)[:2], (2, ""))

    @needs_program
    def test_printed(self):
        for name, read in (("btf", BtfReader), ("chrome", read_chrome), ("vcd", read_vcd)):
            with self.subTest(name=name):
                status, output, messages = called(MAIN, "--mcos", PROGRAM, name, *sample_runs.ENGINE)
                self.assertEqual((status, messages), (0, ""))
                read(output)

    @needs_program
    def test_a_path_with_a_line_end(self):
        with sample_runs.at_a_strange_path() as paths:
            for name, read in (("btf", BtfReader), ("chrome", read_chrome), ("vcd", read_vcd)):
                with self.subTest(name=name):
                    status, output, messages = called(MAIN, "--mcos", PROGRAM, name, *paths)
                    self.assertEqual((status, messages), (0, ""))
                    read(output)


@needs_program
class Examples(unittest.TestCase):
    """Each run of the examples, read back and held to the lines of the trace."""

    def runs(self):
        for source in sample_runs.sources():
            with self.subTest(source=source):
                found = sample_runs.timeline_of(source)
                yield found, jobs.jobs_of(found)

    def test_btf(self):
        for found, all_jobs in self.runs():
            events = [event for _, event, _ in BtfReader(btf.text(all_jobs, "x")).events]
            lines = [line.split(" ")[0] for item in found.items for line in item.lines]
            for event, *words in (
                ("activate", "act", "irq"),
                ("terminate", "end", "leave"),
                ("wait", "wait"),
                ("release", "free"),
            ):
                self.assertEqual(events.count(event), sum(lines.count(word) for word in words))
            deeds = [deed for item in found.items for deed in item.deeds if deed.status == "E_OK"]
            services = [deed.service for deed in deeds]
            for event, service in (("clear_event", "ClearEvent"), ("wait_event", "WaitEvent")):
                masks = [each.mask for each in all_jobs.events if each.kind == event]
                self.assertEqual(len(masks), services.count(service))
                self.assertEqual(events.count(event), sum(mask.bit_count() for mask in masks))
            masks = [int(line.split(" ")[2]) for item in found.items for line in item.lines if line.startswith("ev ")]
            self.assertEqual(events.count("set_event"), sum(mask.bit_count() for mask in masks))
            self.assertEqual(events.count("assigned"), self.gets(found))
            # When an ISR leaves, what it interrupted resumes.
            still = sum(job.changes[-1].event == jobs.INTERRUPT for job in all_jobs.jobs)
            resumed = len(all_jobs.interruptions) - still
            begun = lines.count("pre") + lines.count("enter")
            self.assertEqual(events.count("start") + events.count("resume"), begun + resumed)

    def gets(self, found):
        """How often a resource or a spinlock was got, by the lines of the trace."""
        got = re.compile("stat \\w+ (GetResource E_OK|GetSpinlock E_OK|TryToGetSpinlock E_OK 1)$")
        return sum(got.match(line) is not None for item in found.items for line in item.lines)

    def test_chrome(self):
        for found, all_jobs in self.runs():
            phases = read_chrome(chrome.text(all_jobs, "x"))
            lines = [line for item in found.items for line in item.lines]
            served = sum(item.words[0] == "in" and item.words[3] != "rep" for item in found.items)
            self.assertEqual(sum(each["name"] != "reply" for each in phases.get("f", [])), served)
            marks = [each["name"] for each in phases.get("i", [])]
            self.assertEqual(sum(name.startswith("tick ") for name in marks), lines.count("tick"))
            wanted = [re.sub("^hook (Error )?", "", line) for line in lines if re.match("hook [EPS][^t]|lost ", line)]
            # The mark of a lock budget also says what was held.
            shown = [re.sub("^(Protection \\w+): .*", r"\1", name) for name in marks if not name.startswith("tick ")]
            self.assertEqual(shown, wanted)

    def test_vcd(self):
        for found, all_jobs in self.runs():
            values = read_vcd(vcd.text(all_jobs, "x"))
            self.assertEqual(as_words(read_vcd(vcd.text(all_jobs, "x", has_words=False)), values), values)
            for core, items in found.by_core.items():
                ticks = items[-1].tick if items else 0
                self.assertEqual(values["mcos.core_%d.tick" % core][-1][1], ticks)
                errors = {item.turn for item in items if any(line.startswith("hook Error") for line in item.lines)}
                self.assertEqual([turn for turn, _ in values.get("mcos.core_%d.error" % core, [])], sorted(errors))

    def test_a_lost_activation(self):
        events = BtfReader(btf.text(jobs.jobs_of(sample_runs.engine()), "x")).events
        self.assertEqual([target for _, event, target in events if event == "mtalimitexceeded"], ["Ack"])

    @unittest.skipUnless(shutil.which("vcd2fst") and shutil.which("fst2vcd"), "gtkwave is not installed")
    def test_vcd_by_gtkwave(self):
        found = jobs.jobs_of(sample_runs.engine())
        for has_words in (True, False):
            with self.subTest(has_words=has_words):
                self.hold_by_gtkwave(vcd.text(found, "x", has_words))

    def hold_by_gtkwave(self, text):
        """Holds a text to what GTKWave makes of it, by its own format and back."""
        with tempfile.TemporaryDirectory() as folder:
            with open(os.path.join(folder, "a.vcd"), "w", encoding="utf-8") as file:
                file.write(text)
            made = subprocess.run(["vcd2fst", "a.vcd", "a.fst"], cwd=folder, capture_output=True, text=True, timeout=60)
            self.assertEqual((made.returncode, made.stderr), (0, ""))
            words = ["fst2vcd", "a.fst"]
            back = subprocess.run(words, cwd=folder, check=True, capture_output=True, text=True, timeout=60).stdout
        wanted, found = read_vcd(text), read_vcd(back)
        self.assertEqual(found.keys(), wanted.keys())
        for name, values in wanted.items():
            self.assertEqual(without_repeats(found[name]), without_repeats(values), name)


if __name__ == "__main__":
    unittest.main()
