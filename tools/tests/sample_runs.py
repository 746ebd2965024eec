"""Runs for the tests of the tools that look at runs: one of examples/first from the files, and those of the program."""

import contextlib
import glob
import io
import json
import os
import shutil
import sys
import tempfile
import unittest

TESTS = os.path.dirname(os.path.abspath(__file__))
TOOLS = os.path.dirname(TESTS)
ROOT = os.path.dirname(TOOLS)
sys.dont_write_bytecode = True
if TOOLS not in sys.path:
    sys.path.insert(0, TOOLS)
from library import runs, timeline  # noqa: E402
from library.ending import Failed  # noqa: E402

PROGRAM = os.path.abspath(os.environ.get("MCOS", os.path.join(ROOT, "crates", "mcos", "out", "mcos")))
EXAMPLES = os.path.join(ROOT, "examples")
ENGINE = [os.path.join(EXAMPLES, "engine", name) for name in ("config.json", "stimuli.json")]

# A run with interrupts, budgets and a core that is down. J interrupts I, one interrupt of I is lost, a job of I reaches
# its budget while the next one is pending, and X is preempted when that one ends. Core 1 shuts down, so it drops what the
# alarm A does, and answers X E_OS_CORE.
INTERRUPTS = """{"cores": [
  {"id": 0, "start": [1], "protection": "PRO_TERMINATETASKISR",
   "counters": [{"name": "C", "max": 9}],
   "alarms": [
     {"name": "A", "counter": "C", "action": "ActivateTask B", "auto": {"modes": ["M"], "start": 3, "cycle": 0}}],
   "tasks": [
     {"name": "X", "prio": 1, "auto": ["M"], "budget": 9,
      "script": "SuspendAllInterrupts;ResumeAllInterrupts;ActivateTask B;TerminateTask"},
     {"name": "H", "prio": 2, "script": "TerminateTask"}],
   "isrs": [
     {"name": "I", "level": 1, "budget": 2, "script": "ActivateTask H"},
     {"name": "J", "level": 2, "script": "ActivateTask B"}]},
  {"id": 1, "tasks": [{"name": "B", "prio": 1, "auto": ["M"], "activations": 2, "budget": 2, "script": "jump 0"}]}]}"""
INTERRUPTS_STIMULI = {
    "0": "op irq=I op tick irq=J irq=I irq=I op op tick op op op tick op op",
    "1": "op op op op op op op op op tick tick op",
}

needs_program = unittest.skipUnless(os.path.isfile(PROGRAM), "there is no program %s" % PROGRAM)


def read(*path):
    """The text of a file of the repository."""
    with open(os.path.join(ROOT, *path), encoding="utf-8") as file:
        return file.read()


def sessions(name):
    """The commands of an example, each with its words and the lines that it prints; the last line is the status."""
    for part in read("examples", name, "expected").split("$ mcos ")[1:]:
        lines = part.splitlines()
        yield lines[0].split(" "), lines[1:]


def first_run():
    """The run of examples/first, whose logs examples/logs has."""
    logs = {int(words[-1]): lines[:-1] for words, lines in sessions("logs") if "--items" in words}
    block = next(lines[:-1] for words, lines in sessions("first"))
    return runs.run_of(read("examples", "first", "config.json"), runs.blocks_of("\n".join(block)), logs)


def first_timeline():
    """The timeline of that run."""
    return timeline.timeline_of(first_run())


def locks_timeline():
    """The timeline of examples/locks. Its cores send nothing, so its logs follow from its stimuli: core 1 goes down."""
    stimuli = json.loads(read("examples", "locks", "stimuli.json"))
    starts = {"0": ["began 1 E_OK", "began 2 E_OK"]}
    taken = {"1": 6}
    logs = {}
    for core, words in stimuli.items():
        log = starts.get(core, ["on"]) + ["entered", "pass1 M", "readied", "pass2 0 1 2"]
        log += ["stim " + word for word in words.split(" ")[: taken.get(core)]]
        logs[int(core)] = log + ["drained", "passend", "last"]
    block = next(lines[:-1] for words, lines in sessions("locks"))
    configuration = read("examples", "locks", "config.json")
    return timeline.timeline_of(runs.run_of(configuration, runs.blocks_of("\n".join(block)), logs))


def point_run():
    """A run of one core, by hand: its last item is a `tick` at which a point expires, with four actions."""
    log = ["entered", "pass1 M", "readied", "pass2 0"]
    core = {"id": 0, "counters": [{"name": "C", "max": 9}]}
    actions = ["SetEvent E 1", "ActivateTask T", "SetEvent E 2", "ActivateTask T"]
    points = [{"offset": 0, "actions": actions}]
    auto = {"modes": ["M"], "offset": 1}
    core["tables"] = [{"name": "S", "counter": "C", "duration": 5, "points": points, "auto": auto}]
    core["tasks"] = [{"name": "T", "prio": 1, "script": "work"}]
    core["tasks"].append({"name": "E", "prio": 2, "extended": True, "script": "work"})
    lines = ["tick", "point S 0", "act T", "hook Error E_OS_LIMIT"] + ["hook Error E_OS_STATE"] * 2 + ["pre T"]
    return runs.run_of(json.dumps({"cores": [core]}), {0: ["hook Startup"] + lines}, {0: log + ["stim tick"]})


def sources():
    """Each run of the examples that has no fault."""
    for folder in sorted(glob.glob(os.path.join(EXAMPLES, "*", "expected"))):
        name = os.path.basename(os.path.dirname(folder))
        for words, lines in sessions(name):
            if words[0] == "run" and "--items" not in words and not lines[-2].startswith("fault "):
                paths = [os.path.join(EXAMPLES, name, word) for word in words[1:] if not word.startswith("--")]
                yield runs.Source(PROGRAM, *paths)


@contextlib.contextmanager
def written(configuration, stimuli):
    """A run of the program whose configuration is a text and whose stimuli are a value, while the files are there."""
    with tempfile.TemporaryDirectory() as folder:
        paths = [os.path.join(folder, name) for name in ("config.json", "stimuli.json")]
        for path, text in zip(paths, (configuration, json.dumps(stimuli))):
            with open(path, "w", encoding="utf-8") as file:
                file.write(text)
        yield runs.Source(PROGRAM, *paths)


@contextlib.contextmanager
def at_a_strange_path():
    """The paths of examples/first in a folder whose name has a line end and what no picture may have."""
    with tempfile.TemporaryDirectory() as scratch:
        folder = os.path.join(scratch, "a\n\x01<b")
        shutil.copytree(os.path.join(EXAMPLES, "first"), folder)
        yield [os.path.join(folder, name) for name in ("config.json", "stim.json")]


def interrupts():
    """The timeline of the run with interrupts."""
    with written(INTERRUPTS, INTERRUPTS_STIMULI) as source:
        return timeline_of(source)


def timeline_of(source):
    """The timeline of a run of the program."""
    return timeline.timeline_of(runs.read_run(source))


def engine():
    """The timeline of examples/engine."""
    return timeline_of(runs.Source(PROGRAM, *ENGINE))


def called(main, *words):
    """The status, the output and the messages of a script's `main` with these words."""
    output, messages = io.StringIO(), io.StringIO()
    with contextlib.redirect_stdout(output), contextlib.redirect_stderr(messages):
        try:
            status = main(words)
        except SystemExit as ended:
            status = ended.code
        except Failed as failed:
            status = 1
            print(failed, file=messages)
    return status, output.getvalue(), messages.getvalue()
