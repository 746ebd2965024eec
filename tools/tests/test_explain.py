"""Tests of tools/explain: each usual mistake is found, with its file, line, column and number."""

import contextlib
import json
import os
import re
import runpy
import subprocess
import sys
import tempfile
import unittest
from typing import NamedTuple, Tuple

sys.path.insert(0, os.path.dirname(os.path.abspath(__file__)))
from sample_runs import PROGRAM, ROOT, TOOLS, called, needs_program  # noqa: E402
from library.formats import MOST_STIMULI, MOST_TURNS  # noqa: E402
from library.judging import judge_configuration, judge_files, judge_schedule, judge_stimuli  # noqa: E402

MAIN = runpy.run_path(os.path.join(TOOLS, "explain"))["main"]

# Three cores without a fault; nothing in it is noted.
BASE = """\
{"cores": [
  {"id": 0, "start": [1, 2],
   "counters": [{"name": "Ms", "max": 999}],
   "alarms": [
     {"name": "Fast", "counter": "Ms", "action": "ActivateTask T1ms",
      "auto": {"modes": ["M"], "start": 1, "cycle": 1}}],
   "tables": [
     {"name": "Slow", "counter": "Ms", "duration": 20, "repeating": true, "auto": {"modes": ["M"], "offset": 1},
      "points": [
       {"offset": 3, "actions": ["ActivateTask T10ms"]},
       {"offset": 13, "actions": ["ActivateTask T10ms"]}]}],
   "resources": [{"name": "Map", "ceiling": 20}],
   "tasks": [
     {"name": "T1ms", "prio": 20, "script": "GetResource Map;work;ReleaseResource Map;TerminateTask"},
     {"name": "T10ms", "prio": 10, "script": "GetResource Map;work;ReleaseResource Map;SetEvent Com 1;TerminateTask"}]},
  {"id": 1,
   "tasks": [
     {"name": "Com", "prio": 10, "extended": true, "auto": ["M"],
      "script": "WaitEvent 1;ClearEvent 1;ActivateTask Log;jump 0"}]},
  {"id": 2,
   "tasks": [
     {"name": "Log", "prio": 5, "activations": 2, "script": "add v0 1;TerminateTask"}]}]}
"""


class Case(NamedTuple):
    """A mistake: what in the right configuration becomes what, what stands at the first place, and the lines."""

    title: str
    old: str
    new: str
    at: str
    lines: Tuple[str, ...]

    @property
    def text(self) -> str:
        """The configuration with the mistake."""
        return BASE.replace(self.old, self.new)


CASES = (
    Case(
        "a misspelled task",
        "ActivateTask Log",
        "ActivateTask Lgo",
        "Lgo",
        (
            "config.json:19:56: fault 5 UnknownName: /cores/1/tasks/0/script: "
            "operation 2 `ActivateTask Lgo`: no task is called `Lgo`; did you mean `Log`?",
        ),
    ),
    Case(
        "a misspelled operation",
        "ActivateTask Log",
        "ActivteTask Log",
        "ActivteTask",
        (
            "config.json:19:43: fault 10 BadScript: /cores/1/tasks/0/script: "
            "operation 2 `ActivteTask Log`: no operation is called `ActivteTask`; did you mean `ActivateTask`?",
        ),
    ),
    Case(
        "a member misspelled",
        '"prio": 5',
        '"priority": 5',
        '"priority"',
        (
            "config.json:22:22: fault 2 Shape: /cores/2/tasks/0/priority: "
            "a task has no member `priority`: it is `prio` here",
        ),
    ),
    Case(
        "a member left out",
        ', "max": 999',
        "",
        '{"name": "Ms"}',
        (
            "config.json:3:17: fault 2 Shape: /cores/0/counters/0: "
            "the counter `Ms` has no `max` (a whole number, 1 to 1000000000)",
        ),
    ),
    Case(
        "a number in quotes",
        '"prio": 20',
        '"prio": "20"',
        '"20"',
        (
            "config.json:14:31: fault 2 Shape: /cores/0/tasks/0/prio: "
            '`prio` is a whole number, 0 to 31, not `"20"`: remove the quotes',
        ),
    ),
    Case(
        "a number with a fraction",
        '"prio": 20',
        '"prio": 20.0',
        "20.0",
        (
            "config.json:14:31: fault 2 Shape: /cores/0/tasks/0/prio: "
            "`prio` is a whole number, 0 to 31, not `20.0`: write `20`",
        ),
    ),
    Case(
        "auto of a task is a text",
        '"auto": ["M"]',
        '"auto": "M"',
        '"M"',
        (
            "config.json:18:60: fault 2 Shape: /cores/1/tasks/0/auto: "
            '`auto` is a list of modes, as `["M"]`, or `[]`, not `"M"`',
        ),
    ),
    Case(
        "auto of a task is an object",
        '"auto": ["M"]',
        '"auto": {"modes": ["M"]}',
        '{"modes"',
        (
            "config.json:18:60: fault 2 Shape: /cores/1/tasks/0/auto: "
            '`auto` is a list of modes, as `["M"]`, or `[]`, not an object',
        ),
    ),
    Case(
        "auto of an alarm is true",
        '"auto": {"modes": ["M"], "start": 1, "cycle": 1}',
        '"auto": true',
        "true",
        (
            "config.json:6:15: fault 2 Shape: /cores/0/alarms/0/auto: "
            "the `auto` of an alarm is an object with `modes`, `start` and `cycle`, or `null`, not `true`",
        ),
    ),
    Case(
        "start and cycle beside auto",
        '"auto": {"modes": ["M"], "start": 1, "cycle": 1}',
        '"start": 1, "cycle": 1',
        '"start"',
        (
            "config.json:6:7: fault 2 Shape: /cores/0/alarms/0/start: "
            "an alarm has no member `start`: it stands in the `auto` of an alarm",
            "config.json:6:19: fault 2 Shape: /cores/0/alarms/0/cycle: "
            "an alarm has no member `cycle`: it stands in the `auto` of an alarm",
        ),
    ),
    Case(
        "a core's number in quotes",
        '"id": 1',
        '"id": "1"',
        '"1"',
        (
            "config.json:16:10: fault 2 Shape: /cores/1/id: "
            '`id` is a whole number, 0 to 15, not `"1"`: remove the quotes',
        ),
    ),
    Case(
        "a core's number of version 2",
        '"id": 2',
        '"id": 9',
        "9",
        (
            "config.json:20:10: fault 3 Limit: /cores/2/id: "
            '`id` is 9: 0 to 7 are allowed; with `"version": 2`, 0 to 15',
            "config.json:2:26: note: /cores/0/start/1: no core 2 is configured: its start is answered E_OS_ID",
            "config.json:20:10: note: /cores/2/id: core 9 is off: no `start` leads to it from the master, core 0",
        ),
    ),
    Case(
        "a member of OSEK",
        '"auto": ["M"]',
        '"autostart": true',
        '"autostart"',
        (
            "config.json:18:52: fault 2 Shape: /cores/1/tasks/0/autostart: "
            'a task has no member `autostart`: it is `auto` here, a list: `["M"]`',
        ),
    ),
    Case(
        "an ISR takes no resource",
        '"id": 1,',
        '"id": 1, "isrs": [{"name": "I", "level": 1, "script": "work;GetResource ?"}],',
        "GetResource ?",
        (
            "config.json:16:64: fault 10 BadScript: /cores/1/isrs/0/script: "
            "operation 1 `GetResource ?`: the script of an ISR takes and gives back no resource",
        ),
    ),
    Case(
        "a resource of an ISR's core",
        '"start": [1, 2],',
        '"start": [1, 2], "isrs": [{"name": "I", "level": 1, "script": "GetResource Map"}],',
        "GetResource Map",
        (
            "config.json:2:76: fault 10 BadScript: /cores/0/isrs/0/script: "
            "operation 0 `GetResource Map`: the script of an ISR takes and gives back no resource",
        ),
    ),
    Case(
        "a member that only tasks have",
        '"id": 1,',
        '"id": 1, "isrs": [{"name": "I", "prio": 1, "script": ""}],',
        '"prio"',
        ("config.json:16:36: fault 2 Shape: /cores/1/isrs/0/prio: an ISR has no member `prio`: it is `level` here",),
    ),
    Case(
        "a level too great",
        '"id": 1,',
        '"id": 1, "isrs": [{"name": "I", "level": 17, "script": ""}],',
        "17",
        ("config.json:16:45: fault 3 Limit: /cores/1/isrs/0/level: `level` is 17: 1 to 16 are allowed",),
    ),
    Case(
        "an ISR with the name of a task",
        '"id": 1,',
        '"id": 1, "isrs": [{"name": "T1ms", "level": 1, "script": ""}],',
        '"T1ms"',
        (
            "config.json:16:31: fault 4 DuplicateName: /cores/1/isrs/0/name: "
            "`T1ms` is already the name of the task of core 0 in line 14",
        ),
    ),
    Case(
        "an ISR in place of a task",
        '"id": 1,',
        '"id": 1, "isrs": [{"name": "I", "level": 1, "script": "ActivateTask I"}],',
        'I"}',
        (
            "config.json:16:72: fault 5 UnknownName: /cores/1/isrs/0/script: "
            "operation 0 `ActivateTask I`: `I` is an ISR, and `ActivateTask` wants a task",
        ),
    ),
    Case(
        "an event of another core's task",
        '"id": 1,',
        '"id": 1, "isrs": [{"name": "I", "level": 1, "script": "GetEvent T1ms v0"}],',
        "T1ms v0",
        (
            "config.json:16:68: fault 6 WrongCore: /cores/1/isrs/0/script: "
            "operation 0 `GetEvent T1ms v0`: `T1ms` is a task of core 0: `GetEvent` takes one of its own core, 1",
            "config.json:14:15: note: /cores/0/tasks/0/name: "
            "the task `T1ms` is not `extended`, so it has no events: E_OS_ACCESS for `GetEvent T1ms v0` in line 16",
        ),
    ),
    Case(
        "a mask of an ISR without an event",
        '"id": 1,',
        '"id": 1, "isrs": [{"name": "I", "level": 1, "script": "SetEvent Com 0"}],',
        '0"}',
        (
            "config.json:16:72: fault 8 BadMask: /cores/1/isrs/0/script: "
            "operation 0 `SetEvent Com 0`: the mask `0` is not 1 to 4294967295",
        ),
    ),
    Case(
        "a pair that is not planned",
        "add v0 1;",
        "DisableAllInterrupts;",
        "DisableAllInterrupts",
        (
            "config.json:22:62: fault 10 BadScript: /cores/2/tasks/0/script: operation 0 `DisableAllInterrupts`: "
            "`DisableAllInterrupts` is not planned: there is `SuspendAllInterrupts`",
        ),
    ),
    Case(
        "a core above the greatest",
        "add v0 1;",
        "StartCore 256;",
        "256",
        (
            "config.json:22:72: fault 10 BadScript: /cores/2/tasks/0/script: operation 0 `StartCore 256`: "
            "`256` is no number of a core: that is 0 to 255",
        ),
    ),
    Case(
        "a status above the greatest",
        "add v0 1;",
        "ShutdownOS 17;",
        "17;",
        (
            "config.json:22:73: fault 10 BadScript: /cores/2/tasks/0/script: operation 0 `ShutdownOS 17`: "
            "`17` is no number of a status: that is 0 to 16",
        ),
    ),
    Case(
        "a status by its name",
        "add v0 1;",
        "ShutdownAllCores E_OK;",
        "E_OK",
        (
            "config.json:22:79: fault 10 BadScript: /cores/2/tasks/0/script: operation 0 `ShutdownAllCores E_OK`: "
            "`E_OK` is no number of a status: write 0 to 16, as docs/FORMATS.md counts them",
        ),
    ),
    Case(
        "what is ignored",
        "add v0 1;TerminateTask",
        "SuspendAllInterrupts;ShutdownOS 0;ResumeAllInterrupts;TerminateTask",
        "ShutdownOS",
        (
            "config.json:22:83: note: /cores/2/tasks/0/script: "
            "operation 1 `ShutdownOS 0`: interrupts are suspended here: it is ignored",
        ),
    ),
    Case(
        "what an ISR may not call",
        '"id": 1,',
        '"id": 1, "isrs": [{"name": "I", "level": 1, "script": "SetEvent Com 1;WaitEvent 1;TerminateTask"}],',
        "WaitEvent 1",
        (
            "config.json:16:74: note: /cores/1/isrs/0/script: "
            "operation 1 `WaitEvent 1`: an ISR may not call it: E_OS_CALLEVEL",
            "config.json:16:86: note: /cores/1/isrs/0/script: "
            "operation 2 `TerminateTask`: an ISR may not call it: E_OS_CALLEVEL",
        ),
    ),
    Case(
        "a task that neither waits nor ends",
        '"script": "GetResource Map;work;ReleaseResource Map;TerminateTask"',
        '"script": "GetResource Map;ReleaseResource Map;work;jump 2"',
        "GetResource Map",
        (
            "config.json:14:46: note: /cores/0/tasks/0/script: operation 0 `GetResource Map`: from here on the job "
            "neither waits nor ends, so no task of a lower `prio` runs any more: `T10ms`",
        ),
    ),
    Case(
        "an ISR that never ends",
        '"id": 1,',
        '"id": 1, "isrs": [{"name": "I", "level": 1, "script": "jz v0 0;jump 0"}],',
        '"jz',
        (
            "config.json:16:58: note: /cores/1/isrs/0/script: "
            "no job comes to the end of the script, so none of this ISR ends",
        ),
    ),
    Case(
        "interrupts suspended behind the end",
        '"id": 1,',
        '"id": 1, "isrs": [{"name": "I", "level": 1, "script": "jz v0 2;SuspendAllInterrupts"}],',
        '"jz',
        (
            "config.json:16:58: note: /cores/1/isrs/0/script: "
            "a job can come to the end of the script with interrupts suspended: E_OS_DISABLEDINT",
        ),
    ),
    Case(
        "a job that does not end with interrupts suspended",
        "add v0 1;TerminateTask",
        "SuspendAllInterrupts;TerminateTask",
        '"Sus',
        (
            "config.json:22:61: note: /cores/2/tasks/0/script: "
            "a job can come to the end of the script without TerminateTask or ChainTask: E_OS_MISSINGEND",
            "config.json:22:83: note: /cores/2/tasks/0/script: "
            "operation 1 `TerminateTask`: interrupts are suspended here: E_OS_DISABLEDINT",
        ),
    ),
    Case(
        "an answer that there is not",
        '"id": 1,',
        '"id": 1, "protection": "PRO_TERMINATETASK",',
        '"PRO_TERMINATETASK"',
        (
            "config.json:16:27: fault 2 Shape: /cores/1/protection: `protection` is one of "
            '`"PRO_IGNORE"`, `"PRO_TERMINATETASKISR"`, `"PRO_TERMINATEAPPL"`, `"PRO_TERMINATEAPPL_RESTART"` and '
            '`"PRO_SHUTDOWN"`, not `PRO_TERMINATETASK`; did you mean `PRO_TERMINATETASKISR`?',
        ),
    ),
    Case(
        "a spinlock of OIL",
        '{"cores": [',
        '{"spinlock": [], "cores": [',
        '"spinlock"',
        (
            "config.json:1:2: fault 2 Shape: /spinlock: "
            "a configuration has no member `spinlock`: it is `spinlocks` here, a list",
        ),
    ),
    Case(
        "spinlocks in a core",
        '"id": 1,',
        '"id": 1, "spinlocks": [],',
        '"spinlocks"',
        (
            "config.json:16:13: fault 2 Shape: /cores/1/spinlocks: "
            "a core has no member `spinlocks`: it stands beside `cores`",
        ),
    ),
    Case(
        "a number in place of a spinlock's name",
        '{"cores": [',
        '{"spinlocks": [{"name": "L", "next": 1}], "cores": [',
        "1}],",
        (
            "config.json:1:38: fault 2 Shape: /spinlocks/0/next: "
            "`next` is the name of a spinlock, or `null`, not `1`",
        ),
    ),
    Case(
        "a spinlock's lock method",
        '{"cores": [',
        '{"spinlocks": [{"name": "L", "lockMethod": "LOCK_NOTHING"}], "cores": [',
        '"lockMethod"',
        (
            "config.json:1:30: fault 2 Shape: /spinlocks/0/lockMethod: "
            "a spinlock has no member `lockMethod`: it is not written here: each spinlock is LOCK_NOTHING",
        ),
    ),
    Case(
        "a spinlock called as a task",
        '{"cores": [',
        '{"spinlocks": [{"name": "T1ms"}], "cores": [',
        '"T1ms", "prio"',
        (
            "config.json:14:15: fault 4 DuplicateName: /cores/0/tasks/0/name: "
            "`T1ms` is already the name of the spinlock in line 1",
        ),
    ),
    Case(
        "a mode after a spinlock",
        '{"cores": [',
        '{"spinlocks": [{"name": "L", "next": "M"}], "cores": [',
        '"M"}], "cores"',
        ("config.json:1:38: fault 5 UnknownName: /spinlocks/0/next: no spinlock is called `M`",),
    ),
    Case(
        "a task in place of a spinlock",
        "ActivateTask Log",
        "GetSpinlock Com",
        "Com;",
        (
            "config.json:19:55: fault 5 UnknownName: /cores/1/tasks/0/script: "
            "operation 2 `GetSpinlock Com`: `Com` is a task, and `GetSpinlock` wants a spinlock",
        ),
    ),
    Case(
        "a circle of spinlocks",
        '{"cores": [',
        '{"spinlocks": [{"name": "K", "next": "L"}, {"name": "L", "next": "K"}], "cores": [',
        '"L"}, ',
        (
            "config.json:1:38: fault 7 SpinOrder: /spinlocks/0/next: "
            "the spinlock `K` comes after itself: `K`, then `L`, then `K`",
            "config.json:1:25: note: /spinlocks/0/name: nothing gets the spinlock `K`: no operation",
            "config.json:1:53: note: /spinlocks/1/name: nothing gets the spinlock `L`: no operation",
        ),
    ),
    Case(
        "events with names",
        '"extended": true',
        '"events": ["Rx"]',
        '"events"',
        (
            "config.json:18:34: fault 2 Shape: /cores/1/tasks/0/events: "
            'a task has no member `events`: events have no names here: write `"extended": true`, and masks in the '
            "scripts",
        ),
    ),
    Case(
        "a priority too great",
        '"prio": 20',
        '"prio": 32',
        "32",
        (
            "config.json:14:31: fault 3 Limit: /cores/0/tasks/0/prio: "
            "`prio` is 32: 0 to 31 are allowed",
        ),
    ),
    Case(
        "an alarm that starts at 0",
        '"start": 1, "cycle"',
        '"start": 0, "cycle"',
        "0, ",
        (
            "config.json:6:41: fault 3 Limit: /cores/0/alarms/0/auto/start: "
            "`start` is 0: 1 to 999 are allowed, the `max` of the counter `Ms` of line 3",
        ),
    ),
    Case(
        "extended with 2 activations",
        '"extended": true',
        '"extended": true, "activations": 2',
        "2,",
        (
            "config.json:18:67: fault 3 Limit: /cores/1/tasks/0/activations: "
            "`activations` is 2: an `extended` task has 1",
        ),
    ),
    Case(
        "257 operations",
        "add v0 1;TerminateTask",
        ";".join(["work"] * 256 + ["TerminateTask"]),
        "TerminateTask",
        (
            "config.json:22:1342: fault 3 Limit: /cores/2/tasks/0/script: "
            "the script has 257 operations: at most 256 are allowed",
        ),
    ),
    Case(
        "an event's name for a mask",
        "WaitEvent 1",
        "WaitEvent Rx",
        "Rx",
        (
            "config.json:19:28: fault 10 BadScript: /cores/1/tasks/0/script: "
            "operation 0 `WaitEvent Rx`: `Rx` is no mask: events have no names, so write a number, as 1, 2 or 4",
        ),
    ),
    Case(
        "a hexadecimal mask",
        "WaitEvent 1",
        "WaitEvent 0x3",
        "0x3",
        (
            "config.json:19:28: fault 10 BadScript: /cores/1/tasks/0/script: "
            "operation 0 `WaitEvent 0x3`: `0x3` is no decimal number: write `3`",
        ),
    ),
    Case(
        "a hexadecimal mask that is too long",
        "WaitEvent 1",
        "WaitEvent 0x" + "F" * 5000,
        "0xF",
        (
            "config.json:19:28: fault 10 BadScript: /cores/1/tasks/0/script: "
            "operation 0 `WaitEvent 0x%s..`: `0x%s..` is no decimal number" % ("F" * 26, "F" * 36),
        ),
    ),
    Case(
        "a ninth variable",
        "add v0 1",
        "add v8 1",
        "v8",
        (
            "config.json:22:66: fault 10 BadScript: /cores/2/tasks/0/script: "
            "operation 0 `add v8 1`: `v8` is no variable: they are `v0` to `v7`",
        ),
    ),
    Case(
        "a space behind a semicolon",
        "WaitEvent 1;",
        "WaitEvent 1; ",
        " ClearEvent",
        (
            "config.json:19:30: fault 10 BadScript: /cores/1/tasks/0/script: "
            "operation 1 ` ClearEvent 1`: a space stands behind `;`: remove it",
        ),
    ),
    Case(
        "two spaces",
        "WaitEvent 1",
        "WaitEvent  1",
        "  1",
        (
            "config.json:19:27: fault 10 BadScript: /cores/1/tasks/0/script: "
            "operation 0 `WaitEvent  1`: two spaces stand here: one divides words",
        ),
    ),
    Case(
        "a semicolon at the end",
        "add v0 1;TerminateTask",
        "add v0 1;TerminateTask;",
        '"}',
        (
            "config.json:22:85: fault 10 BadScript: /cores/2/tasks/0/script: "
            "an empty operation stands behind the last `;`: remove the `;`",
        ),
    ),
    Case(
        "a jump past the end",
        "jump 0",
        "jump 5",
        '5"',
        (
            "config.json:19:65: fault 10 BadScript: /cores/1/tasks/0/script: "
            "operation 3 `jump 5`: there is no place `5`: the script has 4 operations, so places are 0 to 4",
        ),
    ),
    Case(
        "one name on two cores",
        '"name": "Log"',
        '"name": "Com"',
        '"Com"',
        (
            "config.json:22:15: fault 4 DuplicateName: /cores/2/tasks/0/name: "
            "`Com` is already the name of the task of core 1 in line 18",
            "config.json:19:56: fault 5 UnknownName: /cores/1/tasks/0/script: "
            "operation 2 `ActivateTask Log`: no task is called `Log`",
        ),
    ),
    Case(
        "an object named M",
        '"name": "Fast"',
        '"name": "M"',
        '"M"',
        (
            "config.json:5:15: fault 4 DuplicateName: /cores/0/alarms/0/name: "
            "`M` is the name of a mode",
        ),
    ),
    Case(
        "two cores of one number",
        '"id": 2',
        '"id": 1',
        "1,",
        (
            "config.json:20:10: fault 4 DuplicateName: /cores/2/id: "
            "core 1 stands twice: also in line 16",
        ),
    ),
    Case(
        "a resource of another core",
        "WaitEvent 1;",
        "GetResource Map;WaitEvent 1;",
        "Map",
        (
            "config.json:19:30: fault 6 WrongCore: /cores/1/tasks/0/script: "
            "operation 0 `GetResource Map`: `Map` is a resource of core 0: `GetResource` takes one of its own "
            "core, 1",
        ),
    ),
    Case(
        "points out of order",
        '"offset": 13',
        '"offset": 2',
        "2, ",
        (
            "config.json:11:19: fault 9 BadTable: /cores/0/tables/0/points/1/offset: "
            "`offset` is 2, not above that of the point before, 3: offsets increase",
        ),
    ),
    Case(
        "a counter's min above an alarm's cycle",
        '"max": 999',
        '"max": 999, "min": 2',
        "1}",
        (
            "config.json:6:53: fault 3 Limit: /cores/0/alarms/0/auto/cycle: "
            "`cycle` is 1: 0, or 2 to 999 are allowed, the `min` and the `max` of the counter `Ms` of line 3",
        ),
    ),
    Case(
        "delays beyond the counter",
        '"max": 999',
        '"max": 9',
        "13,",
        (
            "config.json:11:19: fault 9 BadTable: /cores/0/tables/0/points/1/offset: "
            "10 counts after the point before: 1 to 9 are allowed, the `min` and the `max` of the counter `Ms` of "
            "line 3",
        ),
    ),
    Case(
        "a comma missing",
        '"prio": 5,',
        '"prio": 5',
        ' "activations"',
        (
            "config.json:22:31: fault 1 NotJson: /cores/2/tasks/0: "
            'a comma is missing before `"activations"`',
        ),
    ),
    Case(
        "a comma too many",
        '"prio": 5,',
        '"prio": 5,,',
        ', "activations"',
        (
            "config.json:22:32: fault 1 NotJson: /cores/2/tasks/0: "
            "a comma too many",
        ),
    ),
    Case(
        "a comma before a bracket",
        '"prio": 5, "activations": 2, "script": "add v0 1;TerminateTask"}',
        '"prio": 5, "activations": 2, "script": "add v0 1;TerminateTask",}',
        ",}",
        (
            "config.json:22:85: fault 1 NotJson: /cores/2/tasks/0: "
            "a comma too many: `}` follows",
        ),
    ),
    Case(
        "a comment",
        '{"cores"',
        '// ECU\n{"cores"',
        "// ECU",
        (
            'config.json:1:1: fault 1 NotJson: "": '
            "JSON has no comments: `//`",
        ),
    ),
    Case(
        "a mask without an event",
        "WaitEvent 1",
        "WaitEvent 0",
        "0;",
        (
            "config.json:19:28: fault 8 BadMask: /cores/1/tasks/0/script: "
            "operation 0 `WaitEvent 0`: the mask `0` is not 1 to 4294967295",
        ),
    ),
    Case(
        "a master that is not there",
        '{"cores"',
        '{"master": 3, "cores"',
        "3,",
        (
            "config.json:1:12: fault 5 UnknownName: /master: "
            "`master` is 3: the configuration has the cores 0, 1 and 2",
        ),
    ),
    Case(
        "no mode of three",
        '{"cores": [',
        '{"modes": ["M", "Run", "Diagnosis"], "cores": [{"id": 3, "mode": "Diagnosi"},',
        '"Diagnosi"}',
        (
            "config.json:1:66: fault 5 UnknownName: /cores/0/mode: "
            "no mode is called `Diagnosi`: there are `M`, `Run` and `Diagnosis`; did you mean `Diagnosis`?",
            "config.json:1:55: note: /cores/0/id: core 3 is off: no `start` leads to it from the master, core 0",
        ),
    ),
    Case(
        "modes without one",
        '{"cores": [',
        '{"modes": [], "cores": [',
        "[]",
        (
            "config.json:1:11: fault 3 Limit: /modes: `modes` is empty: a configuration has at least 1 mode",
            "config.json:6:26: fault 5 UnknownName: /cores/0/alarms/0/auto/modes/0: "
            "no mode is called `M`: `modes` is empty",
            "config.json:8:94: fault 5 UnknownName: /cores/0/tables/0/auto/modes/0: "
            "no mode is called `M`: `modes` is empty",
            "config.json:18:61: fault 5 UnknownName: /cores/1/tasks/0/auto/0: no mode is called `M`: `modes` is empty",
        ),
    ),
    Case(
        "a word in place of a mode's name",
        '{"cores": [',
        '{"modes": ["M", "none"], "cores": [',
        '"none"',
        (
            "config.json:1:17: fault 4 DuplicateName: /modes/1: "
            "no mode is called `none`: `DONOTCARE`, `conflict` and `none` have a meaning of their own",
        ),
    ),
    Case(
        "a mode twice",
        '{"cores": [',
        '{"modes": ["M", "M"], "cores": [',
        '"M"]',
        ("config.json:1:17: fault 4 DuplicateName: /modes/1: the mode `M` stands twice",),
    ),
    Case(
        "a mode that is no text",
        '"id": 1,',
        '"id": 1, "mode": null,',
        "null",
        (
            "config.json:16:21: fault 2 Shape: /cores/1/mode: "
            '`mode` is the name of a mode, or `"DONOTCARE"`, not `null`: to have the default, leave the member out',
        ),
    ),
    Case(
        "a conflict of modes",
        '{"cores": [',
        '{"modes": ["M", "N"], "master": 3, "cores": [{"id": 3, "mode": "N", "start": [0]},',
        '{"id": 0',
        (
            "config.json:2:3: note: /cores/1: "
            "core 0 names the mode `M`, and core 3 `N`: the start ends in a conflict",
            "config.json:16:3: note: /cores/2: "
            "core 1 names the mode `M`, and core 3 `N`: the start ends in a conflict",
            "config.json:20:3: note: /cores/3: "
            "core 2 names the mode `M`, and core 3 `N`: the start ends in a conflict",
        ),
    ),
    Case(
        "another mode",
        '"modes": ["M"], "start"',
        '"modes": ["Diag"], "start"',
        '"Diag"',
        (
            "config.json:6:26: fault 5 UnknownName: /cores/0/alarms/0/auto/modes/0: "
            "no mode is called `Diag`: there is one, `M`",
        ),
    ),
    Case(
        "a letter that is not ASCII",
        '"name": "Log"',
        '"name": "L\\u00f6g"',
        "\\u00f6g",
        (
            "config.json:22:17: fault 2 Shape: /cores/2/tasks/0/name: "
            "`\u00f6` stands in the name `L\u00f6g`; a name is 1 to 128 ASCII letters, digits and underscores, and "
            "begins with a letter",
        ),
    ),
    Case(
        "a table in place of a task",
        "ActivateTask T1ms",
        "ActivateTask Slow",
        "Slow",
        (
            "config.json:5:64: fault 5 UnknownName: /cores/0/alarms/0/action: "
            "`Slow` is a table, and `ActivateTask` wants a task",
        ),
    ),
    Case(
        "an action that is none",
        "ActivateTask T1ms",
        "IncrementCounter Ms",
        "IncrementCounter",
        (
            "config.json:5:51: fault 10 BadScript: /cores/0/alarms/0/action: "
            "an action is `ActivateTask T` or `SetEvent T m`, not `IncrementCounter Ms`",
        ),
    ),
    Case(
        "a ceiling below a user",
        '"ceiling": 20',
        '"ceiling": 10',
        "10}",
        (
            "config.json:12:45: note: /cores/0/resources/0/ceiling: "
            "`ceiling` is 10, below the `prio` of `T1ms` (20): GetResource `Map` is answered E_OS_ACCESS there",
        ),
    ),
    Case(
        "a lock budget that is not below an execution budget",
        '"ceiling": 20}],\n   "tasks": [\n     {"name": "T1ms",',
        '"ceiling": 20, "lock": 5}],\n   "tasks": [\n     {"name": "T1ms", "budget": 5,',
        "5}],",
        (
            "config.json:12:57: note: /cores/0/resources/0/lock: "
            "`lock` is 5, not below the `budget` of `T1ms` (5): a job there reaches that first: E_OS_PROTECTION_TIME",
        ),
    ),
    Case(
        "a budget of a resource",
        '"ceiling": 20}',
        '"ceiling": 20, "budget": 5}',
        '"budget"',
        (
            "config.json:12:49: fault 2 Shape: /cores/0/resources/0/budget: "
            "a resource has no member `budget`: it is `lock` here, in ticks",
        ),
    ),
    Case(
        "a lock budget of a task",
        '"prio": 10, "script"',
        '"prio": 10, "ResourceLock": 5, "script"',
        '"ResourceLock"',
        (
            "config.json:15:36: fault 2 Shape: /cores/0/tasks/1/ResourceLock: "
            "a task has no member `ResourceLock`: "
            "it is `lock` here, in ticks, and stands at the resource, for all its holders",
        ),
    ),
    Case(
        "a lock budget beyond the greatest",
        '"ceiling": 20}',
        '"ceiling": 20, "lock": 1000000001}',
        "1000000001}",
        (
            "config.json:12:57: fault 3 Limit: /cores/0/resources/0/lock: "
            "`lock` is 1000000001: 0 to 1000000000 are allowed",
        ),
    ),
    Case(
        "extended forgotten",
        '"extended": true, ',
        "",
        '"Com"',
        (
            "config.json:18:15: note: /cores/1/tasks/0/name: "
            "the task `Com` is not `extended`, so it has no events: E_OS_ACCESS for `SetEvent Com 1` in line 15, "
            "`WaitEvent 1` in line 19 and `ClearEvent 1` in line 19",
        ),
    ),
    Case(
        "a core that nobody starts",
        '"start": [1, 2]',
        '"start": [1]',
        "2,\n",
        (
            "config.json:20:10: note: /cores/2/id: "
            "core 2 is off: no `start` leads to it from the master, core 0",
        ),
    ),
    Case(
        "the start of a core that is not there",
        '"start": [1, 2]',
        '"start": [1, 3]',
        "3]",
        (
            "config.json:2:26: note: /cores/0/start/1: "
            "no core 3 is configured: its start is answered E_OS_ID",
            "config.json:20:10: note: /cores/2/id: "
            "core 2 is off: no `start` leads to it from the master, core 0",
        ),
    ),
    Case(
        "no TerminateTask",
        "add v0 1;TerminateTask",
        "add v0 1",
        '"add',
        (
            "config.json:22:61: note: /cores/2/tasks/0/script: "
            "a job can come to the end of the script without TerminateTask or ChainTask: E_OS_MISSINGEND",
        ),
    ),
    Case(
        "a member twice",
        '"prio": 5,',
        '"prio": 5, "prio": 6,',
        '"prio": 5',
        (
            "config.json:22:22: note: /cores/2/tasks/0/prio: "
            "the member `prio` stands again in line 22, column 33: the last one counts, and this one is not judged",
        ),
    ),
    Case(
        "a task that nothing activates",
        "ActivateTask Log;jump 0",
        "work;jump 0",
        '"Log"',
        (
            "config.json:22:15: note: /cores/2/tasks/0/name: "
            "nothing activates the task `Log`: no `auto`, no operation, no action",
        ),
    ),
)


class Input(NamedTuple):
    """Stimuli or a schedule: the text, and the lines that are expected."""

    title: str
    text: str
    lines: Tuple[str, ...]


STIMULI = (
    Input("right ones", '{"0": "tick op", "1": "op", "2": "op"}', ()),
    Input(
        "a misspelled word, more than once",
        '{"0": "op tik tik", "1": "op", "2": "op"}',
        (
            "1:11: fault 12 BadStimulus: /0: "
            "word 2 `tik`: a stimulus is `op`, `tick` or `irq=I`; did you mean `tick`? (and 1 more of it)",
        ),
    ),
    Input(
        "a number of repetitions",
        '{"0": "op*3"}',
        (
            "1:8: fault 12 BadStimulus: /0: "
            "word 1 `op*3`: a stimulus is `op`, `tick` or `irq=I`: mcos repeats none, and tools/expand writes it out",
        ),
    ),
    Input(
        "a line end between words",
        '{"0": "tick\\nop"}',
        ("1:12: fault 12 BadStimulus: /0: word 1 `tick\\nop`: a line end stands here: one space divides words",),
    ),
    Input(
        "two spaces",
        '{"0": "tick  op"}',
        ("1:12: fault 12 BadStimulus: /0: word 2: a space too many: one divides words, and none stands at the ends",),
    ),
    Input(
        "a space at the end, behind an escape",
        '{"0": "\\u006fp "}',
        ("1:15: fault 12 BadStimulus: /0: word 2: a space too many: one divides words, and none stands at the ends",),
    ),
    Input(
        "leading zeros and a core that is not configured",
        '{"00": "op", "3": "op"}',
        (
            "1:2: fault 12 BadStimulus: /00: `00` has leading zeros: write `0`",
            "1:14: fault 12 BadStimulus: /3: no core `3` is configured: the configuration has the cores 0, 1 and 2",
        ),
    ),
    Input(
        "a list of words",
        '{"0": ["op"]}',
        ('1:7: fault 12 BadStimulus: /0: the stimuli of a core are one text, as `"op tick op"`, not a list',),
    ),
    Input(
        "a stimulus too many, and a wrong core",
        '{"3": "%s"}' % " ".join(["op"] * (MOST_STIMULI + 1)),
        (
            "1:300008: fault 3 Limit: /3: 100001 stimuli: a core has at most 100000",
            "1:2: fault 12 BadStimulus: /3: no core `3` is configured: the configuration has the cores 0, 1 and 2",
        ),
    ),
    Input(
        "the configuration in their place",
        '{"cores": []}',
        (
            '1:1: fault 12 BadStimulus: "": '
            "this looks like a configuration, and stands in place of the stimuli; the order is CFG STIM SCHED",
        ),
    ),
    Input(
        "started cores without stimuli, and counters that stand still",
        '{"0": "op", "1": ""}',
        (
            '1:1: note: "": core 2 has no stimuli: none of its jobs does an operation',
            "1:7: note: /0: the stimuli of core 0 have no `tick`: `Ms` stands still",
            "1:18: note: /1: core 1 has no stimuli: none of its jobs does an operation",
        ),
    ),
)
# Stimuli for a configuration with ISRs: the last core has a budget, and no counter.
ISRS = """\
{"cores": [
  {"id": 0, "start": [1], "isrs": [{"name": "Rx", "level": 1, "script": ""}, {"name": "Tx", "level": 2, "script": ""}]},
  {"id": 1, "isrs": [{"name": "Far", "level": 1, "budget": 1, "script": ""}]}]}
"""
INTERRUPTS = (
    Input("right ones", '{"0": "irq=Rx op irq=Tx", "1": "irq=Far tick op"}', ()),
    Input(
        "ISRs that there are not, or not on this core",
        '{"0": "op irq=RX irq=Far irq= irq", "1": "op"}',
        (
            "1:15: fault 12 BadStimulus: /0: word 2 `irq=RX`: no ISR of this core is called `RX`; did you mean `Rx`?",
            "1:22: fault 12 BadStimulus: /0: word 3 `irq=Far`: `Far` is an ISR of core 1",
            "1:30: fault 12 BadStimulus: /0: word 4 `irq=`: no ISR of this core is called ``",
            "1:31: fault 12 BadStimulus: /0: word 5 `irq`: a stimulus is `op`, `tick` or `irq=I`",
        ),
    ),
    Input(
        "no interrupt of an ISR, and no tick for a budget",
        '{"0": "irq=Tx", "1": "irq=Far op"}',
        (
            "1:7: note: /0: the stimuli of core 0 have no `op`: none of its jobs does an operation",
            "1:7: note: /0: the stimuli of core 0 have no `irq=Rx`: no job of this ISR is made",
            "1:22: note: /1: the stimuli of core 1 have no `tick`: no job uses its `budget`",
        ),
    ),
)
# Stimuli for a configuration with a lock budget alone.
LOCKS = """\
{"cores": [{"id": 0, "resources": [{"name": "R", "ceiling": 1, "lock": 2}],
  "tasks": [{"name": "A", "prio": 1, "auto": ["M"], "script": "GetResource R;ReleaseResource R;TerminateTask"}]}]}
"""
HOLDING = (
    Input("right ones", '{"0": "op tick op op"}', ()),
    Input(
        "no tick for a lock budget",
        '{"0": "op op op"}',
        ("1:7: note: /0: the stimuli of core 0 have no `tick`: no job reaches the `lock` of a resource",),
    ),
)
WITH_STIMULI = ((BASE, STIMULI), (ISRS, INTERRUPTS), (LOCKS, HOLDING))
SCHEDULES = (
    Input("right turns", '"0o 1l 2s0"', ()),
    Input(
        "no turn",
        '"0o 0x"',
        ('1:5: fault 13 BadSchedule: "": word 2 `0x`: a turn is `Ko`, `KsD` or `Kl` for cores K and D',),
    ),
    Input(
        "a core that is not configured",
        '"0o 0s9"',
        (
            '1:7: fault 13 BadSchedule: "": '
            "word 2 `0s9`: no core 9 is configured: the configuration has the cores 0, 1 and 2",
        ),
    ),
    Input(
        "a core that serves itself",
        '"0s0"',
        ('1:4: fault 13 BadSchedule: "": word 1 `0s0`: a core serves another core, not itself',),
    ),
    Input("a list", '["0o"]', ('1:1: fault 13 BadSchedule: "": a schedule is one text, as `"0o 0l 1s0"`',)),
    Input(
        "stimuli in its place",
        '{"0": "op"}',
        (
            '1:1: fault 13 BadSchedule: "": '
            "this looks like stimuli, and stands in place of the schedule; the order is CFG STIM SCHED",
        ),
    ),
    Input(
        "a turn too many",
        '"%s"' % " ".join(["0l"] * (MOST_TURNS + 1)),
        ('1:3000002: fault 3 Limit: "": 1000001 turns: a schedule has at most 1000000',),
    ),
)


def lines_of(judgement, path):
    """The lines of a judgement."""
    return [finding.line(path) for finding in judgement.findings]


def line_of(members):
    """The line for a finding, from its members in JSON."""
    what = "note" if members["fault"] is None else "fault %d %s" % (members["fault"], members["name"])
    words = (members["file"], members["line"], members["column"], what, members["pointer"] or '""', members["text"])
    return "%s:%d:%d: %s: %s: %s" % words


def run(program, *words, folder=None):
    """The exit status, the standard output and the standard error of a command."""
    ran = subprocess.run([program, *words], cwd=folder, capture_output=True, timeout=60)
    return ran.returncode, ran.stdout.decode(), ran.stderr.decode()


def explain(folder, *words):
    """What tools/explain does in a folder: its exit status, its lines and its standard error. No process is started."""
    with contextlib.chdir(folder):
        status, output, messages = called(MAIN, *words)
    return status, output.splitlines(), messages


class Configurations(unittest.TestCase):
    """The usual mistakes in a configuration."""

    def test_the_right_one(self):
        self.assertEqual((), judge_configuration(BASE.encode()).findings)

    def test_each_mistake(self):
        for case in CASES:
            with self.subTest(case.title):
                self.assertEqual(1, BASE.count(case.old), "what is changed stands once")
                judgement = judge_configuration(case.text.encode())
                self.assertEqual(list(case.lines), lines_of(judgement, "config.json"))

    def test_what_may_be_meant(self):
        script = "GetResource Map;work;ReleaseResource Map;TerminateTask"
        for old, new in (
            # No task of a lower priority is there; a variable may end the loop; the second task waits.
            ("add v0 1;TerminateTask", "add v0 1;jump 0"),
            ('20, "script": "' + script, '20, "script": "GetResource Map;ReleaseResource Map;jz v0 2;TerminateTask'),
            ('20, "script": "' + script, '20, "extended": true, "auto": ["M"], "script": "WaitEvent 1;jump 0'),
        ):
            with self.subTest(new):
                self.assertEqual(1, BASE.count(old), "what is changed stands once")
                noted = judge_configuration(BASE.replace(old, new).encode()).findings
                self.assertEqual([], [each.text for each in noted if "neither waits" in each.text])

    def test_a_lock_budget_that_a_job_can_reach(self):
        for lock, budget in ((5, 6), (5, 0), (0, 5)):
            members = '"ceiling": 20, "lock": %d' % lock
            text = BASE.replace('"ceiling": 20', members).replace('"prio": 20', '"prio": 20, "budget": %d' % budget)
            with self.subTest(lock=lock, budget=budget):
                self.assertEqual((), judge_configuration(text.encode()).findings)

    def test_each_place(self):
        for case in CASES:
            with self.subTest(case.title):
                place = judge_configuration(case.text.encode()).findings[0].place
                line = case.text.splitlines(keepends=True)[place.line - 1]
                self.assertEqual(case.at, line[place.column - 1 :][: len(case.at)])

    def test_a_place_within_escapes(self):
        text = BASE.replace("add v0 1;TerminateTask", "\\u0061dd v0 1\\u003bTerminat")
        (finding,) = judge_configuration(text.encode()).findings
        self.assertEqual(10, finding.fault.number)
        self.assertTrue(text.splitlines()[finding.place.line - 1][finding.place.column - 1 :].startswith("Terminat"))

    def test_all_faults_of_a_text_by_their_numbers(self):
        text = BASE.replace('"prio": 5', '"prio": 32').replace("WaitEvent 1", "WaitEvent 0")
        text = text.replace('ActivateTask T10ms"]}]', 'ActivateTask T10m"]}]')
        numbers = [finding.fault.number for finding in judge_configuration(text.encode()).findings]
        self.assertEqual([3, 5, 8], numbers)


class Inputs(unittest.TestCase):
    """The usual mistakes in stimuli and schedules."""

    def test_stimuli(self):
        for configuration, inputs in WITH_STIMULI:
            draft = judge_configuration(configuration.encode()).draft
            for each in inputs:
                with self.subTest(each.title):
                    judgement = judge_stimuli(each.text.encode(), draft)
                    self.assertEqual(["stim:" + line for line in each.lines], lines_of(judgement, "stim"))

    def test_schedules(self):
        draft = judge_configuration(BASE.encode()).draft
        for each in SCHEDULES:
            with self.subTest(each.title):
                judgement = judge_schedule(each.text.encode(), draft)
                self.assertEqual(["sched:" + line for line in each.lines], lines_of(judgement, "sched"))


class Files(unittest.TestCase):
    """The script itself: its files, its lines and its exit status."""

    def setUp(self):
        self.scratch = tempfile.TemporaryDirectory()
        self.addCleanup(self.scratch.cleanup)
        self.folder = self.scratch.name
        self.write("config.json", BASE)
        self.write("stim.json", STIMULI[0].text)
        self.write("sched.json", SCHEDULES[0].text)

    def write(self, name, text):
        """Writes a file."""
        with open(os.path.join(self.folder, name), "w", encoding="utf-8") as file:
            file.write(text)

    def test_right_files(self):
        self.assertEqual((0, [], ""), explain(self.folder, "config.json"))
        self.assertEqual((0, [], ""), explain(self.folder, "config.json", "stim.json", "sched.json"))

    def test_notes_are_no_faults(self):
        self.write("stim.json", "{}")
        status, lines, _ = explain(self.folder, "config.json", "stim.json")
        self.assertEqual((0, 3), (status, len(lines)))
        self.assertEqual('stim.json:1:1: note: "": core 0 has no stimuli: none of its jobs does an operation', lines[0])

    def test_swapped_files(self):
        text = "these look like stimuli, and stand in place of the configuration; the order is CFG STIM SCHED"
        self.assertEqual(
            (
                1,
                [
                    'stim.json:1:1: fault 2 Shape: "": ' + text,
                    'config.json:1:1: note: "": not judged, since stim.json has a fault',
                ],
                "",
            ),
            explain(self.folder, "stim.json", "config.json"),
        )

    def test_the_same_file_twice(self):
        status, lines, _ = explain(self.folder, "config.json", "config.json", "sched.json")
        self.assertEqual(1, status)
        self.assertIn("config.json:1:1: fault 12 BadStimulus", lines[0])
        self.assertEqual('sched.json:1:1: note: "": not judged, since config.json has a fault', lines[1])

    def test_faults_before_notes_of_an_earlier_file(self):
        self.write("config.json", BASE.replace('"ceiling": 20', '"ceiling": 10'))
        self.write("stim.json", '{"0": "opp"}')
        status, lines, _ = explain(self.folder, "config.json", "stim.json")
        self.assertEqual(1, status)
        heads = [line.split(": /")[0] for line in lines]
        self.assertEqual(["stim.json:1:8: fault 12 BadStimulus", "config.json:12:45: note"], heads)

    def test_files_that_cannot_be_read(self):
        expected = 'none.json:1:1: fault 21 Unreadable: "": No such file or directory'
        self.assertEqual((1, [expected], ""), explain(self.folder, "none.json"))
        self.assertEqual((1, ['.:1:1: fault 21 Unreadable: "": Is a directory'], ""), explain(self.folder, "."))
        self.assertEqual((1, [expected], ""), explain(self.folder, "config.json", "none.json"))

    @unittest.skipIf(os.geteuid() == 0, "the superuser may read each file")
    def test_a_file_without_permission(self):
        os.chmod(os.path.join(self.folder, "config.json"), 0)
        expected = 'config.json:1:1: fault 21 Unreadable: "": Permission denied'
        self.assertEqual((1, [expected], ""), explain(self.folder, "config.json"))

    def test_a_byte_order_mark(self):
        self.write("config.json", "\ufeff" + BASE)
        status, lines, _ = explain(self.folder, "config.json")
        self.assertEqual(1, status)
        self.assertIn('config.json:1:1: fault 1 NotJson: "": the file begins with a byte order mark', lines[0])

    def test_json(self):
        self.assertEqual((0, ["[]"], ""), explain(self.folder, "--json", "config.json"))
        self.write("config.json", BASE.replace('"ceiling": 20', '"ceiling": 10'))
        self.write("stim.json", '{"0": "opp"}')
        status, lines, _ = explain(self.folder, "--json", "config.json", "stim.json", "none.json")
        found = json.loads("\n".join(lines))
        self.assertEqual((1, 3), (status, len(found)))
        place = {"file": "stim.json", "line": 1, "column": 8, "fault": 12, "name": "BadStimulus", "pointer": "/0"}
        self.assertEqual(place, {name: found[0][name] for name in place})
        place = {"file": "config.json", "line": 12, "column": 45, "fault": None, "name": "note"}
        self.assertEqual(place, {name: found[1][name] for name in place})
        whole = {"file": "none.json", "line": 1, "column": 1, "fault": None, "name": "note", "pointer": ""}
        self.assertEqual({**whole, "text": "not judged, since stim.json has a fault"}, found[2])

    def test_json_has_what_the_lines_have(self):
        for case in CASES:
            with self.subTest(case.title):
                self.write("config.json", case.text)
                status, lines, _ = explain(self.folder, "config.json")
                status_of_json, text, _ = explain(self.folder, "--json", "config.json")
                found = [line_of(members) for members in json.loads("\n".join(text))]
                self.assertEqual((status, lines), (status_of_json, found))

    def test_the_members_are_in_the_document(self):
        self.write("config.json", "")
        found = json.loads("\n".join(explain(self.folder, "--json", "config.json")[1]))
        with open(os.path.join(ROOT, "docs", "TOOLS.md"), encoding="utf-8") as file:
            sentence = re.search(r"a list with an object for each line, with the members (.*)", file.read())[1]
        self.assertEqual(list(found[0]), re.findall(r"`(\w+)`", sentence))

    def test_a_cut(self):
        application = os.path.join(ROOT, "examples", "application", "config.json")
        self.assertEqual((0, [], ""), explain(self.folder, application, "--cut", "2"))
        status, lines, _ = explain(self.folder, "config.json", "--cut", "1")
        text = "it refers to core 2: task Log; core 0 refers to it: task Com"
        expected = "config.json:16:10: fault 20 NotSeparate: /cores/1/id: core 1 is not separate: " + text
        self.assertEqual((1, [expected]), (status, lines))
        _, lines, _ = explain(self.folder, "config.json", "--cut", "7")
        expected = 'config.json:1:1: fault 20 NotSeparate: "": core 7 is not separate: it is not configured'
        self.assertEqual([expected], lines)
        for word in ("256", "-1", "core"):
            self.assertEqual(2, explain(self.folder, "config.json", "--cut", word)[0])

    def test_places_in_a_source(self):
        tasks = '[{"name": "A", "prio": 1, "auto": ["M"],\n "script": [\n  "2*(work; wrok)",\n  "TerminateTask"]},\n'
        tasks += ' {"name": "A", "prio": 1, "auto": ["M"], "script": "TerminateTask"}]'
        self.write("source.json", '{"cores": [{"id": 0, "tasks": %s}]}' % tasks)
        status, out, _ = run(os.path.join(TOOLS, "expand"), "--map", "map", "source.json", folder=self.folder)
        self.assertEqual(0, status)
        self.write("config.json", out)
        status, lines, _ = explain(self.folder, "--map", "map", "config.json")
        expected = [
            "source.json:5:11: fault 4 DuplicateName: /cores/0/tasks/1/name: "
            "`A` is already the name of the task of core 0 in line 1",
            "source.json:3:13: fault 10 BadScript: /cores/0/tasks/0/script: "
            "operation 1 `wrok`: no operation is called `wrok`; did you mean `work`?",
        ]
        self.assertEqual((1, expected), (status, lines))
        self.assertEqual(2, explain(self.folder, "--map", "source.json", "config.json")[0])

    def test_a_map_of_another_file(self):
        self.write("map", '{"source": "stimuli.source.json", "values": {"": [1, 1], "/0": [1, 7]}, "parts": {}}')
        status, lines, error = explain(self.folder, "--map", "map", "config.json")
        self.assertEqual((1, []), (status, lines))
        self.assertIn("config.json: the map of stimuli.source.json is none of this file: ", error)

    def test_a_wrong_map(self):
        place = '{"source": "a", "values": {"": %s}, "parts": {}}'
        for text in ("", "[]", "{}", place % "[1]", place % "[1, []]", place % '["a", 1]', place % "[1e999, 1]", "[" * 9999):
            with self.subTest(text=text[:60]):
                self.write("map", text)
                status, lines, error = explain(self.folder, "--map", "map", "config.json")
                self.assertEqual((2, []), (status, lines))
                self.assertIn("error: argument --map: map: this is no map of tools/expand: ", error)
        status, lines, error = explain(self.folder, "--map", "none", "config.json")
        self.assertEqual((2, []), (status, lines))
        self.assertIn("error: argument --map: none: cannot be read: No such file or directory\n", error)

    def test_wrong_usage(self):
        self.assertEqual(2, explain(self.folder)[0])
        self.assertEqual(2, explain(self.folder, "a", "b", "c", "d")[0])
        self.assertEqual(2, explain(self.folder, "--walk", "config.json")[0])

    def test_the_script_as_a_process(self):
        script = os.path.join(TOOLS, "explain")
        self.assertEqual((0, "", ""), run(script, "config.json", "stim.json", "sched.json", folder=self.folder))
        expected = 'none.json:1:1: fault 21 Unreadable: "": No such file or directory\n'
        self.assertEqual((1, expected, ""), run(script, "none.json", folder=self.folder))

    def test_the_standard_input(self):
        status, output, messages = self.explain_input(CASES[0].text, "-")
        expected = [line.replace("config.json:", "-:", 1) for line in CASES[0].lines]
        self.assertEqual((1, expected, ""), (status, output.splitlines(), messages))
        status, output, _ = self.explain_input('{"0": "opp"}', "config.json", "-")
        self.assertEqual((1, "-:1:8: fault 12 BadStimulus"), (status, output.split(": /")[0]))
        status, output, _ = self.explain_input('"9"', "config.json", "stim.json", "-")
        self.assertEqual((1, "-:1:2: fault 13 BadSchedule"), (status, output.split(': "')[0]))

    def test_a_file_that_is_called_as_the_standard_input(self):
        self.write("-", "")
        self.assertEqual((0, "", ""), self.explain_input(BASE, "-"))
        self.assertIn("./-:1:1: fault 1 NotJson: ", self.explain_input(BASE, "./-")[1])

    def test_the_standard_input_twice(self):
        status, output, messages = self.explain_input(BASE, "-", "-")
        self.assertEqual((2, ""), (status, output))
        self.assertIn("error: `-` is the standard input, and may stand once\n", messages)

    def test_a_closed_standard_input(self):
        words = ["sh", "-c", '"$@" - <&-', "sh", os.path.join(TOOLS, "explain")]
        done = subprocess.run(words, capture_output=True, text=True, timeout=60)
        expected = '-:1:1: fault 21 Unreadable: "": the standard input is closed\n'
        self.assertEqual((1, expected, ""), (done.returncode, done.stdout, done.stderr))

    def explain_input(self, text, *words):
        """The status, the output and the messages of the script with a text as its standard input."""
        line = [os.path.join(TOOLS, "explain"), *words]
        done = subprocess.run(line, cwd=self.folder, input=text, capture_output=True, encoding="utf-8", timeout=60)
        return done.returncode, done.stdout, done.stderr

    def test_help(self):
        status, lines, _ = explain(self.folder, "--help")
        self.assertEqual(0, status)
        self.assertIn("    FILE:LINE:COLUMN: fault N Name: JSON-POINTER: text", lines)
        self.assertIn("exit status: 0 no fault, 1 faults, 2 wrong usage", lines)


class Examples(unittest.TestCase):
    """What the examples' sessions show of the program is what tools/explain says."""

    def test_each_session(self):
        judged = 0
        for folder in sorted(os.listdir(os.path.join(ROOT, "examples"))):
            for words, fault in session(os.path.join(ROOT, "examples", folder)):
                # What CORE and a log have is no fault of a file that explain judges.
                if fault == "fault 20 NotSeparate" or words[0] in ("group", "replay"):
                    continue
                with self.subTest(folder=folder, words=words):
                    files = [word for word in words[1:] if word.endswith(".json")]
                    findings = judge_files([os.path.join(ROOT, "examples", folder, file) for file in files])
                    first = findings[0][1].fault if findings else None
                    self.assertEqual(fault, str(first) if first is not None else None)
                    judged += 1
        self.assertGreater(judged, 20)


def session(folder):
    """The commands of an example's session, with the fault that each reports."""
    path = os.path.join(folder, "expected")
    if not os.path.exists(path):
        return
    with open(path, encoding="utf-8") as file:
        lines = file.read().splitlines()
    for line, following in zip(lines, lines[1:]):
        if line.startswith("$ mcos "):
            yield line.split(" ")[2:], following if following.startswith("fault ") else None


# A configuration for the script of a task and that of an ISR, and scripts with a line that the program prints. What has
# another status than E_OK there is noted, with this status.
FRAME = """\
{"cores": [
  {"id": 0, "start": [1],
   "counters": [{"name": "C", "max": 9, "min": 2}, {"name": "W", "max": 9, "software": true}],
   "resources": [{"name": "Low", "ceiling": 1}, {"name": "High", "ceiling": 2}],
   "alarms": [{"name": "L", "counter": "C", "action": "ActivateTask B", "auto": {"modes": [], "start": 1, "cycle": 0}}],
   "tables": [{"name": "S", "counter": "C", "duration": 5, "points": [{"offset": 2, "actions": ["ActivateTask B"]}]}],
   "tasks": [
     {"name": "A", "prio": 2, "auto": ["M"], "script": "%s"},
     {"name": "B", "prio": 1, "auto": ["M"], "script": "TerminateTask"},
     {"name": "E", "prio": 1, "extended": true, "auto": ["M"], "script": "TerminateTask"}],
   "isrs": [{"name": "I", "level": 1, "script": "%s"}]},
  {"id": 1, "counters": [{"name": "D", "max": 9, "software": true}]}]}
"""
NO_EVENTS = "stat A ClearEvent E_OS_ACCESS"
STATUSES = (
    ("GetResource Low;TerminateTask", "stat A GetResource E_OS_ACCESS"),
    ("GetResource High;ReleaseResource High;TerminateTask", "stat A GetResource E_OK"),
    ("WaitEvent 1;TerminateTask", "stat A WaitEvent E_OS_ACCESS"),
    ("ClearEvent 1;TerminateTask", NO_EVENTS),
    ("SetEvent B 1;TerminateTask", "stat A SetEvent E_OS_ACCESS"),
    ("SetEvent E 1;TerminateTask", "stat A SetEvent E_OK"),
    ("GetEvent B v0;TerminateTask", "stat A GetEvent E_OS_ACCESS"),
    ("GetEvent E v0;TerminateTask", "stat A GetEvent E_OK 0"),
    ("IncrementCounter C;TerminateTask", "stat A IncrementCounter E_OS_ID"),
    ("IncrementCounter D;TerminateTask", "stat A IncrementCounter E_OS_CORE"),
    ("IncrementCounter W;TerminateTask", "stat A IncrementCounter E_OK"),
    ("SetRelAlarm L 0 0;TerminateTask", "stat A SetRelAlarm E_OS_VALUE"),
    ("SetRelAlarm L 1 0;TerminateTask", "stat A SetRelAlarm E_OK"),
    ("SetRelAlarm L 9 9;TerminateTask", "stat A SetRelAlarm E_OK"),
    ("SetRelAlarm L 10 0;TerminateTask", "stat A SetRelAlarm E_OS_VALUE"),
    ("SetRelAlarm L 1 1;TerminateTask", "stat A SetRelAlarm E_OS_VALUE"),
    ("SetRelAlarm L 1 2;TerminateTask", "stat A SetRelAlarm E_OK"),
    ("SetRelAlarm L 1 10;TerminateTask", "stat A SetRelAlarm E_OS_VALUE"),
    ("SetAbsAlarm L 0 0;TerminateTask", "stat A SetAbsAlarm E_OK"),
    ("SetAbsAlarm L 9 0;TerminateTask", "stat A SetAbsAlarm E_OK"),
    ("SetAbsAlarm L 10 0;TerminateTask", "stat A SetAbsAlarm E_OS_VALUE"),
    ("StartScheduleTableRel S 0;TerminateTask", "stat A StartScheduleTableRel E_OS_VALUE"),
    ("StartScheduleTableRel S 7;TerminateTask", "stat A StartScheduleTableRel E_OK"),
    ("StartScheduleTableRel S 8;TerminateTask", "stat A StartScheduleTableRel E_OS_VALUE"),
    ("StartScheduleTableAbs S 9;TerminateTask", "stat A StartScheduleTableAbs E_OK"),
    ("StartScheduleTableAbs S 10;TerminateTask", "stat A StartScheduleTableAbs E_OS_VALUE"),
    ("", "hook Error E_OS_MISSINGEND"),
    ("jump 2;TerminateTask", "hook Error E_OS_MISSINGEND"),
    ("SuspendAllInterrupts;WaitEvent 1;ResumeAllInterrupts;TerminateTask", "stat A WaitEvent E_OS_DISABLEDINT"),
    ("SuspendAllInterrupts;GetResource Low;ResumeAllInterrupts;TerminateTask", "stat A GetResource E_OS_DISABLEDINT"),
    ("SuspendAllInterrupts;SetRelAlarm L 0 0;ResumeAllInterrupts;TerminateTask", "stat A SetRelAlarm E_OS_DISABLEDINT"),
    ("ResumeAllInterrupts;SuspendAllInterrupts;ResumeAllInterrupts;ClearEvent 1;TerminateTask", NO_EVENTS),
    ("jz v0 2;SuspendAllInterrupts;SetEvent E 1;ResumeAllInterrupts;TerminateTask", "stat A SetEvent E_OK"),
    ("StartCore ?;TerminateTask", "stat A StartCore E_OS_ID"),
    ("StartCore 2;TerminateTask", "stat A StartCore E_OS_ID"),
    ("StartCore 1;TerminateTask", "stat A StartCore E_OS_ACCESS"),
    ("SuspendAllInterrupts;StartCore 1;ResumeAllInterrupts;TerminateTask", "stat A StartCore E_OS_DISABLEDINT"),
    ("SetEvent E 1;ShutdownOS 3", "stat A SetEvent E_OK"),
    ("SetEvent E 1;ShutdownAllCores 3", "stat A SetEvent E_OK"),
)
ISR_STATUSES = (
    ("ActivateTask B", "stat I ActivateTask E_OK"),
    ("SetEvent B 1", "stat I SetEvent E_OS_ACCESS"),
    ("IncrementCounter C", "stat I IncrementCounter E_OS_ID"),
    ("TerminateTask", "stat I TerminateTask E_OS_CALLEVEL"),
    ("ChainTask ?", "stat I ChainTask E_OS_CALLEVEL"),
    ("Schedule", "stat I Schedule E_OS_CALLEVEL"),
    ("ClearEvent 1", "stat I ClearEvent E_OS_CALLEVEL"),
    ("WaitEvent 1", "stat I WaitEvent E_OS_CALLEVEL"),
    ("SuspendAllInterrupts;WaitEvent 1;ResumeAllInterrupts", "stat I WaitEvent E_OS_DISABLEDINT"),
    ("SuspendAllInterrupts", "hook Error E_OS_DISABLEDINT"),
    ("StartCore 0", "stat I StartCore E_OS_ACCESS"),
    ("ActivateTask B;ShutdownOS 3", "stat I ActivateTask E_OK"),
)


def frames():
    """Each configuration with the line that is expected."""
    for script, line in STATUSES:
        yield FRAME % (script, ""), line
    for script, line in ISR_STATUSES:
        yield FRAME % ("work;TerminateTask", script), line


class Statuses(unittest.TestCase):
    """A note that names a status names the right one; of what answers E_OK none does."""

    def test_each_script(self):
        for configuration, line in frames():
            with self.subTest(line=line):
                judgement = judge_configuration(configuration.encode())
                self.assertEqual(0, judgement.least)
                words = [word for finding in judgement.findings for word in finding.text.split()]
                named = [word for word in words if word.startswith("E_OS_")]
                status = next(word for word in line.split() if word.startswith("E_O"))
                self.assertEqual([] if status == "E_OK" else [status], named)


@needs_program
class Program(unittest.TestCase):
    """The first fault is the one that the program reports."""

    def answer(self, *words):
        """The fault that the program reports, and its name."""
        status, _, error = run(PROGRAM, *words)
        return error.strip() if status == 1 else ""

    def test_each_text(self):
        with tempfile.TemporaryDirectory() as folder:
            config, stimuli, schedule = (os.path.join(folder, name) for name in ("config", "stimuli", "schedule"))
            for case in CASES:
                with self.subTest(case.title):
                    save(config, case.text)
                    self.assert_same([config], "check", config)
            for text, inputs in reversed(WITH_STIMULI):
                save(config, text)
                for each in inputs:
                    with self.subTest(each.title):
                        save(stimuli, each.text)
                        self.assert_same([config, stimuli], "run", config, stimuli)
            save(stimuli, STIMULI[0].text)
            for each in SCHEDULES:
                with self.subTest(each.title):
                    save(schedule, each.text)
                    self.assert_same([config, stimuli, schedule], "run", config, stimuli, "--schedule", schedule)

    def test_each_status(self):
        with tempfile.TemporaryDirectory() as folder:
            config, stimuli = os.path.join(folder, "config"), os.path.join(folder, "stimuli")
            save(stimuli, '{"0": "op op op op op op op op op op irq=I op op op op"}')
            for configuration, line in frames():
                with self.subTest(line=line):
                    save(config, configuration)
                    status, out, _ = run(PROGRAM, "run", config, stimuli)
                    self.assertEqual(0, status)
                    self.assertIn(line, out.splitlines())

    def assert_same(self, paths, *words):
        """The first line has the fault that these words give."""
        findings = judge_files(paths)
        first = findings[0][1].fault if findings else None
        self.assertEqual(self.answer(*words), str(first) if first is not None else "")


def save(path, text):
    """Writes a file."""
    with open(path, "w", encoding="utf-8") as file:
        file.write(text)


if __name__ == "__main__":
    unittest.main()
