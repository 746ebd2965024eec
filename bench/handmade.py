"""Texts made by hand for each fault, and for both sides of each limit: for bench/explain."""

import json

from library.formats import (
    CONFIGURATION,
    MOST_LEVELS,
    MOST_STIMULI,
    MOST_TURNS,
    NAMED_LISTS,
    OBJECTS,
    OPERATIONS,
    ListOf,
    Number,
    ObjectOf,
)


# The least whole number that is too large for a double, by its rounding.
DOUBLE_END = 2**1024 - 2**970
SCRIPT = ["cores", 0, "tasks", 0, "script"]
ALARM = ["cores", 0, "alarms", 0]
TABLE = ["cores", 0, "tables", 0]


def whole():
    """Two cores, with an object of each kind on either."""
    spinlocks = [{"name": "K", "next": "L"}, {"name": "L", "next": None}]
    cores = [core(0, "A", [1]), core(1, "B", [])]
    return {"version": 1, "cap": 16, "master": 0, "modes": ["M"], "spinlocks": spinlocks, "cores": cores}


def sixteen():
    """Sixteen cores of version 2, of which the first and the last have an object of each kind."""
    cores = [core(0, "A", [1, 15]), *({"id": number} for number in range(1, 15)), core(15, "B", [])]
    return {**whole(), "version": 2, "cores": cores}


def core(number, letter, start):
    """A core with each member, whose objects' names end with a letter."""
    task, events, resource, counter, alarm, table = (kind + letter for kind in "TERCLS")
    auto = {"modes": ["M"], "start": 1, "cycle": 2}
    return {
        "id": number,
        "mode": "M",
        "start": start,
        "protection": "PRO_TERMINATETASKISR",
        "tasks": [
            {"name": task, "prio": 1, "auto": ["M"], "activations": 1, "budget": 9, "script": "work;TerminateTask"},
            {"name": events, "prio": 2, "extended": True, "preemptable": False, "script": "WaitEvent 1;ClearEvent 1;jump 0"},
        ],
        "isrs": [{"name": "I" + letter, "level": 1, "budget": 9, "script": "work"}],
        "resources": [{"name": resource, "ceiling": 2, "lock": 3}],
        "counters": [{"name": counter, "max": 9, "min": 2, "software": False}],
        "alarms": [{"name": alarm, "counter": counter, "action": "ActivateTask " + task, "auto": auto}],
        "tables": [
            {
                "name": table,
                "counter": counter,
                "duration": 8,
                "repeating": True,
                "auto": {"modes": ["M"], "offset": 1},
                "points": [
                    {"offset": 0, "actions": ["ActivateTask " + task]},
                    {"offset": 4, "actions": ["SetEvent %s 1" % events]},
                ],
            }
        ],
    }


def configurations():
    """Each text of a configuration, with a title."""
    yield "whole", data(whole())
    yield from not_json()
    yield from numbers()
    yield from lengths()
    yield from by_the_counter()
    yield from actions_abroad()
    yield from scripts()
    yield from words()
    yield from actions()
    yield from names()
    yield from versions()
    yield from far_cores()
    yield from words_of_cores()
    yield from members()
    yield from swapped()


def data(value):
    """A value as the bytes of a file."""
    return json.dumps(value).encode()


def changed(*changes, of=whole):
    """The whole configuration, or another one, with other values at some paths."""
    value = of()
    for path, new in changes:
        at = value
        for key in path[:-1]:
            at = at[key]
        at[path[-1]] = new
    return data(value)


def not_json():
    """Texts that are no JSON, and some that are on the edge of it."""
    texts = [
        "", " ", "{", "}", "[", '{"cores":[}', '{"cores":[],}', '{"cores":,}', "{'cores':[]}", "{cores:[]}",
        '{"cores" []}', '{"cores":[]} x', '{"cores":[]}}', "// c\n{}", "{} // c", "nul", "True", "NaN", "-", "01",
        "+1", "1.", ".5", "1e", "0x1", "1e400", "-1e400", "1e308", "9" * 308, "9" * 309, "1." + "0" * 500, "0e999",
        "1e-999", '"', '"a', '"\\"', '"\\x"', '"\\u12"', '"\\ud800"', '"\\udc00"', '"\\ud800\\ud800"',
        '"\\ud83d\\ude00"', '"\ta"', '"\na"', '"\x7f"', "\ufeff{}", "\u00a0{}", "{}\u2028", "[1 2]", '{"a":1 "b":2}',
        '{"a":1,,"b":2}', "[1,]", "[,1]", "\x00", "{}\x00", "null",
        str(DOUBLE_END - 1), str(DOUBLE_END),
        "1.7976931348623157e308", "1.7976931348623158e308", "1.7976931348623159e308",
    ]  # fmt: skip
    for text in texts:
        yield "JSON %r" % text[:40], text.encode()
    for levels in (MOST_LEVELS - 1, MOST_LEVELS, MOST_LEVELS + 1, MOST_LEVELS + 2):
        yield "%d levels" % levels, b"[" * levels + b"]" * levels
        yield "%d levels within a member" % levels, b'{"a":' * levels + b"1" + b"}" * levels
    for earlier in (b"1", b'"\\ude00"', b"1e999"):
        yield "a member twice, %r first" % earlier, b'{"cores": %s, "cores": [{"id": 0}]}' % earlier
    right = changed()
    for beginning in (b"\xef\xbb\xbf", b"\xff\xfe", b"\xfe\xff", b"\xe4", b" \t\r\n", b"\x0b"):
        yield "beginning %r" % beginning, beginning + right
    yield "Latin-1", changed((["cores", 0, "tasks", 0, "name"], "TA")).replace(b"TA", b"T\xe4")
    yield "UTF-16", right.decode().encode("utf-16")
    for end in (b"\n", b"\x00", b"\x1a", b"\xc2\xa0", b","):
        yield "end %r" % end, right + end


def objects_of(value, kind, path=()):
    """Each object within a configuration, with its kind and its path."""
    yield kind, path
    for member in kind.members:
        of = member.value.element if isinstance(member.value, ListOf) else member.value
        within = value.get(member.name)
        if isinstance(of, ObjectOf) and within:
            each = enumerate(within) if isinstance(within, list) else [(None, within)]
            for key, inner in each:
                further = path + (member.name,) + (() if key is None else (key,))
                yield from objects_of(inner, OBJECTS[of.name], further)


def members_of(*types):
    """Each member of some types of value in the whole configuration, with its path."""
    for kind, path in objects_of(whole(), CONFIGURATION):
        for member in kind.members:
            if isinstance(member.value, types):
                yield member, path + (member.name,)


def numbers():
    """Both sides of each bound of each number, and numbers that are not whole."""
    others = (-1, 0, 1, -(2**63), -(2**63) - 1, 2**64 - 1, 2**64, 1.0, 1.5, "1", None, True, [], {})
    for member, path in members_of(Number):
        value = member.value
        for number in (value.least - 1, value.least, value.greatest, value.greatest + 1) + others:
            yield "%s is %r" % ("/".join(map(str, path)), number), changed((path, number))
    for text in (b"-0", b"1e0", b"0.0", b"1E2", b"00"):
        yield "prio is %r" % text, changed().replace(b'"prio": 1', b'"prio": ' + text, 1)


def lengths():
    """Both sides of each bound of each list, with names of their own or the same ones."""
    for member, path in members_of(ListOf):
        if member.value.greatest is None:
            continue
        element = whole()
        for key in path:
            element = element.get(key, []) if isinstance(element, dict) else element[key]
        for length in (member.value.least - 1, member.value.least, member.value.greatest, member.value.greatest + 1):
            for is_named in (True, False):
                elements = [numbered(element[0], index, is_named) for index in range(max(length, 0))]
                yield "%s of %d" % ("/".join(map(str, path)), length), changed((path, elements))


def numbered(element, index, is_named):
    """A copy of an element of a list, with a number, an offset and perhaps a name of its own."""
    if not isinstance(element, dict):
        return element
    element = json.loads(json.dumps(element))
    if "name" in element and is_named:
        element["name"] = "N%d" % index
    if "id" in element and is_named:
        element["id"] = index
    if "offset" in element:
        element["offset"] = 2 * index
    return element


def by_the_counter():
    """What a counter allows: starts, cycles, offsets and delays, with the counter of this core, of another or none."""
    for name in ("CA", "CB", "Zz", "TA"):
        for number in (-1, 0, 1, 2, 8, 9, 10):
            named = (ALARM + ["counter"], name)
            yield "start %d of %s" % (number, name), changed(named, (ALARM + ["auto", "start"], number))
            yield "cycle %d of %s" % (number, name), changed(named, (ALARM + ["auto", "cycle"], number))
            named = (TABLE + ["counter"], name)
            yield "offset %d of %s" % (number, name), changed(named, (TABLE + ["auto", "offset"], number))
        yield from delays(name)
    for first in (-1, 0, 8, 9, 10):
        for offset in (0, 1, 2, 8, 9, 10):
            new = ((TABLE + ["points"], points_at([first])), (TABLE + ["auto", "offset"], offset), duration_of(11))
            yield "first point %d, start %d" % (first, offset), changed(*new)
    for least in (1, 8, 9, 10):
        yield "min %d of max 9" % least, changed((["cores", 0, "counters", 0, "min"], least))
    yield "counter twice", changed((["cores", 1, "counters", 0, "name"], "CA"), (ALARM + ["auto", "start"], 0))
    yield "counter and task", changed((["cores", 1, "tasks", 0, "name"], "CA"), (TABLE + ["auto", "offset"], 0))
    yield "counter M", changed((["cores", 0, "counters", 0, "name"], "M"), (ALARM + ["counter"], "M"))


def delays(name):
    """Tables of a counter whose points are not all as it allows."""
    pairs = ((0, 4), (0, 1), (0, 2), (1, 4), (2, 4), (9, 11), (10, 12), (4, 4), (4, 3), (-1, 4), (0, 9), (0, 10))
    for pair in pairs:
        for duration in (1, 4, 5, 6, 8, 9, 11, 12, 13, 20, 21):
            for repeats in (True, False):
                new = ((TABLE + ["points"], points_at(pair)), duration_of(duration), (TABLE + ["repeating"], repeats))
                yield "points %r %d %s" % (pair, duration, name), changed((TABLE + ["counter"], name), *new)


def points_at(offsets):
    """Points at these offsets."""
    return [{"offset": each, "actions": ["ActivateTask TA"]} for each in offsets]


def duration_of(counts):
    """The change of the table's duration to so many counts."""
    return TABLE + ["duration"], counts


def actions_abroad():
    """55 to 57 things that a core may do on another one at once: 31 or 32 alarms and the fullest points of tables."""
    sizes = ((31, (8, 8, 8)), (32, (8, 8, 8)), (32, (8, 8, 8, 1)), (32, (8, 8, 7, 1)), (31, (8, 8, 8, 2)))
    for alarms, points in sizes:
        for target in ("TB", "TA", "CB", "Zz", "TB "):
            action = "ActivateTask " + target
            new = [{"name": "L%d" % index, "counter": "CA", "action": action} for index in range(alarms)]
            tables = []
            for index, number in enumerate(points):
                fullest = {"offset": 2, "actions": ["SetEvent EB 1"] * number}
                fewer = {"offset": 0, "actions": ["ActivateTask TB"]}
                name = "S%d" % index
                tables.append({"name": name, "counter": "CA", "duration": 8, "points": [fewer, fullest]})
            title = "%d alarms to %s, points %r" % (alarms, target, points)
            yield title, changed((["cores", 0, "alarms"], new), (["cores", 0, "tables"], tables))


def scripts():
    """Scripts as a whole."""
    for count in (0, 1, 255, 256, 257, 300):
        yield "%d operations" % count, changed((SCRIPT, ";".join(["work"] * count)))
        yield "%d empty operations" % count, changed((SCRIPT, ";" * count))
        rest = ";work" * max(count - 1, 0)
        yield "jump behind %d" % count, changed((SCRIPT, "jump %d%s" % (count, rest)))
        yield "jump past %d" % count, changed((SCRIPT, "jump %d%s" % (count + 1, rest)))
    texts = (
        ";", "work;", ";work", "work;;work", " work", "work ", "work; work", "work ;work", "work\n", "work\t",
        "\u00a0work", "Work", "WORK", "work2", "ActivateTask  TA", "ActivateTask TA ", "ActivateTask\tTA",
        "ActivateTask", "12*work", "TerminateTask TA", "set v0", "set v0 1 2", "StartCore 1",
        "ActivateTask TA;ActivateTask",
    )  # fmt: skip
    for text in texts:
        yield "script %r" % text, changed((SCRIPT, text))
    yield "escapes in a script", changed().replace(b"work;Terminate", b"\\u0077ork\\u003b\\u0054erminate", 1)


def words():
    """Each operation with right and wrong words for each of its arguments."""
    others = (
        "TB", "RB", "CB", "LB", "SB", "EA", "IA", "K", "L", "Zz", "M", "?", "??", "1a", "a-b", "", "v7", "v8", "V0", "v01",
        "0", "1", "2", "3", "15", "16", "17", "00", "01", "-0", "-1", "+1", "0x3", "1.0", "1e3", "4294967295", "4294967296",
        "9223372036854775807", "9223372036854775808", "-9223372036854775808", "-9223372036854775809",
        "18446744073709551616", "9" * 400, "\u0661", "x" * 128, "x" * 129,
    )  # fmt: skip
    for operation in OPERATIONS.values():
        usual = usual_words(operation, "A")
        yield operation.form, changed((SCRIPT, " ".join([operation.name] + usual)))
        for place in range(len(usual)):
            for word in others:
                changed_words = usual[:place] + [word] + usual[place + 1 :]
                text = " ".join([operation.name] + changed_words)
                yield text[:60], changed((SCRIPT, text))
                if place == 0 and len(usual) > 1:
                    text = " ".join([operation.name, word] + ["4294967296"] * (len(usual) - 1))
                    yield text[:60], changed((SCRIPT, text))


def usual_words(operation, letter):
    """Right words for the arguments of an operation, with names of the core of a letter."""
    right = {"task": "T", "resource": "R", "counter": "C", "alarm": "L", "table": "S"}
    kinds = [argument.kind for argument in operation.arguments]
    others = {"variable": "v0", "spinlock": "K"}
    return [right[kind] + letter if kind in right else others.get(kind, "1") for kind in kinds]


def actions():
    """Actions of an alarm and of a point."""
    texts = (
        "", "ActivateTask TA", "ActivateTask TB", "ActivateTask ?", "ActivateTask Zz", "ActivateTask CA",
        "ActivateTask M", "SetEvent EA 1", "SetEvent TA 1", "SetEvent EB 1", "SetEvent EA 0",
        "SetEvent EA 4294967296", "SetEvent Zz 0", "SetEvent ? 1", "SetEvent ? 0", "SetEvent EA", "SetEvent EA 01",
        "SetEvent EA x", "ChainTask TA", "work", "jump 0", "IncrementCounter CA", "ActivateTask TA;ActivateTask TA",
        "ActivateTask TA;", " ActivateTask TA", "ActivateTask", "SetRelAlarm Zz 1 1", "jump 9", "set v0 1",
    )  # fmt: skip
    for text in texts:
        yield "alarm %r" % text, changed((["cores", 0, "alarms", 0, "action"], text))
        yield "point %r" % text, changed((["cores", 0, "tables", 0, "points", 0, "actions", 0], text))


NAMES = ("M", "m", "", "1", "a b", "T\u00e4", "_a", "a_", "TA", "TB", "RB", "x" * 128, "x" * 129, "?", 1, None)


def names():
    """Names of objects, of the master, of modes and of spinlocks."""
    kinds = tuple(NAMED_LISTS)
    for kind in kinds:
        for name in NAMES:
            yield "%s named %r" % (kind, name), changed((["cores", 1, kind, 0, "name"], name))
        yield "no name in %s" % kind, data({"cores": [{"id": 0, kind: [{}]}]})
    for path in (["spinlocks", 0, "name"], ["spinlocks", 1, "name"], ["spinlocks", 1, "next"]):
        for name in NAMES + ("K", "L"):
            yield "%r is %r" % (path, name), changed((path, name))
    for count in (15, 16, 17):
        for last in (None, "S0", "S1", "S7", "Zz"):
            links = [{"name": "S%d" % at, "next": "S%d" % (at + 1)} for at in range(count - 1)]
            links.append({"name": "S%d" % (count - 1), "next": last})
            yield "%d spinlocks, after the last %r" % (count, last), changed((["spinlocks"], links))
    for spinlocks in ([], None, {}, [[]], [{}], [{"next": "L"}], [{"name": "K"}] * 2, [{"name": "K", "x": 1}]):
        yield "spinlocks %r" % (spinlocks,), changed((["spinlocks"], spinlocks))
    for first in (0, 1, 2, -1, 8):
        for second in (0, 1, -1, 8):
            for master in (0, 1, 2, -1, 8, 255):
                new = ((["cores", 0, "id"], first), (["cores", 1, "id"], second), (["master"], master))
                yield "ids %d, %d, master %d" % (first, second, master), changed(*new)
    for path in (["cores", 0, "tasks", 0, "auto"], ALARM + ["auto", "modes"], TABLE + ["auto", "modes"]):
        for modes in ([], ["M"], ["M", "M"], ["m"], ["TA"], [""], ["1"], [1], "M", None, {}, True):
            yield "modes %r" % modes, changed((path, modes))
    for kind in kinds:
        both = {"modes": ["M"], "start": 1, "cycle": 0, "offset": 1}
        for auto in (None, {}, [], True, ["M"], {"modes": ["M"]}, both):
            yield "auto %r of %s" % (auto, kind), changed((["cores", 0, kind, 0, "auto"], auto))
    for name in ("priority", "autostart", "isrs", "spinlocks", "events", "", "\u00e9", "a/b~c"):
        for path in ([], ["cores", 0], ["cores", 0, "tasks", 0], ["cores", 0, "alarms", 0, "auto"]):
            yield "member %r at %r" % (name, path), changed((path + [name], []))


def versions():
    """Numbers and counts of cores by the version."""
    for version in (0, 1, 2, 3):
        for number in (7, 8, 15, 16):
            yield "version %d, id %d" % (version, number), changed((["version"], version), (["cores", 1, "id"], number))
        for count in (8, 9, 16, 17):
            for first in (0, 1):
                cores = [{"id": first * at} for at in range(count)]
                title = "version %d, %d cores, %s" % (version, count, "apart" if first else "alike")
                yield title, data({"version": version, "cores": cores})


def far_cores():
    """Sixteen cores: each operation of tasks and ISRs on the first and the last core, with names of either, and numbers
    of cores near the greatest."""
    yield "sixteen", data(sixteen())
    for at in (0, 15):
        for kind in ("tasks", "isrs"):
            for letter in "AB":
                for operation in OPERATIONS.values():
                    text = " ".join([operation.name] + usual_words(operation, letter))
                    title = "%s in %s of core %d" % (text, kind, at)
                    yield title, changed((["cores", at, kind, 0, "script"], text), of=sixteen)
        for letter in "AB":
            for name in ("alarms", "tables"):
                for counter in ("C" + letter, "K", "T" + letter):
                    yield "%s of %s" % (name, counter), changed((["cores", at, name, 0, "counter"], counter), of=sixteen)
        for number in (-1, 0, 7, 8, 14, 15, 16, 17, 255, 256):
            yield "id %d at %d" % (number, at), changed((["cores", at, "id"], number), of=sixteen)
            yield "core %d starts %d" % (at, number), changed((["cores", at, "start"], [number]), of=sixteen)
            yield "master %d" % number, changed((["master"], number), of=sixteen)
            yield "StartCore %d" % number, changed((["cores", at, "tasks", 0, "script"], "StartCore %d" % number), of=sixteen)
    for version in (None, -1, 0, 1, 2, 3, 1.0, 2.0, "2", True):
        for cores in (sixteen()["cores"], sixteen()["cores"][:8], sixteen()["cores"][8:], sixteen()["cores"] + [{"id": 16}]):
            title = "version %r, %d cores" % (version, len(cores))
            yield title, changed((["version"], version), (["cores"], cores), of=sixteen)


VALUES = (
    None, True, False, 0, 1, 2, -1, 1.5, 2**64, "", "M", "TA", "EB", "K", "?", "work", "ActivateTask TA", "1", [], {}, [[]],
    [{}], [None], [1], ["M"], ["TA"],
)  # fmt: skip


def members():
    """Each member of each object of the first core, and of what belongs to no core: left out, and with values of each
    type."""
    for kind, path in objects_of(whole(), CONFIGURATION):
        if path[:2] == ("cores", 1):
            continue
        for member in kind.members:
            title = "%s/%s" % ("/".join(map(str, path)), member.name)
            yield "%s left out" % title, left_out(path, member.name)
            for value in VALUES:
                yield "%s is %r" % (title, value), changed((path + (member.name,), value))


def left_out(path, name):
    """The whole configuration without a member."""
    value = whole()
    at = value
    for key in path:
        at = at[key]
    at.pop(name, None)
    return data(value)


def words_of_cores():
    """The modes of the configuration, and what a core says of them and of protection."""
    for name in NAMES + ("DONOTCARE", "conflict", "none", "IA", "K"):
        for modes in ([name], ["M", name], [name, name]):
            yield "modes %r" % modes, changed((["modes"], modes))
        yield "mode %r" % name, changed((["cores", 0, "mode"], name))
        yield "mode %r of two" % name, changed((["modes"], ["M", "N"]), (["cores", 0, "mode"], name))
    for count in (0, 1, 7, 8, 9):
        yield "%d modes" % count, changed((["modes"], ["M"] + ["N%d" % at for at in range(count - 1)]))
    protections = ("PRO_IGNORE", "PRO_TERMINATETASKISR", "PRO_TERMINATEAPPL", "PRO_TERMINATEAPPL_RESTART", "PRO_SHUTDOWN")
    for word in protections + ("pro_ignore", "PRO_KILL", "", 0, None, []):
        yield "protection %r" % word, changed((["cores", 0, "protection"], word))
    of_resources = ("GetResource RA", "ReleaseResource RA", "GetResource ?", "GetResource RB", "GetResource")
    for script in ("", *of_resources, "TerminateTask"):
        yield "ISR %r" % script, changed((["cores", 0, "isrs", 0, "script"], script))


def swapped():
    """Other files in place of the configuration, and values that are no objects."""
    texts = (
        '{"0": "op"}', '"0o"', "{}", "[]", "1", '"M"', '{"cores": []}', '{"cores": {}}', '{"cores": [[]]}',
        '{"cores": [null]}',
    )  # fmt: skip
    for text in texts:
        yield "configuration %s" % text, text.encode()


# Version 2, with what the texts below are for: each kind of object in few bytes.
FAR_CONFIGURATION = {
    "version": 2,
    "modes": ["M", "N"],
    "spinlocks": [{"name": "K", "next": "L"}, {"name": "L"}],
    "cores": [
        {"id": 0, "start": [8, 15]},
        {"id": 8, "mode": "DONOTCARE", "isrs": [{"name": "J", "level": 2, "script": "SetEvent E 3;StartCore 15"}]},
        {
            "id": 15,
            "protection": "PRO_IGNORE",
            "tasks": [
                {"name": "T", "prio": 1, "auto": ["M"], "script": "GetResource R;GetSpinlock K;ReleaseSpinlock K;ChainTask T"},
                {"name": "E", "prio": 2, "extended": True, "budget": 5, "script": "WaitEvent 1;jz v0 0"},
            ],
            "resources": [{"name": "R", "ceiling": 1, "lock": 4}],
            "counters": [{"name": "C", "max": 9, "min": 2}],
            "alarms": [
                {"name": "A", "counter": "C", "action": "SetEvent E 1", "auto": {"modes": ["N"], "start": 1, "cycle": 0}},
            ],
            "tables": [{"name": "S", "counter": "C", "duration": 8, "points": [{"offset": 2, "actions": ["ActivateTask T"]}]}],
        },
    ],
}
FAR_STIMULI = {"0": "op", "8": "irq=J tick", "15": "op tick"}
FAR_SCHEDULE = "0o 15l 8s15 15s8"


def far_texts():
    """The three texts of the far configuration, as short as they are."""
    texts = (FAR_CONFIGURATION, FAR_STIMULI, FAR_SCHEDULE)
    return [json.dumps(each, separators=(",", ":")).encode() for each in texts]


def far_stimuli():
    """Each text of stimuli for the far configuration, with a title."""
    for key in [str(number) for number in range(18)] + ["08", "015", "15 ", "150", "1 5", "255", "256", "0xf", "-15"]:
        yield "key %r" % key, data({key: "op"})
        yield "key %r and right ones" % key, data({**FAR_STIMULI, key: "tick"})
        yield "key %r with a wrong word" % key, data({**FAR_STIMULI, key: "irq=K"})


def far_schedules():
    """Each text of a schedule for the far configuration, with a title."""
    numbers = ("0", "1", "7", "8", "9", "14", "15", "16", "17", "08", "015", "255", "256", "-1", "")
    for number in numbers:
        for turn in (number + "o", number + "l", number + "s", number + "x", *(number + "s" + other for other in numbers)):
            yield "schedule %r" % turn, data(turn)
            yield "schedule %r between others" % turn, data("15o %s 8l" % turn)


STIMULI_CONFIGURATION = {
    "cores": [
        {"id": 0, "start": [2], "isrs": [{"name": "I", "level": 1, "script": ""}]},
        {"id": 2, "isrs": [{"name": "J", "level": 1, "script": ""}]},
        {"id": 7},
    ]
}


def stimuli():
    """Each text of stimuli for that configuration, with a title."""
    for key in ("0", "2", "7", "1", "8", "00", "02", "", " 0", "0 ", "a", "-1", "+0", "10", "256", "\u0660", "cores"):
        yield "key %r" % key, data({key: "op"})
    texts = (
        "", "op", "tick", "op tick op", " ", " op", "op ", "op  op", "tik", "OP", "op;op", "op\n", "op\nop",
        "op\top", "op*3", "3*op", "work", "op\u00a0op", "optick", "opop", "irq=I", "irq=I op irq=I", "irq=J", "irq=", "irq",
        "irq=i", "irq= I", "irq =I", "irq=I;op", "IRQ=I", "irq=II", "irq=" + "x" * 129,
    )  # fmt: skip
    for text in texts:
        yield "stimuli %r" % text, data({"0": text})
        yield "stimuli %r, then a wrong key" % text, data({"0": text, "1": "op"})
    for value in (None, True, 1, ["op"], {"op": 1}, {}, []):
        yield "value %r" % (value,), data({"0": value})
        yield "root %r" % (value,), data(value)
    for count in (MOST_STIMULI - 1, MOST_STIMULI, MOST_STIMULI + 1):
        for word in ("op", "tick", "x", ""):
            yield "%d of %r" % (count, word), data({"0": " ".join([word] * count)})
            yield "%d of %r under a wrong key" % (count, word), data({"1": " ".join([word] * count), "0": 1})
    yield "twice", b'{"0": "x", "0": "op"}'
    yield "twice, the last one wrong", b'{"0": "op", "0": "x"}'
    yield "a configuration", data(STIMULI_CONFIGURATION)
    yield "a schedule", b'"0o 2o"'
    yield "escapes", b'{"\\u0030": "\\u006fp\\u0020tick"}'
    yield "no JSON", b'{"0": "op",}'


def schedules():
    """Each text of a schedule for that configuration, with a title."""
    texts = (
        "", "0o", "2l", "0s2", "7o 0o", "0o  2o", " 0o", "0o ", "0o\n", "0s0", "1o", "0s1", "1s0", "9o", "10o",
        "00o", "0s02", "02s0", "o", "s", "0", "0s", "s0", "0x", "0oo", "0O", "-1o", "256o", "0o,2o", "\u0660o",
        "0o\u00a02o",
    )  # fmt: skip
    for text in texts:
        yield "schedule %r" % text, data(text)
    for value in (None, 1, ["0o"], {"0": "op"}, STIMULI_CONFIGURATION):
        yield "root %r" % (value,), data(value)
    for count in (MOST_TURNS, MOST_TURNS + 1):
        for word in ("0l", "x", ""):
            yield "%d of %r" % (count, word), data(" ".join([word] * count))
    yield "escapes", b'"\\u0030o"'
    yield "no JSON", b"'0o'"
