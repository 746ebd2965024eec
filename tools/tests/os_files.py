"""Writes a configuration as the Os files of a project, for the tests of `tools/import`: what such files can say of it.

What they cannot say, the scripts and what the code of a core says, is what `--scripts` takes.
"""

import json
import string
from dataclasses import dataclass, field
from decimal import Decimal
from xml.sax.saxutils import escape

OS = "/AUTOSAR/EcucDefs/Os"
HARDWARE = "/AUTOSAR/EcucDefs/EcuC"
PACKAGE = "/Project/Config"
TICK = Decimal("0.001")  # the seconds of a tick


class CannotBeSaid(Exception):
    """Why no Os file can say what a configuration has."""


@dataclass
class OsFile:
    """A configuration in the words of its members, with names for the events of tasks, and who takes a resource."""

    configuration: dict
    events: dict = field(default_factory=dict)  # the masks of each task's events, by their names
    users: dict = field(default_factory=dict)  # the tasks that take each resource

    def objects(self, name):
        """The objects in a list of each core, with the number of the core."""
        return [(core["id"], each) for core in self.configuration["cores"] for each in core.get(name, [])]

    @property
    def modes(self):
        return self.configuration.get("modes", ["M"])

    @property
    def master(self):
        return self.configuration.get("master", 0)

    def action(self, text):
        """The words of an action, with the name of an event in place of a mask."""
        words = text.split(" ")
        if words[0] == "SetEvent":
            words[2] = event_name(words[1], int(words[2]))
        return words


def event_name(task, mask):
    if mask & (mask - 1):
        raise CannotBeSaid("an action sets one event, not several at once")
    return "%s_e%d" % (task, mask.bit_length() - 1)


def os_file(configuration):
    """What an Os file has to say of a configuration."""
    if configuration.get("cap", 16) != 16:
        raise CannotBeSaid("`cap` has another value")
    found = OsFile(configuration)
    if any(resource.get("lock") for _, resource in found.objects("resources")):
        raise CannotBeSaid("a lock budget is that of a task and a resource")
    actions = [alarm["action"] for _, alarm in found.objects("alarms")]
    actions += [a for _, table in found.objects("tables") for point in table["points"] for a in point["actions"]]
    for _, task in found.objects("tasks"):
        masks = {int(text.split(" ")[2]) for text in actions if text.startswith("SetEvent %s " % task["name"])}
        if masks and not task.get("extended"):
            raise CannotBeSaid("an action sets an event of a basic task")
        masks |= {1} if task.get("extended") else set()
        found.events[task["name"]] = {event_name(task["name"], mask): mask for mask in sorted(masks)}
    for core in configuration["cores"]:
        for resource in core.get("resources", []):
            found.users[resource["name"]] = users_of(core, resource)
    return found


def users_of(core, resource):
    """The tasks that a file lets take a resource, so that its ceiling is computed as it stands."""
    fits = [task for task in core["tasks"] if task["prio"] <= resource["ceiling"]]
    takes = [task for task in fits if "GetResource %s" % resource["name"] in task["script"].split(";")]
    takes += [task for task in fits if task["prio"] == resource["ceiling"] and task not in takes]
    if max((task["prio"] for task in takes), default=None) != resource["ceiling"]:
        raise CannotBeSaid("a ceiling is not the priority of a task")
    return [task["name"] for task in takes]


def scripts_text(configuration):
    """The file of scripts: those of tasks and ISRs, and what the code of each core says."""
    said = {}
    for core in configuration["cores"]:
        words = {"mode": core.get("mode", configuration.get("modes", ["M"])[0]), "start": core.get("start", [])}
        words.update({"protection": core["protection"]} if "protection" in core else {})
        said[str(core["id"])] = words
        said.update({each["name"]: each["script"] for name in ("tasks", "isrs") for each in core.get(name, [])})
    return json.dumps(said)


# ---------------------------------------------------------------------------------------------------------------------
# ARXML
# ---------------------------------------------------------------------------------------------------------------------


def reference(name):
    return "%s/Os/%s" % (PACKAGE, name)


def container(way, name, parameters=(), references=(), parts=(), root=OS):
    """A container; `way` is the path of its definition below the module's, and parts are made with this one's."""
    lines = ["<ECUC-CONTAINER-VALUE>", "<SHORT-NAME>%s</SHORT-NAME>" % name]
    lines.append("<DEFINITION-REF DEST='ECUC-PARAM-CONF-CONTAINER-DEF'>%s/%s</DEFINITION-REF>" % (root, way))
    for tag, kind, values in (
        ("PARAMETER-VALUES", parameter, parameters),
        ("REFERENCE-VALUES", reference_value, references),
    ):
        if values:
            lines += ["<%s>" % tag] + [kind(root + "/" + way, *value) for value in values] + ["</%s>" % tag]
    if parts:
        lines += ["<SUB-CONTAINERS>"] + list(parts) + ["</SUB-CONTAINERS>"]
    return "\n".join(lines + ["</ECUC-CONTAINER-VALUE>"])


def parameter(definition, key, value):
    text = str(value).lower() if isinstance(value, bool) else str(value)
    tag = "ECUC-TEXTUAL-PARAM-VALUE" if text.isupper() else "ECUC-NUMERICAL-PARAM-VALUE"
    lines = "<%s>\n<DEFINITION-REF DEST='ECUC-PARAM-DEF'>%s/%s</DEFINITION-REF>\n<VALUE>%s</VALUE>\n</%s>"
    return lines % (tag, definition, key, escape(text), tag)


def reference_value(definition, key, path):
    tag = "ECUC-REFERENCE-VALUE"
    lines = "<%s>\n<DEFINITION-REF DEST='ECUC-REFERENCE-DEF'>%s/%s</DEFINITION-REF>\n"
    lines += "<VALUE-REF DEST='ECUC-CONTAINER-VALUE'>%s</VALUE-REF>\n</%s>"
    return lines % (tag, definition, key, path, tag)


def arxml(*modules):
    """An ARXML file with modules: the name, the path of the definition, and the containers of each."""
    texts = []
    for name, definition, containers in modules:
        head = "<ECUC-MODULE-CONFIGURATION-VALUES>\n<SHORT-NAME>%s</SHORT-NAME>\n" % name
        head += "<DEFINITION-REF DEST='ECUC-MODULE-DEF'>%s</DEFINITION-REF>\n<CONTAINERS>\n" % definition
        texts.append(head + "\n".join(containers) + "\n</CONTAINERS>\n</ECUC-MODULE-CONFIGURATION-VALUES>")
    head = "<?xml version='1.0' encoding='UTF-8'?>\n<AUTOSAR xmlns='http://autosar.org/schema/r4.0'>\n<AR-PACKAGES>\n"
    steps = PACKAGE.split("/")[1:]
    head += "<AR-PACKAGES>\n".join("<AR-PACKAGE>\n<SHORT-NAME>%s</SHORT-NAME>\n" % step for step in steps)
    tail = "</ELEMENTS>\n" + "</AR-PACKAGE>\n</AR-PACKAGES>\n" * len(steps) + "</AUTOSAR>\n"
    return head + "<ELEMENTS>\n" + "\n".join(texts) + "\n" + tail


def os_arxml(configuration):
    """The files of the modules Os and EcuC."""
    return arxml(("Os", OS, list(os_containers(os_file(configuration))))), hardware_arxml(configuration)


def hardware_arxml(configuration):
    """The file of the module EcuC: the cores."""
    way = "EcucHardware/EcucCoreDefinition"
    cores = [
        container(way, "Core_%s" % string.ascii_lowercase[core["id"]], [("EcucCoreId", core["id"])], root=HARDWARE)
        for core in configuration["cores"]
    ]
    return arxml(("EcuC", HARDWARE, [container("EcucHardware", "Hardware", parts=cores, root=HARDWARE)]))


def os_containers(file):
    """The containers of the module Os."""
    yield container("OsOS", "OsOS", [("OsStatus", "EXTENDED"), ("OsNumberOfCores", len(file.configuration["cores"]))])
    yield from (container("OsAppMode", mode) for mode in file.modes)
    for spinlock in file.configuration.get("spinlocks", []):
        after = [("OsSpinlockSuccessor", reference(spinlock["next"]))] if spinlock.get("next") else []
        yield container("OsSpinlock", spinlock["name"], [("OsSpinlockLockMethod", "LOCK_NOTHING")], after)
    yield from (core_application(core) for core in file.configuration["cores"])
    for masks in file.events.values():
        yield from (container("OsEvent", name, [("OsEventMask", mask)]) for name, mask in masks.items())
    for name in file.users:
        yield container("OsResource", name, [("OsResourceProperty", "STANDARD")])
    yield from (counter(each) for _, each in file.objects("counters"))
    yield from (task(file, each) for _, each in file.objects("tasks"))
    yield from (isr(each) for _, each in file.objects("isrs"))
    yield from (alarm(file, each) for _, each in file.objects("alarms"))
    yield from (table(file, each) for _, each in file.objects("tables"))


def core_application(core):
    keys = {"tasks": "Task", "isrs": "Isr", "alarms": "Alarm", "counters": "Counter", "tables": "ScheduleTable"}
    path = "%s/EcuC/Hardware/Core_%s" % (PACKAGE, string.ascii_lowercase[core["id"]])
    references = [("OsApplicationCoreRef", path)]
    references += [("OsApp%sRef" % keys[name], reference(each["name"])) for name in keys for each in core.get(name, [])]
    return container("OsApplication", "Application_%d" % core["id"], [("OsTrusted", True)], references)


def counter(each):
    is_software = each.get("software", False)
    parameters = [("OsCounterMaxAllowedValue", each["max"]), ("OsCounterMinCycle", each.get("min", 1))]
    parameters += [("OsCounterTicksPerBase", 1), ("OsCounterType", "SOFTWARE" if is_software else "HARDWARE")]
    return container("OsCounter", each["name"], parameters + ([] if is_software else [("OsSecondsPerTick", TICK)]))


def autostart(way, modes, parameters=()):
    """An autostart; none in no mode."""
    kind = way.rpartition("/")[2].replace("Autostart", "")
    references = [("%sAppModeRef" % kind, reference(mode)) for mode in modes]
    return [container(way, "Autostart", parameters, references)] if modes else []


def protection(kind, key, each):
    """The budget of a task or an ISR."""
    if not each.get("budget"):
        return []
    way = "%s/%sTimingProtection" % (kind, kind)
    return [container(way, "TimingProtection", [(key, each["budget"] * TICK)])]


def task(file, each):
    parameters = [("OsTaskPriority", each["prio"]), ("OsTaskActivation", each.get("activations", 1))]
    parameters.append(("OsTaskSchedule", "FULL" if each.get("preemptable", True) else "NON"))
    references = [("OsTaskEventRef", reference(name)) for name in file.events[each["name"]]]
    takes = [name for name, users in file.users.items() if each["name"] in users]
    references += [("OsTaskResourceRef", reference(name)) for name in takes]
    parts = autostart("OsTask/OsTaskAutostart", each.get("auto", []))
    parts += protection("OsTask", "OsTaskExecutionBudget", each)
    return container("OsTask", each["name"], parameters, references, parts)


def isr(each):
    parameters = [("OsIsrCategory", "CATEGORY_2"), ("OsIsrInterruptPriority", each["level"])]
    parts = protection("OsIsr", "OsIsrExecutionBudget", each)
    return container("OsIsr", each["name"], parameters, parts=parts)


def alarm(file, each):
    words = file.action(each["action"])
    way = "OsAlarm/OsAlarmAction/OsAlarm%s" % words[0]
    references = [("OsAlarmActivateTaskRef", reference(words[1]))]
    if words[0] == "SetEvent":
        references = [("OsAlarmSetEventTaskRef", reference(words[1])), ("OsAlarmSetEventRef", reference(words[2]))]
    parts = [container("OsAlarm/OsAlarmAction", "Action", parts=[container(way, "Act", references=references)])]
    auto = each.get("auto")
    if auto:
        parameters = [("OsAlarmAlarmTime", auto["start"]), ("OsAlarmCycleTime", auto["cycle"])]
        parameters.append(("OsAlarmAutostartType", "RELATIVE"))
        parts += autostart("OsAlarm/OsAlarmAutostart", auto["modes"], parameters)
    references = [("OsAlarmCounterRef", reference(each["counter"]))]
    return container("OsAlarm", each["name"], references=references, parts=parts)


def table(file, each):
    parameters = [("OsScheduleTableDuration", each["duration"])]
    parameters.append(("OsScheduleTableRepeating", each.get("repeating", False)))
    parts = [point(file, number, one) for number, one in enumerate(each["points"])]
    auto = each.get("auto")
    if auto:
        start = [("OsScheduleTableStartValue", auto["offset"]), ("OsScheduleTableAutostartType", "ABSOLUTE")]
        parts += autostart("OsScheduleTable/OsScheduleTableAutostart", auto["modes"], start)
    references = [("OsScheduleTableCounterRef", reference(each["counter"]))]
    return container("OsScheduleTable", each["name"], parameters, references, parts)


def point(file, number, each):
    way = "OsScheduleTable/OsScheduleTableExpiryPoint"
    parts = []
    for index, text in enumerate(each["actions"]):
        words = file.action(text)
        kind, references = "OsScheduleTableTaskActivation", [("OsScheduleTableActivateTaskRef", reference(words[1]))]
        if words[0] == "SetEvent":
            kind, references = "OsScheduleTableEventSetting", [("OsScheduleTableSetEventTaskRef", reference(words[1]))]
            references.append(("OsScheduleTableSetEventRef", reference(words[2])))
        parts.append(container("%s/%s" % (way, kind), "Act_%d" % index, references=references))
    return container(way, "Point_%d" % number, [("OsScheduleTblExpPointOffset", each["offset"])], parts=parts)


# ---------------------------------------------------------------------------------------------------------------------
# Single containers
# ---------------------------------------------------------------------------------------------------------------------


def os_task(name, *references, parts=(), **parameters):
    """A task of an Os module, with the usual priority."""
    given = {"OsTaskPriority": 1, **parameters}
    return container("OsTask", name, list(given.items()), [(key, reference(path)) for key, path in references], parts)


def os_counter(name="C", **parameters):
    given = {"OsCounterMaxAllowedValue": 100, "OsCounterType": "HARDWARE", **parameters}
    return container("OsCounter", name, list(given.items()))


def os_alarm(name, act, *references, parts=(), counter="C"):
    """An alarm with an action of a kind, which has these references."""
    way = "OsAlarm/OsAlarmAction"
    paths = [(key, reference(path)) for key, path in references]
    action = container(way, "Action", parts=[container("%s/%s" % (way, act), "Act", references=paths)])
    return container("OsAlarm", name, (), [("OsAlarmCounterRef", reference(counter))], [action, *parts])


def os_table(name, *points, **parameters):
    """A schedule table of the counter C, with points of an offset and the names of tasks each."""
    way = "OsScheduleTable/OsScheduleTableExpiryPoint"
    parts = []
    for offset, tasks in points:
        paths = [[("OsScheduleTableActivateTaskRef", reference(task))] for task in tasks]
        acts = [container(way + "/OsScheduleTableTaskActivation", "Act", references=each) for each in paths]
        parts.append(container(way, "P%d" % offset, [("OsScheduleTblExpPointOffset", offset)], parts=acts))
    given = {"OsScheduleTableDuration": 50, **parameters}
    references = [("OsScheduleTableCounterRef", reference("C"))]
    return container("OsScheduleTable", name, list(given.items()), references, parts)


def os_isr(name, *references, parts=(), **parameters):
    given = {"OsIsrCategory": "CATEGORY_2", **parameters}
    return container("OsIsr", name, list(given.items()), [(key, reference(path)) for key, path in references], parts)


def budget(kind, seconds):
    """The time protection of a task or an ISR."""
    parameters = [("%sExecutionBudget" % kind, seconds)]
    return [container("%s/%sTimingProtection" % (kind, kind), "TimingProtection", parameters)]


def lock_budgets(kind, seconds):
    """The time protection of a task or an ISR that limits how long it locks a resource and all interrupts."""
    way = "%s/%sTimingProtection" % (kind, kind)
    limit = [("%sResourceLockBudget" % kind, seconds)]
    lock = container("%s/%sResourceLock" % (way, kind), "Lock", limit)
    return [container(way, "TimingProtection", [("%sAllInterruptLockBudget" % kind, seconds)], parts=[lock])]


def alarm_start(**parameters):
    way = "OsAlarm/OsAlarmAutostart"
    return [container(way, "Auto", list(parameters.items()), [("OsAlarmAppModeRef", reference("M"))])]


def application(name, core, **references):
    """An OsApplication on a core, by the older parameter; each reference has a list of names."""
    paths = [(key, reference(path)) for key, names in references.items() for path in names]
    return container("OsApplication", name, [("OsApplicationCoreAssignment", core)], paths)


MODE = container("OsAppMode", "M")
HOOKS = [("OsErrorHook", False), ("OsStartupHook", True)]
ACTIVATES_T = ("OsAlarmActivateTask", ("OsAlarmActivateTaskRef", "T"))


# ---------------------------------------------------------------------------------------------------------------------
# OIL
# ---------------------------------------------------------------------------------------------------------------------


def os_oil(configuration):
    """The OIL file, with AUTOSAR's additions."""
    file = os_file(configuration)
    if any(each.get("budget") for name in ("tasks", "isrs") for _, each in file.objects(name)):
        raise CannotBeSaid("OIL has no budgets")
    head = 'OIL_VERSION = "2.5" : "written by a test";\nIMPLEMENTATION none { TASK { UINT32 [0..9] X = 1; } t; };\n'
    return head + "CPU example {\n" + "".join("  %s;\n" % text for text in oil_objects(file)) + "};\n"


def oil_object(word, name, *attributes):
    """An object; an attribute is a word with its value, and perhaps with attributes in braces."""
    return "%s %s %s" % (word, name, oil_braces(attributes))


def oil_braces(attributes):
    texts = ["%s = %s%s;" % (word, value, oil_braces(inner[0]) if inner else "") for word, value, *inner in attributes]
    return "{ %s }" % " ".join(texts)


def oil_word(value):
    return str(value).upper()


def oil_objects(file):
    hooks = [(hook + "HOOK", "TRUE") for hook in ("STARTUP", "ERROR", "SHUTDOWN", "PRETASK", "POSTTASK")]
    yield oil_object("OS", "os", ("STATUS", "EXTENDED"), *hooks)
    yield from (oil_object("APPMODE", mode) for mode in file.modes)
    for spinlock in file.configuration.get("spinlocks", []):
        after = [("SUCCESSOR", spinlock["next"])] if spinlock.get("next") else []
        yield oil_object("SPINLOCK", spinlock["name"], *after)
    for core in file.configuration["cores"]:
        words = {"tasks": "TASK", "isrs": "ISR", "alarms": "ALARM", "counters": "COUNTER", "tables": "SCHEDULETABLE"}
        objects = [(words[name], each["name"]) for name in words for each in core.get(name, [])]
        yield oil_object("APPLICATION", "application_%d" % core["id"], ("CORE", core["id"]), *objects)
    for masks in file.events.values():
        yield from (oil_object("EVENT", name, ("MASK", hex(mask))) for name, mask in masks.items())
    yield from (oil_object("RESOURCE", name, ("RESOURCEPROPERTY", "STANDARD")) for name in file.users)
    yield from (oil_counter(each) for _, each in file.objects("counters"))
    yield from (oil_task(file, each) for _, each in file.objects("tasks"))
    for _, each in file.objects("isrs"):
        yield oil_object("ISR", each["name"], ("CATEGORY", 2), ("PRIORITY", each["level"]))
    yield from (oil_alarm(file, each) for _, each in file.objects("alarms"))
    yield from (oil_table(file, each) for _, each in file.objects("tables"))


def oil_counter(each):
    attributes = [("MAXALLOWEDVALUE", each["max"]), ("TICKSPERBASE", 1), ("MINCYCLE", each.get("min", 1))]
    attributes.append(("TYPE", "SOFTWARE" if each.get("software") else "HARDWARE"))
    return oil_object("COUNTER", each["name"], *attributes)


def oil_autostart(modes, *attributes):
    if not modes:
        return ("AUTOSTART", "FALSE")
    return ("AUTOSTART", "TRUE", [*attributes, *(("APPMODE", mode) for mode in modes)])


def oil_action(file, text, *attributes):
    words = file.action(text)
    event = [("EVENT", words[2])] if words[0] == "SetEvent" else []
    return ("ACTION", words[0].upper(), [("TASK", words[1]), *event, *attributes])


def oil_task(file, each):
    attributes = [("PRIORITY", each["prio"]), ("ACTIVATION", each.get("activations", 1))]
    attributes.append(("SCHEDULE", "FULL" if each.get("preemptable", True) else "NON"))
    attributes += [("EVENT", name) for name in file.events[each["name"]]]
    attributes += [("RESOURCE", name) for name, users in file.users.items() if each["name"] in users]
    return oil_object("TASK", each["name"], *attributes, oil_autostart(each.get("auto", [])))


def oil_alarm(file, each):
    auto = each.get("auto") or {"modes": [], "start": 0, "cycle": 0}
    start = oil_autostart(auto["modes"], ("ALARMTIME", auto["start"]), ("CYCLETIME", auto["cycle"]))
    return oil_object("ALARM", each["name"], ("COUNTER", each["counter"]), oil_action(file, each["action"]), start)


def oil_table(file, each):
    auto = each.get("auto") or {"modes": [], "offset": 0}
    attributes = [("COUNTER", each["counter"]), ("DURATION", each["duration"])]
    attributes.append(("REPEATING", oil_word(each.get("repeating", False))))
    attributes.append(oil_autostart(auto["modes"], ("TYPE", "RELATIVE", [("OFFSET", auto["offset"])])))
    for point in each["points"]:
        attributes += [oil_action(file, text, ("OFFSET", point["offset"])) for text in point["actions"]]
    return oil_object("SCHEDULETABLE", each["name"], *attributes)
