"""Which statuses each service can return, as the tables of checks in docs/SERVICES.md have them.

`tools/tests/test_services.py` holds these, and those tables, to the specifications.
"""

from typing import Dict, Tuple

_ID, _CORE, _LIMIT, _ACCESS = "E_OS_ID", "E_OS_CORE", "E_OS_LIMIT", "E_OS_ACCESS"
_CALLEVEL, _RESOURCE, _SPINLOCK = "E_OS_CALLEVEL", "E_OS_RESOURCE", "E_OS_SPINLOCK"
_NOFUNC, _STATE, _VALUE = "E_OS_NOFUNC", "E_OS_STATE", "E_OS_VALUE"
_GETS_SPINLOCK = (_ID, "E_OS_INTERFERENCE_DEADLOCK", "E_OS_NESTING_DEADLOCK")

# Of each service the statuses of its own checks, in their order.
CHECKED: Dict[str, Tuple[str, ...]] = {
    "ActivateTask": (_ID, _CORE, _LIMIT),
    "TerminateTask": (_CALLEVEL, _RESOURCE, _SPINLOCK),
    "ChainTask": (_CALLEVEL, _ID, _CORE, _RESOURCE, _SPINLOCK, _LIMIT),
    "Schedule": (_CALLEVEL, _RESOURCE, _SPINLOCK),
    "GetResource": (_ID, _ACCESS),
    "ReleaseResource": (_ID, _ACCESS, _NOFUNC),
    "SetEvent": (_ID, _CORE, _ACCESS, _STATE),
    "ClearEvent": (_CALLEVEL, _ACCESS),
    "GetEvent": (_ID, _ACCESS, _STATE),
    "WaitEvent": (_CALLEVEL, _ACCESS, _RESOURCE, _SPINLOCK),
    "IncrementCounter": (_ID, _CORE),
    "GetCounterValue": (_ID,),
    "SetRelAlarm": (_ID, _CORE, _STATE, _VALUE),
    "SetAbsAlarm": (_ID, _CORE, _STATE, _VALUE),
    "CancelAlarm": (_ID, _CORE, _NOFUNC),
    "GetAlarm": (_ID, _CORE, _NOFUNC),
    "StartScheduleTableRel": (_ID, _STATE, _VALUE),
    "StartScheduleTableAbs": (_ID, _STATE, _VALUE),
    "NextScheduleTable": (_ID, _STATE, _NOFUNC),
    "StopScheduleTable": (_ID, _NOFUNC),
    "GetScheduleTableStatus": (_ID,),
    "GetSpinlock": _GETS_SPINLOCK,
    "TryToGetSpinlock": _GETS_SPINLOCK,
    "ReleaseSpinlock": (_ID, _STATE, _NOFUNC),
    "StartCore": (_ID, _ACCESS),
}
# The services that act also while interrupts are suspended, and the one that is always refused.
_WHILE_SUSPENDED = ("GetSpinlock", "TryToGetSpinlock", "ReleaseSpinlock")
_NEVER_DONE = ("StartCore",)


def statuses_of(service: str) -> Tuple[str, ...]:
    """All statuses that a service can return, E_OK first; none if it has no status."""
    if service not in CHECKED:
        return ()
    found = () if service in _NEVER_DONE else ("E_OK",)
    found += () if service in _WHILE_SUSPENDED else ("E_OS_DISABLEDINT",)
    return found + CHECKED[service]
