"""The checks of each service: as the tables of docs/SERVICES.md have them, and as the specifications define them.

A service's checks are its statuses in the order in which they are made, each once: E_OS_ID, E_OS_CORE, E_OS_LIMIT. The
specifications are read from left to right, from an operation's row in the table of its family through the definitions
that the row uses. Statuses stand there in the order in which they are checked, but in `if_started CORE x y`: `y` comes
first, since it is what a core that was never started is answered.
"""

import os
import re
from typing import Dict, Iterator, List, Tuple

ROOT = os.path.dirname(os.path.dirname(os.path.dirname(os.path.abspath(__file__))))

# The crates of the services, with the files whose definitions decide what is checked and answered. Definitions of other
# files are not followed: the effect of a service is none of its checks.
FILES = (
    ("osservice", "Callers"),
    ("osservice", "Returning"),
    ("osservice", "Service"),
    ("osservice_tasks", "Tasks"),
    ("osservice_tasks", "Resources"),
    ("osservice_tasks", "Events"),
    ("osservice_alarms", "Alarms"),
    ("osservice_alarms", "Counters"),
    ("osservice_tables", "Tables"),
    ("osservice_spins", "Spinlocks"),
    ("oscall", "Border"),
    ("oscall", "Shutdown"),
    ("oschain", "Chaining"),
    ("osexpiry", "Incrementing"),
    ("oskernel", "Operations"),
)
# The families' tables, with a row `(Op.NAME ..)` for each operation; that of the calls to any core, with a row
# `(NAME ..)`, behind what the caller's core checks; and what goes before all.
TABLES = ("task_acts", "chain_acts", "counter_acts", "increment_acts", "table_acts", "spin_acts", "core_acts")
CALLER, CALLS = "calls", "service_of"
SUSPENDED, ACTS_SUSPENDED = "operates_unless", "acts_while_suspended"
# The act that looks whether a core was started, and what is done if it was, and if not.
IF_STARTED = "if_started"

Checks = Dict[str, Tuple[str, ...]]


def status_name(word: str) -> str:
    """The printed name of a status: E_OS_NESTING_DEADLOCK for EOsNestingDeadlock."""
    return "_".join(re.findall("[A-Z][a-z]*", word)).upper()


def each_once(statuses: List[str]) -> Tuple[str, ...]:
    return tuple(dict.fromkeys(statuses))


# ---------------------------------------------------------------------------------------------------------------------
# The document
# ---------------------------------------------------------------------------------------------------------------------


def document() -> str:
    with open(os.path.join(ROOT, "docs", "SERVICES.md"), encoding="utf-8") as file:
        return file.read()


def rows_of(text: str) -> Iterator[Tuple[str, List[str]]]:
    """Each row of a table of checks, with the service of its section: the check, the status, the standard."""
    service, is_row = "", False
    for line in text.splitlines():
        if line.startswith("#"):
            service = line.lstrip("# ")
        if line.startswith("|---"):
            continue
        if line.startswith("| Check | Status |"):
            is_row = True
        elif is_row and line.startswith("|"):
            yield service, [cell.strip() for cell in line.strip("|").split("|")]
        else:
            is_row = False


def in_document(text: str) -> Checks:
    """What the tables of a text say, each status as often as it has a row."""
    found: Dict[str, List[str]] = {}
    for service, cells in rows_of(text):
        found.setdefault(service, []).append(cells[1])
    return {service: tuple(statuses) for service, statuses in found.items()}


# ---------------------------------------------------------------------------------------------------------------------
# The specifications
# ---------------------------------------------------------------------------------------------------------------------


def imported(line: str) -> Iterator[Tuple[str, Tuple[str, str]]]:
    """The names that an import brings of FILES, with the file of each: `use Rattle.CRATE.specs.FILE.{NAME, NAME}`, or
    `use Rattle.CRATE.specs.{FILE.NAME, FILE.NAME}`."""
    used = re.match(r"use Rattle\.(\w+)\.specs\.(.*)\{(.*)\}", line)
    for place in used[3].split(", ") if used else []:
        file, _, name = (used[2] + place).rpartition(".")
        if (used[1], file) in FILES:
            yield name, (used[1], file)


class Definitions:
    """The definitions of FILES: their clauses, each the words of its left side and the text of its right side."""

    def __init__(self):
        self.clauses: Dict[Tuple[str, str], Dict[str, List[Tuple[str, str]]]] = {}
        self.imports: Dict[Tuple[str, str], Dict[str, Tuple[str, str]]] = {}
        self.comments = ""
        for file in FILES:
            path = os.path.join(ROOT, "crates", file[0], "specs", file[1] + ".antt")
            with open(path, encoding="utf-8") as lines:
                self._read(file, lines.read().splitlines())

    def _read(self, file, lines):
        self.clauses[file], self.imports[file] = {}, {}
        self.comments += " ".join(line.lstrip("- ") for line in lines if line.startswith("--")) + "\n"
        clause = ""
        for line in [line for line in lines if line and not line.startswith("--")] + ["."]:
            if line.startswith(" "):
                clause += line
                continue
            self._add(file, clause)
            clause = line
            self.imports[file].update(imported(line))

    def _add(self, file, clause):
        left, is_clause, right = clause.partition(" = ")
        if is_clause and not left.startswith(("abbrev ", "pub ", "use ")):
            self.clauses[file].setdefault(left.split(" ")[0], []).append((left, right))

    def file_of(self, name: str):
        """The one file that defines a name."""
        (file,) = [file for file in FILES if name in self.clauses[file]]
        return file

    def row(self, table: str, operation: str) -> List[str]:
        """The statuses of an operation's row of a table."""
        file = self.file_of(table)
        (clause,) = [each for each in self.clauses[file][table] if operation in re.findall(r"\w+", each[0])]
        return list(self._statuses(file, clause))

    def rows(self, table: str) -> List[str]:
        """The operations that have a row in a table."""
        lefts = [left for left, _ in self.clauses[self.file_of(table)][table]]
        return [name for left in lefts for name in re.findall(r"\b[A-Z]\w*", left) if name != "Op"]

    def all_of(self, file, name: str) -> Iterator[str]:
        """The statuses of a definition."""
        for clause in self.clauses[file][name]:
            yield from self._statuses(file, clause)

    def _statuses(self, file, clause):
        """The statuses of a right side, those of the definitions that it uses in their places."""
        left, right = clause
        bound = re.findall(r"\w+", left)
        for word in words_of(right):
            if re.fullmatch("EOs[A-Za-z]+", word):
                yield status_name(word)
            elif word in bound or word in TABLES + (CALLS,):
                continue
            elif word in self.clauses[file]:
                yield from self.all_of(file, word)
            elif word in self.imports[file]:
                yield from self.all_of(self.imports[file][word], word)


def words_of(text: str) -> List[str]:
    """The words of a right side in the order in which they are judged."""
    return list(_flat(_tree(iter(re.findall(r"[()]|[\w.]+", text)))))


def _tree(tokens):
    """The words up to the closing parenthesis, each text in parentheses a list. Behind IF_STARTED two change places."""
    found = []
    for token in tokens:
        if token == ")":
            break
        found.append(_tree(tokens) if token == "(" else token)
    for place, token in enumerate(found):
        if token == IF_STARTED:
            found[place + 2 : place + 4] = reversed(found[place + 2 : place + 4])
    return found


def _flat(tree):
    for each in tree:
        if isinstance(each, list):
            yield from _flat(each)
        else:
            yield each


def operation_name(name: str) -> str:
    """What a script calls an operation: the variant Op.ShutdownOs is ShutdownOS."""
    return "ShutdownOS" if name == "ShutdownOs" else name


def in_specifications(definitions: Definitions) -> Checks:
    """What the definitions say of each service that has checks."""
    found: Checks = {}
    for table in TABLES:
        for operation in definitions.rows(table):
            found[operation_name(operation)] = each_once(definitions.row(table, operation))
    caller = list(definitions.all_of(definitions.file_of(CALLER), CALLER))
    for operation in definitions.rows(CALLS):
        found[operation] = each_once(caller + definitions.row(CALLS, operation))
    return {service: statuses for service, statuses in found.items() if statuses}


def suspended(definitions: Definitions) -> Tuple[List[str], List[str]]:
    """What is answered while interrupts are suspended, and the services that act all the same."""
    file = definitions.file_of(ACTS_SUSPENDED)
    acting = [left for left, right in definitions.clauses[file][ACTS_SUSPENDED] if right == "true"]
    answers = list(definitions.all_of(file, SUSPENDED))
    return answers, [re.findall(r"\w+", left)[-1] for left in acting]
