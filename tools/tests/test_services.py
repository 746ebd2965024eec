"""Holds the tables of checks in docs/SERVICES.md to the specifications: each status that a service can return by its
definition has a row, in the order of the checks, and no other has one."""

import os
import re
import sys
import unittest

sys.path.insert(0, os.path.dirname(os.path.abspath(__file__)))
import sample_runs  # noqa: E402
import service_checks  # noqa: E402
from library import formats, statuses  # noqa: E402

TEXT = service_checks.document()


class Checks(unittest.TestCase):
    @classmethod
    def setUpClass(cls):
        cls.definitions = service_checks.Definitions()
        cls.defined = service_checks.in_specifications(cls.definitions)

    def differs(self, text):
        """The services of which a text says something else than the specifications."""
        written = service_checks.in_document(text)
        return {name for name in {*written, *self.defined} if written.get(name) != self.defined.get(name)}

    def test_each_table_is_as_the_specifications_have_it(self):
        written = service_checks.in_document(TEXT)
        for service in sorted({*written, *self.defined}):
            with self.subTest(service=service):
                self.assertEqual(written.get(service), self.defined.get(service))

    def test_each_service_with_a_status_has_a_table(self):
        services = {name for name, each in formats.OPERATIONS.items() if each.is_service}
        self.assertEqual(set(self.defined), services)

    def test_what_is_read_in_the_specifications(self):
        self.assertEqual(self.defined["SetEvent"], ("E_OS_ID", "E_OS_CORE", "E_OS_ACCESS", "E_OS_STATE"))
        self.assertEqual(self.defined["ChainTask"][:3], ("E_OS_CALLEVEL", "E_OS_ID", "E_OS_CORE"))
        self.assertEqual(self.defined["ChainTask"][3:], ("E_OS_RESOURCE", "E_OS_SPINLOCK", "E_OS_LIMIT"))

    def test_a_wrong_row_is_found(self):
        """Each row left out, written twice, or behind the next one makes a difference."""
        lines = TEXT.splitlines()
        places = [place for place, line in enumerate(lines) if re.match(r"\| .*\| E_OS_", line)]
        self.assertEqual(len(places), sum(map(len, self.defined.values())))
        for place in places:
            row, after = lines[place], lines[place + 1]
            wrong = [[], [row, row]] + ([[after, row]] if place + 1 in places else [])
            for rows in wrong:
                end = place + (2 if rows[:1] == [after] else 1)
                with self.subTest(row=row, rows=rows):
                    self.assertEqual(len(self.differs("\n".join(lines[:place] + rows + lines[end:]))), 1)

    def test_a_wrong_status_is_found(self):
        for name in ("E_OS_LIMIT", "E_OS_NESTING_DEADLOCK", "E_OS_VALUE"):
            self.assertNotEqual(self.differs(TEXT.replace("| %s |" % name, "| E_OS_RESOURCE |")), set())

    def test_suspended_interrupts(self):
        answers, acting = service_checks.suspended(self.definitions)
        self.assertEqual(answers, ["E_OS_DISABLEDINT"])
        sentence = re.search(r"(?m)^If the caller has interrupts suspended, (E_OS_\w+) comes before the table.*$", TEXT)
        self.assertEqual(sentence[1], answers[0])
        exempt = re.search(r"(.*) do not have this check", sentence[0].split(". ")[1])[1]
        self.assertEqual(re.findall(r"`(\w+)`", exempt), acting)
        for service in self.defined:
            with self.subTest(service=service):
                self.assertEqual("E_OS_DISABLEDINT" in statuses.statuses_of(service), service not in acting)

    def test_the_statuses_of_the_tools(self):
        self.assertEqual(statuses.CHECKED, self.defined)


class Standard(unittest.TestCase):
    def test_what_is_cited_stands_in_the_specifications(self):
        comments = service_checks.Definitions().comments
        for service, (_, status, cited) in service_checks.rows_of(TEXT):
            with self.subTest(service=service, status=status):
                numbers = re.findall(r"SWS_Os_\d{5}|OSEK ([\d.]+)", cited)
                self.assertTrue(numbers or cited in ("own", "SWS OS, E_OS_SPINLOCK", "SWS OS, StartCore"))
                for item in re.findall(r"SWS_Os_\d{5}", cited):
                    self.assertTrue(is_cited(item, comments), item)
                for section in re.findall(r"OSEK ([\d.]+)", cited):
                    self.assertIn(section, comments)


class Numbers(unittest.TestCase):
    def test_the_numbers_of_statuses(self):
        """As the definition `status_number` has them, so has docs/FORMATS.md."""
        listed = re.search(r"\*\*The statuses\*\*, by their numbers: (.*?)\.", sample_runs.read("docs", "FORMATS.md"))[1]
        words = sample_runs.read("crates", "osbase", "specs", "Words.antt")
        clauses = re.findall(r"(?m)^status_number (\w+) = (\d+)$", words)
        defined = ["%s %s" % (number, service_checks.status_name(word)) for word, number in clauses]
        self.assertEqual(listed.split(", "), sorted(defined, key=lambda each: int(each.split(" ")[0])))


def is_cited(item, comments):
    """Whether an item stands in some comments, alone or in a range: `SWS_Os_00689 to SWS_Os_00691`."""
    ranges = re.findall(r"SWS_Os_(\d{5}) to SWS_Os_(\d{5})", comments)
    number = int(item[-5:])
    return item in comments or any(int(first) <= number <= int(last) for first, last in ranges)


if __name__ == "__main__":
    unittest.main()
