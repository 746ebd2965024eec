"""What `tools/gantt` draws: the bars of a small run by numbers, and the picture of the documents."""

import os
import re
import runpy
import shutil
import subprocess
import sys
import unittest
import zlib
from xml.etree import ElementTree

sys.path.insert(0, os.path.dirname(os.path.abspath(__file__)))
import sample_runs  # noqa: E402
from sample_runs import PROGRAM, TOOLS, called, first_timeline, needs_program  # noqa: E402
from library import ending, gantt, jobs, timeline  # noqa: E402

MAIN = runpy.run_path(os.path.join(TOOLS, "gantt"))["main"]
NAMESPACE = "{http://www.w3.org/2000/svg}"


def drawn(text):
    """The shapes of a picture with a title, by their class: each as the title and the attributes."""
    found = {}
    for shape in ElementTree.fromstring(text).iter():
        title = shape.find(NAMESPACE + "title")
        if title is not None and "class" in shape.attrib:
            found.setdefault(shape.attrib["class"], []).append((title.text, shape.attrib))
    return found


def pixel(text, x, y):
    """The red, green and blue of the picture at a place, as rsvg-convert draws it: as a picture of one pixel."""
    one, places = re.subn(
        r' width="\d+" height="\d+" viewBox="[\d ]+"', ' width="1" height="1" viewBox="%d %d 1 1"' % (x, y), text, count=1
    )
    assert places == 1
    png = subprocess.run(["rsvg-convert"], input=one.encode(), capture_output=True, check=True).stdout
    size = int.from_bytes(png[png.index(b"IDAT") - 4 :][:4], "big")
    data = zlib.decompress(png[png.index(b"IDAT") + 4 :][:size])
    # The first byte says how the line is packed, which changes nothing in a line of one pixel.
    return tuple(data[1:4])


def texts(text):
    """All texts of a picture."""
    return [each.text for each in ElementTree.fromstring(text).iter(NAMESPACE + "text")]


class First(unittest.TestCase):
    def setUp(self):
        self.jobs = jobs.jobs_of(first_timeline())

    def picture(self, begin, end, width=1008):
        """The picture of a span."""
        return gantt.picture(self.jobs, gantt.Span(begin, end), width, "a < b")

    def test_bars(self):
        # The left edge is at 8 + 80 + 8, the right one at 992: 16 pixels for a turn.
        running = drawn(self.picture(1, 57))["running"]
        self.assertEqual(
            [title for title, _ in running], ["A, job 0: running, turns 21 to 38", "B, job 0: running, turns 34 to 41"]
        )
        self.assertEqual(
            [(float(each["x"]), float(each["width"])) for _, each in running], [(416.0, 272.0), (624.0, 112.0)]
        )

    def test_a_span_cuts(self):
        running = drawn(self.picture(30, 35))["running"]
        self.assertEqual(len(running), 2)
        for _, each in running:
            self.assertGreaterEqual(float(each["x"]), 96.0)
            self.assertLessEqual(float(each["x"]) + float(each["width"]), 992.0)
        self.assertNotIn("running", drawn(self.picture(1, 20)))

    def test_flows(self):
        self.assertEqual(
            [title for title, _ in drawn(self.picture(1, 57))["flow"]], ["core 0 to core 1: ActivateTask B"]
        )

    def test_texts(self):
        found = texts(self.picture(1, 57))
        for text in ("core 0", "core 1", "A", "B", "prio 1", "round", "running", "error"):
            self.assertIn(text, found)

    def test_rounds_of_the_axis(self):
        numbers = [int(text) for text in texts(self.picture(1, 57)) if text.isdecimal()]
        self.assertEqual(numbers, list(range(1, 11)))
        # Round 6 begins with turn 31.
        numbers = [int(text) for text in texts(self.picture(30, 57)) if text.isdecimal()]
        self.assertEqual(numbers, list(range(6, 11)))

    def test_steps(self):
        for least, step in ((0.1, 1), (1, 1), (1.5, 2), (3, 5), (6, 10), (11, 20), (51, 100)):
            with self.subTest(least=least):
                self.assertEqual(gantt._step(least), step)

    def test_no_such_tick(self):
        with self.assertRaisesRegex(ending.Failed, "tick 1 of core 0: this core has taken no tick"):
            gantt.span_of_ticks(self.jobs.timeline, 0, 1, None)

    def test_no_turns(self):
        empty = timeline.Timeline(self.jobs.timeline.run, ())
        with self.assertRaisesRegex(ending.Failed, "^the run has no turn in which something happens$"):
            gantt.span_of_ticks(empty, 0, None, None)


class Colours(unittest.TestCase):
    """The picture of the documents, which is what the tool draws."""

    def test_many_viewers_know_no_variables(self):
        self.assertNotIn("var(", sample_runs.read("docs", "engine.svg"))

    @unittest.skipUnless(shutil.which("rsvg-convert"), "rsvg-convert is not installed")
    def test_pixels(self):
        picture = sample_runs.read("docs", "engine.svg")
        self.assertEqual(pixel(picture, 600, 100), (0xFF, 0xFF, 0xFF))
        self.assertEqual(pixel(picture, 600, 50), (0xF6, 0xF8, 0xFA))
        self.assertEqual(pixel(picture, 150, 18), (0x00, 0x72, 0xB2))


class Commands(unittest.TestCase):
    def test_wrong_usage(self):
        for words in (("a",), ("a", "b", "--from", "0"), ("a", "b", "--width", "599"), ("a", "b", "--core", "16")):
            with self.subTest(words=words):
                self.assertEqual(called(MAIN, *words)[:2], (2, ""))

    @needs_program
    def test_the_picture_of_the_documents(self):
        wanted = sample_runs.read("docs", "engine.svg")
        command = re.search(
            r"^    tools/gantt (.*) > docs/engine\.svg$", sample_runs.read("docs", "TOOLS.md"), re.MULTILINE
        )
        words = command[1].split(" ")
        here = os.getcwd()
        os.chdir(sample_runs.ROOT)
        try:
            status, output, messages = called(MAIN, "--mcos", PROGRAM, *words)
        finally:
            os.chdir(here)
        self.assertEqual((status, messages), (0, ""))
        self.assertEqual(output, wanted)

    @needs_program
    def test_a_path_with_a_line_end(self):
        with sample_runs.at_a_strange_path() as paths:
            status, output, messages = called(MAIN, "--mcos", PROGRAM, *paths)
        self.assertEqual((status, messages), (0, ""))
        title = ElementTree.fromstring(output).find(NAMESPACE + "title").text
        self.assertIn("/a\\n\\u0001<b/config.json, ", title)

    @needs_program
    def test_ticks(self):
        words = ["--mcos", PROGRAM, *sample_runs.ENGINE]
        for text, error in (
            ("--from 21", "tick 21 of core 0: this core has taken 20 ticks"),
            ("--core 7 --to 1", "tick 1 of core 7: this core has taken no tick"),
            ("--from 5 --to 4", "nothing lies between the tick 5 and the tick 4"),
        ):
            with self.subTest(text=text), self.assertRaisesRegex(ending.Failed, error):
                MAIN(words + text.split(" "))


@needs_program
class Interrupts(unittest.TestCase):
    def test_rows_and_marks(self):
        found = jobs.jobs_of(sample_runs.interrupts())
        text = gantt.picture(found, gantt.span_of_ticks(found.timeline, 0, None, None), 1200, "interrupts")
        self.assertEqual([each for each in texts(text) if each in "IJXHB"], ["J", "I", "H", "X", "B"])
        self.assertIn("level 2", texts(text))
        shapes = drawn(text)
        interrupted = [title.split(",")[0] for title, _ in shapes["interrupted"]]
        self.assertEqual(interrupted, ["X", "I"])
        # B runs until its core shuts down.
        down = found.timeline.down[1].turn
        self.assertIn("B, job 0: running, turns 24 to %d" % down, [title for title, _ in shapes["running"]])
        marks = sorted(title for title, _ in shapes["error"] if title != "error")
        protected = "Protection E_OS_PROTECTION_TIME"
        self.assertEqual(marks, ["E_OS_CORE", protected, protected, "Shutdown E_OS_PROTECTION_TIME", "lost I"])


@needs_program
class Engine(unittest.TestCase):
    def test_states(self):
        found = sample_runs.engine()
        all_jobs = jobs.jobs_of(found)
        span = gantt.span_of_ticks(found, 0, 3, 4)
        ticks = [item.turn for item in found.by_core[0] if item.text == "stim tick"]
        self.assertEqual((span.begin, span.end), (ticks[2], ticks[4]))
        shapes = drawn(gantt.picture(all_jobs, span, 1200, "engine"))
        # T10ms holds Map, T1ms preempts it, and T5ms is ready from then on.
        self.assertEqual([title.split(",")[0] for title, _ in shapes["held"]], ["T10ms holds Map", "T5ms holds Map"])
        ready = {title.split(",")[0] for title, _ in shapes["ready"]}
        self.assertEqual(ready, {"T5ms", "T10ms", "T100ms"})
        self.assertEqual({title.split(",")[0] for title, _ in shapes["waiting"]}, {"Com"})

    def test_errors(self):
        found = sample_runs.engine()
        whole = gantt.span_of_ticks(found, 0, None, None)
        shapes = drawn(gantt.picture(jobs.jobs_of(found), whole, 1200, "engine"))
        self.assertIn("E_OS_LIMIT", [title for title, _ in shapes["error"]])

    def test_examples(self):
        for source in sample_runs.sources():
            with self.subTest(source=source):
                found = sample_runs.timeline_of(source)
                span = gantt.span_of_ticks(found, gantt.first_core_with_ticks(found), None, None)
                ElementTree.fromstring(gantt.picture(jobs.jobs_of(found), span, 800, "example"))


if __name__ == "__main__":
    unittest.main()
