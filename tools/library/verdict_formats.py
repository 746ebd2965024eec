"""Verdicts on requirements as texts that a CI reads: JUnit's XML, GitHub's commands, TAP."""

import contextlib
import json
from typing import Callable, Dict, Iterator, List, NamedTuple, Sequence
from xml.sax.saxutils import quoteattr

from library import ending
from library.not_json import printable
from library.requirements import Verdict


class Format(NamedTuple):
    """How verdicts on a run are written, and why a run could not be judged; a run has a name."""

    of_verdicts: Callable[[str, Sequence[Verdict]], str]
    of_failure: Callable[[str, str], str]


def _lines(lines: Sequence[str]) -> str:
    """A text of lines."""
    return "".join(line + "\n" for line in lines)


def _place(verdict: Verdict) -> Dict[str, object]:
    """The file and the line of a requirement that stands in a file."""
    given = verdict.requirement
    if given is None or given.path is None:
        return {}
    return {"file": given.path, "line": given.line}


def _text(run: str, verdicts: Sequence[Verdict]) -> str:
    """A line for each verdict."""
    return _lines([str(verdict) for verdict in verdicts])


def _no_text(run: str, reason: str) -> str:
    """Nothing: the reason stands on the standard error."""
    return ""


def _attributes(**values: object) -> str:
    """Attributes of an XML element. What XML cannot have is written as in JSON."""
    return "".join(" %s=%s" % (name, quoteattr(printable(str(value)))) for name, value in values.items())


def _suite(run: str, failures: int, errors: int, cases: List[str]) -> str:
    """A JUnit file with one suite."""
    head = _attributes(name=run, tests=len(cases), failures=failures, errors=errors, skipped=0)
    lines = ['<?xml version="1.0" encoding="UTF-8"?>', "<testsuites>", "  <testsuite%s>" % head]
    return _lines(lines + cases + ["  </testsuite>", "</testsuites>"])


def _case(begin: str, inner: str) -> str:
    """A test case with an element in it."""
    return "    <testcase%s>\n      %s\n    </testcase>" % (begin, inner)


def _junit_case(run: str, verdict: Verdict) -> str:
    """The test case of a verdict, with the place of its requirement."""
    begin = _attributes(classname=run, name=verdict.title, **_place(verdict))
    if verdict.is_met:
        return "    <testcase%s/>" % begin
    return _case(begin, "<failure%s/>" % _attributes(message=verdict, type="requirement"))


def _junit(run: str, verdicts: Sequence[Verdict]) -> str:
    """A test case for each verdict."""
    failures = sum(not verdict.is_met for verdict in verdicts)
    return _suite(run, failures, 0, [_junit_case(run, verdict) for verdict in verdicts])


def _junit_failure(run: str, reason: str) -> str:
    """One test case with an error."""
    error = "<error%s/>" % _attributes(message=reason, type="run")
    return _suite(run, 0, 1, [_case(_attributes(classname=run, name="the run"), error)])


def _command(message: str, **properties: object) -> str:
    """A command of GitHub that marks an error."""
    escaped = []
    for name, value in properties.items():
        escaped.append("%s=%s" % (name, _data(str(value)).replace(":", "%3A").replace(",", "%2C")))
    return "::error %s::%s" % (",".join(escaped), _data(message))


def _data(text: str) -> str:
    """A text within a command of GitHub."""
    return text.replace("%", "%25").replace("\r", "%0D").replace("\n", "%0A")


def _github_error(verdict: Verdict) -> str:
    """The command for a requirement that is not met, at its place."""
    given = verdict.requirement
    title = given.id if given is not None and given.id is not None else "requirement"
    return _command(str(verdict), **_place(verdict), title=title)


def _github(run: str, verdicts: Sequence[Verdict]) -> str:
    """A command for each requirement that is not met."""
    return _lines([_github_error(verdict) for verdict in verdicts if not verdict.is_met])


def _github_failure(run: str, reason: str) -> str:
    """One command."""
    return _lines([_command(reason, title=run)])


_TAP = "TAP version 13"


def _yaml(value: object) -> str:
    """A text or a number in YAML, which reads those of JSON, but no half of a surrogate pair."""
    return json.dumps(printable(value) if isinstance(value, str) else value)


def _tap_point(number: int, verdict: Verdict) -> List[str]:
    """The lines of a test point; of one that is not met also what was found, and where it stands."""
    title = printable(verdict.title).replace("\\", "\\\\").replace("#", "\\#")
    if verdict.is_met:
        return ["ok %d - %s" % (number, title)]
    details = {"found": verdict.found, **_place(verdict)}
    yaml = ["  %s: %s" % (name, _yaml(value)) for name, value in details.items()]
    return ["not ok %d - %s" % (number, title), "  ---", *yaml, "  ..."]


def _tap(run: str, verdicts: Sequence[Verdict]) -> str:
    """A test point for each verdict."""
    points = [_tap_point(number, verdict) for number, verdict in enumerate(verdicts, 1)]
    return _lines([_TAP, "1..%d" % len(points)] + [line for point in points for line in point])


def _tap_failure(run: str, reason: str) -> str:
    """No test point: TAP's words for an end before the first one."""
    return _lines([_TAP, "Bail out! %s" % printable(reason)])


FORMATS: Dict[str, Format] = {
    "text": Format(_text, _no_text),
    "junit": Format(_junit, _junit_failure),
    "github": Format(_github, _github_failure),
    "tap": Format(_tap, _tap_failure),
}


@contextlib.contextmanager
def failure_written(form: Format, run: str) -> Iterator[None]:
    """If what is done fails, writes for a CI why there are no verdicts."""
    try:
        yield
    except ending.Failed as failed:
        report = form.of_failure(run, str(failed))
        if report:
            ending.write(report)
        raise
