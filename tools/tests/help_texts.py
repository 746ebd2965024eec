"""The options of a tool, for tests that hold its section of docs/TOOLS.md to its help."""

import os
import re

ROOT = os.path.dirname(os.path.dirname(os.path.dirname(os.path.abspath(__file__))))


def section(tool):
    """The text of a tool's section of docs/TOOLS.md."""
    with open(os.path.join(ROOT, "docs", "TOOLS.md"), encoding="utf-8") as file:
        return file.read().split("\n## %s\n" % tool)[1].split("\n## ")[0]


def usage(tool):
    """The options in the lines that show how a tool is called, each with the name of its value or None."""
    lines = re.match(r"\n((?:    .*\n)+)", section(tool))[1]
    return {name: value or None for name, value in re.findall(r"(--[\w-]+)(?: ([A-Z/]+))?", lines)}


def options(words):
    """The options of a command line, each with the name of its value or None."""
    found = {}
    for action in words._actions:
        for name in action.option_strings:
            if name.startswith("--") and name != "--help":
                found[name] = (action.metavar or action.dest.upper()) if action.nargs != 0 else None
    return found


def described(tool):
    """The options that a tool's section names elsewhere than where it shows how the tool is called."""
    return set(re.findall(r"`(--[\w-]+)", section(tool)))
