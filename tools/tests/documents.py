"""The examples of docs/TOOLS.md, for tests that hold them to what the tools print."""

import os

ROOT = os.path.dirname(os.path.dirname(os.path.dirname(os.path.abspath(__file__))))


def example(after: str) -> str:
    """The indented text that follows the first place of some words."""
    with open(os.path.join(ROOT, "docs", "TOOLS.md"), encoding="utf-8") as file:
        document = file.read()
    found = []
    for line in document[document.index(after) + len(after) :].splitlines()[1:]:
        if line and not line.startswith("    "):
            break
        found.append(line[4:])
    return "\n".join(found).strip("\n") + "\n"


def part(after: str) -> list:
    """The lines of such a text, but for `..`, which stands for lines that are left out."""
    return [line for line in example(after).splitlines() if line != ".."]


def is_part_of(lines: list, printed: str) -> bool:
    """Whether some lines stand in a printed text, in their order."""
    rest = iter(printed.splitlines())
    return len(lines) > 0 and all(line in rest for line in lines)
