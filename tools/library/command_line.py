"""The words that the tools for runs share: which run it is, and what is required of it."""

import argparse
from typing import Iterable, List

from library.program import program_of
from library.requirement_files import read_requirements
from library.requirements import Requirement
from library.runs import Source, read_run
from library.timeline import Timeline, timeline_of


def run_words(description: str, epilog: str, formats: Iterable[str] = ()) -> argparse.ArgumentParser:
    """A command line that names a run, and before it one of some formats."""
    words = argparse.ArgumentParser(
        description=description, epilog=epilog, formatter_class=argparse.RawDescriptionHelpFormatter
    )
    if formats:
        words.add_argument("format", choices=sorted(formats), help="the format")
    words.add_argument("configuration", metavar="CFG", help="a configuration")
    words.add_argument("stimuli", metavar="STIM", help="the stimuli of its cores")
    words.add_argument("--schedule", metavar="FILE", help="the turns of the run, in place of the default schedule")
    add_program(words)
    return words


def add_program(words: argparse.ArgumentParser) -> None:
    """Adds the option for the program."""
    text = "the program; else that of the environment variable MCOS, that of the path, or the built one"
    words.add_argument("--mcos", metavar="PROGRAM", help=text)


def add_requirements(words: argparse.ArgumentParser, text: str) -> None:
    """Adds the options for requirements; the text says what is printed of one."""
    words.add_argument("--require", metavar="TEXT", action="append", default=[], help=text)
    text = "the same for each requirement in FILE; may be given several times"
    words.add_argument("--requirements", metavar="FILE", action="append", default=[], help=text)


def requirements_of(given: argparse.Namespace) -> List[Requirement]:
    """The requirements of the command line, and behind them those of its files."""
    in_files = [requirement for path in given.requirements for requirement in read_requirements(path)]
    return [Requirement(text) for text in given.require] + in_files


def source_of(given: argparse.Namespace) -> Source:
    """What the command line wants to be run."""
    return Source(program_of(given.mcos), given.configuration, given.stimuli, given.schedule)


def timeline_for(source: Source) -> Timeline:
    """The timeline of a run of the program."""
    return timeline_of(read_run(source))


def count(word: str) -> int:
    """A number of the command line that counts something."""
    if not word.isdecimal() or int(word) < 1:
        raise argparse.ArgumentTypeError("%r is no number from 1 on" % word)
    return int(word)
