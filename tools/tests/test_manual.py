"""Holds the manual page and the completions to the program's help and to docs/FORMATS.md."""

import functools
import os
import re
import shutil
import subprocess
import sys
import tempfile
import unittest
from dataclasses import dataclass
from typing import Dict, List, Optional, Tuple

sys.path.insert(0, os.path.dirname(os.path.abspath(__file__)))
from sample_runs import PROGRAM, ROOT, TOOLS, needs_program  # noqa: E402

PAGE = os.path.join(ROOT, "docs", "mcos.1")
FORMATS = os.path.join(ROOT, "docs", "FORMATS.md")
BASH_COMPLETION = os.path.join(TOOLS, "completion", "mcos.bash")
ZSH_COMPLETION = os.path.join(TOOLS, "completion", "_mcos")


def needs_command(name):
    """Skips a test if a command of the system is not installed."""
    return unittest.skipUnless(shutil.which(name), "%s is not installed" % name)


def read(path):
    with open(path, encoding="utf-8") as file:
        return file.read()


def printed(*words, **options):
    """What a command prints, on both outputs, and its status."""
    return subprocess.run(words, capture_output=True, text=True, timeout=60, **options)


# ---------------------------------------------------------------------------------------------------------------------
# The program's help
# ---------------------------------------------------------------------------------------------------------------------


@dataclass(frozen=True)
class Option:
    """An option as help lists it, such as `--schedule <FILE>` or `-h, --help`."""

    short: Optional[str]
    long: str
    value: Optional[str]
    about: str

    def names(self) -> List[str]:
        return [name for name in (self.short, self.long) if name]


@dataclass(frozen=True)
class Help:
    """What the program's help says of itself, or of one of its commands."""

    about: str
    commands: Dict[str, str]  # what each does
    arguments: Tuple[str, ...]  # a required one as `CFG`, another one as `[COMMAND]`
    options: Tuple[Option, ...]

    def option_names(self) -> List[str]:
        return [name for option in self.options for name in option.names()]

    def usage(self, command: str) -> str:
        """The words of a command, as the manual page has them."""
        own = [option for option in self.options if not option.short]
        optional = ["[%s]" % " ".join(filter(None, (option.long, option.value))) for option in own]
        return " ".join([command, *self.arguments, *optional])


def sections(text):
    """The lines of the sections `Commands:`, `Arguments:` and `Options:` of a help."""
    found = {"Commands": [], "Arguments": [], "Options": []}
    lines = []
    for line in text.splitlines():
        title = re.fullmatch(r"(\w+):", line)
        if title or not line:
            lines = found[title.group(1)] if title else []
        else:
            lines.append(line)
    return found


def option_of(line):
    short, long, value, about = re.fullmatch(r" +(?:(-\w), )?(--[\w-]+)(?: <(\w+)>)? +(.*)", line).groups()
    return Option(short, long, value, about)


def argument_of(line):
    required, other = re.match(r"  (?:<(\w+)>|(\[\w+\]))", line).groups()
    return required or other


@functools.lru_cache(maxsize=None)
def help_of(*command):
    """The help of a command, or of the program."""
    text = printed(PROGRAM, "help", *command).stdout
    found = sections(text)
    return Help(
        about=text.splitlines()[0],
        commands=dict(line.split(None, 1) for line in found["Commands"]),
        arguments=tuple(argument_of(line) for line in found["Arguments"]),
        options=tuple(option_of(line) for line in found["Options"]),
    )


def helps():
    """The help of each command."""
    return {command: help_of(command) for command in help_of().commands}


# ---------------------------------------------------------------------------------------------------------------------
# The manual page
# ---------------------------------------------------------------------------------------------------------------------


def page_section(title):
    """The lines of a section of the manual page."""
    return read(PAGE).split(".Sh %s\n" % title)[1].split("\n.Sh ")[0].splitlines()


def words_of(macros):
    """The words that a line of mdoc prints: `Cm run Ar CFG Op Fl \\-schedule Ar FILE` is `run CFG [--schedule FILE]`.

    `Oo .. Oc` is the same as `Op`, where more follows in the line."""
    words, is_flag, is_optional = [], False, False
    for macro in macros.split():
        if macro in ("Cm", "Ar", "Fl"):
            is_flag = macro == "Fl"
        elif macro in ("Op", "Oo"):
            is_optional = True
            words.append("[")
        elif macro == "Oc":
            is_optional = False
            words.append("]")
        else:
            has_dash = is_flag and macro not in ("|", ",")
            words.append(("-" if has_dash else "") + macro.replace("\\-", "-"))
    return " ".join(words).replace("[ ", "[").replace(" ]", "]") + ("]" if is_optional else "")


def synopsis():
    """What stands behind each `.Nm` of the synopsis."""
    entries = " ".join(line.lstrip(".") for line in page_section("SYNOPSIS")).split("Nm ")
    return [words_of(entry) for entry in entries if entry]


def items(title):
    """The items of the lists in a section, each with the lines of its text."""
    found = []
    for line in page_section(title):
        if line.startswith(".It "):
            found.append((words_of(line[len(".It ") :]), []))
        elif found:
            found[-1][1].append(line)
    return found


def formats_column(title):
    """The first cells of the table in a section of docs/FORMATS.md."""
    rows = []
    for line in read(FORMATS).split("\n## %s\n" % title)[1].splitlines():
        if line.startswith("|"):
            rows.append(line.split("|")[1].strip())
        elif rows:
            break
    return rows[2:]


class ManualPage(unittest.TestCase):
    @needs_program
    def test_synopsis_has_each_command_with_its_words(self):
        expected = [help.usage(command) for command, help in helps().items()]
        self.assertEqual(synopsis(), expected + [" | ".join(help_of().option_names())])

    @needs_program
    def test_description_has_each_command_with_its_words(self):
        found = [item for item, _ in items("DESCRIPTION") if item.split()[0] in help_of().commands]
        self.assertEqual(found, [help.usage(command) for command, help in helps().items()])

    @needs_program
    def test_description_has_each_option_and_no_other(self):
        options = {option for help in [help_of(), *helps().values()] for option in help.options}
        expected = {" , ".join(option.names()) + (" " + option.value if option.value else "") for option in options}
        found = [item for item, _ in items("DESCRIPTION") if item.startswith("-")]
        self.assertEqual(set(found), expected)

    @needs_program
    def test_it_says_which_commands_have_help(self):
        lines = dict(items("DESCRIPTION"))["-h , --help"]
        said = " ".join(words_of(line[1:]) for line in lines if line.startswith(".Cm ")).replace(",", "").split()
        self.assertEqual(said, [command for command, help in helps().items() if "--help" in help.option_names()])

    @needs_program
    def test_version(self):
        version = re.search(r"^\.Os (.*)$", read(PAGE), re.MULTILINE).group(1)
        self.assertEqual(version + "\n", printed(PROGRAM, "--version").stdout)

    def test_exit_statuses_are_those_of_formats(self):
        self.assertEqual([item for item, _ in items("EXIT STATUS")], formats_column("Exit statuses"))

    def test_status_0_names_the_lines_that_readme_names(self):
        row = re.search(r"^\| 0 \| (.*) \|$", read(os.path.join(ROOT, "README.md")), re.MULTILINE).group(1)
        text = next(text for item, text in items("EXIT STATUS") if item == "0")
        named = [line.split(" ")[1] for line in text if line.startswith(".Ql ")]
        self.assertEqual(named, re.findall("`(.*?)`", row))
        self.assertEqual(named, ["E_OS_", "conflict"])

    def test_faults_are_those_of_formats(self):
        self.assertEqual([item for item, _ in items("FAULTS")], formats_column("Faults"))

    def test_each_status_and_fault_is_explained(self):
        for item, text in items("EXIT STATUS") + items("FAULTS"):
            self.assertTrue(text and text[0] not in ("", ".El"), item)

    @needs_command("groff")
    def test_groff_has_no_warning(self):
        self.assertEqual(printed("groff", "-mdoc", "-ww", "-z", "-Tutf8", PAGE).stderr, "")

    @needs_command("mandoc")
    def test_mandoc_has_no_warning(self):
        self.assertEqual(printed("mandoc", "-T", "lint", "-W", "warning", PAGE).stdout, "")

    @needs_program
    def test_examples_are_accepted(self):
        commands = [line[len(".Dl $ ") :].replace("\\-", "-") for line in page_section("EXAMPLES") if "$" in line]
        self.assertGreater(len(commands), 5)
        with tempfile.TemporaryDirectory() as scratch:
            folder = shutil.copytree(os.path.join(ROOT, "examples", "separate"), os.path.join(scratch, "separate"))
            os.symlink(PROGRAM, os.path.join(scratch, "mcos"))
            path = {**os.environ, "PATH": scratch + os.pathsep + os.environ["PATH"]}
            for command in commands:
                self.assertEqual(printed("sh", "-c", command, cwd=folder, env=path).stderr, "", command)


# ---------------------------------------------------------------------------------------------------------------------
# Completion
# ---------------------------------------------------------------------------------------------------------------------

# What bash does for the key TAB behind the words: it prints the option of `compopt`, if one is set, and the replies.
ASK_BASH = """
source "$1"
compopt() { printf '%s\\n' "$*"; }
COMP_WORDS=("${@:2}")
COMP_CWORD=$((${#COMP_WORDS[@]} - 1))
_mcos
((${#COMPREPLY[@]} == 0)) || printf '%s\\n' "${COMPREPLY[@]}"
"""

FILES = ["-o filenames", "config.json", "old", "stimuli.json"]
ANY_FILE = ["-o default"]

# The words before the key TAB, and the replies in any order. bash divides `--schedule=x` into three words.
BASH_CASES = [
    ([""], ["check", "cut", "group", "groups", "help", "replay", "run", "threads"]),
    (["c"], ["check", "cut"]),
    (["x"], []),
    (["-"], ["--help", "--version", "-V", "-h"]),
    (["--v"], ["--version"]),
    (["help", ""], ["check", "cut", "group", "groups", "help", "replay", "run", "threads"]),
    (["help", "run", ""], []),
    (["run", ""], FILES),
    (["run", "st"], ["-o filenames", "stimuli.json"]),
    (["run", "old/"], ["-o filenames", "old/config.json"]),
    (["run", "notes"], ANY_FILE),
    (["run", "config.json", ""], FILES),
    (["run", "config.json", "stimuli.json", ""], []),
    (["run", "config.json", "stimuli.json", "--s"], ["--schedule"]),
    (["run", "-"], ["--help", "--items", "--schedule", "-h"]),
    (["run", "--schedule", ""], FILES),
    (["run", "--schedule", "="], FILES),
    (["run", "--schedule", "=", "con"], ["-o filenames", "config.json"]),
    (["run", "--schedule", "turns.json", "-"], ["--help", "--items", "-h"]),
    (["run", "config.json", "--items", ""], ["0", "12", "17"]),
    (["run", "config.json", "--items", "=", "1"], ["12", "17"]),
    (["run", "--items", "0", "--schedule", "turns.json", "-"], ["--help", "-h"]),
    (["run", "--schedule", "=", "turns.json", "config.json", "st"], ["-o filenames", "stimuli.json"]),
    (["run", "--schedule", "turns.json", "config.json", "stimuli.json", ""], []),
    (["check", ""], FILES),
    (["check", "-"], ["--help", "-h"]),
    (["check", "config.json", ""], []),
    (["cut", ""], FILES),
    (["cut", "config.json", ""], ["0", "12", "17"]),
    (["cut", "config.json", "1"], ["12", "17"]),
    (["cut", "old/config.json", ""], ["3"]),
    (["cut", '"old/config.json"', ""], ["3"]),
    (["cut", "config.json", "0", ""], []),
    (["cut", "stimuli.json", ""], []),
    (["cut", "notes.txt", ""], []),
    (["cut", "old", ""], []),
    (["cut", "nothing.json", ""], []),
    (["g"], ["group", "groups"]),
    (["groups", ""], FILES),
    (["groups", "-"], ["--help", "-h"]),
    (["groups", "config.json", ""], []),
    (["group", ""], FILES),
    (["group", "config.json", ""], ["0", "12", "17"]),
    (["group", "config.json", "0", ""], []),
    (["replay", ""], FILES),
    (["replay", "config.json", ""], ["0", "12", "17"]),
    (["replay", "config.json", "0", ""], ANY_FILE),
    (["replay", "config.json", "0", "notes.txt", ""], []),
    (["threads", "config.json", ""], FILES),
    (["threads", "config.json", "stimuli.json", ""], []),
    (["threads", "-"], ["--help", "--items", "--mail", "--order", "--turns", "-h"]),
    (["threads", "--mail", ""], ["locked", "ring"]),
    (["threads", "--mail", "=", "l"], ["locked"]),
    (["threads", "--mail", "=", "r"], ["ring"]),
    (["threads", "--turns", ""], []),
    (["threads", "--turns", "1000", "--mail", "locked", "-"], ["--help", "--items", "--order", "-h"]),
    (["threads", "--order", "--o"], []),
    (["threads", "config.json", "--items", ""], ["0", "12", "17"]),
]

BASH_FOLDER = {
    "config.json": '{"cores":[{"id":0},{"id":12},{"id":17},{"id":"5"}]}',
    "stimuli.json": '{"0":"op"}',
    "notes.txt": "no JSON",
    os.path.join("old", "config.json"): '{"cores":[{"id":3}]}',
}


@needs_command("bash")
class BashCompletion(unittest.TestCase):
    @classmethod
    def setUpClass(cls):
        scratch = tempfile.TemporaryDirectory()
        cls.addClassCleanup(scratch.cleanup)
        cls.folder = scratch.name
        os.mkdir(os.path.join(cls.folder, "old"))
        for name, text in BASH_FOLDER.items():
            with open(os.path.join(cls.folder, name), "w", encoding="utf-8") as file:
                file.write(text)

    def replies(self, words):
        """What bash answers to the key TAB behind `mcos` and these words."""
        shell = printed("bash", "--norc", "-c", ASK_BASH, "bash", BASH_COMPLETION, "mcos", *words, cwd=self.folder)
        self.assertEqual((shell.returncode, shell.stderr), (0, ""), words)
        return sorted(shell.stdout.splitlines())

    def test_cases(self):
        for words, expected in BASH_CASES:
            with self.subTest(words=words):
                self.assertEqual(self.replies(words), expected)

    @needs_program
    def test_commands_are_those_of_help(self):
        commands = sorted(help_of().commands)
        self.assertEqual(self.replies([""]), commands)
        self.assertEqual(self.replies(["help", ""]), commands)

    @needs_program
    def test_options_are_those_of_help(self):
        self.assertEqual(self.replies(["-"]), sorted(help_of().option_names()))
        for command, help in helps().items():
            self.assertEqual(self.replies([command, "-"]), sorted(help.option_names()), command)

    @needs_program
    def test_arguments_are_as_many_as_in_help(self):
        for command, help in helps().items():
            words = [command] + ["config.json"] * len(help.arguments)
            for count in range(1, len(words)):
                self.assertNotEqual(self.replies(words[:count] + [""]), [], words[:count])
            self.assertEqual(self.replies(words + [""]), [], words)


def zsh_commands():
    """The commands that the completion of zsh describes."""
    listed = re.search(r"commands=\(\n(.*?)\n  \)", read(ZSH_COMPLETION), re.DOTALL).group(1)
    return dict(line.strip()[1:-1].split(":", 1) for line in listed.splitlines())


def zsh_specifications(command):
    """What _arguments is given for a command, or for the program."""
    text = read(ZSH_COMPLETION)
    pattern = r"_arguments -C (.*?)&& return" if command is None else r"\n    %s\)\n(.*?)\n      ;;" % command
    return re.findall(r"'.*'", re.search(pattern, text, re.DOTALL).group(1))


def zsh_options(command):
    """The names of the options of a command, each with what is said of it."""
    found = {}
    for specification in zsh_specifications(command):
        option = re.fullmatch(r"'(?:\(.*?\)'\{)?(-[^\[\]}'=]*)(?:=|\}')?\[(.*)\].*'", specification)
        if option:
            # zsh has a backslash before a bracket in what is said.
            about = re.sub(r"\\([\[\]])", r"\1", option.group(2))
            found.update({name: about for name in option.group(1).split(",")})
    return found


def zsh_arguments(command):
    """The places of the arguments of a command, their names, which may be empty, and what completes them."""
    places = [re.fullmatch(r"'(\d):([^:]*):(.*)'", specification) for specification in zsh_specifications(command)]
    return [place.groups() for place in places if place]


class ZshCompletion(unittest.TestCase):
    @needs_program
    def test_commands_are_those_of_help(self):
        self.assertEqual(zsh_commands(), help_of().commands)

    @needs_program
    def test_options_are_those_of_help(self):
        for command, help in [(None, help_of()), *helps().items()]:
            expected = {name: option.about for option in help.options for name in option.names()}
            self.assertEqual(zsh_options(command), expected, command)

    @needs_program
    def test_arguments_are_those_of_help(self):
        for command, help in helps().items():
            names = [name.strip() or "[COMMAND]" for _, name, _ in zsh_arguments(command)]
            self.assertEqual(tuple(names), help.arguments, command)

    def test_each_argument_is_completed(self):
        files = '_files -g "*.json(-.)"'
        for command in ("run", "threads"):
            self.assertEqual(zsh_arguments(command), [("1", "CFG", files), ("2", "STIM", files)])
        self.assertEqual(zsh_arguments("check"), [("1", "CFG", files)])
        self.assertEqual(zsh_arguments("cut"), [("1", "CFG", files), ("2", "CORE", "_mcos_cores")])
        self.assertEqual(zsh_arguments("help"), [("1", " ", "_mcos_commands")])
        self.assertEqual(zsh_arguments(None), [("1", " ", "_mcos_commands")])

    def test_cores_are_read_as_by_bash(self):
        script = re.compile(r"python3 -c '\n(.*?)\n'", re.DOTALL)
        self.assertEqual(script.findall(read(ZSH_COMPLETION)), script.findall(read(BASH_COMPLETION)))

    @needs_command("zsh")
    def test_zsh_reads_it(self):
        self.assertEqual(printed("zsh", "-f", "-n", ZSH_COMPLETION).stderr, "")


if __name__ == "__main__":
    unittest.main()
