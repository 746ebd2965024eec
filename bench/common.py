"""What the scripts of bench share: programs that are built beside a copy of the crates, and their texts.

The programs' sources lie in bench/programs under names that no crate has, since the merge gate refuses a source
that no listed crate holds."""
import argparse
import contextlib
import importlib.machinery
import importlib.util
import json
import os
import re
import shutil
import statistics
import subprocess
import sys
import tempfile

CORES = 8
ROOT = os.path.dirname(os.path.dirname(os.path.abspath(__file__)))
PROGRAM = os.path.join(ROOT, "crates/mcos/out/mcos")
SOURCES = os.path.join(ROOT, "bench", "programs")
CLOCK = {"src/clock.rt": "clock.rt.txt"}
# Debian's package `time`.
TIME = "/usr/bin/time"
# Of each program the libraries that it names, and its files.
PROGRAMS = {
    "bench_readings": ("osconf osplan anyhow", {"src/main.rt": "readings.rt.txt", **CLOCK}),
    "bench_values": ("serde_json anyhow", {"src/main.rt": "values.rt.txt", **CLOCK}),
    "bench_world": (
        "osbase osconf osworld anyhow",
        {"src/main.rt": "world.rt.txt", **CLOCK},
    ),
    "bench_loop": (
        "osbase osconf osplan osmail oskernel osrun anyhow",
        {
            "src/main.rt": "loop.rt.txt",
            "src/seats.rt": "seats.rt.txt",
            "proofs/seats/Seat/new/Answers.antt": "seats_new.antt.txt",
            **CLOCK,
        },
    ),
}


@contextlib.contextmanager
def workshop(folder):
    """The folder that is given, which stays with what is built there, or else one for this run alone."""
    if folder:
        os.makedirs(folder, exist_ok=True)
        yield os.path.abspath(folder)
    else:
        with tempfile.TemporaryDirectory(prefix="mcos-bench-") as folder:
            yield folder


def listed():
    """The libraries that each crate of the repository names."""
    found = {}
    with open(os.path.join(ROOT, "crates.txt")) as file:
        for line in file:
            head, _, libraries = line.partition("#")[0].partition(":")
            if head.strip():
                found[head.split()[0]] = libraries.split()
    return found


def below(libraries, crates):
    """The repository's crates among the libraries, and those below them."""
    found = set()
    for library in libraries:
        if library in crates:
            found |= {library} | below(crates[library], crates)
    return found


def copy_crate(folder, name):
    """Copies a library with what is proved of it, so that nothing is proved again."""
    to = os.path.join(folder, "crates", name)
    shutil.rmtree(to, ignore_errors=True)
    for part in ("src", "specs", "proofs", "out/rlib"):
        whole = os.path.join(ROOT, "crates", name, part)
        if os.path.isdir(whole):
            os.makedirs(os.path.dirname(os.path.join(to, part)), exist_ok=True)
            subprocess.run(["cp", "-a", "--reflink=auto", whole, os.path.join(to, part)], check=True)


def build(folder, names):
    """Proves and builds these programs as `rt run` builds each program, and gives their paths."""
    crates = listed()
    needed = set().union(*(below(PROGRAMS[name][0].split(), crates) for name in names))
    for name in needed:
        copy_crate(folder, name)
    with open(os.path.join(folder, "crates.txt"), "w") as file:
        for name in sorted(needed):
            file.write("%s: %s\n" % (name, " ".join(crates[name])))
        for name in names:
            file.write("%s: %s\n" % (name, PROGRAMS[name][0]))
            copy_program(folder, name)
    return [build_one(folder, name) for name in names]


def copy_program(folder, name):
    for path, source in PROGRAMS[name][1].items():
        to = os.path.join(folder, "crates", name, path)
        os.makedirs(os.path.dirname(to), exist_ok=True)
        shutil.copy(os.path.join(SOURCES, source), to)


def build_one(folder, name):
    crate = os.path.join(folder, "crates", name)
    print("building %s" % name, file=sys.stderr, flush=True)
    # Without words the program ends at once.
    ran = subprocess.run(["rt", "run", "--jobs", "2"], cwd=crate, capture_output=True, text=True)
    if ran.returncode:
        sys.exit("%s was not built:\n%s%s" % (name, ran.stdout, ran.stderr))
    return os.path.join(crate, "out", name)


def built(program):
    """The path of a program that is there."""
    if not os.path.exists(program):
        sys.exit("no program at %s: `cd crates/mcos && rt run -- run data/config.json data/stim.json` builds it" % program)
    return os.path.abspath(program)


def needed(command):
    """The path of a command of the system that a script cannot do without."""
    return shutil.which(command) or sys.exit("no command `%s`, which this script needs" % command)


def positive(word):
    """A number of the command line, from 1 on."""
    if not word.isdecimal() or int(word) < 1:
        raise argparse.ArgumentTypeError("%r is no number from 1 on" % word)
    return int(word)


def script(name):
    """A script of bench, whose configurations and stimuli other scripts have too."""
    loader = importlib.machinery.SourceFileLoader(name, os.path.join(ROOT, "bench", name))
    module = importlib.util.module_from_spec(importlib.util.spec_from_loader(name, loader))
    loader.exec_module(module)
    return module


def instructions_of(program, folder, words, status=0):
    """How many instructions the program takes in this folder by these words, and what it prints."""
    tool = [needed("valgrind"), "--tool=callgrind", "--callgrind-out-file=/dev/null"]
    ran = subprocess.run([*tool, program, *words], cwd=folder, capture_output=True)
    found = re.search(rb"refs:\s*([\d,]+)", ran.stderr)
    if ran.returncode != status or not found:
        sys.exit("%s %s: %s" % (program, " ".join(words), ran.stderr.decode(errors="replace")[-500:]))
    return int(found.group(1).replace(b",", b"")), ran.stdout


def peak_of(words, **options):
    """Runs a program by these words, and gives its peak memory in KiB. GNU time starts it, since a child of Python's own
    is counted with the memory that Python had."""
    with tempfile.NamedTemporaryFile(mode="r") as file:
        ran = subprocess.run([needed(TIME), "-q", "-f", "%M", "-o", file.name, *words], **options)
        if ran.returncode:
            sys.exit("%s ended with status %d" % (words[0], ran.returncode))
        return int(file.read())


def spread(figures, form):
    """The median of a figure's measurements, and where there are several the least and the greatest."""
    if len(figures) == 1:
        return form % figures[0]
    return "%s (%s to %s)" % tuple(form % figure for figure in (statistics.median(figures), min(figures), max(figures)))


def numbers(program, *words):
    """What the program prints, as numbers."""
    ran = subprocess.run([program, *map(str, words)], stdout=subprocess.PIPE, check=True)
    return [int(line) for line in ran.stdout.split()]


def write(folder, name, value):
    path = os.path.join(folder, name)
    with open(path, "w") as file:
        json.dump(value, file)
    return path


def broken(text, others):
    """Each text that differs in one place: a byte is left out, doubled, or replaced by each of some others."""
    for place in range(len(text)):
        yield text[:place] + text[place + 1 :]
        yield text[: place + 1] + text[place:]
        for other in others:
            yield text[:place] + bytes([other]) + text[place + 1 :]


def stimuli_of(count, cores=CORES):
    """So many `op` for each core."""
    return {str(core): " ".join(["op"] * count) for core in range(cores)}
