#!/usr/bin/env python3
"""Compares the answers of both sides on every recording, then prints what each side costs.

Instructions are counted by the emulator, which writes a line for each one executed; they are the same on every machine and at any load.
A record's or a call's share is the growth from a smaller number of them to a larger one, so that starting and ending drop out.

usage: measure.py FOLDER LISTING [WORDS THAT RUN AN X86-64 PROGRAM]
"""
import functools
import os
import pathlib
import platform
import statistics
import subprocess
import sys
import tempfile
import time

FOLDER, LISTING, RUN = pathlib.Path(sys.argv[1]), sys.argv[2], sys.argv[3:]
LISTINGS = [LISTING, str(FOLDER / "plain_listing")]
CALLS = [str(FOLDER / "calls"), str(FOLDER / "plain_calls")]
NAMES = ("classroom", "dump", "random")
MEMORIES = ("unheard", "half", "told")
BENCHES = tuple(f"bench-{command}" for command in ("FD", "C9", "EF", "FA", "CB", "FC", "CA", "F4", "F6"))
DEPTH = 64  # of the way back, where a row names none
OTHER_DEPTHS = (0, 1, 16, 63)
EMULATOR = ["qemu-x86_64"] + RUN[1:]
TURNS = 3000  # calls of a comparison
TIMES = 9  # runs of each side for a wall time


def output(words, recording=None):
    with open(recording or os.devnull, "rb") as stdin:
        return subprocess.run(words, stdin=stdin, stdout=subprocess.PIPE, check=True).stdout


def compare(title, words_of_sides, recording=None):
    ours, plain = (output(RUN + words, recording) for words in words_of_sides)
    if ours != plain:
        sys.exit(f"{title}: ours wrote\n{ours.decode()}plain wrote\n{plain.decode()}")


def compare_all():
    recordings = sorted(FOLDER.glob("*.rec"))
    for recording in recordings:
        compare(recording.name, [[program] for program in LISTINGS], recording)
    calls = [(name, mode, TURNS, DEPTH) for name in NAMES for mode in ("hear", "back", "cell", "name", "row", "plan", "check")]
    calls += [("random", mode, TURNS, depth) for mode in ("back", "check") for depth in OTHER_DEPTHS]
    calls += [(name, mode, TURNS, DEPTH) for name in MEMORIES for mode in ("name", "plan")]
    calls += [(name, "lesson", TURNS, DEPTH) for name in BENCHES + NAMES]
    calls += [("sweep", "check", TURNS, DEPTH), ("sweep", "lesson", records("sweep", None), DEPTH)]
    for name, mode, turns, depth in calls:
        recording = recording_of(name, None if name == "sweep" else "large" if name in NAMES else "small")
        compare(f"{mode} {name}, depth {depth}", [[program, mode, str(turns), str(recording), str(depth)] for program in CALLS])
    print(f"{len(recordings)} listings and {len(calls)} rows of calls are the same on both sides\n")


def recording_of(name, size):
    return FOLDER / (f"{name}.{size}.rec" if size else f"{name}.rec")


@functools.lru_cache(maxsize=None)
def counter():
    """The words after which come the file for a line for each instruction, and a program. Newer emulators name one of them anew."""
    usage = subprocess.run(EMULATOR + ["-h"], stdout=subprocess.PIPE).stdout
    single = "-one-insn-per-tb" if b"-one-insn-per-tb" in usage else "-singlestep"
    return EMULATOR + [single, "-d", "exec,nochain", "-D"]


def instructions(words, recording=None):
    """How many instructions a run executes; the lines go through a pipe, for they are many."""
    with tempfile.TemporaryDirectory() as folder:
        pipe = os.path.join(folder, "lines")
        os.mkfifo(pipe)
        counting = subprocess.Popen(["wc", "-l", pipe], stdout=subprocess.PIPE)
        output(counter() + [pipe] + words, recording)
        return int(counting.communicate()[0].split()[0])


@functools.lru_cache(maxsize=None)
def records(name, size):
    words = output(RUN + LISTINGS[1:], recording_of(name, size)).split()
    return int(words[-3]) + int(words[-1])  # heard and refused


def per_record(program, name):
    few, many = (instructions([program], recording_of(name, size)) for size in ("small", "large"))
    return (many - few) / (records(name, "large") - records(name, "small"))


@functools.lru_cache(maxsize=None)
def per_turn(program, mode, name, depth):
    """One turn for each frame of the recording, against none."""
    turns = records(name, "small")
    few, many = (instructions([program, mode, str(n), str(recording_of(name, "small")), str(depth)]) for n in (0, turns))
    return (many - few) / turns


def per_call(program, mode, name, depth=DEPTH):
    """A turn's cost without what the turn itself takes: the loop, and for a step back the hearing before it."""
    return per_turn(program, mode, name, depth) - per_turn(program, "hear" if mode == "back" else "none", name, depth)


def row(title, ours, plain, digits):
    print(f"{title:<38}{ours:>12.{digits}f}{plain:>12.{digits}f}{ours / plain:>9.2f}")


def print_instructions():
    print(f"{'instructions':<38}{'ours':>12}{'plain C':>12}{'ratio':>9}")
    for name in NAMES:
        row(f"listing, per record: {name}", *(per_record(program, name) for program in LISTINGS), 1)
    rows = [("hear", name, DEPTH) for name in NAMES] + [(mode, "dump", DEPTH) for mode in ("back", "cell", "row")]
    rows += [(mode, "dump", 16) for mode in ("hear", "back")]
    rows += [(mode, name, DEPTH) for mode in ("name", "plan") for name in MEMORIES] + [("bench", name, DEPTH) for name in BENCHES]
    for mode, name, depth in rows:
        title = f"{mode} {name}" + (f", depth {depth}" if depth != DEPTH else "")
        row(f"library, per call: {title}", *(per_call(program, mode, name, depth) for program in CALLS), 1)


def seconds(program, recording):
    start = time.perf_counter()
    output([program], recording)
    return time.perf_counter() - start


def print_times():
    """Both sides in turn, so that a change of the machine's load falls on both; the median of each."""
    print(f"\n{'nanoseconds per record':<38}{'ours':>12}{'plain C':>12}{'ratio':>9}")
    for name in NAMES:
        took = [[seconds(program, recording_of(name, "long")) for program in LISTINGS] for _ in range(TIMES)]
        n = records(name, "long")
        row(f"listing: {name}", *(1e9 * statistics.median(column) / n for column in zip(*took)), 1)


compare_all()
print_instructions()
if platform.machine() == "x86_64":
    print_times()
