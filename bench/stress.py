#!/usr/bin/env python3
"""Runs the built program over random sessions that share an account and a symbol, and judges it.

usage: stress.py [--runs N] [--seed N] [--sessions N...] [--check] [--gate PATH] [--keep FOLDER]

2,000 runs, seed 1. A run has 2 to 64 sessions, or as many as are asked for, by turns of several N.
Its journal has to be legal and to admit within the limits at every place; each session's acts and both
streams, the totals and the status have to be those of the plain model in `model` over its input and
its reads. With `--check` the program's own `check` has to call each journal lawful too. It prints what
it ran and saw, and in how many runs sessions met: the places of their reads in the firm's tree
overlap. It ends with status 1 at the first run that is wrong, whose files it leaves in FOLDER, where
one is given.
"""
import argparse
import os
import platform
import random
import shutil
import subprocess
import sys
import tempfile
import time
from collections import Counter

import loads
from model.judge import Wrong, demand, judge_run

HERE = os.path.dirname(os.path.abspath(__file__))
PROGRAM = os.path.join(HERE, "..", "crates", "gate_program", "out", "gate_program")
# What a check of a lawful journal ends with and prints.
LAWFUL = 0, b"LAWFUL\n"


def write(folder, name, data):
    """Writes a file, and gives its path."""
    path = os.path.join(folder, name)
    with open(path, "wb") as file:
        file.write(data)
    return path


def read(folder, name):
    """A file's bytes."""
    with open(os.path.join(folder, name), "rb") as file:
        return file.read()


def made(number, sessions=None):
    """The limit file and the inputs of a run, of so many sessions where that is given."""
    dice = random.Random(number)
    limits = loads.limits(dice)
    sessions = sessions or dice.choice((2, 2, 3, 4, 5, 8, 8, 16, 32, 64))
    messages = dice.choice((5, 20, 60, 200)) if sessions <= 8 else dice.choice((5, 20, 60))
    return limits, [loads.session(dice, session, messages) for session in range(sessions)]


def call(program, folder, limits, inputs, command="run", **more):
    """Runs a command of the program in a folder. Gives the call that is done, and the folder of its
    outputs."""
    out = os.path.join(folder, "out")
    os.mkdir(out)
    names = [write(folder, f"s{number:02}.fix", data) for number, data in enumerate(inputs)]
    words = [program, command, write(folder, "limits.csv", limits.encode()), out] + names
    return subprocess.run(words, capture_output=True, check=False, **more), out


def has_command(program, command):
    """Whether there is a program that tells this command in its usage."""
    try:
        done = subprocess.run([program], capture_output=True, check=False)
    except OSError:
        return False
    return f"gate {command} ".encode() in done.stdout


def check(program, folder, journal, sessions):
    """The status and the text of a check of a journal over a run's own files."""
    names = [os.path.join(folder, f"s{number:02}.fix") for number in range(sessions)]
    words = [program, "check", os.path.join(folder, "limits.csv"),
             write(folder, "journal.csv", journal)]
    done = subprocess.run(words + names, capture_output=True, check=False)
    return done.returncode, done.stdout


def results(done, out, sessions):
    """What `judge_run` takes behind the inputs."""
    venues = [read(out, f"s{number:02}.venue") for number in range(sessions)]
    clients = [read(out, f"s{number:02}.client") for number in range(sessions)]
    journal = read(out, "journal.csv").decode()
    return venues, clients, journal, done.stdout.decode(), done.returncode


def overlaps(acts):
    """Whether sessions met: the places of their reads in the firm's tree overlap."""
    spans = []
    for own in acts:
        places = [act[3] for act in own if act[0] == "read" and act[1] == 0]
        if places:
            spans.append((min(places), max(places)))
    spans.sort()
    return any(after[0] < before[1] for before, after in zip(spans, spans[1:]))


def count(counts, acts):
    """Adds what a run's sessions did."""
    counts["runs"] += 1
    counts["sessions"] += len(acts)
    counts["met"] += overlaps(acts)
    for own in acts:
        for act in own:
            if act[0] == "refused":
                counts["refused", act[2]] += 1
            elif act[0] == "noted":
                counts["noted", act[2]] += 1
            counts[act[0]] += 1


def parser_of(runs):
    """What each script of random runs takes, with as many runs where none are asked for."""
    parser = argparse.ArgumentParser()
    parser.add_argument("--runs", type=int, default=runs)
    parser.add_argument("--seed", type=int, default=1)
    parser.add_argument("--gate", default=PROGRAM)
    parser.add_argument("--keep")
    return parser


def arguments():
    """What the command line asks for."""
    parser = parser_of(2_000)
    parser.add_argument("--sessions", type=int, nargs="+")
    parser.add_argument("--check", action="store_true")
    return parser.parse_args()


def tell(counts, seconds):
    """Prints the figures."""
    causes = ", ".join(f"{code}: {counts['refused', code]:,}" for code in range(1, 17))
    notes = ", ".join(f"{code}: {counts['noted', code]:,}" for code in range(1, 7))
    print(f"{counts['runs']:,} runs of {counts['sessions']:,} sessions, which met in "
          f"{counts['met']:,} of them, {seconds:.0f} s; {platform.machine()}, "
          f"{os.cpu_count()} processors, load {os.getloadavg()[0]:.1f}")
    if counts["checked"]:
        print(f"{counts['checked']:,} journals were called lawful by the program's own check")
    print(f"posts {counts['post']:,}, reads {counts['read']:,}, sent {counts['sent']:,}, "
          f"refused {counts['refused']:,}, noted {counts['noted']:,}")
    print(f"refused by code  {causes}")
    print(f"noted by code    {notes}")


def judge(asked, folder, number, counts):
    """Judges a run."""
    many = asked.sessions[number % len(asked.sessions)] if asked.sessions else None
    limits, inputs = made(asked.seed * 1_000_003 + number, many)
    done, out = call(asked.gate, folder, limits, inputs)
    found = results(done, out, len(inputs))
    count(counts, judge_run(limits, inputs, *found))
    if asked.check:
        told = check(asked.gate, folder, found[2].encode(), len(inputs))
        demand(told == LAWFUL, "its own check", told)
        counts["checked"] += 1


def run_all(asked, judge_one):
    """Judges all runs. Gives the counts, or ends with status 1 at the first run that is wrong."""
    counts = Counter()
    for number in range(asked.runs):
        with tempfile.TemporaryDirectory() as folder:
            try:
                judge_one(asked, folder, number, counts)
            except (Wrong, OSError) as wrong:
                if asked.keep:
                    shutil.copytree(folder, asked.keep)
                print(f"run {number} of seed {asked.seed} is wrong: {wrong!r}")
                sys.exit(1)
    return counts


def main():
    asked, start = arguments(), time.monotonic()
    tell(run_all(asked, judge), time.monotonic() - start)


if __name__ == "__main__":
    main()
