#!/usr/bin/env python3
"""Refuses each allocation of the built program in turn, over worked runs, and judges what it does.

usage: refuse.py [--onward] [--gate PATH] [--keep FOLDER] [--most N] [RUN...]   all runs of rows.py

`refuse/refuse.c`, which `cc` makes here, is loaded in front of the C library's malloc. The first
allocation is refused, then in a run of its own the second, and so on, until a run makes fewer than
that; with `--onward` all behind it are refused too. Sessions are tasks, so how many a run makes,
and which is which, differs a little from run to run. Each run has to end with status 8 or as it
does with ample memory: with one session the same bytes, text and status; with several a run that
the judge of `stress.py` takes. Where it ends with 8 and a whole journal stands, that has to be
legal, and each session is judged: one that ended for want of memory has the acts and messages of a
number of first frames, so no post without its frame's verdict. It ends with status 1 at the first
run that does otherwise, whose files it leaves in FOLDER, where one is given.
"""
import argparse
import os
import shutil
import subprocess
import sys
import tempfile
from collections import Counter

from model.journal import Fault, read_journal
from model.judge import Wrong, demand, judge_early, judge_journal, judge_run, judge_session
from model.limits import Limits
from rows import RUNS
from stress import PROGRAM, call, read, write

HERE = os.path.dirname(os.path.abspath(__file__))
# How long a run may take.
SECONDS = 60
OUT_OF_MEMORY = 8
ENDED_BY_MEMORY = ("ended", 6, None)


def library(folder):
    """Makes the library that is loaded in front of malloc. Gives its path."""
    path = os.path.join(folder, "refuse.so")
    source = os.path.join(HERE, "refuse", "refuse.c")
    subprocess.run(["cc", "-O2", "-shared", "-fPIC", "-o", path, source], check=True)
    return path


class Done:
    """What a run left: its status, its text, its files by name, and how often it allocated."""

    def __init__(self, done, out, asked):
        self.status, self.told, self.asked = done.returncode, done.stdout, asked
        self.files = {name: read(out, name) for name in sorted(os.listdir(out))}

    def stream(self, number, name):
        """A session's stream; nothing where it wasn't made."""
        return self.files.get(f"s{number:02}.{name}", b"")

    def streams(self, number):
        """Both of them."""
        return self.stream(number, "venue"), self.stream(number, "client")

    def journal(self):
        """The text of the journal; nothing where there is none."""
        return self.files.get("journal.csv", b"").decode()

    def same(self):
        """What has to be the same in each run of one session."""
        return self.status, self.told, self.files


def run(asked, loaded, folder, worked, refused):
    """Runs the program in a folder, with the allocation of this number refused."""
    told = write(folder, "asked", bytes(8))
    world = {**os.environ, "LD_PRELOAD": loaded, "REFUSE_AT": str(refused), "REFUSE_TELL": told}
    if asked.onward:
        world["REFUSE_ONWARD"] = "1"
    done, out = call(asked.gate, folder, worked.limits, worked.inputs, env=world, timeout=SECONDS)
    demand(not done.stderr, "it wrote to standard error", done.stderr)
    return Done(done, out, int.from_bytes(read(folder, "asked"), sys.byteorder))


def judge_ample(worked, ample, done):
    """A run that ended as with ample memory."""
    if len(worked.inputs) == 1:
        demand(done.same() == ample.same(), "it isn't the run with ample memory", done.same())
        return
    venues, clients = zip(*map(done.streams, range(len(worked.inputs))))
    judge_run(worked.limits, worked.inputs, venues, clients, done.journal(), done.told.decode(),
              done.status)


def judge_refused(worked, done):
    """A run that ended for want of memory. Gives how many of its sessions did, None where no whole
    journal stands."""
    try:
        acts, lines = read_journal(done.journal())
    except Fault:
        return None
    if sum(act[0] == "post" for own in acts for act in own) != sum(map(len, lines.values())):
        return None
    limits, ended = Limits(worked.limits).counted(len(worked.inputs)), 0
    judge_journal(done.journal(), limits)
    for number, (data, own) in enumerate(zip(worked.inputs, acts)):
        if own[-1] == ENDED_BY_MEMORY:
            ended += 1
            judge_early(number, limits, data, own, *done.streams(number))
        else:
            judge_session(number, limits, data, own, *done.streams(number))
    return ended


def judge(worked, ample, done, counts):
    """Judges a run in which an allocation may have been refused."""
    if done.status != OUT_OF_MEMORY:
        judge_ample(worked, ample, done)
        counts["as with ample memory"] += 1
        return
    counts["status 8"] += 1
    ended = judge_refused(worked, done)
    counts["with a journal"] += ended is not None
    counts["sessions ended by memory"] += ended or 0


def refuse_each(asked, loaded, name):
    """Refuses each allocation of a worked run in turn. Gives what came."""
    worked, counts, number, ample = RUNS[name], Counter(), 0, None
    while number <= asked.most:
        with tempfile.TemporaryDirectory() as folder:
            try:
                done = run(asked, loaded, folder, worked, number)
                ample = ample or done
                if done.asked < number:
                    break
                judge(worked, ample, done, counts if number else Counter())
            except (Wrong, OSError, subprocess.SubprocessError) as wrong:
                if asked.keep:
                    shutil.copytree(folder, asked.keep)
                print(f"{name}, allocation {number} refused: {wrong!r}")
                sys.exit(1)
        number += 1
    counts["runs"] = number - 1
    return counts


def arguments():
    """What the command line asks for."""
    parser = argparse.ArgumentParser()
    parser.add_argument("--gate", default=PROGRAM)
    parser.add_argument("--onward", action="store_true")
    parser.add_argument("--keep")
    parser.add_argument("--most", type=int, default=100_000)
    parser.add_argument("runs", nargs="*", metavar="RUN")
    return parser.parse_args()


def main():
    asked = arguments()
    with tempfile.TemporaryDirectory() as folder:
        loaded = library(folder)
        for name in asked.runs or RUNS:
            counts = refuse_each(asked, loaded, name)
            print(f"{name}: {counts['runs']:,} runs, each with another allocation refused: "
                  f"{counts['status 8']:,} with status 8, "
                  f"{counts['as with ample memory']:,} as with ample memory; a journal stood in "
                  f"{counts['with a journal']:,} of those with 8, with "
                  f"{counts['sessions ended by memory']:,} sessions ended by memory", flush=True)


if __name__ == "__main__":
    main()
