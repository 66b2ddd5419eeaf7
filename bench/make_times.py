#!/usr/bin/env python3
"""Has the built program make loads from a number and run them.

usage: make_times.py [SESSIONS] [ORDERS] [--gate PATH] [--runs N]      8 of 2,000 orders, 7 runs

Prints the seconds from start to end, the median and the range; the most memory; the messages of the
load, its bytes and the roots that its sessions read, by the program's own summary; the bytes written;
and the load of the machine. It ends with status 1 where a load isn't told as legal.
"""
import os
import re
import subprocess
import tempfile
from dataclasses import dataclass

from sessions import LOOKED_AT, measured_by, memory_of, size, spread, timed

# The number of which each load is made, and what its summary counts.
NUMBER = 7
SUMMARY = re.compile(r"^new (\d+) cancel (\d+) report (\d+) bytes (\d+)\nreads (\d+)\n", re.M)
DONE = "status 0"


@dataclass
class Figures:
    """What loads took: the seconds of each, the most memory in bytes, how many messages, bytes and
    reads the load has, and the bytes written."""
    sessions: int
    orders: int
    seconds: list
    memory: int
    messages: int
    bytes: int
    reads: int
    written: int


def summary(told):
    """The messages, the bytes and the reads that a summary counts; ValueError where it is none, or
    tells a tree that isn't legal within its limit."""
    found = SUMMARY.search(told)
    if not found or not told.endswith(DONE + "\n"):
        raise ValueError(f"a load is told so: {told!r}")
    new, cancel, report, count, reads = map(int, found.groups())
    return new + cancel + report, count, reads


def measure(gate, sessions, orders, runs):
    """The figures of a load of so many sessions of so many orders."""
    words = [os.path.abspath(gate), "make", f"{NUMBER}", f"{sessions}", f"{orders}"]
    with tempfile.TemporaryDirectory() as folder:
        out = os.path.join(folder, "load")
        os.mkdir(out)
        done = subprocess.run(words, check=True, capture_output=True, text=True, cwd=folder)
        counts = summary(done.stdout)
        seconds = [timed(words, os.sched_getaffinity(0), folder)[0] for _ in range(runs)]
        memory = max(memory_of(words, folder) for _ in range(LOOKED_AT))
        return Figures(sessions, orders, seconds, memory, *counts, size(out))


def main():
    seen = measured_by(measure)
    print(f"{seen.sessions} sessions of {seen.orders} orders, {seen.messages:,} messages in "
          f"{seen.bytes:,} bytes: {spread(seen.seconds)}, at most {seen.memory / 1e6:.1f} MB, "
          f"{seen.reads:,} reads, {seen.written:,} bytes written; load {os.getloadavg()[0]:.1f}")


if __name__ == "__main__":
    main()
