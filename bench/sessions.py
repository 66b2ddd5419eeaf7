#!/usr/bin/env python3
"""Runs the built program over sessions of limit orders, on all processors and on one by turns.

usage: sessions.py [SESSIONS] [ORDERS] [--gate PATH] [--runs N] [--cross]     8 of 2,000, 7 runs

The orders are buys. With `--cross` the guard against crossing orders is run, and every second
session sells at a higher price, so that each order is passed on. Prints the seconds from start to end
on all processors and on one, where the sessions can only take turns, each the median and the range of
the runs; how many times as fast all are, by the median of the ratios of runs beside each other; the
most memory of a run; the bytes read and written; and the load of the machine.
"""
import argparse
import os
import re
import statistics
import subprocess
import sys
import tempfile
import time
from dataclasses import dataclass

from orders import order, sell

LIMITS = ("firm,,999999999999,,,\naccount,ACC,999999999999,,,\n"
          "symbol,XYZ,999999999999,1,1000,1000000\nquota,,200000,,,\n")
HERE = os.path.dirname(os.path.abspath(__file__))
PROGRAM = os.path.join(HERE, "..", "crates", "gate_program", "out", "gate_program")
# How many runs the most memory is taken of, which are looked at and so not timed.
LOOKED_AT = 3


def write(folder, name, text):
    """Writes a text, and gives its path."""
    path = os.path.join(folder, name)
    with open(path, "w", encoding="ascii") as file:
        file.write(text)
    return path


def size(folder):
    """How many bytes the files of a folder have."""
    return sum(os.path.getsize(os.path.join(folder, name)) for name in os.listdir(folder))


def highest(process):
    """The most memory that a process had so far, in bytes; 0 where it has ended."""
    try:
        with open(f"/proc/{process}/status", encoding="ascii") as file:
            found = re.search(r"^VmHWM:\s+(\d+) kB$", file.read(), re.M)
    except OSError:
        return 0
    return int(found[1]) * 1024 if found else 0


def spread(seconds):
    """The median and the range."""
    return f"{statistics.median(seconds):.3f} s ({min(seconds):.3f} to {max(seconds):.3f})"


def timed(words, processors, folder=None):
    """The seconds of a call on these processors, in a folder where one is given, and the last line
    that it prints."""
    start = time.perf_counter()
    done = subprocess.run(words, check=True, capture_output=True, text=True, cwd=folder,
                          preexec_fn=lambda: os.sched_setaffinity(0, processors))
    return time.perf_counter() - start, done.stdout.splitlines()[-1]


def memory_of(words, folder=None):
    """The most memory of a call, in bytes, which is looked at again and again. What the system tells
    of a process that has ended isn't taken: it has in it what the memory was before the program was
    called, which is Python's."""
    most = 0
    with subprocess.Popen(words, stdout=subprocess.DEVNULL, cwd=folder) as gate:
        while gate.poll() is None:
            most = max(most, highest(gate.pid))
            time.sleep(0.0002)
    return most


class Runs:
    """Runs of a program in a folder, over sessions of these texts."""

    def __init__(self, gate, folder, texts, command="run"):
        self.out, self.inputs = os.path.join(folder, "out"), os.path.join(folder, "in")
        os.mkdir(self.out)
        os.mkdir(self.inputs)
        names = [write(self.inputs, f"s{place:02}.fix", text) for place, text in enumerate(texts)]
        limits = write(folder, "limits.csv", LIMITS)
        self.words = [gate, command, limits, self.out] + names
        self.journal = os.path.join(self.out, "journal.csv")
        self.check_words = [gate, "check", limits, self.journal] + names
        self.last = ""

    def clear(self):
        """Takes the outputs of the last run away."""
        for name in os.listdir(self.out):
            os.remove(os.path.join(self.out, name))

    def seconds(self, processors):
        """The seconds of a run on these processors."""
        self.clear()
        taken, self.last = timed(self.words, processors)
        return taken

    def memory(self):
        """The most memory of a run, in bytes, of a few."""
        most = 0
        for _ in range(LOOKED_AT):
            self.clear()
            most = max(most, memory_of(self.words))
        return most


@dataclass
class Figures:
    """What runs over sessions took: the seconds of each run on so many processors and on one, and
    in bytes the most memory, what is read and what is written."""
    sessions: int
    orders: int
    processors: int
    side_by_side: list
    on_one: list
    memory: int
    read: int
    written: int
    last: str

    def times_as_fast(self):
        """The median of the ratios of runs beside each other."""
        return statistics.median(one / own for one, own in zip(self.on_one, self.side_by_side))


def texts_of(sessions, orders, command="run"):
    """The text of each session: buys, and for the guard sells above them in every second one."""
    numbers = range(1, orders + 1)
    buys = "".join(map(order, numbers))
    sells = "".join(map(sell, numbers)) if command == "cross" else buys
    return [sells if place % 2 else buys for place in range(sessions)]


def measure(gate, sessions, orders, runs, command="run"):
    """The figures of so many sessions of so many orders."""
    every, side_by_side, on_one = os.sched_getaffinity(0), [], []
    with tempfile.TemporaryDirectory() as folder:
        made = Runs(gate, folder, texts_of(sessions, orders, command), command)
        for _ in range(runs):
            side_by_side.append(made.seconds(every))
            on_one.append(made.seconds({min(every)}))
        return Figures(sessions, orders, len(every), side_by_side, on_one, made.memory(),
                       size(made.inputs), size(made.out), made.last)


def parser_of_load():
    """What each script takes that measures one load."""
    parser = argparse.ArgumentParser()
    parser.add_argument("sessions", nargs="?", type=int, default=8)
    parser.add_argument("orders", nargs="?", type=int, default=2_000)
    parser.add_argument("--gate", default=PROGRAM)
    parser.add_argument("--runs", type=int, default=7)
    return parser


def measured_by(measure):
    """The figures of the load that the command line asks for. Where one can't be had, the end of the
    program, with why."""
    asked = parser_of_load().parse_args()
    try:
        return measure(asked.gate, asked.sessions, asked.orders, asked.runs)
    except ValueError as wrong:
        sys.exit(str(wrong))


def arguments():
    """What the command line asks for."""
    parser = parser_of_load()
    parser.add_argument("--cross", action="store_true")
    return parser.parse_args()


def main():
    asked = arguments()
    command = "cross" if asked.cross else "run"
    seen = measure(asked.gate, asked.sessions, asked.orders, asked.runs, command)
    print(f"{seen.sessions} sessions of {seen.orders} orders: {spread(seen.side_by_side)} on "
          f"{seen.processors} processors, {spread(seen.on_one)} on one, "
          f"{seen.times_as_fast():.2f} times as fast; at most {seen.memory / 1e6:.1f} MB, "
          f"{seen.read:,} bytes read, {seen.written:,} bytes written, {seen.last}; "
          f"load {os.getloadavg()[0]:.1f}")


if __name__ == "__main__":
    main()
