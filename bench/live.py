#!/usr/bin/env python3
"""Runs the built program over two sessions at once through pipes, and looks at each answer.

usage: live.py [--gate PATH] [--orders N] [--seconds S] [--one]      20 orders, 10 s an answer

Each session's file is a pipe whose writer stays open. An order is written to a session, then one to
the other, and so on by turns; before the next order is written to a session, the answer to its last
one has to stand in its file: an order's forward in the venue's, or the refusal of every third, which
is above the size, in the client's. At the end both pipes are closed, and the program has to end
with status 0. It prints what it saw, and ends with status 1 where an answer doesn't come in time.
With --one there is one session alone.
"""
import argparse
import os
import subprocess
import sys
import tempfile
import time

from orders import TIME, frame

HERE = os.path.dirname(os.path.abspath(__file__))
PROGRAM = os.path.join(HERE, "..", "crates", "gate_program", "out", "gate_program")
LIMITS = "firm,,1000000,,,\naccount,ACC,1000000,,,\nsymbol,XYZ,1000000,1,12,10\n"


def new_order(session, number):
    """A NewOrderSingle (35=D) of 5 at 10.00; every third is of 11, above the size of 10."""
    quantity = 11 if number % 3 == 2 else 5
    return frame([
        (35, "D"), (49, f"C{session}"), (56, "GATE"), (34, number + 1), (52, TIME),
        (11, f"o{number}"), (1, "ACC"), (55, "XYZ"), (54, 1), (38, quantity), (40, 2),
        (44, "10.00"), (60, TIME),
    ]).encode()


def forward(session, number, count):
    """What the venue's file gets of it, as its message `count`."""
    return frame([
        (35, "D"), (49, "GATE"), (56, "VENUE"), (34, count), (52, TIME), (11, f"o{number}"),
        (1, "ACC"), (55, "XYZ"), (54, 1), (38, 5), (40, 2), (44, "10.00"), (60, TIME),
    ]).encode()


def refusal(session, number, count):
    """What the client's file gets of it, as its message `count`."""
    return frame([
        (35, "8"), (49, "GATE"), (56, f"C{session}"), (34, count), (52, TIME), (37, "NONE"),
        (11, f"o{number}"), (17, f"G{count}"), (150, 8), (39, 8), (103, 99), (1, "ACC"),
        (55, "XYZ"), (54, 1), (38, 11), (151, 0), (14, 0), (6, 0), (58, "SCREEN 1"),
    ]).encode()


class Line:
    """A session through a pipe: what was written to it, and what its two files should hold."""

    def __init__(self, folder, session):
        self.session, self.out = session, os.path.join(folder, "out")
        self.path = os.path.join(folder, f"s{session}.fix")
        self.wanted = {"venue": [], "client": []}
        self.pipe, self.slowest = None, 0.0
        os.mkfifo(self.path)

    def open(self, seconds):
        """Opens the pipe for writing, once the program has it open for reading."""
        until = time.monotonic() + seconds
        while self.pipe is None:
            try:
                self.pipe = os.open(self.path, os.O_WRONLY | os.O_NONBLOCK)
            except OSError:
                if time.monotonic() > until:
                    sys.exit(f"session {self.session}: its pipe isn't opened")
                time.sleep(0.001)

    def name(self, stream):
        """The path of one of its two files."""
        return os.path.join(self.out, f"s{self.session:02}.{stream}")

    def order(self, number, seconds):
        """Writes an order, and waits until its answer stands in its file."""
        is_refused = number % 3 == 2
        stream, answer = ("client", refusal) if is_refused else ("venue", forward)
        wanted = self.wanted[stream]
        wanted.append(answer(self.session, number, len(wanted) + 1))
        os.write(self.pipe, new_order(self.session, number))
        start = time.monotonic()
        while self.held(stream) != b"".join(wanted):
            if time.monotonic() - start > seconds:
                sys.exit(f"session {self.session}: no answer to order {number} within {seconds} s")
            time.sleep(0.0002)
        self.slowest = max(self.slowest, time.monotonic() - start)

    def counts(self):
        """How many orders were sent, and how many refused."""
        return tuple(len(self.wanted[stream]) for stream in ("venue", "client"))

    def held(self, stream):
        """What one of its two files holds; None where it isn't there yet."""
        try:
            with open(self.name(stream), "rb") as file:
                return file.read()
        except FileNotFoundError:
            return None


def arguments():
    """What the command line asks for."""
    parser = argparse.ArgumentParser()
    parser.add_argument("--gate", default=PROGRAM)
    parser.add_argument("--orders", type=int, default=20)
    parser.add_argument("--seconds", type=float, default=10)
    parser.add_argument("--one", action="store_true")
    return parser.parse_args()


def talk(lines, asked):
    """Writes each session's orders by turns, and closes the pipes."""
    for line in lines:
        line.open(asked.seconds)
    for number in range(asked.orders):
        for line in lines:
            line.order(number, asked.seconds)
    for line in lines:
        os.close(line.pipe)


def run_all(asked):
    """Runs the program over the sessions, and gives their lines; or ends with what is wrong."""
    with tempfile.TemporaryDirectory() as folder:
        os.mkdir(os.path.join(folder, "out"))
        limits = os.path.join(folder, "limits.csv")
        with open(limits, "w", encoding="ascii") as file:
            file.write(LIMITS)
        lines = [Line(folder, session) for session in range(1 if asked.one else 2)]
        words = [asked.gate, "run", limits, os.path.join(folder, "out")]
        words += [line.path for line in lines]
        with subprocess.Popen(words, stdout=subprocess.PIPE, text=True) as gate:
            try:
                talk(lines, asked)
                told, _ = gate.communicate(timeout=asked.seconds)
            finally:
                gate.kill()
    if gate.returncode != 0 or not told.endswith("status 0\n"):
        sys.exit(f"status {gate.returncode}: {told}")
    return lines


def main():
    lines = run_all(arguments())
    for line in lines:
        sent, refused = line.counts()
        print(f"session {line.session}: {sent} orders sent and {refused} refused, each "
              f"answered before the next was written, the slowest after "
              f"{line.slowest * 1000:.1f} ms")
    print(f"{len(lines)} open at once; status 0")


if __name__ == "__main__":
    main()
