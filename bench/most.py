#!/usr/bin/env python3
"""Runs the built program over one session of the most bytes, of orders and of Heartbeats.

usage: most.py [--gate PATH] [--runs N]      7 runs

A session's input has as many whole frames as its most bytes hold: buy limit orders, of which acts,
a book and passes are kept, or Heartbeats, of which nothing is. Prints for both the seconds from
start to end, the median and the range; the most memory; and the bytes read and written.
"""
import argparse
import os
import tempfile
from dataclasses import dataclass

from orders import TIME, frame, order
from sessions import PROGRAM, Runs, size, spread

# Of a longer input only these bytes are read as frames (FORMATS.md).
MOST_BYTES = 33_554_432


@dataclass
class Figures:
    """What runs over one session took: the seconds of each, and in bytes the most memory, what is
    read and what is written."""
    name: str
    messages: int
    seconds: list
    memory: int
    read: int
    written: int


def heartbeat(number):
    """A Heartbeat (35=0)."""
    return frame([(35, "0"), (49, "C1"), (56, "GATE"), (34, number), (52, TIME)])


KINDS = {"orders": order, "Heartbeats": heartbeat}


def filled(made, most):
    """The frames that `made` gives for 1, 2 and so on, as many as these bytes hold."""
    frames, held, number = [], 0, 1
    while True:
        text = made(number)
        held += len(text)
        if held > most:
            return frames
        frames.append(text)
        number += 1


def measure(gate, name, runs):
    """The figures of one kind of message."""
    frames, every = filled(KINDS[name], MOST_BYTES), os.sched_getaffinity(0)
    with tempfile.TemporaryDirectory() as folder:
        made = Runs(gate, folder, ["".join(frames)])
        seconds = [made.seconds(every) for _ in range(runs)]
        return Figures(name, len(frames), seconds, made.memory(), size(made.inputs),
                       size(made.out))


def arguments():
    """What the command line asks for."""
    parser = argparse.ArgumentParser()
    parser.add_argument("--gate", default=PROGRAM)
    parser.add_argument("--runs", type=int, default=7)
    return parser.parse_args()


def main():
    asked = arguments()
    for name in KINDS:
        seen = measure(asked.gate, name, asked.runs)
        print(f"{seen.messages:,} {name}: {spread(seen.seconds)}; at most "
              f"{seen.memory / 1e6:.1f} MB, {seen.read:,} bytes read, {seen.written:,} bytes "
              f"written; load {os.getloadavg()[0]:.1f}")


if __name__ == "__main__":
    main()
