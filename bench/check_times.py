#!/usr/bin/env python3
"""Runs the built program over sessions of buy limit orders, and has it check the journal of each run,
by turns.

usage: check_times.py [SESSIONS] [ORDERS] [--gate PATH] [--runs N]      8 of 2,000 orders, 7 runs

Prints the seconds of a run and of a check from start to end, each the median and the range; how many
times as long a check takes, by the median of the ratios of neighbours; the most memory of both, and
how many times as much a check has; the bytes of the journal; and the load of the machine. It ends
with status 1 where a check doesn't say that its journal is lawful.
"""
import os
import statistics
import tempfile
from dataclasses import dataclass

from sessions import LOOKED_AT, Runs, measured_by, memory_of, spread, texts_of, timed

LAWFUL = "LAWFUL"


@dataclass
class Figures:
    """What runs and the checks of their journals took: the seconds of each, and in bytes the most
    memory of both and what the journal has."""
    sessions: int
    orders: int
    runs: list
    checks: list
    run_memory: int
    check_memory: int
    journal: int

    def times_as_long(self):
        """The median of the ratios of a check and the run beside it."""
        return statistics.median(check / run for run, check in zip(self.runs, self.checks))

    def times_the_memory(self):
        """The most memory of a check, by that of a run."""
        return self.check_memory / self.run_memory


def checked(words, processors):
    """The seconds of a check; ValueError where it doesn't say that the journal is lawful."""
    taken, last = timed(words, processors)
    if last != LAWFUL:
        raise ValueError(f"a check says {last}")
    return taken


def measure(gate, sessions, orders, runs):
    """The figures of so many sessions of so many orders."""
    every, own, checks = os.sched_getaffinity(0), [], []
    with tempfile.TemporaryDirectory() as folder:
        made = Runs(gate, folder, texts_of(sessions, orders))
        for _ in range(runs):
            own.append(made.seconds(every))
            checks.append(checked(made.check_words, every))
        run_memory = made.memory()
        return Figures(sessions, orders, own, checks, run_memory,
                       max(memory_of(made.check_words) for _ in range(LOOKED_AT)),
                       os.path.getsize(made.journal))


def main():
    seen = measured_by(measure)
    print(f"{seen.sessions} sessions of {seen.orders} orders: a run {spread(seen.runs)}, a check "
          f"{spread(seen.checks)}, {seen.times_as_long():.2f} times as long; at most "
          f"{seen.run_memory / 1e6:.1f} MB and {seen.check_memory / 1e6:.1f} MB, "
          f"{seen.times_the_memory():.2f} times as much; a journal of "
          f"{seen.journal:,} bytes; load {os.getloadavg()[0]:.1f}")


if __name__ == "__main__":
    main()
