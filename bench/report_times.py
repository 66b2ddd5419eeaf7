#!/usr/bin/env python3
"""Runs the built program over sessions of buy limit orders, and makes the report of that run.

usage: report_times.py [SESSIONS] [ORDERS] [--gate PATH] [--runs N]      8 of 2,000 orders, 7 runs

Prints the seconds of a report from start to end, the median and the range; the most memory of its
main process; the bytes of `requests.csv` and of `report.html`; and the load of the machine.
"""
import os
import sys
import tempfile
from dataclasses import dataclass

from sessions import HERE, LOOKED_AT, Runs, measured_by, memory_of, spread, texts_of, timed

REPORT = os.path.join(HERE, "..", "report")


@dataclass
class Figures:
    """What reports of a run took: the seconds of each, the most memory in bytes, and the bytes of
    the table and of the page."""
    sessions: int
    orders: int
    seconds: list
    memory: int
    table: int
    page: int


def measure(gate, sessions, orders, runs):
    """The figures of so many sessions of so many orders."""
    every = os.sched_getaffinity(0)
    with tempfile.TemporaryDirectory() as folder:
        made = Runs(gate, folder, texts_of(sessions, orders))
        made.seconds(every)
        words = [sys.executable, "-B", REPORT, *made.words[2:]]
        seconds = [timed(words, every)[0] for _ in range(runs)]
        memory = max(memory_of(words) for _ in range(LOOKED_AT))
        table, page = (os.path.getsize(os.path.join(made.out, name))
                       for name in ("requests.csv", "report.html"))
        return Figures(sessions, orders, seconds, memory, table, page)


def main():
    seen = measured_by(measure)
    print(f"{seen.sessions} sessions of {seen.orders} orders: a report {spread(seen.seconds)}, at "
          f"most {seen.memory / 1e6:.1f} MB, a table of {seen.table:,} bytes and a page of "
          f"{seen.page:,}; load {os.getloadavg()[0]:.1f}")


if __name__ == "__main__":
    main()
