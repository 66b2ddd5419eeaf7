#!/usr/bin/env python3
"""Measures pairs of a post and a read a second, with 1, 2, 4 and 8 threads: a forest beside plain Rust.

usage: forests.py [PAIRS [REPETITIONS]]        100,000 pairs a thread, 7 repetitions where no number is given

Each thread sets its own component of an array and reads the whole, on one array that all share ("one") or each
on an array of its own ("own"). Six programs do so:

forest        a forest of `f_array`, with as many trees as threads: a post sets the thread's component and ascends
              to the root, a read loads the root. Each pass keeps its calls and installs, with room for 500 pairs
              taken at a time.
kept tree     the same words and steps in plain Rust, where each thread keeps its calls and installs too.
kept mutex    plain Rust: one Mutex round all arrays. A post locks it and sets the thread's component; a read
              locks it and sums the components of the array. Each thread keeps its calls.
bare tree     the words and steps of the forest in plain Rust, where nothing is kept.
bare mutex    one Mutex round all arrays, where nothing is kept.
mutexes       a Mutex round each array, where nothing is kept: under "own" no thread meets another.

An array has a component for each thread. A pair is a post and then a read. The time is taken in the program,
from the start of the threads to the end of the last. For each program a line is printed: the median of the
repetitions, the lowest and the highest, in millions of pairs a second of all threads together; and the median
of the processor time of the whole program, in nanoseconds a pair, which other work on the machine disturbs less.

It needs the kit's `rt` and `rustc` on the PATH. The forest is proved and built in a temporary folder.
"""
import os
import resource
import statistics
import subprocess
import sys
import tempfile

from beside import copy_beside

BENCH = os.path.dirname(os.path.abspath(__file__))
THREADS = (1, 2, 4, 8)
CRATES = ("fold_law", "risk_board", "stamp_word", "node_rule", "double_refresh", "f_array")


def build_rust(folder, name):
    """The program of this source, built."""
    program = os.path.join(folder, name)
    source = os.path.join(BENCH, name + ".rs")
    subprocess.run(["rustc", "--edition", "2021", "-O", "-o", program, source], check=True)
    return [program]


def build(folder):
    """The words by which each program is called."""
    copy_beside(folder, "forest", CRATES, CRATES)
    crate = os.path.join(folder, "crates", "forest")
    subprocess.run(["rt", "run", "--", "one", "1", "1"], cwd=crate, check=True, stdout=sys.stderr)
    tree, mutex = build_rust(folder, "tree"), build_rust(folder, "mutex")
    return {
        "forest": [os.path.join(crate, "out", "forest")],
        "kept tree": tree + ["kept"],
        "kept mutex": mutex + ["kept", "together"],
        "bare tree": tree + ["bare"],
        "bare mutex": mutex + ["bare", "together"],
        "mutexes": mutex + ["bare", "apart"],
    }


def processor_time():
    """The seconds of processor time of all programs that were run so far."""
    used = resource.getrusage(resource.RUSAGE_CHILDREN)
    return used.ru_utime + used.ru_stime


def run(program, kind, threads, pairs):
    """Of one run: millions of pairs a second, and nanoseconds of processor time a pair."""
    words = program + [kind, str(threads), str(pairs)]
    before = processor_time()
    out = subprocess.run(words, check=True, capture_output=True, text=True).stdout
    used = processor_time() - before
    made, nanos = map(int, out.split())
    if made != threads * pairs:
        sys.exit(f"{made} pairs of {threads * pairs}: {' '.join(words)}")
    return made * 1000 / nanos, used * 1e9 / made


def measure(programs, kind, threads, pairs, repetitions):
    """The runs of all programs in turn: for each program its rates and times."""
    runs = {name: [] for name in programs}
    for _ in range(repetitions):
        for name, program in programs.items():
            runs[name].append(run(program, kind, threads, pairs))
    return runs


def tell(kind, threads, runs):
    """A line for each program."""
    for name, all_runs in runs.items():
        rates, times = zip(*all_runs)
        print(f"{kind:5}{threads:8}  {name:11}{statistics.median(rates):8.2f}{min(rates):8.2f}{max(rates):8.2f}"
              f"{statistics.median(times):8.0f}", flush=True)


def main():
    pairs = int(sys.argv[1]) if len(sys.argv) > 1 else 100_000
    repetitions = int(sys.argv[2]) if len(sys.argv) > 2 else 7
    with tempfile.TemporaryDirectory() as folder:
        programs = build(folder)
        print("load before:", *("%.1f" % load for load in os.getloadavg()))
        print(f"{pairs} pairs a thread, {repetitions} repetitions")
        print("array threads  program      median  lowest highest   ns CPU")
        for kind in ("one", "own"):
            for threads in THREADS:
                tell(kind, threads, measure(programs, kind, threads, pairs, repetitions))
        print("load after:", *("%.1f" % load for load in os.getloadavg()))


if __name__ == "__main__":
    main()
