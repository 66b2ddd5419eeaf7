#!/usr/bin/env python3
"""Measures how fast frames are found, messages read and forwards written on one core, beside plain Rust.

usage: orders_read.py [ROUNDS [REPETITIONS]]        100 rounds, 7 repetitions where no number is given

A file of 10,000 messages is gone over round after round, in one of two programs:

fix_orders    the proved program in `orders_read`, over `fix_fields` and `fix_orders`.
plain Rust    `orders_plain.rs`, built by `rustc -O`: the same answers by the same checks over the same bytes, in
              one pass over the fields of a frame. It copies a field that a forward passes on as it stands.

"orders" are NewOrderSingles; "mixed" are an order, a cancel request, a replace request and a report of a trade,
in turn. Each work takes in those before it:

find          the next frame: `next_frame`. Head, length, checksum and the form of each field are checked.
read          find, then what the frame says: `read_message`. Its values are added up.
forward       read, then the forward with its head and checksum: `write_forward` and `Writer::finish`. Two digits
              of the checksum and the length are added up.

For each work of each program a line is printed: nanoseconds a message by the clock, taken in the program over all
rounds, as the median of the repetitions, the lowest and the highest; then the median of the processor time of the
whole program in nanoseconds a message, which other work on the machine disturbs less, and what it makes in millions
of messages and in megabytes of input a second. Below them stand the differences of those medians: what `read_message`
takes beside `next_frame`, and `write_forward` with `finish` beside both. The two programs have to get the same sums.

It needs the kit's `rt` and `rustc` on the PATH. The proved program is proved and built in a temporary folder.
"""
import os
import resource
import statistics
import subprocess
import sys
import tempfile

from beside import copy_beside
from orders import TIME, frame

BENCH = os.path.dirname(os.path.abspath(__file__))
CRATES = ("fix_fields", "fix_orders")
WORKS = ("find", "read", "forward")
MESSAGES = 10_000


def head(kind, number):
    """MsgType (35), sender, receiver, MsgSeqNum (34) and SendingTime (52)."""
    return [(35, kind), (49, "CLIENT7"), (56, "GATE"), (34, number), (52, TIME)]


def terms(number):
    """What is traded, how much of it, and at which price."""
    price = f"{number % 900 + 100}.{number % 100:02}"
    return [(55, "ACME"), (54, 1 + number % 2), (38, 100 * (number % 90 + 1)), (40, 2), (44, price), (60, TIME)]


def new_order(number):
    """A NewOrderSingle (35=D)."""
    return frame(head("D", number) + [(11, f"order-{number}"), (1, "ACC-17")] + terms(number) + [(59, 0)])


def cancel(number):
    """An OrderCancelRequest (35=F)."""
    ids = [(11, f"cancel-{number}"), (41, f"order-{number}")]
    return frame(head("F", number) + ids + [(55, "ACME"), (54, 1 + number % 2), (60, TIME)])


def replace(number):
    """An OrderCancelReplaceRequest (35=G)."""
    ids = [(11, f"replace-{number}"), (41, f"order-{number}"), (1, "ACC-17")]
    return frame(head("G", number) + ids + terms(number))


def report(number):
    """An ExecutionReport (35=8) of a trade."""
    price = f"{number % 900 + 100}.25"
    ids = [(37, f"venue-{number}"), (17, f"trade-{number}"), (11, f"order-{number}")]
    state = [(150, "F"), (39, 1), (55, "ACME"), (54, 1 + number % 2), (32, 100), (31, price)]
    return frame(head("8", number) + ids + state + [(151, 100), (14, 100), (6, price), (60, TIME)])


def write_files(folder):
    """The files by their names: path and bytes."""
    files = {}
    for name, kinds in (("orders", [new_order]), ("mixed", [new_order, cancel, replace, report])):
        path = os.path.join(folder, name + ".fix")
        text = "".join(kinds[number % len(kinds)](number) for number in range(1, MESSAGES + 1))
        with open(path, "w", encoding="ascii") as out:
            out.write(text)
        files[name] = (path, len(text))
    return files


def build(folder):
    """The programs by their names, built."""
    copy_beside(folder, "orders_read", CRATES, CRATES)
    crate = os.path.join(folder, "crates", "orders_read")
    subprocess.run(["rt", "run"], cwd=crate, check=True, stdout=sys.stderr)
    plain = os.path.join(folder, "orders_plain")
    source = os.path.join(BENCH, "orders_plain.rs")
    subprocess.run(["rustc", "--edition", "2021", "-O", "-o", plain, source], check=True)
    return {"fix_orders": os.path.join(crate, "out", "orders_read"), "plain Rust": plain}


def processor_time():
    """The seconds of processor time of all programs that were run so far."""
    used = resource.getrusage(resource.RUSAGE_CHILDREN)
    return used.ru_utime + used.ru_stime


def run(program, path, work, rounds):
    """Of one run: nanoseconds a message by the clock and of processor time, and the sum."""
    words = [program, path, work, str(rounds)]
    before = processor_time()
    out = subprocess.run(words, check=True, capture_output=True, text=True).stdout
    used = processor_time() - before
    count, nanos, number = map(int, out.split())
    if count != MESSAGES * rounds:
        sys.exit(f"{count} messages of {MESSAGES * rounds}: {' '.join(words)}")
    return nanos / count, used * 1e9 / count, number


def measure(programs, name, path, work, rounds, repetitions):
    """The runs of the programs in turn: for each program its times by the clock and of the processor."""
    runs = {program: [] for program in programs}
    for _ in range(repetitions):
        for program, place in programs.items():
            runs[program].append(run(place, path, work, rounds))
    sums = {number for all_runs in runs.values() for _, _, number in all_runs}
    if len(sums) != 1:
        sys.exit(f"the programs differ: {name} {work} {sums}")
    return {program: list(zip(*all_runs))[:2] for program, all_runs in runs.items()}


def tell_differences(medians):
    """Of each program what `read_message` and `write_forward` take, by the medians of the works."""
    for program in dict.fromkeys(program for program, _ in medians):
        for call, work, before in (("read_message", "read", "find"), ("write_forward", "forward", "read")):
            clock, used = (medians[program, work][i] - medians[program, before][i] for i in (0, 1))
            print(f"        {call:13} of {program:11}{clock:8.0f} ns by the clock, {used:5.0f} ns CPU a message")


def measure_file(programs, name, path, size, rounds, repetitions):
    """The table of one file. Gives the medians by program and work: by the clock and of the processor."""
    mean = size / MESSAGES
    print(f"{name}: {MESSAGES} messages of {mean:.0f} bytes, {rounds} rounds, {repetitions} repetitions")
    print("work     program         ns median  lowest highest   ns CPU   M/s CPU  MB/s CPU")
    medians = {}
    for work in WORKS:
        for program, (clock, used) in measure(programs, name, path, work, rounds, repetitions).items():
            middle, cpu = statistics.median(clock), statistics.median(used)
            medians[program, work] = (middle, cpu)
            print(f"{work:9}{program:14}{middle:11.0f}{min(clock):8.0f}{max(clock):8.0f}{cpu:9.0f}"
                  f"{1000 / cpu:10.2f}{mean * 1000 / cpu:10.0f}", flush=True)
    tell_differences(medians)
    return medians


def main():
    rounds = int(sys.argv[1]) if len(sys.argv) > 1 else 100
    repetitions = int(sys.argv[2]) if len(sys.argv) > 2 else 7
    with tempfile.TemporaryDirectory() as folder:
        programs = build(folder)
        print("load before:", *("%.1f" % load for load in os.getloadavg()))
        for name, (path, size) in write_files(folder).items():
            measure_file(programs, name, path, size, rounds, repetitions)
        print("load after:", *("%.1f" % load for load in os.getloadavg()))


if __name__ == "__main__":
    main()
