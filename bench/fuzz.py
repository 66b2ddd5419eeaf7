#!/usr/bin/env python3
"""Runs the built program over inputs with something wrong or at a limit, and compares it with the
plain model.

usage: fuzz.py [--runs N] [--seed N] [--only NUMBER] [--jobs N] [--gate PATH] [--keep FOLDER]

20,000 runs, seed 1, one job. A run has 1 to 4 sessions, made of worked runs (`rows.py`), of random
sessions (`loads.py`), of messages with each value at the limits of a field, of orders worth as much
as a limit, or of reports on orders in every state (`hostile.py`), with up to three changes in each
(`broken.py`); its limit file may drop screens. It is judged as `stress.py` judges:
acts, streams, totals and status are those of the model in `model`; and so is the fault of a limit
file that has one. It depends on the seed and its number alone, so `--only` repeats one. It prints
what it ran and saw. At a run that is wrong it looks for a smaller one that is wrong too, leaves its
files in FOLDER, where one is given, and ends with status 1.
"""
import argparse
import copy
import shutil
import sys
import tempfile
import time
from collections import Counter
from functools import partial
from multiprocessing import Pool

import broken
from inputs import made
from model.book import Book
from model.judge import Wrong, demand, judge_run
from model.limits import Limits, first_fault
from model.screens import own_screens
from model.session import ENDS, Session, run_session, take_frames
from stress import PROGRAM, call, count, results

# The status of a limit file with a fault.
FAULTY = 3
CHUNK = 100


class Watched(Book):
    """A book that counts which reports come to orders in which state."""

    def __init__(self, counts, nets):
        super().__init__(nets)
        self.counts = counts

    def apply(self, kind, values):
        """Counts a report, by the state of its order before it, and applies it."""
        order, own = self.by_id.get(values.get(11)), values.get(11)
        if order:
            pending = order.pending
            request = ("replace" if pending.is_replace else "cancel") if pending else "nothing"
            names = "current" if own == order.id else "pending" if pending and own == pending.id \
                else "former"
            filled = "dead" if order.is_dead else "closed" if order.leaves() == 0 else \
                "partly" if order.filled else "open"
            report = values[150].decode("latin-1") if kind == "8" else "refusal"
            self.counts["state", filled, request, names, report] += 1
        return super().apply(kind, values)


def wrong_of(program, limits, inputs, counts, keep=None):
    """What is wrong with a run, None where nothing is."""
    with tempfile.TemporaryDirectory() as folder:
        try:
            done, out = call(program, folder, limits, inputs)
            fault, answer = first_fault(limits), (done.returncode, done.stdout)
            if fault:
                wanted = FAULTY, b"limits fault %d row %d\n" % fault
                demand(answer == wanted, "a limit file's fault", wanted, answer)
                counts.update(("runs", ("fault", fault[0])))
            else:
                acts = judge_run(limits, inputs, *results(done, out, len(inputs)))
                count(counts, acts)
                see(counts, Limits(limits).counted(len(inputs)), inputs, acts)
            return None
        except (Wrong, OSError, ValueError) as wrong:
            if keep:
                shutil.copytree(folder, keep)
            return wrong


class Dropping(Session):
    """A session that counts its `off` rows by what they drop."""

    def take_up(self):
        """Counts the rows of an order, and the screens that go."""
        before = len(self.screens)
        rows = sum(place == self.orders for _, place in self.limits.off)
        super().take_up()
        gone = before - len(self.screens)
        self.book.counts["off", "dropped"] += gone
        self.book.counts["off", "dropped nothing"] += rows - gone
        self.book.counts["off", "several at one order"] += rows > 1


def see(counts, limits, inputs, acts):
    """Counts the frames of inputs, how they end, the reports by their orders' states, and the rows
    that drop screens and the net accounts that tell."""
    counts["with off rows"] += bool(limits.off)
    counts["with net accounts"] += bool(limits.nets)
    for data, own in zip(inputs, acts):
        reads = [act[2:] for act in own if act[0] == "read"]
        session = Dropping(limits, own_screens(limits), reads)
        session.book = Watched(counts, limits.nets)
        counts["frames"] += sum(1 for _ in take_frames(session, data))
        counts["end", own[-1][1]] += 1
        late = sum(place >= session.orders for _, place in limits.off)
        counts["off", "of an order that never came"] += late
        if late < len(limits.off):
            counts["off", "told"] += is_otherwise(limits, {"off": []}, data, reads, own)
        if limits.nets:
            counts["net", "told"] += is_otherwise(limits, {"nets": set()}, data, reads, own)


def is_otherwise(limits, changes, data, reads, acts):
    """Whether a session's acts are others than with changed limits."""
    other = copy.copy(limits)
    for name, value in changes.items():
        setattr(other, name, value)
    return run_session(other, data, reads)[0].acts != acts


def smaller(program, limits, inputs):
    """A run that is wrong too, with fewer sessions and fewer bytes, as far as halving leads."""
    def is_wrong(some):
        return wrong_of(program, limits, some, Counter()) is not None

    at = 0
    while at < len(inputs) and len(inputs) > 1:
        fewer = inputs[:at] + inputs[at + 1:]
        inputs, at = (fewer, at) if is_wrong(fewer) else (inputs, at + 1)
    for number in range(len(inputs)):
        inputs = shortened(inputs, number, is_wrong)
    return inputs


def shortened(inputs, number, is_wrong):
    """The inputs with one of them shortened by frames and then by bytes."""
    pieces = broken.split(inputs[number])
    for again in (pieces, None):
        pieces = again or [bytes([byte]) for byte in inputs[number]]
        size = len(pieces)
        while size:
            at = 0
            while at < len(pieces):
                fewer = pieces[:at] + pieces[at + size:]
                some = inputs[:number] + [b"".join(fewer)] + inputs[number + 1:]
                if is_wrong(some):
                    pieces, inputs = fewer, some
                else:
                    at += size
            size //= 2
    return inputs


def chunk(asked, numbers):
    """Runs some numbers. Gives the counts, and the first that is wrong with its cause."""
    counts = Counter()
    for number in numbers:
        limits, inputs = made(asked.seed, number, counts)
        wrong = wrong_of(asked.gate, limits, inputs, counts)
        if wrong:
            return counts, (number, repr(wrong))
    return counts, None


def of_kind(counts, kind):
    """The counts whose names are tuples that begin with this word, without it."""
    return [(key[1:], value) for key, value in counts.items()
            if isinstance(key, tuple) and key[0] == kind]


def tell(counts, seconds):
    """Prints the figures."""
    ends = ", ".join(f"{word} {counts['end', number]:,}" for word, number in ENDS.items())
    changes = ", ".join(f"{name} {value:,}" for (name,), value in sorted(of_kind(counts, "change")))
    states = [value for _, value in of_kind(counts, "state")]
    causes = ", ".join(f"{code}: {counts['refused', code]:,}" for code in range(1, 17))
    notes = ", ".join(f"{code}: {counts['noted', code]:,}" for code in range(1, 7))
    faults = ", ".join(f"{code}: {counts['fault', code]:,}" for code in range(1, 9))
    print(f"{counts['runs']:,} runs of {counts['sessions']:,} sessions with {counts['frames']:,} "
          f"frames, {seconds:.0f} s")
    print(f"faults of limit files  {faults}")
    print(f"changes  {changes}")
    print(f"ends  {ends}")
    print(f"{sum(states):,} reports of known orders, of {len(states)} kinds: what the order is, "
          f"what is pending, which of its ids is told, and the report")
    print(f"off rows in {counts['with off rows']:,} runs: {counts['off', 'dropped']:,} dropped a "
          f"screen, {counts['off', 'dropped nothing']:,} nothing, "
          f"{counts['off', 'of an order that never came']:,} were of an order that never came, "
          f"{counts['off', 'several at one order']:,} orders had several; "
          f"{counts['off', 'told']:,} sessions did otherwise than without")
    print(f"net accounts in {counts['with net accounts']:,} runs: {counts['net', 'told']:,} sessions "
          f"did otherwise than with gross ones")
    print(f"sent {counts['sent']:,}, refused {counts['refused']:,}, noted {counts['noted']:,}")
    print(f"refused by code  {causes}")
    print(f"noted by code  {notes}")


def stop(asked, number, cause):
    """Tells of a run that is wrong, and of a smaller one."""
    limits, inputs = made(asked.seed, number, Counter())
    print(f"run {number} of seed {asked.seed} is wrong: {cause}", flush=True)
    inputs = smaller(asked.gate, limits, inputs)
    print(f"limits {limits!r}\ninputs {inputs!r}")
    print(repr(wrong_of(asked.gate, limits, inputs, Counter(), asked.keep)))
    sys.exit(1)


def arguments():
    """What the command line asks for."""
    parser = argparse.ArgumentParser()
    for name, default in (("--runs", 20_000), ("--seed", 1), ("--jobs", 1)):
        parser.add_argument(name, type=int, default=default)
    parser.add_argument("--only", type=int)
    parser.add_argument("--gate", default=PROGRAM)
    parser.add_argument("--keep")
    return parser.parse_args()


def run_all(asked):
    """Judges all runs. Gives the counts, or ends with status 1 at the first run that is wrong."""
    counts = Counter()
    numbers = range(asked.runs) if asked.only is None else [asked.only]
    chunks = [numbers[at:at + CHUNK] for at in range(0, len(numbers), CHUNK)]
    with Pool(asked.jobs) as pool:
        for found, wrong in pool.imap(partial(chunk, asked), chunks):
            counts += found
            if wrong:
                stop(asked, *wrong)
    return counts


def main():
    asked, start = arguments(), time.monotonic()
    tell(run_all(asked), time.monotonic() - start)


if __name__ == "__main__":
    main()
