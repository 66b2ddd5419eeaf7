#!/usr/bin/env python3
"""Has the built program check journals, and compares what it says with what the plain reader in
`model/check.py` says.

usage: checks.py [--runs N] [--changes N] [--seed N] [--every] [--gate PATH] [--keep FOLDER]

200 runs, 20 changes each, seed 1. A run has 1 to 4 sessions (`inputs.py`), so its journal may be one
that no check takes: of a session that ended early, say. The journal is checked as it is; with one
thing changed in it, a cell, a row, two rows, a byte or its end; and by other inputs or limits than
its own. With `--every` each change of one cell, of one row, of two rows and of the end of the worked
journals in `journals.py` is checked in place of runs, some thousands.

It prints how many were lawful and how many had a fault of which kind, and ends with status 1 at the
first journal of which the two say something else; its files are left in FOLDER, where one is given.
"""
import argparse
import os
import random
import shutil
import subprocess
import sys
import tempfile
from collections import Counter, namedtuple

import broken
from changes import change, changes
from inputs import made
from journals import WORKED
from model.check import first_fault
from model.judge import Wrong, demand
from model.limits import Limits
from model.limits import first_fault as fault_of_limits
from stress import LAWFUL, PROGRAM, call, read, write

LIMITS_FAULT, FAULT = 3, 7
# What is checked: a name, a journal's bytes, and the limit file and the inputs that it is checked by.
Case = namedtuple("Case", "name limits journal inputs")


def wanted(case):
    """The status and the text that a check has to give."""
    fault = fault_of_limits(case.limits)
    if fault:
        return LIMITS_FAULT, b"limits fault %d row %d\n" % fault
    found = first_fault(Limits(case.limits), case.journal, case.inputs)
    return LAWFUL if found is None else (FAULT, b"check fault %d row %d\n" % found)


def program(gate, folder):
    """What gives the status and the text of the program's check, over files in this folder."""
    def ask(case):
        names = [write(folder, f"s{number:02}.fix", data)
                 for number, data in enumerate(case.inputs)]
        words = [gate, "check", write(folder, "limits.csv", case.limits.encode()),
                 write(folder, "journal.csv", case.journal)]
        done = subprocess.run(words + names, capture_output=True, check=False)
        return done.returncode, done.stdout
    return ask


def compare(ask, case, counts):
    """Raises where a check gives something else than it has to."""
    right, found = wanted(case), ask(case)
    demand(found == right, "a check", case.name, "wanted", right, "found", found)
    counts[right[1].split(b" row")[0].decode().strip()] += 1


def every(journals=WORKED):
    """Each small change of the worked journals, and these themselves."""
    for worked, _ in journals:
        own = Case(worked.name, worked.limits, worked.journal.encode(), worked.inputs)
        yield own
        for name, text in changes(worked.journal):
            yield own._replace(name=f"{worked.name}: {name}", journal=text.encode())


def with_other_inputs(dice, case):
    """A case whose journal is checked by other inputs: one that is changed, one more or less, or in
    another order."""
    inputs, choice = list(case.inputs), dice.random()
    at = dice.randrange(len(inputs))
    if choice < 0.5:
        inputs[at], _ = broken.change(dice, inputs[at])
    elif choice < 0.7 and len(inputs) > 1:
        inputs.append(inputs.pop(at))
    elif choice < 0.85 and len(inputs) > 1:
        del inputs[at]
    else:
        inputs.insert(at, inputs[at])
    return case._replace(name="other inputs", inputs=inputs)


def with_a_byte(dice, case):
    """A case with one byte of its journal changed."""
    data, at = bytearray(case.journal), dice.randrange(len(case.journal))
    data[at] = dice.randrange(256)
    return case._replace(name="another byte", journal=bytes(data))


def with_other_limits(dice, case):
    """A case that is checked by another limit file."""
    return case._replace(name="other limits", limits=broken.change_limits(dice, case.limits))


def with_a_change(dice, case):
    """A case with a cell, a row, two rows or the end of its journal changed."""
    return case._replace(name="a change", journal=change(dice, case.journal.decode()).encode())


def changed(dice, case):
    """A case with one thing changed, mostly in its journal."""
    make, = dice.choices((with_a_change, with_other_inputs, with_a_byte, with_other_limits),
                         (75, 12, 8, 5))
    return make(dice, case)


def judge(asked, number, counts):
    """Runs the program, and has it check the journal and changes of it."""
    dice = random.Random(f"{asked.seed}/checks/{number}")
    limits, inputs = made(asked.seed, number, Counter())
    if fault_of_limits(limits):
        return
    with tempfile.TemporaryDirectory() as folder:
        _, out = call(asked.gate, folder, limits, inputs)
        own = Case("its own journal", limits, read(out, "journal.csv"), inputs)
        compare_all(asked, folder,
                    [own] + [changed(dice, own) for _ in range(asked.changes)], counts)
    counts["runs"] += 1


def compare_all(asked, folder, cases, counts):
    """Compares these, and keeps the files of the first that is wrong."""
    ask = program(asked.gate, folder)
    for case in cases:
        try:
            compare(ask, case, counts)
        except (Wrong, OSError):
            if asked.keep:
                shutil.copytree(folder, asked.keep)
            raise


def run_all(asked):
    """Checks all that is asked for. Gives the counts."""
    counts = Counter()
    if asked.every:
        with tempfile.TemporaryDirectory() as folder:
            compare_all(asked, folder, every(), counts)
        return counts
    for number in range(asked.runs):
        try:
            judge(asked, number, counts)
        except Wrong as wrong:
            raise Wrong(f"run {number} of seed {asked.seed}", *wrong.args) from wrong
    return counts


def arguments(words=None):
    """What the command line asks for."""
    parser = argparse.ArgumentParser()
    for name, default in (("--runs", 200), ("--changes", 20), ("--seed", 1)):
        parser.add_argument(name, type=int, default=default)
    parser.add_argument("--every", action="store_true")
    parser.add_argument("--gate", default=PROGRAM)
    parser.add_argument("--keep")
    asked = parser.parse_args(words)
    asked.gate = os.path.abspath(asked.gate)
    return asked


def main():
    try:
        counts = run_all(arguments())
    except (Wrong, OSError) as wrong:
        print(f"something is wrong: {wrong!r}")
        sys.exit(1)
    runs = counts.pop("runs", 0)
    print((f"{runs:,} runs; " if runs else "") + f"{sum(counts.values()):,} journals: " + ", ".join(
        f"{name} {count:,}" for name, count in sorted(counts.items())))


if __name__ == "__main__":
    main()
