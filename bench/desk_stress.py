#!/usr/bin/env python3
"""Runs the built program's desk, on which officers set limits while sessions run, over random
officers and sessions, and judges it.

usage: desk_stress.py [--runs N] [--seed N] [--gate PATH] [--keep FOLDER]      1,000 runs, seed 1

A run has 1 to 8 officers and 1 to 56 sessions over one account and one symbol; in a tenth an officer's
file has something wrong. Each tree has to be legal, the limit trees and the halt tree too; each
officer's acts have to be those of its rows, each session's acts and streams those of the plain model
in `model/desk.py` over its input and its reads, and the status and the fault of an officer's file too.
It prints what it ran and saw, and ends with status 1 at the first run that is wrong, whose files it
leaves in FOLDER, where one is given.
"""
import os
import random
import subprocess
import time

import broken
import loads
from model.desk_judge import judge_run
from stress import count, parser_of, read, run_all, write

ROWS = ("firm,", "firm,", "account,ACC", "symbol,XYZ")
VALUES = ("0", "100", "500", "2000", "9000", "none", "none", "274877906942", "000000000700")
WRONG = ("firm,5\n", "halt,,2\n", "firm,,abc\n", "account,ACD,5\n", "trip,,5\n", "firm,ACC,5\n",
         "firm,,274877906943\n", "symbol,ACC,5\n")


def officer(dice):
    """An officer's file: few rows or many, now and then a halt, at times lifted again."""
    rows = [f"{dice.choice(ROWS)},{dice.choice(VALUES)}\n"
            for _ in range(dice.choice((0, 1, 3, 20, 200)))]
    if dice.random() < 0.2:
        rows += ["halt,,1\n"] + ["halt,,0\n"] * (dice.random() < 0.7)
    return "".join(rows)


def made(number):
    """The limit file, the officers' files and the sessions' inputs of a run."""
    dice = random.Random(number)
    officers = [officer(dice) for _ in range(dice.choice((1, 1, 2, 3, 8)))]
    if dice.random() < 0.1:
        at = dice.randrange(len(officers))
        officers[at] += dice.choice(WRONG)
    sessions = dice.choice((1, 2, 3, 4, 8, 16, 56))
    messages = dice.choice((5, 20, 60, 200)) if sessions <= 8 else dice.choice((5, 20, 60))
    inputs = [loads.session(dice, session, messages) for session in range(sessions)]
    for place in range(len(inputs)):
        if dice.random() < 0.2:
            inputs[place], _ = broken.change(dice, inputs[place])
    return loads.limits(dice), [text.encode() for text in officers], inputs


def call(program, folder, limits, officers, inputs):
    """Runs the program in a folder. Gives the call that is done, and the folder of its outputs."""
    out = os.path.join(folder, "out")
    os.mkdir(out)
    names = [write(folder, f"o{number:02}.csv", data) for number, data in enumerate(officers)]
    names += [write(folder, f"s{number:02}.fix", data) for number, data in enumerate(inputs)]
    words = [program, "desk", write(folder, "limits.csv", limits.encode()), out, str(len(officers))]
    return subprocess.run(words + names, capture_output=True, check=False), out


def outputs(done, out, officers, sessions):
    """What `judge_run` takes behind the inputs; nothing of the files where an officer had a fault."""
    if done.returncode == 3:
        return [], [], "", done.stdout.decode(), 3
    numbers = range(officers, officers + sessions)
    venues = [read(out, f"s{number:02}.venue") for number in numbers]
    clients = [read(out, f"s{number:02}.client") for number in numbers]
    return venues, clients, read(out, "journal.csv").decode(), done.stdout.decode(), done.returncode


def judge(asked, folder, number, counts):
    """Judges a run."""
    limits, officers, inputs = made(asked.seed * 1_000_003 + number)
    done, out = call(asked.gate, folder, limits, officers, inputs)
    acts = judge_run(limits, officers, inputs, *outputs(done, out, len(officers), len(inputs)))
    counts["faults"] += not acts
    counts["officers"] += len(officers)
    count(counts, acts)


def main():
    start = time.monotonic()
    counts = run_all(parser_of(1_000).parse_args(), judge)
    causes = ", ".join(f"{code}: {counts['refused', code]:,}" for code in range(1, 19))
    print(f"{counts['runs']:,} runs with {counts['officers']:,} officers, of which {counts['faults']:,} "
          f"runs had a wrong officer's file; sessions met in {counts['met']:,}, "
          f"{time.monotonic() - start:.0f} s")
    print(f"posts {counts['post']:,}, reads {counts['read']:,}, sent {counts['sent']:,}, "
          f"refused {counts['refused']:,}, noted {counts['noted']:,}")
    print(f"refused by code  {causes}")


if __name__ == "__main__":
    main()
