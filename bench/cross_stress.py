#!/usr/bin/env python3
"""Runs the built program's guard against crossing orders over random sessions, and judges it.

usage: cross_stress.py [--runs N] [--seed N] [--gate PATH] [--keep FOLDER]      1,000 runs, seed 1

A run has 1 to 64 sessions that buy and sell in one symbol or two, at prices that often cross; some
are cut or have something wrong (`broken.py`). Each symbol's tree has to be legal, no buy that is
admitted may cross a sell that is, at any place, and each session's acts, what it passes and its
answers have to be those of the plain model in `model/cross.py` over its input and its reads. In
every fifth run what was passed is then run by `run`, over the same limits, and judged as `stress.py`
does. It ends with status 1 at the first run that is wrong, whose files it leaves in FOLDER, where one
is given.
"""
import random
import tempfile
import time

import broken
import loads
from model.cross_judge import judge_run
from model.frames import Frame, next_frame
from model.judge import judge_run as judge_gate
from rows import base
from stress import call, count, parser_of, read, results, run_all

SECOND = "symbol,ABC,100000,1,10,500"


def limits_of(dice):
    """A limit file of one symbol or two; now and then of wide collars, of a small quota, or of none."""
    choice = dice.random()
    if choice < 0.05:
        return "firm,,1,,,\n"
    if choice < 0.2:
        return base(100_000).replace("1,12,", "0.0001,999999.9999,")
    rows = [SECOND] if dice.random() < 0.5 else []
    if dice.random() < 0.2:
        rows.append(f"quota,,{dice.randint(1, 60)},,,")
    return base(100_000, *rows)


def with_second(dice, data):
    """An input in which some messages are of the second symbol."""
    frames = broken.split(data)
    for place, frame in enumerate(frames):
        found = next_frame(frame, 0)
        if isinstance(found, Frame) and b"\x0155=XYZ\x01" in found.body and dice.random() < 0.5:
            frames[place] = broken.with_value(frame, 55, b"ABC")
    return b"".join(frames)


def made(number):
    """The limit file and the inputs of a run."""
    dice = random.Random(number)
    sessions = dice.choice((1, 2, 2, 3, 4, 8, 16, 64))
    messages = dice.choice((5, 20, 60, 150)) if sessions <= 8 else dice.choice((5, 20, 60))
    inputs = []
    for session in range(sessions):
        data = loads.session(dice, session, messages)
        if dice.random() < 0.5:
            data = with_second(dice, data)
        for _ in range(dice.choice((0, 0, 0, 1, 2))):
            data, _ = broken.change(dice, data)
        inputs.append(data)
    return limits_of(dice), inputs


def outputs(done, out, sessions):
    """What `judge_run` takes behind the inputs."""
    passes = [read(out, f"s{number:02}.pass") for number in range(sessions)]
    clients = [read(out, f"s{number:02}.client") for number in range(sessions)]
    return passes, clients, read(out, "cross.csv").decode(), done.stdout.decode(), done.returncode


def run_on(asked, folder, limits, passes):
    """Runs what was passed, and judges it."""
    done, out = call(asked.gate, tempfile.mkdtemp(dir=folder), limits, passes)
    judge_gate(limits, passes, *results(done, out, len(passes)))


def judge(asked, folder, number, counts):
    """Judges a run."""
    limits, inputs = made(asked.seed * 1_000_003 + number)
    done, out = call(asked.gate, folder, limits, inputs, command="cross")
    found = outputs(done, out, len(inputs))
    count(counts, judge_run(limits, inputs, *found))
    if number % 5 == 0:
        run_on(asked, folder, limits, found[0])
        counts["run on"] += 1


def main():
    start = time.monotonic()
    counts = run_all(parser_of(1_000).parse_args(), judge)
    print(f"{counts['runs']:,} runs of {counts['sessions']:,} sessions, which met in "
          f"{counts['met']:,} of them, {time.monotonic() - start:.0f} s; "
          f"{counts['run on']:,} were run on")
    print(f"posts {counts['post']:,}, reads {counts['read']:,}, sent {counts['sent']:,}, refused by "
          f"CROSS {counts['refused', 17]:,}, by QUOTA {counts['refused', 5]:,}")


if __name__ == "__main__":
    main()
