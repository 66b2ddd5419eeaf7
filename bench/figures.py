"""All figures of the project, a group for each script: what `run` prints and puts into README.md.

usage: run [--all] [--gate PATH] [--runs N] [--write] [GROUP...]

With no words it runs the groups that take seconds; with `--all` also those that take minutes, some
of which build Rust or prove a crate, each where the programs that it needs are there; with GROUPs
those alone. It prints a line on the machine and a table in Markdown for each, and then which groups
it left out and why; what the scripts themselves tell goes to standard error. N is how many runs a
median is of, 7. With `--write` each table takes its place in README.md, between two comments.

It ends with status 1 where a group ended with something wrong, and 2 where it can't run.
"""
import argparse
import contextlib
import math
import os
import shutil
import statistics
import subprocess
import sys
import tempfile
from dataclasses import dataclass
from types import SimpleNamespace
from typing import Callable

import check_times
import checks
import cross_stress
import forests
import fuzz
import live
import machine
import make_times
import most
import orders_read
import refuse
import replay
import report_times
import sessions
import stress
from model.judge import Wrong
from model.session import ENDS
from rows import RUNS
from sessions import spread
from table import table, with_part

README = os.path.join(sessions.HERE, "README.md")
# Sessions, and the orders of each.
LOADS = ((1, 40_000), (4, 2_000), (8, 1_000), (8, 2_000), (8, 5_000), (32, 2_000),
         (64, 2_000))
# The same for a check beside its run, and for the guard.
CHECK_LOADS = ((1, 10_000), (8, 2_000), (32, 2_000), (64, 2_000), (32, 10_000))
CROSS_LOADS = ((1, 10_000), (8, 2_000), (32, 2_000), (64, 2_000))
# The same for a load from a number, and for reports.
MAKE_LOADS = ((1, 10_000), (8, 2_000), (32, 10_000), (64, 2_000))
REPORT_LOADS = ((1, 2_000), (8, 2_000), (32, 2_000))
STRESS_RUNS, FUZZ_RUNS, GUARD_RUNS, CHECKED_RUNS = 2_000, 24_000, 1_000, 1_000
# Runs whose journals are audited, by turns of so many sessions.
AUDITED_RUNS, AUDITED_SESSIONS = 1_000, (8, 64)
# How many changes of the journal of each such run are checked.
CHANGES = 20
# What the refusals for a field fault have as their code, and how many codes there are.
FIELD_FAULT, REFUSALS, NOTES = 16, 16, 6
# Trees, posts of each pass in each, and the works: 2,048,000 posts each time.
RECORDS = ((4, 8_000, replay.WORKS), (500, 64, replay.WORKS[:2]))
# The programs of `forests.py` in the order of the columns.
SHARED = ("forest", "kept mutex", "kept tree", "bare mutex", "bare tree")


def megabytes(count):
    """Bytes in millions, with one digit where they are few."""
    return f"{count / 1e6:.0f} MB" if count >= 1e7 else f"{count / 1e6:.1f} MB"


def between(values, form):
    """The least and the most, or the one where they read the same."""
    least, highest = (format(value, form) for value in (min(values), max(values)))
    return least if least == highest else f"{least} to {highest}"


def session_cells(seen):
    """The row of a load."""
    return (f"{seen.sessions}", f"{seen.orders:,}", spread(seen.side_by_side),
            spread(seen.on_one), f"{seen.times_as_fast():.2f}", megabytes(seen.memory),
            megabytes(seen.read), megabytes(seen.written))


def session_rows(asked):
    """A row for each load."""
    return [session_cells(sessions.measure(asked.gate, count, orders, asked.runs))
            for count, orders in LOADS]


def check_cells(seen):
    """The row of a load that is run and checked."""
    return (f"{seen.sessions}", f"{seen.orders:,}", spread(seen.runs), spread(seen.checks),
            f"{seen.times_as_long():.2f}", megabytes(seen.run_memory),
            megabytes(seen.check_memory), f"{seen.times_the_memory():.2f}",
            megabytes(seen.journal))


def check_rows(asked):
    """A row for each load that is run and checked."""
    return [check_cells(check_times.measure(asked.gate, count, orders, asked.runs))
            for count, orders in CHECK_LOADS]


def make_cells(seen):
    """The row of a load from a number."""
    return (f"{seen.sessions}", f"{seen.orders:,}", spread(seen.seconds), megabytes(seen.memory),
            f"{seen.messages:,}", megabytes(seen.bytes), f"{seen.reads:,}", megabytes(seen.written))


def make_rows(asked):
    """A row for each load from a number."""
    return [make_cells(make_times.measure(asked.gate, count, orders, asked.runs))
            for count, orders in MAKE_LOADS]


def report_cells(seen):
    """The row of a load of whose run a report is made."""
    return (f"{seen.sessions}", f"{seen.orders:,}", spread(seen.seconds), megabytes(seen.memory),
            megabytes(seen.table), megabytes(seen.page))


def report_rows(asked):
    """A row for each load of whose run a report is made."""
    return [report_cells(report_times.measure(asked.gate, count, orders, asked.runs))
            for count, orders in REPORT_LOADS]


def cross_rows(asked):
    """A row for each load of the guard."""
    return [session_cells(sessions.measure(asked.gate, count, orders, asked.runs, "cross"))
            for count, orders in CROSS_LOADS]


def power(points):
    """The k with which y grows as the power x^k, by least squares on logarithms."""
    logarithms = [(math.log(x), math.log(y)) for x, y in points]
    return statistics.linear_regression(*zip(*logarithms)).slope


def growth(rows):
    """How the seconds on all processors grow, by the rows of loads: with sessions of as many orders,
    and with the orders of as many sessions."""
    seconds = [(int(row[0]), int(row[1].replace(",", "")), float(row[2].split()[0])) for row in rows]
    sessions_grow = [(count, own) for count, orders, own in seconds if orders == 2_000]
    orders_grow = [(orders, own) for count, orders, own in seconds if count == 8]
    return (f"The seconds on all processors grow as the power {power(sessions_grow):.2f} of the "
            f"sessions, where each has 2,000 orders, and {power(orders_grow):.2f} of the orders, where "
            f"there are 8 sessions.\n")


def most_cells(seen):
    """The row of a session of the most bytes."""
    return (f"{seen.messages:,} {seen.name}", spread(seen.seconds), megabytes(seen.memory),
            f"{seen.read:,}", f"{seen.written:,}")


def most_rows(asked):
    """A row for each kind of message."""
    return [most_cells(most.measure(asked.gate, name, asked.runs)) for name in most.KINDS]


def causes(counts, kind, codes):
    """How many causes of a kind came, of all."""
    return f"{sum(counts[kind, code] > 0 for code in range(1, codes + 1))} of {codes}"


def stress_cells(counts):
    """The rows of runs judged from outside."""
    return [("runs; of them those whose sessions met", f"{counts['runs']:,}; {counts['met']:,}"),
            ("sessions", f"{counts['sessions']:,}"),
            ("posts, reads", f"{counts['post']:,}, {counts['read']:,}"),
            ("orders and requests sent, refused; notes",
             f"{counts['sent']:,}, {counts['refused']:,}; {counts['noted']:,}"),
            ("causes of refusals that came; of notes",
             f"{causes(counts, 'refused', REFUSALS)}; {causes(counts, 'noted', NOTES)}"),
            ("journals that the program's own check called lawful", f"{counts['checked']:,}")]


def judged(asked, runs, has_check=False, many=None):
    """What the scripts that judge runs are asked."""
    return SimpleNamespace(gate=asked.gate, runs=runs, seed=1, sessions=many, check=has_check,
                           keep=None, only=None, jobs=len(os.sched_getaffinity(0)))


def stress_rows(asked):
    """What came in runs judged from outside, whose journals the program checks too where it can."""
    has_check = stress.has_command(asked.gate, "check")
    return stress_cells(stress.run_all(judged(asked, STRESS_RUNS, has_check), stress.judge))


def audit_rows(asked):
    """What came in runs whose journals the program's own check has to call lawful."""
    return stress_cells(stress.run_all(judged(asked, AUDITED_RUNS, True, AUDITED_SESSIONS),
                                       stress.judge))


def guard_cells(counts):
    """The rows of guards judged from outside."""
    return [("runs; of them those whose sessions met", f"{counts['runs']:,}; {counts['met']:,}"),
            ("sessions", f"{counts['sessions']:,}"),
            ("posts, reads", f"{counts['post']:,}, {counts['read']:,}"),
            ("orders and replaces that were asked about and passed on", f"{counts['sent']:,}"),
            ("refused as Cross, as Quota",
             f"{counts['refused', 17]:,}, {counts['refused', 5]:,}"),
            ("of the runs: what was passed on was run, and judged", f"{counts['run on']:,}")]


def guard_rows(asked):
    """What came in guards judged from outside."""
    return guard_cells(stress.run_all(judged(asked, GUARD_RUNS), cross_stress.judge))


def checks_cells(every, changed):
    """The rows of journals that the program checks, of each change of worked ones and of changes of
    the journals of runs."""
    words = ["LAWFUL", *(f"check fault {kind}" for kind in range(1, 8))]

    def told(counts):
        return ", ".join(f"{counts[word]:,}" for word in words)

    total = sum(every.values())
    runs = changed["runs"]
    return [("each small change of the worked journals", f"{total:,}"),
            ("of them lawful, and with a first fault of the kinds 1 to 7", told(every)),
            ("runs; journals of them, whole and changed, by their inputs and limits and by others",
             f"{runs:,}; {sum(changed.values()) - runs:,}"),
            ("of these lawful, and with a first fault of the kinds 1 to 7", told(changed))]


def checks_rows(asked):
    """What came in checks by the program."""
    wanted = SimpleNamespace(gate=os.path.abspath(asked.gate), seed=1, runs=CHECKED_RUNS,
                             changes=CHANGES, keep=None)
    return checks_cells(*(checks.run_all(SimpleNamespace(**vars(wanted), every=is_every))
                          for is_every in (True, False)))


def fuzz_cells(counts):
    """The rows of inputs with something wrong."""
    faults = sum(value for _, value in fuzz.of_kind(counts, "fault"))
    states = [value for _, value in fuzz.of_kind(counts, "state")]
    whole = counts["runs"] - faults
    ended = ", ".join(f"{counts['end', number]:,}" for number in ENDS.values())
    return [
        ("runs, sessions, frames",
         f"{counts['runs']:,}, {counts['sessions']:,}, {counts['frames']:,}"),
        ("of the runs: judged whole; a limit file with a fault", f"{whole:,}; {faults:,}"),
        ("of those judged whole: runs with `off` rows; screens that were dropped; sessions that did "
         "otherwise than without the rows", f"{counts['with off rows']:,}; "
         f"{counts['off', 'dropped']:,}; {counts['off', 'told']:,}"),
        ("runs with net accounts; sessions that did otherwise than with gross ones",
         f"{counts['with net accounts']:,}; {counts['net', 'told']:,}"),
        ("sessions that ended whole, cut, broken, too long", ended),
        ("orders and requests sent, refused; notes",
         f"{counts['sent']:,}, {counts['refused']:,}; {counts['noted']:,}"),
        ("of the refusals: by a field fault", f"{counts['refused', FIELD_FAULT]:,}"),
        ("reports on known orders", f"{sum(states):,}"),
        ("of how many kinds: whether the order is open, partly filled, filled or dead; what is "
         "pending; which of its ids is told; which report", f"{len(states):,}")]


def fuzz_rows(asked):
    """What came in inputs with something wrong."""
    return fuzz_cells(fuzz.run_all(judged(asked, FUZZ_RUNS)))


def refuse_cells(name, counts):
    """The row of a worked run."""
    return (name, f"{counts['runs']:,}", f"{counts['status 8']:,}",
            f"{counts['as with ample memory']:,}", f"{counts['with a journal']:,}",
            f"{counts['sessions ended by memory']:,}")


def refuse_rows(asked):
    """A row for each worked run."""
    wanted = SimpleNamespace(gate=asked.gate, keep=None, onward=False, most=100_000)
    with tempfile.TemporaryDirectory() as folder:
        loaded = refuse.library(folder)
        return [refuse_cells(name, refuse.refuse_each(wanted, loaded, name)) for name in RUNS]


def live_cells(session, counts, slowest):
    """The row of a session."""
    return (f"{session}", f"{counts[0]:,}", f"{counts[1]:,}", f"{slowest * 1000:.1f} ms")


def live_rows(asked):
    """A row for each of two sessions that are open at once."""
    lines = live.run_all(SimpleNamespace(gate=asked.gate, orders=20, seconds=10, one=False))
    return [live_cells(line.session, line.counts(), line.slowest) for line in lines]


def forest_cells(threads, one, own):
    """The row of so many threads, of runs on one array and on arrays of their own by program."""
    rates = [statistics.median(rate for rate, _ in runs[name])
             for runs in (one, own) for name in SHARED]
    return (f"{threads}", *(f"{rate:.1f}" for rate in rates))


def forest_rows(asked):
    """A row for each number of threads."""
    with tempfile.TemporaryDirectory() as folder:
        programs = forests.build(folder)
        return [forest_cells(threads, *(forests.measure(programs, kind, threads, 100_000,
                                                        asked.runs) for kind in ("one", "own")))
                for threads in forests.THREADS]


def replay_cells(trees, ran):
    """The row of so many trees, of what `replay.run` gives by work."""
    each = "not run"
    if "each" in ran:
        each = between([one[4] for one in ran["each"]], ".1f") + " s"
    memory = ", ".join(f"{max(one[5] for one in ran[work]):.0f} MB"
                       for work in ("prepared", "record"))
    return (f"{trees}", between([one[4] for one in ran["prepared"]], ".1f") + " s",
            between([one[3] for one in ran["prepared"]], ".2f") + " s", each, memory)


def replay_rows(_):
    """A row for each number of trees, of three runs, since each takes seconds."""
    with tempfile.TemporaryDirectory() as folder:
        program = replay.build(folder)
        return [replay_cells(trees, {work: [replay.run(program, work, trees, posts)
                                            for _ in range(3)] for work in works})
                for trees, posts, works in RECORDS]


def message_cells(name, medians):
    """The row of a file, by the medians of `orders_read.measure_file`."""
    own, plain = ([medians[program, work][0] for work in orders_read.WORKS]
                  for program in ("fix_orders", "plain Rust"))
    apart = [[find, read - find, forward - read] for find, read, forward in (own, plain)]
    return (name, *(f"{nanoseconds:,.0f} ns" for nanoseconds in apart[0]),
            ", ".join(f"{nanoseconds:,.0f}" for nanoseconds in apart[1]) + " ns")


def message_rows(asked):
    """A row for each file."""
    with tempfile.TemporaryDirectory() as folder:
        programs, files = orders_read.build(folder), orders_read.write_files(folder)
        return [message_cells(name, orders_read.measure_file(programs, name, path, size, 100,
                                                             asked.runs))
                for name, (path, size) in files.items()]


@dataclass(frozen=True)
class Group:
    """Figures of one table: its name, its columns, what measures its rows, which programs that
    needs, whether it takes seconds, whether each figure is of several runs, what says more of the
    rows, if anything does, and which command of the program it is of."""
    name: str
    head: tuple
    rows: Callable
    needs: tuple = ()
    is_quick: bool = False
    is_repeated: bool = True
    more: Callable = None
    command: str = "run"


ON_TREES = ("forest", "mutex", "steps", "bare mutex", "bare steps")
GROUPS = (
    Group("sessions", ("Sessions", "Orders each", "On all processors", "On one", "Times as fast",
                       "Memory at most", "Read", "Written"), session_rows, is_quick=True,
          more=growth),
    Group("most", ("Session", "Seconds", "Memory at most", "Bytes read", "Bytes written"),
          most_rows, is_quick=True),
    Group("make", ("Sessions", "Orders each", "Seconds", "Memory at most", "Messages", "Their bytes",
                   "Reads", "Written"), make_rows, is_quick=True, command="make"),
    Group("check", ("Sessions", "Orders each", "A run", "A check of its journal",
                    "Times as long", "Memory of the run", "Memory of the check",
                    "Times the memory", "Journal"),
          check_rows, is_quick=True, command="check"),
    Group("cross", ("Sessions", "Orders each", "On all processors", "On one", "Times as fast",
                    "Memory at most", "Read", "Written"), cross_rows, is_quick=True,
          command="cross"),
    Group("stress", ("What", "How many"), stress_rows, is_repeated=False),
    Group("audits", ("What", "How many"), audit_rows, is_repeated=False, command="check"),
    Group("checks", ("What", "How many"), checks_rows, is_repeated=False, command="check"),
    Group("guards", ("What", "How many"), guard_rows, is_repeated=False, command="cross"),
    Group("fuzz", ("What", "How many"), fuzz_rows, is_repeated=False),
    Group("refuse", ("Run", "Runs", "Status 8", "As with ample memory", "Whole journals at 8",
                     "Sessions ended by memory"), refuse_rows, ("cc",),
          is_repeated=False),
    Group("live", ("Session", "Sent", "Refused", "Slowest answer"), live_rows,
          is_repeated=False),
    Group("report", ("Sessions", "Orders each", "A report", "Memory at most", "Table", "Page"),
          report_rows),
    Group("forests", ("Threads", "one tree: forest", *ON_TREES[1:], "own trees: forest",
                      *ON_TREES[1:]), forest_rows, ("rt", "rustc")),
    Group("replay", ("Trees", "Prepared once", "of which preparing", "By `replay` of each tree",
                     "Memory, with no history"), replay_rows, ("rt",), is_repeated=False),
    Group("orders_read", ("Messages", "`next_frame`", "`read_message`",
                          "`write_forward` with `finish`", "plain Rust, the same three"),
          message_rows, ("rt", "rustc")),
)


def left_out(group, asked):
    """Why a group isn't run, None where it is."""
    if asked.groups and group.name not in asked.groups:
        return "not asked for"
    if not (asked.groups or asked.all or group.is_quick):
        return "takes minutes (--all)"
    missing = [name for name in group.needs if shutil.which(name) is None]
    if missing:
        return f"needs {', '.join(missing)}"
    if group.command != "run" and not stress.has_command(asked.gate, group.command):
        return f"the program has no `{group.command}`"
    return None


def place(asked):
    """What all figures are of: the machine, the version, and how runs are scheduled."""
    own = "" if asked.gate == sessions.PROGRAM else " with another program"
    return (f"{machine.processors()}; {machine.kit()}; {machine.commit(sessions.HERE)}{own}; "
            f"{machine.priority()}")


def measured(group, asked):
    """The text of a group: a line on the machine, and its table."""
    before = machine.load()
    with contextlib.redirect_stdout(sys.stderr):
        rows = group.rows(asked)
    many = "" if asked.runs == 1 else "s"
    runs = f"{asked.runs} run{many}; " if group.is_repeated else ""
    where = f"{place(asked)}; {runs}load {before} before and {machine.load()} after."
    more = "\n" + group.more(rows) if group.more else ""
    return f"{where}\n\n{table(group.head, rows)}{more}"


def put(name, part):
    """Puts a group's text into its place in README.md."""
    with open(README, encoding="utf-8") as file:
        text = with_part(file.read(), name, part)
    with open(README, "w", encoding="utf-8") as file:
        file.write(text)


def run_group(group, asked):
    """Runs a group and prints it. Gives whether nothing was wrong."""
    try:
        part = measured(group, asked)
    except (SystemExit, OSError, ValueError, Wrong, subprocess.SubprocessError) as wrong:
        print(f"## {group.name}\n\nIt ended with something wrong: {wrong}\n", flush=True)
        return False
    print(f"## {group.name}\n\n{part}", flush=True)
    if asked.write:
        put(group.name, part)
    return True


def arguments(words):
    """What the command line asks for."""
    parser = argparse.ArgumentParser(prog="run", description=__doc__,
                                     formatter_class=argparse.RawDescriptionHelpFormatter)
    parser.add_argument("--all", action="store_true")
    parser.add_argument("--gate", default=sessions.PROGRAM)
    parser.add_argument("--runs", type=int, default=7)
    parser.add_argument("--write", action="store_true")
    parser.add_argument("groups", nargs="*", metavar="GROUP")
    asked = parser.parse_args(words)
    unknown = set(asked.groups) - {group.name for group in GROUPS}
    if unknown:
        parser.error(f"no group {', '.join(sorted(unknown))}")
    if asked.runs < 1:
        parser.error("a median is of one run at least")
    if not os.access(asked.gate, os.X_OK):
        parser.error(f"there is no program {asked.gate}: `./gate` builds it, --gate names another")
    return asked


def main(words=None):
    asked = arguments(words)
    print(f"{place(asked)}; load {machine.load()}\n", flush=True)
    reasons, is_right = {}, True
    for group in GROUPS:
        reason = left_out(group, asked)
        if reason:
            reasons[group.name] = reason
        else:
            is_right = run_group(group, asked) and is_right
    for name, reason in reasons.items():
        print(f"left out: {name}: {reason}")
    return 0 if is_right else 1
