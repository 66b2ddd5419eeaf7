#!/usr/bin/env python3
"""Measures how long the histories of all trees of a record take, and how much memory.

usage: replay.py [TREES [POSTS [REPETITIONS [WORK ..]]]]
4 trees, 8,000 posts, 3 repetitions and all works where no more is said

The record is that of a forest of `f_array` with so many trees and 64 passes, each of them on a thread of its own,
that makes so many posts in each tree. A post ascends six levels and wins at most one install at each. So by the
numbers above there are 2,048,000 posts, and about 12 million installs, in memory. There are three works:

record      the posts, and the close that gives the record; no history is made.
prepared    the same, then `Prepared::of` once, and `replay_of` for each tree.
each        the same, then `replay` for each tree, which prepares the record anew for each: minutes at 500 trees.

For each repetition of each work a line is printed: the posts and the installs of the record, which differ from run
to run as threads meet; the seconds of `Prepared::of`, and those of all histories with it; and the largest memory of
the whole program. What the histories take of it is what it has beyond that of `record`. One history at a time is
in memory. The time is taken in the program, by the clock.

It needs the kit's `rt` on the PATH. The program is proved and built in a temporary folder.
"""
import os
import subprocess
import sys
import tempfile

from beside import copy_beside

BENCH = os.path.dirname(os.path.abspath(__file__))
CRATES = ("fold_law", "fork_all", "risk_board", "stamp_word", "node_rule", "double_refresh", "f_array", "trail_replay")
USED = ("fold_law", "stamp_word", "node_rule", "f_array", "trail_replay", "risk_board", "atomic_table")
WORKS = ("record", "prepared", "each")
PASSES = 64


def build(folder):
    """The program, built."""
    copy_beside(folder, "replays", CRATES, USED)
    crate = os.path.join(folder, "crates", "replays")
    subprocess.run(["rt", "run", "--", "prepared", "1", "1"], cwd=crate, check=True, stdout=sys.stderr)
    return os.path.join(crate, "out", "replays")


def run(program, work, trees, posts):
    """Of one run: posts, installs, lines, both times in seconds, and the largest memory in megabytes."""
    words = [program, work, str(trees), str(posts)]
    with subprocess.Popen(words, stdout=subprocess.PIPE, text=True) as child:
        out = child.stdout.read()
        _, status, used = os.wait4(child.pid, 0)
        child.returncode = os.waitstatus_to_exitcode(status)
    if child.returncode != 0 or len(out.split()) != 5:
        sys.exit(f"{out} {' '.join(words)}")
    made, installs, lines, first, last = map(int, out.split())
    wanted = 0 if work == "record" else made
    if made != PASSES * trees * posts or lines != wanted:
        sys.exit(f"{made} posts, {lines} lines: {' '.join(words)}")
    return made, installs, lines, first / 1e9, last / 1e9, used.ru_maxrss / 1000


def main():
    trees = int(sys.argv[1]) if len(sys.argv) > 1 else 4
    posts = int(sys.argv[2]) if len(sys.argv) > 2 else 8_000
    repetitions = int(sys.argv[3]) if len(sys.argv) > 3 else 3
    works = sys.argv[4:] or WORKS
    with tempfile.TemporaryDirectory() as folder:
        program = build(folder)
        print("load before:", *("%.1f" % load for load in os.getloadavg()))
        print(f"{PASSES} passes, {trees} trees, {posts} posts of each pass in each tree")
        print("work          posts   installs  prepared s    all s       MB")
        for _ in range(repetitions):
            for work in works:
                made, installs, _, first, last, memory = run(program, work, trees, posts)
                print(f"{work:8}{made:11}{installs:11}{first:12.2f}{last:9.2f}{memory:9.0f}", flush=True)
        print("load after:", *("%.1f" % load for load in os.getloadavg()))


if __name__ == "__main__":
    main()
