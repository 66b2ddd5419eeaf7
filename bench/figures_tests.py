#!/usr/bin/env python3
"""Tests of how figures become tables, of what is run and what is left out, and that each group's
table stands in README.md; and of one small load over the built program, where `GATE_PROGRAM` names
it or it is there.

usage: figures_tests.py
"""
import contextlib
import io
import os
import subprocess
import sys
import tempfile
import unittest
from collections import Counter
from types import SimpleNamespace
from unittest import mock

import check_times
import figures
import machine
import make_times
import most
import report_times
import sessions
from table import marks, part_of, read_table, table, with_part

STAND_IN = os.path.join(sessions.HERE, "stand_in.py")
# What stands in the place of a table that no built program was there for.
NOT_YET = "Not measured yet.\n"
GATE = os.environ.get("GATE_PROGRAM", sessions.PROGRAM)
BY_NAME = {group.name: group for group in figures.GROUPS}
DOCUMENT = "before\n<!-- bench/run live -->\nold\n<!-- end of live -->\nafter\n"


class Tables(unittest.TestCase):
    """Tables, and the marked parts of a document."""

    def test_a_table_reads_as_it_was_written(self):
        text = table(("One", "Two"), [("1", "2"), ("3", "4")])
        self.assertEqual(text, "| One | Two |\n|---|---|\n| 1 | 2 |\n| 3 | 4 |\n")
        self.assertEqual(read_table("words\n\n" + text), (["One", "Two"], [["1", "2"], ["3", "4"]]))

    def test_no_table_and_a_row_of_other_cells_are_refused(self):
        for text in ("", "| One |\n|---|\n", "| One |\n| 1 |\n| 2 |\n",
                     "| One | Two |\n|---|---|\n| 1 |\n"):
            with self.subTest(text), self.assertRaises(ValueError):
                read_table(text)

    def test_a_part_is_changed_and_nothing_else(self):
        self.assertEqual(part_of(DOCUMENT, "live"), "old\n")
        self.assertEqual(with_part(DOCUMENT, "live", "new\n"), DOCUMENT.replace("old", "new"))

    def test_a_part_that_is_not_there_once_is_refused(self):
        begin, end = marks("live")
        for text in ("", begin, end + begin, DOCUMENT + DOCUMENT):
            with self.subTest(text), self.assertRaises(ValueError):
                with_part(text, "live", "new\n")


class Rows(unittest.TestCase):
    """The cells of given figures."""

    def test_a_load(self):
        seen = sessions.Figures(8, 2_000, 4, [0.02, 0.03, 0.04], [0.04, 0.06, 0.12], 18_000_000,
                                2_345_678, 16_000_000, "status 0")
        self.assertEqual(figures.session_cells(seen), (
            "8", "2,000", "0.030 s (0.020 to 0.040)", "0.060 s (0.040 to 0.120)", "2.00", "18 MB",
            "2.3 MB", "16 MB"))

    def test_how_seconds_grow(self):
        """As the power 1 of the sessions and 0.5 of the orders; a load of other ones doesn't count."""
        rows = [(count, orders, f"{seconds} s (0 to 9)") for count, orders, seconds in (
            ("4", "2,000", "0.020"), ("8", "2,000", "0.040"), ("64", "2,000", "0.320"),
            ("8", "500", "0.020"), ("1", "40,000", "9.000"))]
        self.assertTrue(" 1.00 of the sessions" in figures.growth(rows))
        self.assertTrue(" 0.50 of the orders" in figures.growth(rows))

    def test_a_session_of_the_most_bytes(self):
        seen = most.Figures("Heartbeats", 467_576, [0.05], 1_700_000, 33_554_367, 34)
        self.assertEqual(figures.most_cells(seen), (
            "467,576 Heartbeats", "0.050 s (0.050 to 0.050)", "1.7 MB", "33,554,367", "34"))

    def test_what_judged_runs_count(self):
        counts = Counter({"runs": 10, "met": 4, "sessions": 30, "post": 1_000, "read": 900,
                          "sent": 50, "refused": 60, "noted": 7, ("refused", 16): 60,
                          ("noted", 1): 6, ("noted", 3): 1, "checked": 9})
        self.assertEqual([cells[1] for cells in figures.stress_cells(counts)], [
            "10; 4", "30", "1,000, 900", "50, 60; 7", "1 of 16; 2 of 6", "9"])

    def test_a_check_beside_its_run(self):
        seen = check_times.Figures(8, 2_000, [0.02, 0.04, 0.06], [0.04, 0.06, 0.12], 17_000_000,
                                   9_500_000, 6_200_000)
        self.assertEqual(figures.check_cells(seen), (
            "8", "2,000", "0.040 s (0.020 to 0.060)", "0.060 s (0.040 to 0.120)", "2.00", "17 MB",
            "9.5 MB", "0.56", "6.2 MB"))

    def test_a_load_from_a_number_and_a_report(self):
        made = make_times.Figures(8, 20, [0.02, 0.04, 0.06], 1_700_000, 440, 65_000, 640, 99_000)
        self.assertEqual(figures.make_cells(made), (
            "8", "20", "0.040 s (0.020 to 0.060)", "1.7 MB", "440", "0.1 MB", "640", "0.1 MB"))
        told = report_times.Figures(8, 2_000, [1.5], 40_000_000, 2_500_000, 900_000)
        self.assertEqual(figures.report_cells(told), (
            "8", "2,000", "1.500 s (1.500 to 1.500)", "40 MB", "2.5 MB", "0.9 MB"))

    def test_what_a_summary_counts(self):
        told = "make 0 1 1\nnew 1 cancel 2 report 3 bytes 272\nreads 4\nstatus 0\n"
        self.assertEqual(make_times.summary(told), (6, 272, 4))
        for other in (told[:-2] + "8\n", told.replace("new", "old"), ""):
            with self.subTest(other), self.assertRaises(ValueError):
                make_times.summary(other)

    def test_what_guards_count(self):
        counts = Counter({"runs": 10, "met": 4, "sessions": 30, "post": 1_000, "read": 900,
                          "sent": 50, ("refused", 17): 60, ("refused", 5): 7, "run on": 2})
        self.assertEqual([cells[1] for cells in figures.guard_cells(counts)], [
            "10; 4", "30", "1,000, 900", "50", "60, 7", "2"])

    def test_what_checks_count(self):
        every = Counter({"LAWFUL": 3, "check fault 1": 2_000, "check fault 7": 5})
        changed = Counter({"runs": 2, "LAWFUL": 2, "check fault 5": 40})
        self.assertEqual([cells[1] for cells in figures.checks_cells(every, changed)], [
            "2,008", "3, 2,000, 0, 0, 0, 0, 0, 5", "2; 42", "2, 0, 0, 0, 0, 40, 0, 0"])

    def test_what_inputs_with_something_wrong_count(self):
        counts = Counter({"runs": 10, "sessions": 12, "frames": 99, ("fault", 3): 2,
                          "with off rows": 3, ("off", "dropped"): 5, ("off", "told"): 4,
                          ("off", "dropped nothing"): 6, "with net accounts": 2, ("net", "told"): 1,
                          ("end", 0): 5, ("end", 2): 7, ("refused", 16): 8,
                          "refused": 9, ("state", "open", "nothing", "current", "F"): 3,
                          ("state", "dead", "nothing", "current", "F"): 4})
        self.assertEqual([cells[1] for cells in figures.fuzz_cells(counts)], [
            "10, 12, 99", "8; 2", "3; 5; 4", "2; 1", "5, 0, 7, 0", "0, 9; 0", "8", "7", "2"])

    def test_refused_allocations_and_live_sessions(self):
        counts = Counter({"runs": 265, "status 8": 257, "as with ample memory": 8})
        self.assertEqual(figures.refuse_cells("one order", counts),
                         ("one order", "265", "257", "8", "0", "0"))
        self.assertEqual(figures.live_cells(1, (14, 6), 0.0027), ("1", "14", "6", "2.7 ms"))

    def test_shared_trees(self):
        one = {name: [(place, 0), (place + 1, 0), (place + 9, 0)]
               for place, name in enumerate(figures.SHARED)}
        own = {name: [(20.25, 0)] for name in figures.SHARED}
        self.assertEqual(figures.forest_cells(2, one, own), (
            "2", "1.0", "2.0", "3.0", "4.0", "5.0", *["20.2"] * 5))

    def test_histories(self):
        record, made = (9, 9, 0, 0.0, 0.0, 254.0), (9, 9, 9, 0.13, 1.3, 365.0)
        slow = (9, 9, 9, 0.19, 1.52, 360.0)
        ran = {"record": [record], "prepared": [made, slow]}
        self.assertEqual(figures.replay_cells(500, ran), (
            "500", "1.3 to 1.5 s", "0.13 to 0.19 s", "not run", "365 MB, 254 MB"))
        self.assertEqual(figures.replay_cells(4, {**ran, "each": [slow]})[3], "1.5 s")

    def test_messages(self):
        medians = {("fix_orders", "find"): (285, 0), ("fix_orders", "read"): (2_079, 0),
                   ("fix_orders", "forward"): (2_594, 0), ("plain Rust", "find"): (176, 0),
                   ("plain Rust", "read"): (899, 0), ("plain Rust", "forward"): (1_363, 0)}
        self.assertEqual(figures.message_cells("orders", medians), (
            "orders", "285 ns", "1,794 ns", "515 ns", "176, 723, 464 ns"))

    def test_frames_fill_the_bytes_but_for_less_than_one(self):
        for made in most.KINDS.values():
            held = sum(map(len, most.filled(made, 10_000)))
            self.assertTrue(9_800 < held <= 10_000)
        self.assertEqual(most.filled(most.heartbeat, 0), [])

    def test_the_name_and_the_speed_of_the_processors(self):
        self.assertEqual(machine.model("model name\t: Some(R) One\ncpu MHz\t\t: 2699.9\n"),
                         "Some One at 2.7 GHz")
        self.assertEqual(machine.model("model name\t: Some @ 2.50GHz\ncpu MHz\t\t: 2499.9\n"),
                         "Some at 2.5 GHz")
        self.assertEqual(machine.model(""), "unknown")


class Command(unittest.TestCase):
    """What is run, what is left out, and what stands in README.md."""

    def test_quick_groups_alone_run_with_no_words(self):
        for gate, own in ((STAND_IN, ["sessions", "most", "make", "check", "cross"]),
                          (sys.executable, ["sessions", "most"])):
            asked = SimpleNamespace(all=False, groups=[], gate=gate)
            ran = [group.name for group in figures.GROUPS if figures.left_out(group, asked) is None]
            self.assertEqual(ran, own)

    def test_what_is_missing_is_told(self):
        asked = SimpleNamespace(all=True, groups=[], gate="no program")
        self.assertEqual(figures.left_out(BY_NAME["check"], asked), "the program has no `check`")
        with mock.patch("shutil.which", lambda name: None):
            self.assertEqual(figures.left_out(BY_NAME["forests"], asked), "needs rt, rustc")
            self.assertIsNone(figures.left_out(BY_NAME["live"], asked))
        named = SimpleNamespace(all=False, groups=["live"])
        self.assertEqual(figures.left_out(BY_NAME["most"], named), "not asked for")
        self.assertIsNone(figures.left_out(BY_NAME["live"], named))

    def test_a_group_that_ends_wrongly_is_told_and_not_written(self):
        def wrong(_):
            raise SystemExit("run 7 is wrong")

        group = figures.Group("live", ("What",), wrong)
        told = io.StringIO()
        with contextlib.redirect_stdout(told), mock.patch("figures.put") as put:
            asked = SimpleNamespace(write=True, gate=GATE, runs=1)
            self.assertFalse(figures.run_group(group, asked))
        self.assertTrue("run 7 is wrong" in told.getvalue())
        put.assert_not_called()

    def test_what_is_printed_is_what_is_written(self):
        group = figures.Group("live", ("One",), lambda asked: [("1",)], more=lambda rows: "More.\n")
        told = io.StringIO()
        with tempfile.TemporaryDirectory() as folder:
            path = os.path.join(folder, "README.md")
            sessions.write(folder, "README.md", DOCUMENT)
            with contextlib.redirect_stdout(told), mock.patch("figures.README", path):
                asked = SimpleNamespace(write=True, gate=GATE, runs=1)
                self.assertTrue(figures.run_group(group, asked))
            with open(path, encoding="utf-8") as file:
                part = part_of(file.read(), "live")
        self.assertEqual(read_table(part), (["One"], [["1"]]))
        self.assertTrue(part.endswith("|\n\nMore.\n"))
        self.assertEqual(told.getvalue(), f"## live\n\n{part}\n")

    def test_each_group_has_its_table_in_the_readme(self):
        with open(figures.README, encoding="utf-8") as file:
            text = file.read()
        for group in figures.GROUPS:
            with self.subTest(group.name):
                part = part_of(text, group.name)
                if part == NOT_YET:
                    continue
                head, rows = read_table(part)
                self.assertEqual(head, list(group.head))
                self.assertTrue(all(cell for row in rows for cell in row))

    def test_small_loads_over_the_stand_in(self):
        """Each group that the stand-in can run, with few runs and few orders."""
        small = {"LOADS": ((1, 2),), "CHECK_LOADS": ((2, 2),), "CROSS_LOADS": ((2, 2),),
                 "REPORT_LOADS": ((1, 2),), "STRESS_RUNS": 1, "GUARD_RUNS": 1, "CHECKED_RUNS": 1,
                 "CHANGES": 2, "AUDITED_RUNS": 2, "AUDITED_SESSIONS": (2, 3)}
        asked = SimpleNamespace(gate=STAND_IN, runs=1)
        once = [mock.patch(f"{name}.LOOKED_AT", 1)
                for name in ("sessions", "check_times", "report_times")]
        with contextlib.ExitStack() as stack:
            for patch in (*once, mock.patch.multiple(figures, **small),
                          mock.patch("checks.every", lambda: ())):
                stack.enter_context(patch)
            for name in ("sessions", "check", "cross", "report", "stress", "audits", "guards",
                         "checks"):
                with self.subTest(name):
                    rows = BY_NAME[name].rows(asked)
                    self.assertEqual({len(row) for row in rows}, {len(BY_NAME[name].head)})

    def test_a_check_that_finds_a_fault_is_told(self):
        with mock.patch.dict(os.environ, {"WRONG": "faulty"}), self.assertRaises(
                subprocess.SubprocessError):
            check_times.measure(STAND_IN, 1, 2, 1)
        with self.assertRaises(ValueError):
            check_times.checked(["echo", "check fault"], os.sched_getaffinity(0))

    def test_a_load_from_a_number(self):
        """Over a program that tells a summary and writes one output."""
        with tempfile.TemporaryDirectory() as folder:
            gate = sessions.write(folder, "gate", '#!/bin/sh\necho made > load/journal.csv\necho "$*"\n'
                                  "echo new 6 cancel 1 report 5 bytes 900\necho reads 24\n"
                                  "echo status 0\n")
            os.chmod(gate, 0o755)
            seen = make_times.measure(gate, 2, 3, 2)
        self.assertEqual((seen.messages, seen.bytes, seen.reads, seen.written, len(seen.seconds)),
                         (12, 900, 24, 5, 2))

    def test_orders_of_the_guard_never_cross(self):
        seen = sessions.measure(STAND_IN, 2, 3, 1, "cross")
        self.assertEqual(seen.last, "status 0")
        self.assertEqual(seen.read, seen.written - self.journal_bytes(6))

    def journal_bytes(self, orders):
        """What the guard's journal has where each of so many orders is passed on."""
        with tempfile.TemporaryDirectory() as folder:
            made = sessions.Runs(STAND_IN, folder, sessions.texts_of(2, orders // 2, "cross"), "cross")
            made.seconds(os.sched_getaffinity(0))
            with open(os.path.join(made.out, "cross.csv"), encoding="ascii") as file:
                text = file.read()
        self.assertEqual(text.count("\nsent,"), orders)
        return len(text)

    def test_a_small_load(self):
        if not os.path.exists(GATE):
            self.skipTest("the program isn't built")
        seen = sessions.measure(GATE, 2, 10, 1)
        self.assertEqual((seen.sessions, seen.orders, seen.last), (2, 10, "status 0"))
        self.assertEqual(len(figures.session_cells(seen)), len(BY_NAME["sessions"].head))


if __name__ == "__main__":
    unittest.main()
