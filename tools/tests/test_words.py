"""The words of a call: what is refused before anything is built, read or written."""
import os
import re
import subprocess
import unittest

from tests.places import TOP, InFolder
from tests.sources import sources

USAGE = (
    "usage: gate run LIMITS OUT SESSION... | gate make NUMBER SESSIONS ORDERS"
    " | gate check LIMITS JOURNAL SESSION... | gate cross LIMITS OUT SESSION...\n"
)

# Words, and what standard error says of them.
MALFORMED = [
    ("no words", [], "no words were given"),
    ("another command", ["walk", "limits.csv", "out", "a.fix"], "`walk` is no command"),
    ("no session", ["run", "limits.csv", "out"], "`run` lacks a session file"),
    (
        "run alone",
        ["run"],
        "`run` lacks a limit file, a folder for the outputs and a session file",
    ),
    (
        "65 sessions",
        ["run", "limits.csv", "out", *(f"{n}.fix" for n in range(65))],
        "65 sessions were given: a run takes 1 to 64",
    ),
    ("an empty word", ["run", "limits.csv", "", "a.fix"], "word 3 is empty"),
    ("an option", ["run", "limits.csv", "out", "-a"], "word 4, `-a`, begins with a dash"),
    (
        "a session twice",
        ["run", "limits.csv", "out", "a.fix", "a.fix"],
        "a session can't be given twice",
    ),
    (
        "a session that is an output",
        ["run", "limits.csv", "out", "out/s00.venue"],
        "would overwrite",
    ),
    ("limits that are the journal", ["run", "out/journal.csv", "out", "a.fix"], "would overwrite"),
    ("make alone", ["make"], "`make` lacks NUMBER, SESSIONS and ORDERS"),
    ("no orders", ["make", "7", "8"], "`make` lacks ORDERS"),
    ("a word too many", ["make", "7", "8", "20", "1"], "three numbers, and 1 more words"),
    ("an empty number", ["make", "", "8", "20"], "word 2 is empty"),
    ("a sign", ["make", "-7", "8", "20"], "word 2, `-7`, begins with a dash"),
    ("a plus", ["make", "+7", "8", "20"], "word 2, `+7`, is no NUMBER"),
    ("a leading zero", ["make", "07", "8", "20"], "word 2, `07`, is no NUMBER"),
    ("a number too large", ["make", "4294967296", "8", "20"], "is 0 to 4,294,967,295"),
    ("no session of a load", ["make", "7", "0", "20"], "word 3, `0`, is no SESSIONS"),
    ("65 sessions of a load", ["make", "7", "65", "20"], "word 3, `65`, is no SESSIONS"),
    ("no order", ["make", "7", "8", "0"], "word 4, `0`, is no ORDERS"),
    ("10,001 orders", ["make", "7", "8", "10001"], "that is 1 to 10,000"),
    ("check alone", ["check"], "`check` lacks a limit file, a journal and a session file"),
    ("no session of a check", ["check", "limits.csv", "j.csv"], "`check` lacks a session file"),
    (
        "65 sessions of a check",
        ["check", "limits.csv", "j.csv", *(f"{n}.fix" for n in range(65))],
        "65 sessions were given: a check takes 1 to 64",
    ),
    ("an empty journal", ["check", "limits.csv", "", "a.fix"], "word 3 is empty"),
    ("a dash", ["check", "limits.csv", "-j", "a.fix"], "write `./-j` for such a file"),
    (
        "a session of a check twice",
        ["check", "limits.csv", "j.csv", "a.fix", "b.fix", "a.fix"],
        "sessions 0 and 2 are both a.fix: a session can't be given twice",
    ),
    ("no session of a filter", ["cross", "limits.csv", "out"], "`cross` lacks a session file"),
    (
        "65 sessions of a filter",
        ["cross", "limits.csv", "out", *(f"{n}.fix" for n in range(65))],
        "65 sessions were given: a filter takes 1 to 64",
    ),
    (
        "a session of a filter twice",
        ["cross", "limits.csv", "out", "a.fix", "./a.fix"],
        "a session can't be given twice",
    ),
    (
        "a session that a filter passes on",
        ["cross", "limits.csv", "out", "out/s00.pass"],
        "would overwrite",
    ),
    ("limits that are a filter's journal", ["cross", "out/cross.csv", "out", "a.fix"], "overwrite"),
    ("no UTF-8", ["run", "limits.csv", "out", b"a\xff.fix"], "word 4 isn't UTF-8: a\\xff.fix"),
]


class Words(InFolder):
    def test_a_malformed_call_says_what_is_wrong_and_touches_nothing(self):
        before = sorted(os.listdir(self.folder))
        for name, words, told in MALFORMED:
            with self.subTest(name):
                status, out, error = self.gate(*words)
                self.assertEqual((status, out), (2, USAGE))
                self.says(error, told)
                self.assertEqual(sorted(os.listdir(self.folder)), before)

    def test_a_malformed_call_needs_no_program_and_no_kit(self):
        status, out, error = self.gate(
            "run", "limits.csv", env={"GATE_PROGRAM": None, "PATH": self.bare()}
        )
        self.assertEqual((status, out), (2, USAGE))
        self.says(error, "`run` lacks")

    def test_the_usage_is_the_programs(self):
        """A text may go on in the next line of its source."""
        found = set()
        for crate in ("gate_files", "gate_program"):
            text = re.sub(r'\\\n\s*|"\s*\+\+ codes "', "", sources(crate))
            found |= set(re.findall(r"usage: gate [^\"\\\n`]*", text))
        self.assertEqual(found, {USAGE.rstrip()})

    def test_help_has_a_line_for_each_status(self):
        for words in (["--help"], ["-h"], ["run", "--help"], ["check", "-h"], ["report", "-h"]):
            status, out, error = self.gate(*words, env={"GATE_PROGRAM": None, "PATH": self.bare()})
            self.assertEqual((status, error), (0, ""))
            _, of_run, of_report = re.split("^status of .*\n", out, flags=re.M)
            self.assertEqual(re.findall(r"^  ([0-9]+) ", of_run, re.M), [*"012345678", "128"])
            self.assertEqual(re.findall(r"^  ([0-9]+) ", of_report, re.M), [*"0234"])
            self.says(
                out,
                "docs/FORMATS.md",
                "docs/CLAIMS.md",
                "README.md",
                "session_from_log.py",
                "GATE_PROGRAM",
            )

    def test_standard_output_that_can_not_be_written(self):
        for words in (["--help"], ["--version"], ["run"]):
            for end in (">/dev/full", ">&-"):
                with self.subTest(words, end=end):
                    done = subprocess.run(
                        ["sh", "-c", f'exec "$@" {end}', "sh", os.path.join(TOP, "gate"), *words],
                        capture_output=True,
                    )
                    self.assertEqual(done.returncode, 6)
                    self.says(done.stderr.decode(), "standard output couldn't be written: ")
                    self.assertNotIn("Traceback", done.stderr.decode())

    def test_standard_error_that_can_not_be_written(self):
        for end in ("2>&-", "2>/dev/full"):
            with self.subTest(end):
                done = subprocess.run(
                    ["sh", "-c", f'exec "$@" {end}', "sh", os.path.join(TOP, "gate"), "run"],
                    capture_output=True,
                )
                self.assertEqual((done.returncode, done.stdout.decode()), (2, USAGE))

    def test_version_has_the_commit_and_the_kit(self):
        status, out, _ = self.gate("--version")
        self.assertEqual(status, 0)
        self.assertRegex(
            out, r"^gate, (commit [0-9a-f]{7,} of \d{4}-\d\d-\d\d|a copy without its history)"
        )
        self.says(out, "rattle-kit-13f logic dac8208d650f15bf")
        self.says(self.gate("--version", env={"PATH": self.bare()})[1], "no `rt` on the PATH")


class SameFiles(InFolder):
    """One file under two names: the run is refused, both words are named, and the file keeps its
    bytes."""

    def refused(self, *words, told):
        kept = self.read("out/s00.venue")
        status, out, error = self.gate(*words)
        self.assertEqual((status, out), (2, USAGE))
        self.says(error, "are the same file", *told)
        self.assertEqual(self.read("out/s00.venue"), kept)
        self.assertEqual(os.listdir(self.path("out")), ["s00.venue"])

    def setUp(self):
        super().setUp()
        self.write("out/s00.venue", "a session of an earlier run")

    def test_a_slash_at_the_end_of_out(self):
        self.refused(
            "run",
            "limits.csv",
            "out/",
            "out/s00.venue",
            told=["out/s00.venue (word 4, session 0)", "out//s00.venue"],
        )

    def test_a_whole_path(self):
        path = self.path("out/s00.venue")
        self.refused(
            "run", "limits.csv", "out", path, told=[f"{path} (word 4", "the output out/s00.venue"]
        )

    def test_a_way_round(self):
        self.refused(
            "run",
            "limits.csv",
            "out",
            "./out/../out/s00.venue",
            told=["./out/../out/s00.venue (word 4"],
        )

    def test_a_link_to_the_file(self):
        os.symlink("out/s00.venue", self.path("linked.fix"))
        self.refused("run", "limits.csv", "out", "linked.fix", told=["linked.fix (word 4"])

    def test_a_second_name_of_the_file(self):
        os.link(self.path("out/s00.venue"), self.path("hard.fix"))
        self.refused("run", "limits.csv", "out", "hard.fix", told=["hard.fix (word 4"])

    def test_a_link_to_the_folder(self):
        os.symlink("out", self.path("there"))
        self.refused(
            "run", "limits.csv", "there", "out/s00.venue", told=["the output there/s00.venue"]
        )

    def test_limits_that_are_written(self):
        self.refused(
            "run",
            "./out/s00.venue",
            "out",
            "a.fix",
            told=["./out/s00.venue (word 2, the limit file)"],
        )

    def test_a_session_twice_under_two_names(self):
        self.refused(
            "run",
            "limits.csv",
            "out",
            "a.fix",
            "./a.fix",
            told=["a.fix (word 4", "./a.fix (word 5"],
        )

    def test_an_output_that_leads_to_a_session(self):
        os.symlink("../a.fix", self.path("out/journal.csv"))
        status, _, error = self.gate("run", "limits.csv", "out", "a.fix")
        self.assertEqual(status, 2)
        self.says(error, "a.fix (word 4", "the output out/journal.csv")

    def test_two_outputs_that_are_one_file(self):
        os.symlink("s00.venue", self.path("out/s00.client"))
        status, _, error = self.gate("run", "limits.csv", "out", "a.fix")
        self.assertEqual(status, 2)
        self.says(error, "the outputs out/s00.venue and out/s00.client are the same file")


if __name__ == "__main__":
    unittest.main()
