"""Checks of journals: what is handed on, and what is told of each status and of each kind of fault.
The stand-in for the gate ends with the status and tells the text; what is told comes from the
files."""
import os
import signal
import subprocess
import unittest

from tests.places import TOP, InFolder

JOURNAL = "kind,session,a,b,c,d\npost,0,0,1,999,\nended,0,0,,,\nline,0,0,1,1,999\n"
CHECK = ("check", "limits.csv", "journal.csv", "a.fix")

# A fault as the program tells it, and what standard error says of it.
FAULTS = [
    ("1 row 0", ["journal.csv: fault 1: it has more bytes than the 1,073,741,824"]),
    ("1 row 3", ["row 3: `ended,0,0,,,`", "fault 1: no journal goes on with this row"]),
    ("2 row 0", ["fault 2: it has another number of sessions than the 1 that were given"]),
    ("3 row 3", ["row 3: `ended,0,0,,,`", "fault 3: the session ended by a failed read"]),
    ("4 row 2", ["row 2: `post,0,0,1,999,`", "fault 4: the limit file has no such tree"]),
    ("5 row 2", ["row 2: `post,0,0,1,999,`", "fault 5: by its file and by what it read"]),
    ("6 row 0", ["journal.csv: fault 6: a post has no line"]),
    ("6 row 4", ["row 4: `line,0,0,1,1,999`", "fault 6: it isn't the next post of its session"]),
    ("7 row 9", ["row 9: nothing stands there", "fault 7: this read isn't what"]),
]


class Checks(InFolder):
    def setUp(self):
        super().setUp()
        self.write("journal.csv", JOURNAL)

    def test_a_lawful_journal_says_nothing_more_and_leaves_nothing(self):
        before = sorted(os.listdir(self.folder))
        self.assertEqual(self.gate(*CHECK, text="LAWFUL\n"), (0, "LAWFUL\n", ""))
        self.assertEqual(sorted(os.listdir(self.folder)), before)

    def test_each_fault_is_told_with_its_row(self):
        for told, lines in FAULTS:
            with self.subTest(told):
                text = f"check fault {told}\n"
                status, out, error = self.gate(*CHECK, status=7, text=text)
                self.assertEqual((status, out), (7, text))
                self.says(error, *lines)

    def test_a_fault_that_is_none(self):
        _, out, error = self.gate(*CHECK, status=7, text="check fault 8 row 1\n")
        self.assertEqual(out, "check fault 8 row 1\n")
        self.says(error, "journal.csv: the text tells no fault")

    def test_a_limit_file_with_a_fault(self):
        self.write("limits.csv", "firm,,x,,,\n")
        status, out, error = self.gate(*CHECK, status=3, text="limits fault 3 row 1\n")
        self.assertEqual((status, out), (3, "limits fault 3 row 1\n"))
        self.says(error, "limits.csv, row 1, line 1", "fault 3: the column limit is `x`")

    def test_files_that_can_not_be_read(self):
        words = ("check", "limits.csv", "none.csv", "a.fix", "folder")
        os.mkdir(self.path("folder"))
        status, out, error = self.gate(*words, status=5, text="read fault\n")
        self.assertEqual((status, out), (5, "read fault\n"))
        self.says(error, "none.csv can't be read: no such file", "folder can't be read: it is a")
        self.assertNotIn("a.fix", error)
        error = self.gate(*CHECK, status=5)[2]
        self.says(error, "a read failed, of limits.csv, journal.csv, a.fix")

    def test_memory_a_signal_and_a_status_that_is_none(self):
        self.says(self.gate(*CHECK, status=8)[2], "out of memory")
        self.says(self.gate(*CHECK, status=4)[2], "ended with 4, which is no status of a check")
        status, out, error = self.gate(*CHECK, signal=int(signal.SIGKILL))
        self.assertEqual((status, out), (128 + signal.SIGKILL, ""))
        self.says(error, "the program was ended by SIGKILL")

    def test_standard_output_that_can_not_be_written(self):
        for end in (">/dev/full", ">&-"):
            with self.subTest(end):
                done = subprocess.run(
                    ["sh", "-c", f'exec "$@" {end}', "sh", os.path.join(TOP, "gate"), *CHECK],
                    cwd=self.folder, capture_output=True,
                    env={**os.environ, "GATE_PROGRAM": self.program,
                         "FAKE": '{"status": 0, "text": "LAWFUL\\n"}'},
                )
                self.assertEqual(done.returncode, 6)
                self.says(done.stderr.decode(), "standard output couldn't be written: ")

    def test_one_file_under_two_names_is_checked(self):
        """Nothing is written that could be read too."""
        words = ("check", "limits.csv", "journal.csv", "a.fix", "./a.fix")
        self.assertEqual(self.gate(*words, text="LAWFUL\n")[0], 0)

    def test_a_program_that_can_not_be_started(self):
        os.chmod(self.write("words", "no program\n"), 0o755)
        status, _, error = self.gate(*CHECK, env={"GATE_PROGRAM": self.path("words")})
        self.assertEqual(status, 1)
        self.says(error, "words can't be started: exec format error")


if __name__ == "__main__":
    unittest.main()
