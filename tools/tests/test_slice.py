"""A limit file split into slices."""
import os
import subprocess
import tempfile
import unittest

from launcher.limit_file import first_fault, rows

TOOL = os.path.join(os.path.dirname(os.path.dirname(os.path.realpath(__file__))), "slice")

LIMITS = (
    b"firm,,100,,,\n"
    b'account,"A,1",7,,,\n'
    b"account,A2,0,,,\n"
    b"symbol,XYZ,5,1,12,100000\n"
    b"trip,,3,,,\n"
    b"off,size,0,,,\n"
)


class Slices(unittest.TestCase):
    def setUp(self):
        folder = tempfile.TemporaryDirectory()
        self.addCleanup(folder.cleanup)
        self.limits = os.path.join(folder.name, "limits.csv")
        self.put(LIMITS)

    def put(self, data):
        with open(self.limits, "wb") as file:
            file.write(data)

    def split(self, *words):
        return subprocess.run([TOOL, self.limits, *words], capture_output=True, text=True)

    def slices(self, count):
        texts = []
        for machine in range(count):
            with open(self.limits.replace(".csv", f".{machine}.csv"), "rb") as file:
                texts.append(file.read())
        return texts

    def test_the_shares_are_worked_out(self):
        self.assertEqual(self.split("3").returncode, 0)
        self.assertEqual(
            self.slices(3),
            [
                b'firm,,34,,,\naccount,"A,1",2,,,\naccount,A2,0,,,\n'
                b"symbol,XYZ,2,1,12,100000\ntrip,,3,,,\noff,size,0,,,\n",
                b'firm,,33,,,\naccount,"A,1",3,,,\naccount,A2,0,,,\n'
                b"symbol,XYZ,1,1,12,100000\ntrip,,3,,,\noff,size,0,,,\n",
                b'firm,,33,,,\naccount,"A,1",2,,,\naccount,A2,0,,,\n'
                b"symbol,XYZ,2,1,12,100000\ntrip,,3,,,\noff,size,0,,,\n",
            ],
        )

    def test_shares_sum_up_to_the_limit_and_are_limit_files(self):
        for machines in (2, 7, 64, 1000):
            with self.subTest(machines=machines):
                self.setUp()
                self.assertEqual(self.split(str(machines)).returncode, 0)
                texts = self.slices(machines)
                self.assertFalse([text for text in texts if first_fault(text)])
                for place, row in enumerate(rows(LIMITS)):
                    shares = [int(list(rows(text))[place].columns[2]) for text in texts]
                    if row.kind in (b"firm", b"account", b"symbol"):
                        self.assertEqual(sum(shares), int(row.columns[2]))
                        self.assertLessEqual(max(shares) - min(shares), 1)
                    else:
                        self.assertEqual(set(shares), {int(row.columns[2])})

    def test_modes_and_the_version_stand_in_each_slice(self):
        self.put(b"version,2,,,,,\nfirm,,5,,,,\naccount,A,3,,,,net\naccount,B,1,,,,\n")
        self.assertEqual(self.split("2").returncode, 0)
        self.assertEqual(
            self.slices(2),
            [
                b"version,2,,,,,\nfirm,,3,,,,\naccount,A,1,,,,net\naccount,B,1,,,,\n",
                b"version,2,,,,,\nfirm,,2,,,,\naccount,A,2,,,,net\naccount,B,0,,,,\n",
            ],
        )

    def test_words_that_are_no_form(self):
        for words in ((), ("1",), ("0",), ("02",), ("1001",), ("-2",), ("two",), ("2", "3")):
            with self.subTest(words=words):
                self.assertEqual(self.split(*words).returncode, 2)

    def test_a_file_that_is_no_limit_file_is_told(self):
        self.put(b"firm,,1,,,\nfirm,,2,,,\n")
        told = self.split("2")
        self.assertEqual(told.returncode, 3)
        self.assertIn("row 2", told.stderr)

    def test_no_file_is_written_over(self):
        there = self.limits.replace(".csv", ".1.csv")
        with open(there, "wb") as file:
            file.write(b"kept")
        self.assertEqual(self.split("2").returncode, 2)
        with open(there, "rb") as file:
            self.assertEqual(file.read(), b"kept")
        self.assertFalse(os.path.exists(self.limits.replace(".csv", ".0.csv")))


if __name__ == "__main__":
    unittest.main()
