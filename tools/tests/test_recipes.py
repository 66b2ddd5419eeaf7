"""Logs that become session files, and two logs that become one."""
import os
import subprocess
import unittest

from fix_log import messages
from tests.places import ORDER, TOP, InFolder, soh

LINE = ORDER.replace(b"\x01", b"|")


def message(body, time=None):
    """A message of this body, with a BodyLength and CheckSum that fit."""
    body = soh(body + (f"52={time}|" if time else ""))
    text = b"8=FIX.4.4\x019=" + str(len(body)).encode() + b"\x01" + body
    return text + b"10=%03d\x01" % (sum(text) % 256)


# A log, the messages that it has, and the lines without one.
LOGS = [
    ("bars", LINE + b"\n", [ORDER], []),
    ("bars, and nothing behind the last", LINE[:-1] + b"\r\n", [ORDER], []),
    (
        "times before",
        b"2024-01-02 10:00:00.123 IN  " + LINE + b"\nheartbeat sent\n\n",
        [ORDER],
        [2],
    ),
    ("^A, and words behind", ORDER.replace(b"\x01", b"^A") + b" (116 bytes)\n", [ORDER], []),
    ("<SOH>", ORDER.replace(b"\x01", b"<SOH>"), [ORDER], []),
    ("semicolons", ORDER.replace(b"\x01", b";"), [ORDER], []),
    ("SOH, one behind another", ORDER + ORDER + b"\n" + ORDER, [ORDER] * 3, []),
    (
        "another version",
        soh("8=FIX.4.2|9=5|35=0|10=161|").replace(b"\x01", b"|"),
        [soh("8=FIX.4.2|9=5|35=0|10=161|")],
        [],
    ),
    (
        "a version in a text",
        message("35=D|58=we speak 8=FIX.4.4 here|").replace(b"\x01", b"|"),
        [message("35=D|58=we speak 8=FIX.4.4 here|")],
        [],
    ),
    ("blanks round bars", ORDER.replace(b"\x01", b" | "), [ORDER], []),
    ("the last separator is missing", LINE[:-1] + b"\n" + LINE[:-1], [ORDER] * 2, []),
    ("nothing", b"", [], []),
    ("no message", b"8=FIX.4.4 is what we speak\n", [], [1]),
]


class Recipes(InFolder):
    def tool(self, name, *words):
        done = subprocess.run(
            [os.path.join(TOP, "tools", name), *words], cwd=self.folder, capture_output=True
        )
        return done.returncode, done.stderr.decode()

    def test_messages_come_out_of_logs(self):
        for name, log, texts, without in LOGS:
            with self.subTest(name):
                found, lines = messages(log)
                self.assertEqual([one.text for one in found], texts)
                self.assertEqual(lines, without)

    def test_a_session_file_is_made(self):
        self.write(
            "log",
            b"10:00:00 " + LINE + b"\nstarted\n10:00:01 " + LINE.replace(
                b"11=a1", b"11=a2"
            ) + b"\n",
        )
        status, error = self.tool("session_from_log.py", "log", "made.fix")
        self.assertEqual(
            self.read("made.fix"), ORDER + b"\n" + ORDER.replace(b"11=a1", b"11=a2") + b"\n"
        )
        self.assertEqual(status, 1)
        self.says(
            error,
            "log: 2 messages, 1 lines without one: 2",
            "log, line 3: CheckSum (10) is 175, and the bytes come to 176",
        )

    def test_a_length_that_does_not_fit_is_told(self):
        self.write("log", LINE.replace(b"44=10.0000", b"44=10.00"))
        status, error = self.tool("session_from_log.py", "log", "made.fix")
        self.assertEqual(status, 1)
        self.says(error, "BodyLength (9) is 113, and the body has 111 bytes")

    def test_wrong_calls(self):
        self.assertEqual(self.tool("session_from_log.py", "a.fix")[0], 2)
        self.assertEqual(self.tool("session_from_log.py", "none", "made.fix")[0], 2)
        self.assertEqual(self.tool("session_from_log.py", "a.fix", "./a.fix")[0], 2)
        self.assertEqual(self.tool("merge_logs.py", "a.fix", "limits.csv")[0], 2)
        self.assertEqual(self.tool("merge_logs.py", "a.fix", "limits.csv", "limits.csv")[0], 2)
        self.assertEqual(self.read("a.fix"), ORDER)

    def test_the_tools_tell_how_they_are_called(self):
        for name in ("session_from_log.py", "merge_logs.py"):
            for word in ("--help", "-h"):
                told = subprocess.run(
                    [os.path.join(TOP, "tools", name), word], cwd=self.folder, capture_output=True
                )
                self.assertEqual((told.returncode, told.stderr), (0, b""))
                self.says(told.stdout.decode(), f"usage: {name} ", "The status is")

    def test_a_log_without_a_message(self):
        status, error = self.tool("session_from_log.py", "limits.csv", "made.fix")
        self.assertEqual(status, 1)
        self.says(error, "limits.csv: 0 messages, 3 lines without one: 1, 2, 3")

    def test_two_logs_are_merged_by_sending_time(self):
        first, second = message("35=D|11=a|", "20240102-10:00:00.5"), message(
            "35=D|11=b|", "20240102-10:00:02"
        )
        new, fill = message("35=8|11=a|", "20240102-10:00:00.500"), message(
            "35=8|11=b|", "20240102-10:00:02.000000"
        )
        late = message("35=8|11=a|", "20240102-10:00:01.999")
        self.write("client", b"x " + first.replace(b"\x01", b"|") + b"\n" + second + b"\n")
        self.write("venue", new + late + fill)
        status, error = self.tool("merge_logs.py", "client", "venue", "day.fix")
        self.assertEqual((status, error), (0, "client: 2 messages\nvenue: 3 messages\n"))
        self.assertEqual(
            self.read("day.fix"), b"".join(one + b"\n" for one in (first, new, late, second, fill))
        )

    def test_each_log_keeps_its_own_order(self):
        noon, before, none = message("35=0|", "20240102-12:00:00"), message(
            "35=1|", "20240102-11:00:00"
        ), message("35=2|")
        report = message("35=8|", "20240102-11:30:00")
        self.write("client", noon + b"\n" + before + b"\n" + none)
        self.write("venue", report)
        status, error = self.tool("merge_logs.py", "client", "venue", "day.fix")
        self.assertEqual(status, 0)
        self.says(
            error,
            "client, line 2: the message goes back in time",
            "client, line 3: the message has no SendingTime (52)",
        )
        self.assertEqual(
            self.read("day.fix"), b"".join(one + b"\n" for one in (report, noon, before, none))
        )


if __name__ == "__main__":
    unittest.main()
