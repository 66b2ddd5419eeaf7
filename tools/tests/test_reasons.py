"""Why a run ended as it did: what is told of each status, of each fault of a limit file and of each
way in which a session file can end. The stand-in for the gate ends with the status; what is told
comes from the files."""
import os
import signal
import unittest
from unittest import mock

from launcher.limit_file import first_fault
from launcher.reasons import reasons
from launcher.session_file import end_of_input
from tests.places import LIMITS, ORDER, InFolder, soh

RUN = ("run", "limits.csv", "out", "a.fix")
FILTER = ("cross", "limits.csv", "out", "a.fix")
ROWS = "firm,,1000,,,\n"
NET = "version,2,,,,,\nfirm,,5000,,,,\naccount,ACC,9,,,,net\nsymbol,XYZ,9,1,12,100,\n"
DROPPED = "".join(f"off,S{n},1,,,\n" for n in range(17))
SYMBOLS = "".join(f"symbol,S{n},1,1,2,1\n" for n in range(401))

# A limit file, the fault and the row that docs/FORMATS.md gives it, its line, and what is told
# besides.
FAULTS = [
    (
        "five columns",
        "firm,,1000,,\n",
        1,
        1,
        1,
        ["`firm,,1000,,`", "it has 5 columns", "kind, name, limit, low, high, size"],
    ),
    (
        "a column too many",
        ROWS + "\n\nquota,,1,2,,\n",
        1,
        2,
        4,
        ["the column low is `2`", "in a row `quota` it stays empty"],
    ),
    ("semicolons", "firm;;1;;;\n", 1, 1, 1, ["Between columns is a comma, and not `;`"]),
    ("a name of the firm", "firm,ACME,1,,,\n", 1, 1, 1, ["the column name is `ACME`"]),
    (
        "another kind",
        ROWS + "frim,,1,,,\n",
        2,
        2,
        2,
        ["the kind is `frim`", "firm, account, symbol, trip, quota, repeat, off"],
    ),
    ("titles", "kind,name,limit,low,high,size\n", 2, 1, 1, ["A limit file has no row of titles"]),
    ("blanks", ROWS + " Account,A,1,,,\n", 2, 2, 2, ["in small letters and without blanks"]),
    (
        "a limit with a comma",
        'firm,,"1,000",,,\n',
        3,
        1,
        1,
        ["the column limit is `1,000`", "0 to 999,999,999,999"],
    ),
    ("a quota too large", ROWS + "quota,,200001,,,\n", 3, 2, 2, ["from 1 to 200,000"]),
    (
        "five decimals",
        ROWS + "symbol,X,1,1.00001,2,1\n",
        3,
        2,
        2,
        ["the column low is `1.00001`", "0.0001 to 999,999.9999"],
    ),
    (
        "no size",
        ROWS + "symbol,X,1,1,2,0\n",
        3,
        2,
        2,
        ["the column size is `0`", "from 1 to 1,000,000,000"],
    ),
    ("no name", ROWS + "account,,1,,,\n", 4, 2, 2, ["the name is ``", "1 to 64 printable"]),
    (
        "a name of two lines",
        ROWS + 'account,"A\nB",1,,,\nfirm\n',
        4,
        2,
        2,
        ["the name is `A\\x0aB`"],
    ),
    (
        "two firms",
        "firm,,1,,,\nfirm,,1,,,\n",
        5,
        2,
        2,
        ["there was a row firm before, row 1, line 1"],
    ),
    (
        "an account twice",
        ROWS + "account,A,1,,,\r\n\r\naccount,A,2,,,\n",
        5,
        3,
        4,
        ["account `A` before, row 2, line 2"],
    ),
    ("no firm", "quota,,1,,,\n", 6, 0, 0, ["no row sets the firm's limit"]),
    ("nothing", "", 6, 0, 0, ["no row sets the firm's limit"]),
    ("a screen dropped twice", ROWS + "off,size,1,,,\noff,size,2,,,\n", 5, 3, 3, ["row off `size`"]),
    ("no screen", ROWS + "off,,1,,,\n", 4, 2, 2, ["the name is ``"]),
    ("an order too late", ROWS + "off,size,1000000001,,,\n", 3, 2, 2, ["0 to 1,000,000,000"]),
    ("a mode in version 1", ROWS + "account,A,1,,,,net\n", 1, 2, 2, ["it has 7", "`version,2,,,,,`"]),
    ("six columns in version 2", NET + "quota,,1,,,\n", 1, 5, 5, ["it has 6", "size, mode"]),
    ("a mode that is none", NET + "account,A,1,,,,both\n", 2, 5, 5, ["mode is `both`", "gross or net"]),
    ("a mode of the firm", NET + "quota,,1,,,,gross\n", 1, 5, 5, ["mode is `gross`", "`quota`"]),
    ("a column before a mode", NET + "account,A,1,,2,,net\n", 1, 5, 5, ["the column high is `2`"]),
    ("a mode before a column", NET + "account,A,1,,2,,Net\n", 2, 5, 5, ["the column mode is `Net`"]),
    ("the version twice", NET + "version,2,,,,,\n", 2, 5, 5, ["the kind is `version`"]),
    ("the version too late", ROWS + "version,2,,,,,\n", 1, 2, 2, ["it has 7 columns"]),
    ("a version of six columns", "version,2,,,,\n" + ROWS, 2, 1, 1, ["begins with the row `version,2,,,,,`"]),
    ("another version", "version,3,,,,,\n", 1, 1, 1, ["it has 7 columns: a row has six"]),
    ("semicolons in version 2", NET + "quota;;1;;;;\n", 1, 5, 5, ["a comma, and not `;`"]),
    ("17 screens", ROWS + DROPPED, 7, 18, 18, ["there are 16 rows `off` before"]),
    ("401 symbols", ROWS + SYMBOLS, 7, 402, 402, ["there are 400 rows `symbol` before"]),
    ("too many bytes", "#" * 1_048_577, 7, 0, 0, ["1,048,576 are read"]),
    ("a band", ROWS + "symbol,X,1,2.5,2.4999,1\n", 8, 2, 2, ["low is 2.5 and high 2.4999"]),
    (
        "the row behind two lines",
        ROWS + 'account,"A",1,,,\rsymbol,"X""Y",1,1,2,1\nfund\n',
        1,
        4,
        4,
        ["`fund`", "1 column"],
    ),
]

BODY = ORDER[16:-7]


def frame(body, length=None, begin=b"8=FIX.4.4"):
    """A frame round these bytes, with the checksum 000."""
    return begin + b"\x019=" + str(
        len(body) if length is None else length
    ).encode() + b"\x01" + body + b"10=000\x01"


# A session file, how it ends and where, and what is told.
ENDS = [
    (
        "bars for SOH",
        ORDER + ORDER.replace(b"\x01", b"|"),
        "broken",
        136,
        ["`|` is where SOH (byte 1) has to be", "session_from_log.py"],
    ),
    ("^A for SOH", ORDER.replace(b"\x01", b"^A"), "broken", 0, ["`^A` is where SOH"]),
    (
        "another version",
        frame(BODY, begin=b"8=FIX.4.2"),
        "broken",
        0,
        ["BeginString (8) is `FIX.4.2`", "reads FIX.4.4"],
    ),
    (
        "times before",
        ORDER + b"\n10:00:01 " + ORDER,
        "broken",
        137,
        ["line 2", "`10:00:01 ` comes before the message", "session_from_log.py"],
    ),
    (
        "a length too small",
        frame(BODY, 100),
        "broken",
        0,
        ["BodyLength (9) is 100, and 113 would be right"],
    ),
    (
        "a length too large",
        frame(BODY, 120) + b"\n" + ORDER,
        "broken",
        0,
        ["BodyLength (9) is 120, and 113 would be right"],
    ),
    (
        "a length past the end",
        frame(BODY, 5000),
        "cut",
        0,
        ["BodyLength (9) is 5000, and 113 would be right"],
    ),
    (
        "a length of ten thousand",
        frame(BODY, 10_000),
        "long",
        0,
        ["BodyLength (9) is 10000, and 113 would be right"],
    ),
    (
        "a body too long",
        frame(b"58=" + b"x" * 8_189 + b"\x01"),
        "long",
        0,
        ["BodyLength (9) is 8,193", "at most 8,192"],
    ),
    (
        "no length",
        b"8=FIX.4.4\x019=\x0135=0\x01",
        "broken",
        0,
        ["BodyLength (9) is ``", "1 to 7 digits"],
    ),
    (
        "two digits of CheckSum",
        frame(BODY)[:-7] + b"10=75\x01" + ORDER,
        "broken",
        0,
        ["CheckSum (10) is `75`", "three digits"],
    ),
    (
        "the end is missing",
        ORDER + b"\r\n" + ORDER[:-10],
        "cut",
        138,
        ["the file ends within a message", "10 bytes are missing of the message"],
    ),
    ("the last SOH is missing", ORDER[:-1], "cut", 0, ["SOH (byte 1) is missing behind CheckSum"]),
    (
        "no SOH behind a CheckSum",
        ORDER[:-1] + b"\n" + ORDER[:-1] + b"\n",
        "broken",
        0,
        ["SOH (byte 1) is missing behind CheckSum (10)", "session_from_log.py"],
    ),
    ("a head alone", ORDER + b"8=FIX", "cut", 136, ["the file ends in the head of a message"]),
    ("packed", b"\x1f\x8b\x08\x00", "broken", 0, ["the file is gzip"]),
    ("a mark", b"\xef\xbb\xbf" + ORDER, "broken", 0, ["byte order mark"]),
    (
        "words",
        b"hello\n",
        "broken",
        0,
        ["from there the file has `hello", "a message has to begin here"],
    ),
]


class LimitFaults(InFolder):
    def test_each_fault_is_told_with_its_row_and_line(self):
        for name, text, number, row, line, told in FAULTS:
            with self.subTest(name):
                fault = first_fault(text.encode())
                self.assertEqual(
                    (fault.number, fault.row.number if fault.row else 0), (number, row)
                )
                lines = "\n".join(fault.told("limits.csv"))
                self.says(lines, f"fault {number}: ", "limits.csv", *told)
                if row:
                    self.says(lines, f"limits.csv, row {row}, line {line}: ")

    def test_a_sound_file_has_no_fault(self):
        for text in (
            LIMITS, "\ufefffirm,,1,,,\n", 'firm,"",0,,,', ROWS + 'symbol,X,1,.5,"2.",007\n',
            'off,"no, such",1000000000,,,\noff,size,0,,,\n' + ROWS + "off,collar,0,,,\n",
            NET, "\r\n" + NET.replace("net", "gross") + "off,size,0,,,,\n", NET.replace("net", "")
        ):
            self.assertIsNone(first_fault(text.encode()))

    def test_the_launcher_tells_it_and_keeps_standard_output(self):
        self.write("limits.csv", "firm,,1000,,,\n\naccount,ACC,1e5,,,\n")
        status, out, error = self.gate(*RUN, status=3, text="limits fault 3 row 2\n")
        self.assertEqual((status, out), (3, "limits fault 3 row 2\n"))
        self.says(
            error,
            "gate: limits.csv, row 2, line 3: `account,ACC,1e5,,,`",
            "gate: fault 3: the column limit is `1e5`",
        )


class SessionEnds(InFolder):
    def test_each_end_is_told_with_its_place_and_cause(self):
        for name, data, kind, place, told in ENDS:
            with self.subTest(name):
                end = end_of_input(data)
                self.assertEqual((end.kind, end.place), (kind, place))
                self.write("a.fix", data)
                status, out, error = self.gate(*RUN, status=4, text="the totals\n")
                self.assertEqual((status, out), (4, "the totals\n"))
                self.says(error, f"gate: a.fix, byte {place:,}, line ", *told)

    def test_frames_that_are_whole_end_whole(self):
        for data in (
            b"", ORDER, b"\r\n" + ORDER + b"\n\n" + ORDER + b"\r", frame(b"35=0\x01", "0005")
        ):
            self.assertEqual(end_of_input(data).kind, "whole")

    def test_a_file_that_goes_on_past_the_most(self):
        self.write("a.fix", b"\n" * 33_554_433)
        _, _, error = self.gate(*RUN, status=4)
        self.says(error, "byte 33,554,432", "only the first 33,554,432 bytes of a file are read")

    def test_a_message_that_goes_on_past_the_most(self):
        self.write("a.fix", b"\n" * 33_554_400 + ORDER)
        _, _, error = self.gate(*RUN, status=4)
        self.says(error, "byte 33,554,400", "only the first 33,554,432 bytes of a file are read")
        self.assertNotIn("CheckSum", error)

    def test_each_session_that_ended_early_is_named(self):
        self.write("b.fix", ORDER[:-1])
        self.write("c.fix", soh("8=FIX.4.4|9=x|"))
        _, _, error = self.gate("run", "limits.csv", "out", "a.fix", "b.fix", "c.fix", status=4)
        self.assertNotIn("a.fix", error)
        self.says(
            error,
            "b.fix, byte 0, line 1: the file ends within a message",
            "c.fix, byte 0, line 1: no message",
        )


class OtherStatuses(InFolder):
    def told(self, status, *words, **more):
        got, _, error = self.gate(*(words or RUN), status=status, **more)
        self.assertEqual(got, status)
        return error

    def test_a_file_that_is_not_there(self):
        self.says(
            self.told(5, "run", "no.csv", "out", "a.fix"),
            "no.csv can't be read: no such file or directory",
        )
        self.says(
            self.told(5, "run", "limits.csv", "out", "a.fix", "out"),
            "out can't be read: it is a folder",
        )

    def test_a_session_whose_read_failed(self):
        self.says(
            self.told(5, files={"journal.csv": "kind,session,a,b,c,d\nended,0,4,,,\n"}),
            "a.fix: session 0 ended, since a read failed",
        )

    def test_a_session_whose_write_failed(self):
        error = self.told(6, files={"journal.csv": "kind,session,a,b,c,d\nended,0,5,,,\n"})
        self.says(
            error, "session 0 ended, since a write failed, of out/s00.venue or out/s00.client"
        )

    def test_a_filtered_session_whose_write_failed(self):
        error = self.told(
            6, *FILTER, files={"cross.csv": "kind,session,a,b,c,d\nended,0,5,,,\n"}
        )
        self.says(
            error, "session 0 ended, since a write failed, of out/s00.pass or out/s00.client"
        )

    def test_a_filter_whose_journal_is_not_whole(self):
        error = self.told(6, *FILTER, files={"cross.csv": "kind,session,a,b,c,d\n"})
        self.says(error, "out/cross.csv couldn't be written whole")

    def test_an_output_that_can_not_be_written(self):
        os.makedirs(self.path("out/s00.client"))
        self.says(self.told(6), "out/s00.client can't be written: it is a folder")

    def test_many_outputs_that_can_not_be_written(self):
        sessions = [f"{number}.fix" for number in range(5)]
        for name in sessions:
            self.write(name, ORDER)
        error = self.told(6, "run", "limits.csv", "a.fix/out", *sessions)
        self.assertEqual(error.count("can't be written"), 3)
        self.says(error, "nor can 8 more outputs")

    def test_outputs_that_are_no_plain_files(self):
        os.makedirs(self.path("out"))
        os.symlink("/dev/full", self.path("out/journal.csv"))
        error = self.told(6)
        self.says(error, "out/journal.csv, or an output of a session, couldn't be written")
        self.assertNotIn("warning", error)

    def test_a_journal_that_is_not_whole(self):
        error = self.told(6, files={"journal.csv": "kind,session,a,b,c,d\npost,0,0,1,1000,\n"})
        self.says(error, "out/journal.csv couldn't be written whole")

    def test_an_out_that_is_a_file(self):
        self.says(
            self.told(6, "run", "limits.csv", "a.fix/out", "a.fix"),
            "a.fix/out/s00.venue can't be written: a.fix/out is no folder",
        )

    def test_standard_output(self):
        self.says(
            self.told(6, files={"journal.csv": "kind,session,a,b,c,d\nended,0,0,,,\n"}),
            "standard output couldn't be written",
        )

    def test_memory_and_a_status_that_is_none(self):
        self.says(self.told(8), "out of memory")
        self.says(self.told(9), "the program ended with 9, which is no status of a run")

    def test_a_journal_that_is_cut_and_files_that_are_gone(self):
        error = self.told(
            6, files={"journal.csv": "kind,session,a,b,c,d\nended,0,x,,,\nended,7,1,0,,\nended,0"}
        )
        self.says(error, "out/journal.csv couldn't be written whole")
        with mock.patch("launcher.reasons.reasons_of", side_effect=OSError("it is gone")):
            self.says(reasons(None, 4, {})[0], "the cause can't be found any more: it is gone")

    def test_a_program_that_was_killed(self):
        status, _, error = self.gate(*RUN, signal=int(signal.SIGKILL))
        self.assertEqual(status, 128 + signal.SIGKILL)
        self.says(error, "the program was ended by SIGKILL: maybe the machine ran out of memory")

    def test_a_run_that_ends_with_0_says_nothing(self):
        self.assertEqual(self.gate(*RUN, text="status 0\n"), (0, "status 0\n", ""))


class EarlierRuns(InFolder):
    def test_outputs_of_an_earlier_run_are_named(self):
        for name in (
            "s00.venue",
            "s00.client",
            "s04.venue",
            "s04.client",
            "journal.csv",
            "report.html",
            "notes.txt",
        ):
            self.write(f"out/{name}", "old")
        journal = {"files": {"journal.csv": "kind\n", "s00.venue": "", "s00.client": ""}}
        _, _, error = self.gate(*RUN, **journal)
        self.says(
            error,
            "warning: of an earlier run, and not written by this one: "
            "out/report.html, out/s04.client, out/s04.venue",
        )
        self.assertNotIn("journal.csv", error)
        self.assertNotIn("notes.txt", error)

    def test_a_filter_and_a_run_leave_each_others_outputs_alone(self):
        """What a filter passed may be run into the same folder."""
        for name in ("s00.pass", "s01.pass", "cross.csv"):
            self.write(f"out/{name}", "old")
        self.assertEqual(self.gate("run", "limits.csv", "out", "out/s00.pass")[::2], (0, ""))
        self.write("out/s03.venue", "old")
        _, _, error = self.gate(*FILTER, files={"cross.csv": "kind\n", "s00.pass": ""})
        self.says(error, "not written by this one: out/s01.pass\n")

    def test_an_old_journal_behind_a_run_that_wrote_none(self):
        self.write("out/journal.csv", "kind,session,a,b,c,d\nended,0,4,,,\n")
        self.write("limits.csv", "")
        _, _, error = self.gate(*RUN, status=3)
        self.says(error, "not written by this one: out/journal.csv", "fault 6")

    def test_a_folder_that_nothing_was_written_to_is_not_left(self):
        self.gate("run", "limits.csv", "deep/out", "a.fix", status=3)
        self.assertFalse(os.path.exists(self.path("deep")))
        os.makedirs(self.path("there"))
        self.gate("run", "limits.csv", "there/out", "a.fix", status=5)
        self.assertEqual(os.listdir(self.path("there")), [])
        os.makedirs(self.path("there/out"))
        self.gate("run", "limits.csv", "there/out", "a.fix", status=5)
        self.assertEqual(os.listdir(self.path("there")), ["out"])

    def test_out_is_made(self):
        self.gate("run", "limits.csv", "deep/out", "a.fix", files={"journal.csv": "kind\n"})
        self.assertEqual(self.read("deep/out/journal.csv"), b"kind\n")


if __name__ == "__main__":
    unittest.main()
