"""The reports of the examples, field by field, as their READMEs tell the runs."""

import base64
import csv
import json
import re
import tempfile
import unittest
import zlib
from pathlib import Path

from report import picture
from report.__main__ import DONE, main
from report.tests.quiet import quiet
from report.tests.runs import TIME, TOP, example

HEADER = ["session", "frame", "time", "ClOrdID", "OrigClOrdID", "account", "symbol", "side",
          "quantity", "price", "outcome", "tree", "root", "limit", "excess", "message"]
ORDER, TRADE = "NewOrderSingle", "ExecutionReport: trade"

# session, frame, ClOrdID, account, symbol, quantity, price, outcome, tree, root, limit, excess
FIRST = [
    ("0", "0", "a1", "ACC", "XYZ", "60", "10.00", "sent", "", "", "", ""),
    ("0", "1", "a2", "ACC", "XYZ", "60", "10.00", "refused: FIRM", "firm", "1200", "1000", "200"),
    ("0", "2", "a3", "ACC", "XYZ", "40", "9.995", "sent", "", "", "", ""),
]
DESK = [
    ("0", "0", "a1", "ALPHA", "ABC", "300", "10.00", "sent", "", "", "", ""),
    ("0", "1", "a2", "ALPHA", "ABC", "150", "10.00", "refused: SYMBOL", "symbol ABC", "4500",
     "4000", "500"),
    ("0", "2", "a3", "ALPHA", "XYZ", "350", "10.00", "refused: ACCOUNT", "account ALPHA", "6500",
     "6000", "500"),
    ("0", "3", "a4", "BETA", "XYZ", "400", "10.00", "sent", "", "", "", ""),
    ("0", "4", "a5", "BETA", "MNO", "250", "10.00", "refused: FIRM", "firm", "9500", "9000", "500"),
    ("0", "5", "a6", "GAMMA", "ABC", "10", "10.00", "refused: UNKNOWN ACCOUNT", "", "", "", ""),
    ("0", "6", "a7", "BETA", "QRS", "10", "10.00", "refused: UNKNOWN SYMBOL", "", "", "", ""),
    ("0", "7", "a8", "BETA", "MNO", "1000000000", "999999.9999", "refused: CAP", "", "", "", ""),
    ("0", "8", "a9", "ALPHA", "MNO", "50", "9.995", "sent", "", "", "", ""),
    ("0", "9", "a10", "ALPHA", "ABC", "10", "10.00", "refused: QUOTA", "", "", "", ""),
]
FIRM = [
    ("0", "0", "a1", "ALPHA", "XYZ", "300", "10.00", "sent", "", "", "", ""),
    ("1", "0", "b1", "BETA", "XYZ", "250", "10.00", "refused: FIRM", "firm", "5500", "5000", "500"),
    ("1", "1", "b2", "BETA", "XYZ", "150", "10.00", "sent", "", "", "", ""),
    ("2", "0", "c1", "ALPHA", "XYZ", "60", "10.00", "refused: FIRM", "firm", "5100", "5000", "100"),
    ("2", "1", "c2", "ALPHA", "XYZ", "70", "10.00", "refused: FIRM", "firm", "5200", "5000", "200"),
    ("2", "2", "c3", "ALPHA", "XYZ", "10", "10.00", "refused: HALT", "halt", "1", "", ""),
    ("3", "0", "d1", "BETA", "XYZ", "10", "10.00", "refused: HALT", "halt", "1", "", ""),
]
# frame, ClOrdID, account, side, quantity, price, outcome, tree, root, limit, excess, message
NET = [
    ("0", "n1", "NETTED", "buy", "100", "10.00", "sent", "", "", "", "", ORDER),
    ("1", "n1", "NETTED", "buy", "100", "10.00", "passed on", "", "", "", "", TRADE),
    ("2", "n2", "NETTED", "sell", "100", "9.00", "sent", "", "", "", "", ORDER),
    ("3", "n2", "NETTED", "sell", "100", "9.50", "passed on", "", "", "", "", TRADE),
    ("4", "g1", "PLAIN", "buy", "100", "10.00", "sent", "", "", "", "", ORDER),
    ("5", "g1", "PLAIN", "buy", "100", "10.00", "passed on", "", "", "", "", TRADE),
    ("6", "g2", "PLAIN", "sell", "100", "9.00", "sent", "", "", "", "", ORDER),
    ("7", "g2", "PLAIN", "sell", "100", "9.50", "passed on", "", "", "", "", TRADE),
    ("8", "n3", "NETTED", "buy", "150", "10.00", "sent", "", "", "", "", ORDER),
    ("9", "g3", "PLAIN", "buy", "150", "10.00", "refused: ACCOUNT", "account PLAIN", "3450", "3000",
     "450", ORDER),
]


def version_2(text: str) -> str:
    """A limit file as one of version 2, with no mode."""
    return "".join(row + "\n" for row in ("version,2,,,,,", *(f"{row},"
                                                              for row in text.splitlines())))


def page_data(html: str, name: str):
    """What the page's script is given."""
    text = re.search(f'id="{name}">([^<]*)<', html)[1]
    return json.loads(zlib.decompress(base64.b64decode(text)))


class Examples(unittest.TestCase):
    """Each example, with the journal and the streams that its README tells."""

    def setUp(self):
        self.folder = tempfile.TemporaryDirectory()
        self.addCleanup(self.folder.cleanup)
        self.out = Path(self.folder.name)

    def written(self, name: str) -> str:
        """Writes the report of an example; its page."""
        with quiet() as said:
            status = main(example(name, self.out))
        self.assertEqual(status, DONE, said.getvalue())
        return (self.out / "report.html").read_text(encoding="utf-8")

    def test_requests(self):
        """Each row of requests.csv, field by field."""
        for name, want in {"first": FIRST, "desk": DESK, "firm": FIRM}.items():
            self.written(name)
            with open(self.out / "requests.csv", encoding="utf-8", newline="") as file:
                header, *rows = csv.reader(file)
            self.assertEqual(header, HEADER, name)
            for row, cells in zip(rows, want, strict=True):
                session, frame, order_id, account, symbol, quantity, price, *rest = cells
                whole = [session, frame, TIME, order_id, "", account, symbol, "buy", quantity,
                         price,
                         *rest, ORDER]
                self.assertEqual(row, whole, f"{name}, {order_id}")

    def test_requests_and_reports_of_the_net_account(self):
        """Each row of the example with trades."""
        self.written("net")
        with open(self.out / "requests.csv", encoding="utf-8", newline="") as file:
            _, *rows = csv.reader(file)
        for row, cells in zip(rows, NET, strict=True):
            frame, order_id, account, *rest = cells
            self.assertEqual(row, ["0", frame, TIME, order_id, "", account, "XYZ", *rest])

    def test_the_day(self):
        """The day's table, with cancels, replaces and reports, which was checked by hand."""
        self.written("day")
        self.assertEqual((self.out / "requests.csv").read_bytes(),
                         (TOP / "examples" / "day" / "expected" / "requests.csv").read_bytes())

    def test_limit_files_that_are_spelled_in_other_ways(self):
        """A byte order mark, CR for LF, quotes, and empty lines change nothing."""
        words = example("first", self.out)
        text = Path(words[0]).read_text()
        words[0] = str(self.out / "limits.csv")
        for name, data in (("mark", "\ufeff" + text), ("CR", text.replace("\n", "\r\r")),
                           ("quotes", text.replace("ACC", '"ACC"')),
                           ("version 2", version_2(text))):
            Path(words[0]).write_bytes(data.encode())
            with quiet() as said:
                self.assertEqual(main(words), DONE, f"{name}: {said.getvalue()}")

    def test_the_mode_of_an_account_is_shown(self):
        """A net account is called so in its heading; the journal is checked as any other."""
        words = example("first", self.out)
        text = version_2(Path(words[0]).read_text())
        words[0] = str(self.out / "limits.csv")
        for mode, wanted in (("net", "net account"), ("gross", "account"), ("", "account")):
            Path(words[0]).write_text(text.replace("100000,,,,", f"100000,,,,{mode}", 1))
            with quiet() as said:
                self.assertEqual(main(words), DONE, f"{mode}: {said.getvalue()}")
            page = (self.out / "report.html").read_text()
            self.assertIn(f'<span class="kind">{wanted}</span> ACC', page)

    def test_trees(self):
        """How far each limit was used: tree, limit, highest sent, used, highest posted, at the end,
        posts, refused."""
        want = {
            "first": ["0 firm 1,000 1,000 100 % 1,200 1,000 4 1",
                      "1 account ACC 100,000 1,000 1 % 1,200 1,000 4 0",
                      "2 symbol XYZ 100,000 1,000 1 % 1,200 1,000 4 0",
                      "3 halt, not tripped none – – – 0 0 0"],
            "desk": ["0 firm 9,000 7,500 83 % 9,500 7,500 9 1",
                     "1 account ALPHA 6,000 3,500 58 % 6,500 3,500 6 1",
                     "2 account BETA 7,000 4,000 57 % 6,500 4,000 3 0",
                     "3 symbol ABC 4,000 3,000 75 % 4,500 3,000 3 1",
                     "4 symbol XYZ 5,000 4,000 80 % 4,000 4,000 3 0",
                     "5 symbol MNO 8,000 500 6.2 % 2,500 500 3 0",
                     "6 halt, not tripped none – – – 0 0 0"],
            "firm": ["0 firm 5,000 4,500 90 % 5,500 4,500 12 3",
                     "1 account ALPHA 4,000 3,000 75 % 3,700 3,000 7 0",
                     "2 account BETA 4,000 1,500 37 % 2,500 1,500 5 0",
                     "3 symbol XYZ 100,000 4,500 4.5 % 5,500 4,500 12 0",
                     "4 halt, tripped by session 2 none – – – 1 1 2"],
            "net": ["0 firm 6,000 3,500 58 % 5,000 3,500 9 0",
                    "1 account NETTED 3,000 1,550 51 % 1,550 1,550 4 0",
                    "2 account PLAIN 3,000 2,200 73 % 3,450 1,950 5 1",
                    "3 symbol XYZ 6,000 3,500 58 % 5,000 3,500 9 0",
                    "4 halt, not tripped none – – – 0 0 0"],
        }
        for name, rows in want.items():
            part = re.search(r'id="trees".*?</table>', self.written(name), re.DOTALL)[0]
            texts = [" ".join(re.sub(r"<[^>]*>", " ", row).split())
                     for row in re.findall(r'<tr role="row"><td.*?</tr>', part)]
            self.assertEqual(texts, rows, name)

    def test_sessions(self):
        """What each session of the firm did."""
        part = re.search(r'id="sessions" .*?</table>', self.written("firm"), re.DOTALL)[0]
        texts = [" ".join(re.sub(r"<[^>]*>", " ", row).split())
                 for row in re.findall(r'<tr role="row"><td.*?</tr>', part)]
        self.assertEqual(texts, [
            "0 alpha1.fix ALPHA1 took its whole file 1 1 0 0 none 3,000",
            "1 beta1.fix BETA1 took its whole file 2 1 1 0 none 1,500",
            "2 alpha2.fix ALPHA2 took its whole file 3 0 3 0 none 0",
            "3 beta2.fix BETA2 took its whole file 1 0 1 0 none 0"])

    def test_first_refusal(self):
        """What stood where the firm's limit first refused."""
        html = self.written("firm")
        self.assertIn("First refused: b1 of session 1, after 2 posts. With it the root was 5,500,"
                      " 500 above the limit. There stood:", html)
        self.assertEqual(re.findall(r"<span>(session \d.*?)</span><b>(.*?)</b>", html),
                         [("session 0", "3,000"), ("session 1, with this request", "2,500")])

    def test_data(self):
        """The page's script has the refusals' places, and all lines of each tree."""
        html = self.written("firm")
        rows, lines = page_data(html, "requests-data"), page_data(html, "lines-data")
        self.assertEqual(rows["tree"], [-1, 0, -1, 0, 0, 4, 4])
        self.assertEqual(rows["place"], [0, 2, 0, 5, 7, 1, 1])
        self.assertEqual(rows["root"], [0, 5500, 0, 5100, 5200, 1, 1])
        self.assertEqual([rows["words"][word] for word in rows["order_id"]],
                         ["a1", "b1", "b2", "c1", "c2", "c3", "d1"])
        self.assertEqual(lines[0]["sessions"], [0, 1, 1, 1, 2, 2, 2, 2, 2, 2, 3, 3])
        self.assertEqual(lines[0]["values"], [3000, 2500, 0, 1500, 600, 0, 700, 0, 100, 0, 100, 0])
        self.assertEqual(lines[4], {"sessions": [2], "values": [1]})

    def test_picture(self):
        """The step line of the firm's tree, its limit and its three marks, in a room whose top is
        5,500 x 1.24 and which has 13 places."""
        html = self.written("firm")
        plot = re.search(r'class="plot".*?</svg></svg>', html)[0]
        marks = re.findall(r'<svg x="([\d.]+)%" y="([\d.]+)%" class="mark"><title>(.*?)</title>',
                           html)
        self.assertIn("firm: limit 5,000; orders were sent up to a root of 4,500; the highest root"
                      " posted is 5,500; refused: 3.", plot)
        self.assertIn('class="root" d="M0 1000H76.9V560.1H153.8V193.5H230.8V560.1', html)
        self.assertIn('class="limit" d="M0 266.9H1000"', html)
        self.assertEqual(marks, [
            ("15.4", "19.4", "b1 of session 1, root 5,500, 500 above the limit"),
            ("38.5", "25.2", "c1 of session 2, root 5,100, 100 above the limit"),
            ("53.8", "23.8", "c2 of session 2, root 5,200, 200 above the limit")])

    def test_stored_picture(self):
        """The picture that the README shows is the one that the report makes of the firm."""
        words = example("firm", self.out)
        picture.main([str(self.out / "firm.svg"), *words])
        made = (self.out / "firm.svg").read_text(encoding="utf-8")
        self.assertEqual((TOP / "docs" / "report.svg").read_text(encoding="utf-8"), made)
        self.assertIn("First refused: b1 of session 1, root 5,500. There stood: 3,000 of session 0,"
                      " 2,500 of session 1.", made)

    def test_no_network(self):
        """The page names nothing that it would have to fetch."""
        html = self.written("firm")
        fetches = r'(?:src|href)="(?!#)[^"]*"|url\(|@import|https?://(?!www\.w3\.org/2000/svg)'
        self.assertEqual(re.findall(fetches, html), [])
        self.assertIn("default-src 'none'", html)


if __name__ == "__main__":
    unittest.main()
