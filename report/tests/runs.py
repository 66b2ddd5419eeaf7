"""Runs for the tests: the examples with what a run of each leaves, worked out by hand."""

import shutil
from pathlib import Path

TOP = Path(__file__).resolve().parent.parent.parent
EXAMPLES = TOP / "examples"
TIME = "20240102-10:00:00"
SOH = "\x01"


def frame(body: str) -> bytes:
    """A whole frame with this body, `|` for SOH."""
    text = body.replace("|", SOH).encode("latin-1")
    front = b"8=FIX.4.4\x019=%d\x01" % len(text) + text
    return front + b"10=%03d\x01" % (sum(front) % 256)


def order(number: int, client: str, order_id: str, account: str, symbol: str, quantity: str,
          price: str) -> str:
    """The body of a buy limit order, as a client sends it."""
    return (f"35=D|49={client}|56=GATE|34={number}|52={TIME}|11={order_id}|1={account}|55={symbol}"
            f"|54=1|38={quantity}|40=2|44={price}|60={TIME}|")


def forward(number: int, order_id: str, account: str, symbol: str, quantity: str, price: str,
            side: str = "1") -> bytes:
    """The message that passes a limit order on to the venue, a buy where no other side is given."""
    return frame(f"35=D|49=GATE|56=VENUE|34={number}|52={TIME}|11={order_id}|1={account}"
                 f"|55={symbol}|54={side}|38={quantity}|40=2|44={price}|60={TIME}|")


def filled(number: int, client: str, order_id: str, account: str, side: str, price: str) -> bytes:
    """The report, passed on to the client, that 100 shares of XYZ were traded, all of an order."""
    return frame(f"35=8|49=GATE|56={client}|34={number}|52={TIME}|37=V{number}|11={order_id}"
                 f"|17=E{number}|150=F|39=2|1={account}|55=XYZ|54={side}|38=100|32=100|31={price}"
                 f"|151=0|14=100|6={price}|")


def refusal(number: int, client: str, order_id: str, reason: int, account: str, symbol: str,
            quantity: str, text: str) -> bytes:
    """The ExecutionReport that refuses a buy order."""
    return frame(f"35=8|49=GATE|56={client}|34={number}|52={TIME}|37=NONE|11={order_id}"
                 f"|17=G{number}|150=8|39=8|103={reason}|1={account}|55={symbol}|54=1"
                 f"|38={quantity}|151=0|14=0|6=0|58={text}|")


def journal(text: str) -> str:
    """A journal of these rows, several on a line, with its header."""
    return "kind,session,a,b,c,d\n" + "".join(row + "\n" for row in text.split())


def asks(session: int, trees: tuple, indices: tuple, values: tuple, reads: str) -> str:
    """The rows of an order that is asked about: its posts, then its reads as they are given."""
    posts = (f"post,{session},{tree},{index},{value},"
             for tree, index, value in zip(trees, indices, values))
    return " ".join(posts) + " " + " ".join(f"read,{session},{read}" for read in reads.split())


def back(session: int, trees: tuple, indices: tuple, values: tuple) -> str:
    """The rows that put back what stood before."""
    return asks(session, trees, indices, values, "")


def lines(tree: int, posts: str) -> str:
    """The lines of a tree, each `session:index:value`."""
    return " ".join(f"line,{session},{tree},{place},{index},{value}"
                    for place, (session, index, value)
                    in enumerate((post.split(":") for post in posts.split()), 1))


FIRST_POSTS = "0:1:600 0:2:1200 0:3:600 0:4:1000"
FIRST_JOURNAL = journal(" ".join([
    asks(0, (0, 1, 2), (1, 1, 1), (600,) * 3, "3,0,0,0 0,1,1,600 1,1,1,600 2,1,1,600"),
    "sent,0,0,,,",
    asks(0, (0, 1, 2), (2, 2, 2), (1200,) * 3, "3,0,0,0 0,2,2,1200 1,2,2,1200 2,2,2,1200"),
    back(0, (0, 1, 2), (3, 3, 3), (600,) * 3), "refused,0,1,1,0,0",
    asks(0, (0, 1, 2), (4, 4, 4), (1000,) * 3, "3,0,0,0 0,4,4,1000 1,4,4,1000 2,4,4,1000"),
    "sent,0,2,,,",
    "ended,0,0,,,", lines(0, FIRST_POSTS), lines(1, FIRST_POSTS), lines(2, FIRST_POSTS)]))
FIRST_STREAMS = {
    "s00.venue": forward(1, "a1", "ACC", "XYZ", "60", "10.00") + forward(2, "a3", "ACC", "XYZ",
                                                                         "40", "9.995"),
    "s00.client": refusal(1, "C1", "a2", 3, "ACC", "XYZ", "60", "FIRM"),
}

DESK_JOURNAL = journal(" ".join([
    asks(0, (0, 1, 3), (1, 1, 1), (3000,) * 3, "6,0,0,0 0,1,1,3000 1,1,1,3000 3,1,1,3000"),
    "sent,0,0,,,",
    asks(0, (0, 1, 3), (2, 2, 2), (4500,) * 3, "6,0,0,0 0,2,2,4500 1,2,2,4500 3,2,2,4500"),
    back(0, (0, 1, 3), (3, 3, 3), (3000,) * 3), "refused,0,1,3,0,0",
    asks(0, (0, 1, 4), (4, 4, 1), (6500, 6500, 3500), "6,0,0,0 0,4,4,6500 1,4,4,6500 4,1,1,3500"),
    back(0, (0, 1, 4), (5, 5, 2), (3000, 3000, 0)), "refused,0,2,2,0,0",
    asks(0, (0, 2, 4), (6, 1, 3), (7000, 4000, 4000), "6,0,0,0 0,6,6,7000 2,1,1,4000 4,3,3,4000"),
    "sent,0,3,,,",
    asks(0, (0, 2, 5), (7, 2, 1), (9500, 6500, 2500), "6,0,0,0 0,7,7,9500 2,2,2,6500 5,1,1,2500"),
    back(0, (0, 2, 5), (8, 3, 2), (7000, 4000, 0)), "refused,0,4,1,0,0",
    "refused,0,5,8,0,0 refused,0,6,9,0,0 refused,0,7,6,0,0",
    asks(0, (0, 1, 5), (9, 6, 3), (7500, 3500, 500), "6,0,0,0 0,9,9,7500 1,6,6,3500 5,3,3,500"),
    "sent,0,8,,,",
    "refused,0,9,5,0,0 ended,0,0,,,",
    lines(0, "0:1:3000 0:2:4500 0:3:3000 0:4:6500 0:5:3000 0:6:7000 0:7:9500 0:8:7000 0:9:7500"),
    lines(1, "0:1:3000 0:2:4500 0:3:3000 0:4:6500 0:5:3000 0:6:3500"),
    lines(2, "0:1:4000 0:2:6500 0:3:4000"), lines(3, "0:1:3000 0:2:4500 0:3:3000"),
    lines(4, "0:1:3500 0:2:0 0:3:4000"), lines(5, "0:1:2500 0:2:0 0:3:500")]))
DESK_STREAMS = {
    "s00.venue": forward(1, "a1", "ALPHA", "ABC", "300", "10.00")
    + forward(2, "a4", "BETA", "XYZ", "400", "10.00") + forward(3, "a9", "ALPHA", "MNO", "50",
                                                                "9.995"),
    "s00.client": refusal(1, "DESK1", "a2", 3, "ALPHA", "ABC", "150", "SYMBOL")
    + refusal(2, "DESK1", "a3", 3, "ALPHA", "XYZ", "350", "ACCOUNT")
    + refusal(3, "DESK1", "a5", 3, "BETA", "MNO", "250", "FIRM")
    + refusal(4, "DESK1", "a6", 99, "GAMMA", "ABC", "10", "UNKNOWN ACCOUNT")
    + refusal(5, "DESK1", "a7", 1, "BETA", "QRS", "10", "UNKNOWN SYMBOL")
    + refusal(6, "DESK1", "a8", 3, "BETA", "MNO", "1000000000", "CAP")
    + refusal(7, "DESK1", "a10", 0, "ALPHA", "ABC", "10", "QUOTA"),
}

FIRM_POSTS = ("0:1:3000 1:1:2500 1:2:0 1:3:1500 2:1:600 2:2:0 2:3:700 2:4:0 2:5:100 2:6:0 3:1:100"
              " 3:2:0")
FIRM_JOURNAL = journal(" ".join([
    asks(0, (0, 1, 3), (1, 1, 1), (3000,) * 3, "4,0,0,0 0,1,1,3000 1,1,1,3000 3,1,1,3000"),
    "sent,0,0,,, ended,0,0,,,",
    asks(1, (0, 2, 3), (1, 1, 1), (2500,) * 3, "4,0,0,0 0,2,2,5500 2,1,1,2500 3,2,2,5500"),
    back(1, (0, 2, 3), (2, 2, 2), (0,) * 3), "refused,1,0,1,0,0",
    asks(1, (0, 2, 3), (3, 3, 3), (1500,) * 3, "4,0,0,0 0,4,4,4500 2,3,3,1500 3,4,4,4500"),
    "sent,1,1,,, ended,1,0,,,",
    asks(2, (0, 1, 3), (1, 1, 1), (600,) * 3, "4,0,0,0 0,5,5,5100 1,2,2,3600 3,5,5,5100"),
    back(2, (0, 1, 3), (2, 2, 2), (0,) * 3), "refused,2,0,1,0,0",
    asks(2, (0, 1, 3), (3, 3, 3), (700,) * 3, "4,0,0,0 0,7,7,5200 1,4,4,3700 3,7,7,5200"),
    back(2, (0, 1, 3, 4), (4, 4, 4, 1), (0, 0, 0, 1)), "refused,2,1,1,0,0",
    asks(2, (0, 1, 3), (5, 5, 5), (100,) * 3, "4,1,1,1 0,9,9,4600 1,6,6,3100 3,9,9,4600"),
    back(2, (0, 1, 3), (6, 6, 6), (0,) * 3), "refused,2,2,4,0,0 ended,2,0,,,",
    asks(3, (0, 2, 3), (1, 1, 1), (100,) * 3, "4,1,1,1 0,11,11,4600 2,4,4,1600 3,11,11,4600"),
    back(3, (0, 2, 3), (2, 2, 2), (0,) * 3), "refused,3,0,4,0,0 ended,3,0,,,",
    lines(0, FIRM_POSTS),
    lines(1, "0:1:3000 2:1:600 2:2:0 2:3:700 2:4:0 2:5:100 2:6:0"),
    lines(2, "1:1:2500 1:2:0 1:3:1500 3:1:100 3:2:0"),
    lines(3, FIRM_POSTS),
    "line,2,4,1,1,1"]))
FIRM_STREAMS = {
    "s00.venue": forward(1, "a1", "ALPHA", "XYZ", "300", "10.00"), "s00.client": b"",
    "s01.venue": forward(1, "b2", "BETA", "XYZ", "150", "10.00"),
    "s01.client": refusal(1, "BETA1", "b1", 3, "BETA", "XYZ", "250", "FIRM"),
    "s02.venue": b"",
    "s02.client": refusal(1, "ALPHA2", "c1", 3, "ALPHA", "XYZ", "60", "FIRM")
    + refusal(2, "ALPHA2", "c2", 3, "ALPHA", "XYZ", "70", "FIRM")
    + refusal(3, "ALPHA2", "c3", 0, "ALPHA", "XYZ", "10", "HALT"),
    "s03.venue": b"", "s03.client": refusal(1, "BETA2", "d1", 0, "BETA", "XYZ", "10", "HALT"),
}

NET_POSTS = "0:1:1000 0:2:1000 0:3:50 0:4:1050 0:5:2250 0:6:2000 0:7:3500 0:8:5000 0:9:3500"
NET_JOURNAL = journal(" ".join([
    asks(0, (0, 1, 3), (1, 1, 1), (1000,) * 3, "4,0,0,0 0,1,1,1000 1,1,1,1000 3,1,1,1000"),
    "sent,0,0,,,",
    asks(0, (0, 1, 3), (2, 2, 2), (1000,) * 3, "4,0,0,0 0,2,2,1000 1,2,2,1000 3,2,2,1000"),
    "sent,0,2,,,",
    asks(0, (0, 1, 3), (3, 3, 3), (50,) * 3, ""),
    asks(0, (0, 2, 3), (4, 1, 4), (1050, 1000, 1050), "4,0,0,0 0,4,4,1050 2,1,1,1000 3,4,4,1050"),
    "sent,0,4,,,",
    asks(0, (0, 2, 3), (5, 2, 5), (2250, 2200, 2250), "4,0,0,0 0,5,5,2250 2,2,2,2200 3,5,5,2250"),
    "sent,0,6,,,",
    asks(0, (0, 2, 3), (6, 3, 6), (2000, 1950, 2000), ""),
    asks(0, (0, 1, 3), (7, 4, 7), (3500, 1550, 3500), "4,0,0,0 0,7,7,3500 1,4,4,1550 3,7,7,3500"),
    "sent,0,8,,,",
    asks(0, (0, 2, 3), (8, 4, 8), (5000, 3450, 5000), "4,0,0,0 0,8,8,5000 2,4,4,3450 3,8,8,5000"),
    back(0, (0, 2, 3), (9, 5, 9), (3500, 1950, 3500)), "refused,0,9,2,0,0 ended,0,0,,,",
    lines(0, NET_POSTS), lines(1, "0:1:1000 0:2:1000 0:3:50 0:4:1550"),
    lines(2, "0:1:1000 0:2:2200 0:3:1950 0:4:3450 0:5:1950"), lines(3, NET_POSTS)]))
NET_STREAMS = {
    "s00.venue": forward(1, "n1", "NETTED", "XYZ", "100", "10.00")
    + forward(2, "n2", "NETTED", "XYZ", "100", "9.00", "2")
    + forward(3, "g1", "PLAIN", "XYZ", "100", "10.00")
    + forward(4, "g2", "PLAIN", "XYZ", "100", "9.00", "2")
    + forward(5, "n3", "NETTED", "XYZ", "150", "10.00"),
    "s00.client": filled(1, "C1", "n1", "NETTED", "1", "10.00")
    + filled(2, "C1", "n2", "NETTED", "2", "9.50") + filled(3, "C1", "g1", "PLAIN", "1", "10.00")
    + filled(4, "C1", "g2", "PLAIN", "2", "9.50")
    + refusal(5, "C1", "g3", 3, "PLAIN", "XYZ", "150", "ACCOUNT"),
}

DAY = EXAMPLES / "day" / "expected"
RUNS = {
    "day": (("session",), (DAY / "journal.csv").read_text(),
            {stream: (DAY / stream).read_bytes() for stream in ("s00.venue", "s00.client")}),
    "first": (("session",), FIRST_JOURNAL, FIRST_STREAMS),
    "desk": (("session",), DESK_JOURNAL, DESK_STREAMS),
    "firm": (("alpha1", "beta1", "alpha2", "beta2"), FIRM_JOURNAL, FIRM_STREAMS),
    "net": (("session",), NET_JOURNAL, NET_STREAMS),
}


def example(name: str, out: Path) -> list[str]:
    """Puts what a run of an example leaves into a folder; the words of its report."""
    sessions, text, streams = RUNS[name]
    (out / "journal.csv").write_text(text)
    for stream, data in streams.items():
        (out / stream).write_bytes(data)
    folder = EXAMPLES / name
    return [str(folder / "limits.csv"), str(out),
            *(str(folder / f"{session}.fix") for session in sessions)]


def small_run(out: Path, messages: list[bytes], journal_text: str, streams: dict[str, bytes],
              limits: str) -> list[str]:
    """A run of one session with these messages, in a folder of its own; the words of its report."""
    shutil.rmtree(out, ignore_errors=True)
    out.mkdir()
    (out / "limits.csv").write_text(limits)
    (out / "session.fix").write_bytes(b"\n".join(messages))
    (out / "journal.csv").write_text(journal_text)
    for stream in ("s00.venue", "s00.client"):
        (out / stream).write_bytes(streams.get(stream, b""))
    return [str(out / "limits.csv"), str(out), str(out / "session.fix")]
