"""Worked runs as limit files and inputs, with bars for SOH and T for the time."""
import os
from collections import namedtuple

from model.frames import framed

EXAMPLES = os.path.join(os.path.dirname(os.path.abspath(__file__)), "..", "examples")
# A limit file, and the bytes of each session.
Run = namedtuple("Run", "limits inputs")


def text(bars):
    """The frame of a body with bars for SOH and T for the time."""
    return framed(bars.replace("|", "\x01").replace("=T\x01", "=20240102-10:00:00\x01").encode())


def base(firm, *more):
    """A limit file of a firm, an account and a symbol, with further rows."""
    rows = (f"firm,,{firm},,,", "account,ACC,100000,,,", "symbol,XYZ,100000,1,12,100000", *more)
    return "".join(row + "\n" for row in rows)


def version_2(limits, modes):
    """A limit file of version 1 as one of version 2, with the mode of each account that has one."""
    rows = ["version,2,,,,,"]
    for row in limits.splitlines():
        kind, name = row.split(",")[:2]
        rows.append(f"{row},{modes.get(name, '') if kind == 'account' else ''}")
    return "".join(row + "\n" for row in rows)


def order(own, rest, client="C1", number=1):
    """An order of a client (D) for ACC in XYZ: its fields from Side (54) on."""
    return text(f"35=D|49={client}|56=GATE|34={number}|52=T|11={own}|1=ACC|55=XYZ|{rest}60=T|")


def buy(client, own, quantity, price, number=1):
    """An order that buys at a limit."""
    return order(own, f"54=1|38={quantity}|40=2|44={price}|", client, number)


def replace(own, orig, quantity, price, side=1):
    """A request to replace an order, one that buys where no other Side (54) is given (G)."""
    return text(f"35=G|49=C1|56=GATE|34=2|52=T|11={own}|41={orig}|55=XYZ|54={side}|38={quantity}|"
                f"40=2|44={price}|60=T|")


def cancel(own, orig):
    """A request to cancel an order (F)."""
    return text(f"35=F|49=C1|56=GATE|34=2|52=T|11={own}|41={orig}|55=XYZ|54=1|60=T|")


def report(exec_type, own, rest=""):
    """An ExecutionReport (8)."""
    return text(f"35=8|49=VENUE|56=GATE|34=1|52=T|37=V1|17=E1|150={exec_type}|11={own}|{rest}")


def trade(own, quantity, price):
    """A report of a trade."""
    return report("F", own, f"32={quantity}|31={price}|")


def refusal(own, orig):
    """An OrderCancelReject (9)."""
    return text(f"35=9|49=VENUE|56=GATE|34=1|52=T|37=V1|11={own}|41={orig}|39=0|434=1|102=2|")


def one(limits, *frames):
    """A run of one session."""
    return Run(limits, (b"".join(frames),))


def repeats(*more):
    """An order, one like it, a third that is like both, and one above the collar."""
    wanted = (("a1", 5, "10.00"), ("a2", 5, "10.00"), ("a3", 5, "10.00"), ("a4", 1, "12.01"))
    orders = (buy("C1", *terms, number) for number, terms in enumerate(wanted, 1))
    return one(base(100_000, "repeat,,2,,,", *more), *orders)


def example(name, *sessions):
    """An example of the repository."""
    found = []
    for file_name in ("limits.csv", *sessions):
        with open(os.path.join(EXAMPLES, name, file_name), "rb") as file:
            found.append(file.read())
    return Run(found[0].decode(), tuple(found[1:]))


# Each of two sessions buys 60: both together exceed the firm's limit.
RACE = Run(base(1_000), (buy("C1", "a1", 60, "10.00"), buy("C2", "b1", 60, "10.00")))
FIRST = buy("C1", "a1", 100, "10.00")
SELL = order("a1", "54=2|38=100|40=2|44=9.00|")
# Bought and filled, sold and filled: in a net account the two offset each other.
ROUND = (FIRST, trade("a1", 100, "10.00"), order("a2", "54=2|38=100|40=2|44=9.00|"),
         trade("a2", 100, "9.50"))
# Runs over which each allocation is refused, by the names that they have there.
RUNS = {
    "one order": one(base(1_000), buy("C1", "a1", 100, "10.0000")),
    "a race": RACE,
    "repeats": repeats(),
    "repeats with a dropped screen": repeats("off,repeat,2,,,"),
    "firm": example("firm", "alpha1.fix", "beta1.fix", "alpha2.fix", "beta2.fix"),
}
# Further runs, that inputs with something wrong are made of.
ROWS = (
    *RUNS.values(),
    one(base(1_000), b""),
    one(base(1_000), buy("C1", "a1", 100, "10.0001")),
    one(base(5_000), SELL, trade("a1", 40, "9.50"), trade("a1", 10, "12.0001")),
    one(base(5_000), FIRST, replace("a2", "a1", 150, "10.00"), refusal("a2", "a1")),
    one(base(5_000), FIRST, replace("a2", "a1", 80, "10.00"), report("5", "a2")),
    one(base(1_000), buy("C1", "a1", 200, "10.00"), FIRST, FIRST),
    one(base(5_000, "quota,,2,,,"), FIRST, trade("a1", 40, "9.50"), buy("C1", "a2", 1, "10.00"),
        trade("a1", 10, "9.00")),
    one(base(5_000), FIRST, cancel("c1", "a1"), cancel("c2", "a1"), report("4", "a1"),
        trade("a1", 1, "9.00")),
    one(base(5_000), text("35=A|49=C1|56=GATE|34=1|52=T|98=0|108=30|"),
        text("35=0|49=C1|56=GATE|34=2|52=T|"), FIRST, report("0", "a1"), trade("a1", 100, "9.5")),
    one(base(1_000, "trip,,1,,,"), buy("C1", "a1", 200, "10.00"), buy("C1", "a2", 1, "10.00")),
    one(base(5_000), text("35=D|49=C1|56=GATE|34=7|52=T|11=a1|1=ACC|54=1|38=1|40=1|60=T|")),
    one(base(5_000), replace("b1", "zz", 1, "10.00"), trade("zz", 1, "1"), report("4", "zz")),
    one(version_2(base(5_000), {"ACC": "net"}), *ROUND),
    one(version_2(base(5_000), {"ACC": "gross"}), *ROUND),
)
# Allocations are refused over these too.
RUNS.update({
    "first": example("first", "session.fix"),
    "desk": example("desk", "session.fix"),
    "a limit file with a fault": one("firm,,1,,,\n" * 2, FIRST),
})
