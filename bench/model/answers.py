"""The messages that a session writes."""
from collections import namedtuple

from .frames import SOH, framed

NO_TIME = b"19700101-00:00:00"
# Of a refusal: its code in the journal, OrdRejReason (103), CxlRejReason (102), and Text (58).
Refusal = namedtuple("Refusal", "code order request text")
REFUSALS = {
    "Firm": Refusal(1, 3, 2, b"FIRM"),
    "Account": Refusal(2, 3, 2, b"ACCOUNT"),
    "Symbol": Refusal(3, 3, 2, b"SYMBOL"),
    "Halt": Refusal(4, 0, 2, b"HALT"),
    "Quota": Refusal(5, 0, 2, b"QUOTA"),
    "Cap": Refusal(6, 3, 2, b"CAP"),
    "Duplicate": Refusal(7, 6, 6, b"DUPLICATE"),
    "unknown account": Refusal(8, 99, None, b"UNKNOWN ACCOUNT"),
    "unknown symbol": Refusal(9, 1, None, b"UNKNOWN SYMBOL"),
    "Screen": Refusal(10, 99, 2, b"SCREEN "),
    "Unknown": Refusal(11, None, 1, b"UNKNOWN"),
    "Closed": Refusal(12, None, 0, b"CLOSED"),
    "Pending": Refusal(13, None, 3, b"PENDING"),
    "Mismatch": Refusal(14, None, 2, b"MISMATCH"),
    "Quantity": Refusal(15, None, 2, b"QUANTITY"),
    "Desk": Refusal(18, None, 2, b"DESK"),
}
FIELD_FAULT = 16
AS_WRITTEN = (35, 49, 56, 34, 52)


def number(value):
    """Its digits."""
    return str(value).encode()


class Stream:
    """The messages to one receiver, numbered from 1."""

    def __init__(self):
        self.data, self.count = b"", 0

    def write(self, kind, target, time, fields):
        """Writes a message: its own fields behind those that each has."""
        self.count += 1
        head = [(35, kind), (49, b"GATE"), (56, target), (34, number(self.count)), (52, time)]
        body = b"".join(number(tag) + b"=" + value + SOH for tag, value in head + fields)
        self.data += framed(body)


def forward(fields):
    """The fields that a message passed on has behind its head."""
    return [field for field in fields if field[0] not in AS_WRITTEN]


def first(fields, tag):
    """The bytes of a field."""
    return next(value for own, value in fields if own == tag)


def refused_order(fields, count, reason, text):
    """An ExecutionReport (35=8) that refuses an order, as message `count` of its stream."""
    own = [(tag, first(fields, tag)) for tag in (1, 55, 54, 38)]
    return [(37, b"NONE"), (11, first(fields, 11)), (17, b"G" + number(count)), (150, b"8"),
            (39, b"8"), (103, number(reason))] + own + [
            (151, b"0"), (14, b"0"), (6, b"0"), (58, text)]


def refused_request(fields, answers, reason, text):
    """An OrderCancelReject (35=9)."""
    return [(37, b"NONE"), (11, first(fields, 11)), (41, first(fields, 41)), (39, b"8"),
            (434, answers), (102, number(reason)), (58, text)]


def reject(fields, fault):
    """A Reject (35=3) of a message with a field fault."""
    count = b"0" if fault.tag == 34 else number(int(first(fields, 34)))
    return [(45, count), (371, number(fault.tag)), (372, fields[0][1]), (373, number(fault.reason))]
