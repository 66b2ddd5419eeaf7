"""What a frame's message is: a request, a report, a message of the session, or another."""

from report.text import readable

# A tag as it stands in a body: behind the SOH of the field before it.
ACCOUNT, ORDER_ID, PRICE, QUANTITY = b"\x011=", b"\x0111=", b"\x0144=", b"\x0138="
LAST_PRICE, LAST_QUANTITY, ORIGINAL_ID, SENDER = b"\x0131=", b"\x0132=", b"\x0141=", b"\x0149="
TIME, SIDE, SYMBOL, EXEC_TYPE = b"\x0152=", b"\x0154=", b"\x0155=", b"\x01150="

NEW, CANCEL, REPLACE, REPORT, CANCEL_REJECT = b"D", b"F", b"G", b"8", b"9"
NAMES = {
    NEW: "NewOrderSingle",
    CANCEL: "OrderCancelRequest",
    REPLACE: "OrderCancelReplaceRequest",
    REPORT: "ExecutionReport",
    CANCEL_REJECT: "OrderCancelReject",
}
REQUESTS = frozenset({NEW, CANCEL, REPLACE})
REPORTS = frozenset({REPORT, CANCEL_REJECT})
OF_THE_SESSION = frozenset({b"0", b"1", b"2", b"3", b"4", b"5", b"A"})
SIDES = {b"1": b"buy", b"2": b"sell", b"5": b"sell short", b"6": b"sell short exempt"}
EXEC_TYPES = {
    b"0": "new", b"4": "canceled", b"5": "replaced", b"8": "rejected", b"C": "expired",
    b"F": "trade",
}


def kind_of(body: bytes) -> bytes:
    """The value of MsgType (35), the first field of a sound body."""
    return body[3:body.index(1)]


class Fields:
    """The fields of a sound body. Where a tag stands more than once the first is taken."""

    __slots__ = ("body",)

    def __init__(self, body: bytes):
        self.body = body

    def get(self, tag: bytes) -> bytes | None:
        """The value of a tag, which is given as the bytes before its value; None where there is
        no such field."""
        start = self.body.find(tag)
        if start < 0:
            return None
        start += len(tag)
        return self.body[start:self.body.index(1, start)]


def kind_name(kind: bytes | None) -> str:
    """What a frame of this MsgType (35) is called; None is a frame that isn't sound."""
    if kind is None:
        return "a frame that isn't sound"
    if kind in OF_THE_SESSION:
        return f"a message of the session (35={readable(kind)})"
    return NAMES.get(kind) or f"a message of another type (35={readable(kind)})"


def quantity_and_price(kind: bytes, exec_type: bytes | None) -> tuple[bytes, bytes]:
    """The tags OrderQty (38) and Price (44), or of a trade LastQty (32) and LastPx (31)."""
    if kind == REPORT and exec_type == b"F":
        return LAST_QUANTITY, LAST_PRICE
    return QUANTITY, PRICE


def message_name(kind: bytes, exec_type: bytes | None) -> str:
    """The name of the message, for an ExecutionReport with what it reports."""
    if kind != REPORT or exec_type is None:
        return NAMES[kind]
    return f"{NAMES[kind]}: {EXEC_TYPES.get(exec_type) or '150=' + readable(exec_type)}"
