"""The program's three screens, and an order as they see it."""
from collections import deque, namedtuple

# Account, symbol, side, OrdType (40), quantity, price (0 at the market), and the symbol's row.
Seen = namedtuple("Seen", "account symbol side kind quantity price row")


class Size:
    """Refuses with 1 a quantity above the symbol's size."""
    name = b"size"

    def judge(self, order):
        """The code."""
        return 1 if order.quantity > order.row.size else 0


class Collar:
    """Refuses with 2 a limit price below the symbol's low or above its high."""
    name = b"collar"

    def judge(self, order):
        """The code."""
        is_within = order.row.low <= order.price <= order.row.high
        return 2 if order.kind == b"2" and not is_within else 0


class Repeat:
    """Refuses with 3 an order like one of the last that it judged; it joins them either way."""
    name = b"repeat"

    def __init__(self, count):
        self.last = deque(maxlen=count)

    def judge(self, order):
        """The code."""
        code = 3 if order in self.last else 0
        self.last.append(order)
        return code


def own_screens(limits):
    """The program's set for a session."""
    return [Size(), Collar(), Repeat(limits.repeat)]


def ask(screens, order):
    """The first code other than 0, and 0 where there is none. Later screens aren't asked."""
    for screen in screens:
        code = screen.judge(order)
        if code:
            return code
    return 0


def retire(screens, name):
    """Drops the first screen of that name."""
    for screen in screens:
        if screen.name == name:
            screens.remove(screen)
            return
