"""The guard against the firm's own crossing orders: of one session's input and the reads of its
symbols' trees, the acts, what is passed on, what the client gets, and the end.

A value has two halves: above, the highest price level of buys; below, 524,288 less the lowest level
of sells. In both the larger is what may cross more, and 0 is no order.
"""
from .answers import Stream, refused_order, refused_request
from .frames import Frame, next_frame
from .messages import Fault, read_message
from .session import ENDS, INPUT_MOST, Calls

HALF, TOP = 2 ** 19, 2 ** 19 - 1
BUY, LIMIT = b"1", b"2"
CROSS, QUOTA = 17, 5
TEXTS = {CROSS: b"CROSS", QUOTA: b"QUOTA"}


def level(row, side, kind, price):
    """The price level of an order: a buy's at or above its price, a sell's at or below it."""
    if kind != LIMIT:
        return TOP if side == BUY else 1
    if not row.low <= price <= row.high:
        return 1 if price < row.low else TOP
    step = max(1, -(-(row.high - row.low) // (TOP - 1)))
    over = price - row.low
    return 1 + (-(-over // step) if side == BUY else over // step)


def value_of(row, side, kind, price):
    """The value of an order alone."""
    own = level(row, side, kind, price)
    return own * HALF if side == BUY else HALF - own


def by_halves(choose, values):
    """The value whose halves are the largest or the smallest of those of values."""
    pairs = [divmod(value, HALF) for value in values]
    return choose(high for high, _ in pairs) * HALF + choose(low for _, low in pairs)


def join(*values):
    """What all of these come to."""
    return by_halves(max, (0, *values))


def meet(*values):
    """What is in each of these."""
    return by_halves(min, values)


def is_at_most(one, other):
    """Whether each half of one is at most that of the other."""
    return join(one, other) == other


def is_clear(value):
    """Whether the highest buy is below the lowest sell, or one of them isn't there."""
    high, low = divmod(value, HALF)
    return high == 0 or low == 0 or high + low < HALF


class Resting:
    """An order that may rest at the venue. A live term is (id, value, quantity)."""

    def __init__(self, symbol, side, term):
        self.symbol, self.side, self.ids, self.terms = symbol, side, [term[0]], [term]
        self.filled, self.is_closed = 0, False

    def add(self, term):
        """A replace was passed: it may rest as this too."""
        self.ids.append(term[0])
        self.terms.append(term)

    def places(self, own_id):
        """Where the live terms of an id stand."""
        return [place for place, term in enumerate(self.terms) if term[0] == own_id]

    def report(self, values):
        """What an ExecutionReport (8) makes of it."""
        exec_type, own_id = values[150], values[11]
        places = self.places(own_id)
        if exec_type in (b"4", b"C") or exec_type == b"8" and own_id == self.ids[0]:
            self.is_closed = True
        elif exec_type == b"8" and places:
            del self.terms[places[-1]]
        elif exec_type == b"5" and places:
            del self.terms[:places[0]]
        elif exec_type == b"F":
            self.filled += values[32]
            self.is_closed = self.filled >= max(total for _, _, total in self.terms)
        self.is_closed |= not self.terms

    def reject(self, own_id):
        """What an OrderCancelReject (9) makes of it: the first term stays."""
        places = [place for place in self.places(own_id) if place > 0]
        if places:
            del self.terms[places[-1]]


class CrossSession(Calls):
    """A session while it takes frames. Trees are those of the symbols, from 0."""

    def __init__(self, limits, reads):
        super().__init__(reads)
        self.limits, self.passed, self.client, self.orders, self.frame = limits, b"", Stream(), [], 0

    def last(self, own_id, symbol=None, side=None):
        """The last open order that has an id, of a symbol and a side where these are given."""
        for order in reversed(self.orders):
            is_alike = symbol is None or (order.symbol, order.side) == (symbol, side)
            if not order.is_closed and own_id in order.ids and is_alike:
                return order
        return None

    def value(self, symbol):
        """What its orders rest as in a symbol."""
        return join(*(value for order in self.orders for _, value, _ in order.terms
                      if order.symbol == symbol and not order.is_closed))

    def take(self, data, fields):
        """Takes a frame; its fields are None where it isn't sound."""
        message = Fault(0, 0) if fields is None else read_message(fields)
        is_asked = not isinstance(message, Fault) and message.kind in ("D", "G") \
            and message.values[55] in self.limits.symbols
        cause = self.guard(message) if is_asked else None
        if cause:
            self.refuse(message, fields, cause)
            return
        self.passed += data
        if is_asked:
            self.acts.append(("sent", self.frame))
        if not isinstance(message, Fault):
            self.keep(message)

    def guard(self, message):
        """Posts the session's value with an order and reads the root; what refuses it, None where
        nothing does."""
        values = message.values
        tree = self.limits.symbol_places[values[55]]
        if self.posts.get(tree, 0) + 2 > self.limits.quota:
            return QUOTA
        old = self.posted.get(tree, 0)
        self.post(tree, join(old, self.value_asked(values)))
        if is_clear(self.read(tree)):
            return None
        self.post(tree, old)
        return CROSS

    def value_asked(self, values):
        """The value of a D or a G."""
        row = self.limits.symbols[values[55]]
        return value_of(row, values[54], values[40], values.get(44, 0))

    def refuse(self, message, fields, cause):
        """Answers a D or a G that isn't passed."""
        self.acts.append(("refused", self.frame, cause, 0, 0))
        values = message.values
        if message.kind == "D":
            answer = b"8", refused_order(fields, self.client.count + 1, 0, TEXTS[cause])
        else:
            answer = b"9", refused_request(fields, b"2", 2, TEXTS[cause])
        self.client.write(answer[0], values[49], values[52], answer[1])

    def keep(self, message):
        """What a message that was passed makes of the orders."""
        kind, values = message
        if kind in ("D", "G") and values[55] in self.limits.symbols:
            term = values[11], self.value_asked(values), values[38]
            order = self.last(values[41], values[55], values[54]) if kind == "G" else None
            if order:
                order.add(term)
            else:
                self.orders.append(Resting(values[55], values[54], term))
        elif kind == "F":
            order = self.last(values[41])
            if order:
                order.ids.append(values[11])
        elif kind in ("8", "9"):
            self.settle(kind, values)

    def settle(self, kind, values):
        """A report or an OrderCancelReject: the value of its order's symbol is posted where it is
        another, and a post is left."""
        order = self.last(values[11]) if 11 in values else None
        if not order:
            return
        if kind == "8":
            order.report(values)
        else:
            order.reject(values[11])
        tree, value = self.limits.symbol_places[order.symbol], self.value(order.symbol)
        if value != self.posted.get(tree, 0) and self.posts.get(tree, 0) < self.limits.quota:
            self.post(tree, value)


def run_cross(limits, data, reads, see=None):
    """Takes a whole input. The session, with what it did and wrote, and its end as (word, place);
    `see` is called with the session behind each frame."""
    session, data, is_over = CrossSession(limits, reads), data[:INPUT_MOST], len(data) > INPUT_MOST
    found = next_frame(data, 0)
    while isinstance(found, Frame):
        session.take(data[found.start:found.end], found.fields)
        if see:
            see(session)
        session.frame += 1
        found = next_frame(data, found.end)
    word, place = found
    if is_over and word in ("whole", "cut"):
        word, place = "long", INPUT_MOST if word == "whole" else place
    session.acts.append(("ended", ENDS[word], place))
    return session, (word, place)
