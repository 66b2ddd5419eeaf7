"""The book of a session: the orders that it sent, and what they may cost."""
from collections import namedtuple

LEAF_MOST = 4_294_967_295
BUY = b"1"
# Of a pair of account and symbol, in ten-thousandths: what was filled of its buys, what of their
# leaves may cost, and the same of its sells.
Sums = namedtuple("Sums", "bought to_buy sold to_sell")
NOTHING = Sums(0, 0, 0, 0)
# A pending cancel has no quantity and no price.
Pending = namedtuple("Pending", "id quantity price is_replace")


class Order:
    """An order that was sent. Prices are in ten-thousandths, `notional` is what was filled."""

    def __init__(self, own_id, account, symbol, side, quantity, price):
        self.id, self.account, self.symbol, self.side = own_id, account, symbol, side
        self.quantity, self.price, self.filled, self.notional = quantity, price, 0, 0
        self.pending, self.is_dead = None, False

    def leaves(self, wanted=None):
        """What may still be filled, with a replace of this one that is pending or wanted."""
        pending = wanted or self.pending
        if self.is_dead:
            return 0
        return max(0, max(self.quantity, pending.quantity if pending else 0) - self.filled)

    def reserve(self, wanted=None):
        """The price at which leaves count."""
        pending = wanted or self.pending
        return max(self.price, pending.price if pending else 0)

    def sums(self, wanted=None):
        """What the order adds to the sums of its pair."""
        return on_side(self.side, self.notional, self.leaves(wanted) * self.reserve(wanted))

    def close(self):
        """Canceled, expired or rejected."""
        self.is_dead, self.pending = True, None


def on_side(side, filled, reserve):
    """Sums of which one side has these, a buy's or a sell's."""
    return Sums(filled, reserve, 0, 0) if side == BUY else Sums(0, 0, filled, reserve)


def changed(sums, before, after):
    """Sums in which an order has these sums in place of those before."""
    return Sums(*(own - old + new for own, old, new in zip(sums, before, after)))


def exposure(sums, is_net):
    """What a pair may cost: in a net account what was bought and what was sold offset each other."""
    if is_net:
        return max(sums.bought + sums.to_buy - sums.sold, sums.sold + sums.to_sell - sums.bought)
    return sum(sums)


class Book:
    """Orders by every id that they ever had, and the sums of each pair; `nets` are the names of the
    accounts that are net."""

    def __init__(self, nets):
        self.by_id, self.nets, self.pairs = {}, nets, {}

    def values(self, account, symbol, before=NOTHING, after=NOTHING):
        """The values of the three trees of a pair, in which an order has other sums than before:
        the exposures of the pairs in the tree, rounded up once."""
        pair = account, symbol
        pairs = {**self.pairs, pair: changed(self.pairs.get(pair, NOTHING), before, after)}
        costs = {own: exposure(sums, own[0] in self.nets) for own, sums in pairs.items()}
        parts = (costs.values(), [cost for own, cost in costs.items() if own[0] == account],
                 [cost for own, cost in costs.items() if own[1] == symbol])
        return [-(-sum(part) // 10_000) for part in parts]

    def change(self, order, before):
        """Takes over the sums of an order that had others before."""
        pair = order.account, order.symbol
        self.pairs[pair] = changed(self.pairs.get(pair, NOTHING), before, order.sums())

    def fault_of(self, own_id, orig):
        """What stands against a request, by ids and by its order's state."""
        if own_id in self.by_id:
            return "Duplicate"
        order = self.by_id.get(orig)
        if not order:
            return "Unknown"
        if order.leaves() == 0:
            return "Closed"
        if order.pending:
            return "Pending"
        return None if order.id == orig else "Unknown"

    def propose_new(self, own_id, account, symbol, side, quantity, price):
        """The three values with this order, or a fault."""
        if own_id in self.by_id:
            return "Duplicate"
        sums = on_side(side, 0, quantity * price)
        return self.fitting(self.values(account, symbol, after=sums))

    def propose_replace(self, values, price):
        """The three values with this replace pending, or a fault."""
        fault = self.fault_of(values[11], values[41])
        if fault:
            return fault
        order, quantity = self.by_id[values[41]], values[38]
        account = values.get(1, order.account)
        if (account, values[55], values[54]) != (order.account, order.symbol, order.side):
            return "Mismatch"
        if quantity <= order.filled:
            return "Quantity"
        wanted = order.sums(Pending(None, quantity, price, True))
        return self.fitting(self.values(order.account, order.symbol, order.sums(), wanted))

    def fitting(self, values):
        """The values, or the fault that a leaf can't hold one."""
        return "Cap" if max(values) > LEAF_MOST else values

    def commit_new(self, own_id, account, symbol, side, quantity, price):
        """Takes up an order that is sent."""
        order = Order(own_id, account, symbol, side, quantity, price)
        self.by_id[own_id] = order
        self.change(order, NOTHING)

    def commit_request(self, own_id, orig, quantity, price, is_replace):
        """Takes up a request that is sent."""
        order = self.by_id[orig]
        before = order.sums()
        order.pending = Pending(own_id, quantity, price, is_replace)
        self.by_id[own_id] = order
        self.change(order, before)

    def apply(self, kind, values):
        """Changes the order of a report or an OrderCancelReject: `stray`, `over`, or the order."""
        order = self.by_id.get(values.get(11))
        if not order:
            return "stray"
        before = order.sums()
        if kind == "9":
            if order.pending and order.pending.id == values[11]:
                order.pending = None
        elif not report(order, values):
            return "over"
        self.change(order, before)
        return order


def report(order, values):
    """Changes an order by an ExecutionReport; whether it fits."""
    exec_type, own_id, pending = values[150], values[11], order.pending
    if exec_type == b"F":
        if values[32] > order.leaves() or values[31] > order.reserve():
            return False
        order.filled += values[32]
        order.notional += values[32] * values[31]
    elif order.is_dead:
        pass
    elif exec_type in (b"4", b"C") or exec_type == b"8" and own_id == order.id:
        order.close()
    elif exec_type == b"8" and pending and own_id == pending.id:
        order.pending = None
    elif exec_type == b"5" and pending and pending.is_replace and own_id == pending.id:
        order.id, order.quantity, order.price = own_id, pending.quantity, pending.price
        order.pending = None
    return True
