"""Reports of every kind on an order in every state that it may have.

A state says how far the order is filled, which request is pending on it, and which of its ids the
report tells. Each report comes to an order of its own, which is brought into the state before it,
so that a session shows all reports in one state; behind it come a cancel and a trade, by whose
answers one sees what the report left.
"""
from itertools import product

from rows import cancel, order, refusal, replace, report, trade

# An order of 4 @ 2.5, whose symbol's high is 12: what is filled of it, or how it is closed.
FILLED = ("open", "partly", "closed", "dead")
REQUESTS = ("nothing", "cancel", "replace")
NAMES = ("current", "former", "pending")
# Each ExecType (150) that FIX 4.4 has and the one-letter ones that it hasn't, but the trade.
TYPES = "0123456789ABCDEGHIJZ"
# Trades at and beyond what is left of 4, of 3 and of 0, and at and above the price at which a buy and
# a sell count.
TRADES = tuple(product((1, 3, 4, 5), ("2.5", "2.5001", "12", "12.0001")))


def states():
    """Each state that an order can be in: a dead one has no pending request, and where none is
    pending no report can tell its id."""
    for filled, request, name in product(FILLED, REQUESTS, NAMES):
        if (request == "nothing" or filled != "dead") and (request != "nothing"
                                                           or name != "pending"):
            yield filled, request, name


def order_in(state, side, place):
    """The messages that bring an order of a side into a state, and its ids by what they are: `o` is
    its first id, `p` the one by which it was replaced, `r` that of its pending request."""
    filled, request, _ = state
    first, own, pending = (f"{letter}{place}" for letter in "opr")
    made = [order(first, f"54={side}|38=4|40=2|44=2.5|"), replace(own, first, 4, "2.5", side),
            report("5", own)]
    if request == "cancel":
        made.append(cancel(pending, own))
    if request == "replace":
        made.append(replace(pending, own, 4, "2.4", side))
    made += {"open": [], "partly": [trade(own, 1, "2")], "closed": [trade(own, 4, "2")],
             "dead": [report("4", own)]}[filled]
    return made, {"current": own, "former": first, "pending": pending}


def reports(own):
    """A report of each kind with this id."""
    return [*(report(exec_type, own) for exec_type in TYPES), refusal(own, own),
            *(trade(own, *terms) for terms in TRADES)]


def session(state, side=1):
    """A session that shows each report on an order of its own in a state; the orders are of one
    Side (54), or of several in turn."""
    data, sides = [], str(side)
    for place in range(len(reports("a"))):
        made, ids = order_in(state, sides[place % len(sides)], place)
        data += *made, reports(ids[state[2]])[place]
        data += cancel(f"x{place}", ids["current"]), trade(ids["current"], 1, "2.5")
    return b"".join(data)
