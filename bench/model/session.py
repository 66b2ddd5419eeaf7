"""One session: of its input and the reads of its trees, the acts, both streams and the end."""
from .answers import FIELD_FAULT, NO_TIME, REFUSALS, Stream, forward, number
from .answers import refused_order, refused_request, reject
from .book import Book
from .frames import Frame, next_frame
from .messages import Fault, id_of, read_message
from .screens import Seen, ask, own_screens, retire

INPUT_MOST = 33_554_432
ENDS = {"whole": 0, "cut": 1, "broken": 2, "long": 3}
NOTE_UNSOUND, NOTE_OTHER, NOTE_STRAY, NOTE_OVER, NOTE_FAULT, NOTE_QUOTA = 1, 2, 3, 4, 5, 6


class Calls:
    """What a session posts and reads, as acts. `reads` are (stamp, place, value), in order."""

    def __init__(self, reads):
        self.reads, self.acts, self.posted, self.posts = iter(reads), [], {}, {}

    def post(self, tree, value):
        """Posts a value."""
        self.posts[tree] = self.posts.get(tree, 0) + 1
        self.posted[tree] = value
        self.acts.append(("post", tree, self.posts[tree], value))

    def read(self, tree):
        """The value of the next read, which is of this tree."""
        stamp, place, value = next(self.reads, (0, 0, 0))
        self.acts.append(("read", tree, stamp, place, value))
        return value


class Session(Calls):
    """A session while it takes frames."""

    def __init__(self, limits, screens, reads):
        super().__init__(reads)
        self.limits, self.screens, self.book = limits, screens, Book(limits.nets)
        self.venue, self.client = Stream(), Stream()
        self.frame, self.orders, self.firms, self.target = 0, 0, 0, b"CLIENT"

    def note(self, code, tag=0, reason=0):
        """Notes the frame."""
        self.acts.append(("noted", self.frame, code, tag, reason))

    def trees_of(self, account, symbol):
        """The three trees of a pair."""
        return [0, self.limits.account_tree(account), self.limits.symbol_tree(symbol)]

    def take(self, fields):
        """Takes a frame; its fields are None where it isn't sound."""
        if fields is None:
            self.note(NOTE_UNSOUND)
            return
        kind = fields[0][1]
        if kind in (b"D", b"F", b"G"):
            self.target = id_of(fields, 49) or self.target
        if kind in (b"D", b"G"):
            self.take_up()
        message = read_message(fields)
        if isinstance(message, Fault):
            self.faulty(kind, fields, message)
        elif message.kind == "other":
            self.note(NOTE_OTHER)
        elif message.kind in ("8", "9"):
            self.report(message, fields)
        elif message.kind == "F":
            self.cancel(message.values, fields)
        elif message.kind in ("D", "G"):
            self.order(message, fields)

    def take_up(self):
        """Drops the screens whose number this order has, and counts it."""
        for name, place in self.limits.off:
            if place == self.orders:
                retire(self.screens, name)
        self.orders += 1

    def faulty(self, kind, fields, fault):
        """Answers a field fault by a Reject."""
        time = id_of(fields, 52) or NO_TIME
        if kind in (b"8", b"9"):
            self.note(NOTE_FAULT, fault.tag, fault.reason)
            self.venue.write(b"3", b"VENUE", time, reject(fields, fault))
        else:
            self.acts.append(("refused", self.frame, FIELD_FAULT, fault.tag, fault.reason))
            self.client.write(b"3", self.target, time, reject(fields, fault))

    def report(self, message, fields):
        """Applies a report or an OrderCancelReject, and passes it on."""
        order = self.book.apply(message.kind, message.values)
        if order == "stray":
            self.note(NOTE_STRAY)
        elif order == "over":
            self.note(NOTE_OVER)
        elif not self.lower(order):
            self.note(NOTE_QUOTA)
        self.client.write(fields[0][1], self.target, message.values[52], forward(fields))

    def lower(self, order):
        """Posts the values that fell; whether a post was left for each."""
        values = self.book.values(order.account, order.symbol)
        is_posted = True
        for tree, value in zip(self.trees_of(order.account, order.symbol), values):
            if value == self.posted.get(tree, 0):
                continue
            if self.posts.get(tree, 0) < self.limits.quota:
                self.post(tree, value)
            else:
                is_posted = False
        return is_posted

    def send(self, fields, time):
        """Sends an order or a request on to the venue."""
        self.acts.append(("sent", self.frame))
        self.venue.write(fields[0][1], b"VENUE", time, forward(fields))

    def refuse(self, fields, values, cause, code=0):
        """Refuses an order or a request, by a screen's code where it is one."""
        refusal = REFUSALS[cause]
        text = refusal.text + (number(code) if cause == "Screen" else b"")
        self.acts.append(("refused", self.frame, refusal.code, code, 0))
        if fields[0][1] == b"D":
            rest = refused_order(fields, self.client.count + 1, refusal.order, text)
            self.client.write(b"8", self.target, values[52], rest)
        else:
            answers = b"1" if fields[0][1] == b"F" else b"2"
            rest = refused_request(fields, answers, refusal.request, text)
            self.client.write(b"9", self.target, values[52], rest)

    def cancel(self, values, fields):
        """Sends or refuses a cancel."""
        fault = self.book.fault_of(values[11], values[41])
        if fault:
            self.refuse(fields, values, fault)
        else:
            self.book.commit_request(values[11], values[41], 0, 0, False)
            self.send(fields, values[52])

    def price_of(self, values, symbol):
        """The price at which an order counts: its own for a buy with a limit, else the collar's."""
        is_own = values[54] == b"1" and values[40] == b"2"
        return values[44] if is_own else self.limits.symbols[symbol].high

    def pair_of(self, message):
        """The account and symbol of an order or of a replace's order; or what is unknown."""
        values = message.values
        if message.kind == "D":
            if values[1] not in self.limits.accounts:
                return "unknown account"
            is_known = values[55] in self.limits.symbols
            return (values[1], values[55]) if is_known else "unknown symbol"
        fault = self.book.fault_of(values[11], values[41])
        if fault:
            return fault
        order = self.book.by_id[values[41]]
        return order.account, order.symbol

    def order(self, message, fields):
        """Sends or refuses an order (D) or a replace (G)."""
        values, is_new = message.values, message.kind == "D"
        pair = self.pair_of(message)
        if isinstance(pair, str):
            self.refuse(fields, values, pair)
            return
        price = self.price_of(values, pair[1])
        if is_new:
            proposal = self.book.propose_new(values[11], *pair, values[54], values[38], price)
        else:
            proposal = self.book.propose_replace(values, price)
        if isinstance(proposal, str):
            self.refuse(fields, values, proposal)
            return
        code = ask(self.screens, Seen(*pair, values[54], values[40], values[38],
                                      values.get(44, 0), self.limits.symbols[pair[1]]))
        cause = "Screen" if code else self.admit(is_new, self.trees_of(*pair), proposal)
        if cause:
            self.refuse(fields, values, cause, code)
        elif is_new:
            self.book.commit_new(values[11], *pair, values[54], values[38], price)
            self.send(fields, values[52])
        else:
            self.book.commit_request(values[11], values[41], values[38], price, True)
            self.send(fields, values[52])

    def admit(self, is_new, trees, values):
        """Asks the trees where that is needed; what refuses, None where nothing does."""
        old = [self.posted.get(tree, 0) for tree in trees]
        if not is_new and all(new <= own for new, own in zip(values, old)):
            return None
        if any(self.posts.get(tree, 0) + 2 > self.limits.quota for tree in trees):
            return "Quota"
        for tree, value in zip(trees, values):
            self.post(tree, value)
        halt = self.read(self.limits.halt_tree())
        roots = [self.read(tree) for tree in trees]
        cause = self.verdict(halt, roots, trees)
        if cause:
            for tree, value in zip(trees, old):
                self.post(tree, value)
        if cause == "Firm":
            self.firms += 1
            if self.firms == self.limits.trip:
                self.post(self.limits.halt_tree(), 1)
        return cause

    def verdict(self, halt, roots, trees):
        """The first that is above its limit."""
        if halt > 0:
            return "Halt"
        limits = [limit for _, _, limit in self.limits.trees()]
        for cause, root, tree in zip(("Firm", "Account", "Symbol"), roots, trees):
            if root > limits[tree]:
                return cause
        return None


def take_frames(session, data):
    """Takes the frames of bytes, one after another; yields behind each of them, and gives what
    stands behind the last."""
    found = next_frame(data, 0)
    while isinstance(found, Frame):
        session.take(found.fields)
        session.frame += 1
        yield session.frame
        found = next_frame(data, found.end)
    return found


def run_session(limits, data, reads, screens=None):
    """Takes a whole input. The session, with its acts and streams, and its end as (word, place)."""
    return take_all(Session(limits, own_screens(limits) if screens is None else screens, reads), data)


def take_all(session, data):
    """Takes a whole input by a session. The session, and its end as (word, place)."""
    word, place = yield_of(take_frames(session, data[:INPUT_MOST]))
    if len(data) > INPUT_MOST and word in ("whole", "cut"):
        word, place = "long", INPUT_MOST if word == "whole" else place
    session.acts.append(("ended", ENDS[word], place))
    return session, (word, place)


def yield_of(steps):
    """What a generator gives behind all that it yields."""
    while True:
        try:
            next(steps)
        except StopIteration as end:
            return end.value


def marks_of(limits, data, reads):
    """The session that takes an input's frames, and how long its acts and its two streams are
    before the first of them and behind each."""
    session = Session(limits, own_screens(limits), reads)
    marks = [(0, 0, 0)]
    for _ in take_frames(session, data[:INPUT_MOST]):
        marks.append((len(session.acts), len(session.venue.data), len(session.client.data)))
    return session, marks
