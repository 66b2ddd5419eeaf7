"""Random sessions over one account and one symbol: limit files, and inputs of all messages."""
from model.frames import framed
from rows import version_2

TIME = "20240102-10:00:00"
QUANTITIES = (1, 5, 20, 60, 501, 1_000_000_000)


def message(kind, sender, number, rest):
    """The frame of a message: MsgType (35), who sends it, MsgSeqNum (34), and its own fields."""
    fields = [(35, kind), (49, sender), (56, "GATE"), (34, number), (52, TIME)] + rest
    return framed("".join(f"{tag}={value}\x01" for tag, value in fields).encode())


def limits(random):
    """A limit file that some orders meet; at times a trip, repeats, a small quota, a net account."""
    firm = random.choice((500, 2_000, 8_000, 30_000))
    account, symbol = (firm * random.choice((7, 10, 13)) // 10 for _ in range(2))
    rows = [f"firm,,{firm},,,", f"account,ACC,{account},,,", f"symbol,XYZ,{symbol},1,12,500"]
    if random.random() < 0.2:
        rows.append(f"trip,,{random.randint(1, 20)},,,")
    if random.random() < 0.2:
        rows.append(f"quota,,{random.randint(1, 60)},,,")
    if random.random() < 0.3:
        rows.append(f"repeat,,{random.randint(0, 3)},,,")
    text = "".join(row + "\n" for row in rows)
    return version_2(text, {"ACC": "net"}) if random.random() < 0.3 else text


class Client:
    """One session's messages, one after another: its own, and what a venue might report."""

    def __init__(self, random, session):
        self.random, self.name = random, f"C{session:02}"
        self.orders, self.requests, self.sent, self.told = [], [], 0, 0

    def terms(self):
        """Price, size and side: now and then above the collar, the size or a leaf's most."""
        quantity = self.random.choices(QUANTITIES, (30, 30, 20, 15, 4, 1))[0]
        price = f"{self.random.randint(1, 12)}.{self.random.randint(0, 99):02}"
        if quantity == 1_000_000_000:
            price = "999999.9999"
        side = self.random.choice((1, 1, 2, 5, 6))
        return [(55, "XYZ"), (54, side), (38, quantity), (40, 2), (44, price)]

    def from_client(self, kind, rest):
        """A message of the client."""
        self.sent += 1
        return message(kind, self.name, self.sent, rest + [(60, TIME)])

    def from_venue(self, kind, rest):
        """A message of the venue."""
        self.told += 1
        return message(kind, "VENUE", self.told, [(37, f"V{self.told}")] + rest)

    def order(self):
        """A new order; now and then with an id again, at the market, or of another account."""
        own = f"{self.name}-{self.sent}"
        if self.orders and self.random.random() < 0.05:
            own = self.random.choice(self.orders)
        terms = self.terms()
        if self.random.random() < 0.1:
            terms = terms[:3] + [(40, 1)]
        self.orders.append(own)
        return self.from_client("D", [(11, own), (1, self.account())] + terms)

    def account(self):
        """Mostly the one that the limit file has."""
        return "ACC" if self.random.random() < 0.98 else "ACD"

    def known(self):
        """An id that an order of this session may have, one of the last or an old one."""
        some = self.orders[-4:] if self.random.random() < 0.7 else self.orders
        return self.random.choice(some or ["none"])

    def cancel(self):
        """A cancel of one of the last orders."""
        own, orig = f"{self.name}-{self.sent}", self.known()
        self.requests.append(own)
        return self.from_client("F", [(11, own), (41, orig), (55, "XYZ"), (54, 1)])

    def replace(self):
        """A replace of one of the last orders, by which it may go on."""
        own, orig = f"{self.name}-{self.sent}", self.known()
        self.requests.append(own)
        self.orders.append(own)
        account = [(1, "ACC")] if self.random.random() < 0.5 else []
        return self.from_client("G", [(11, own), (41, orig)] + account + self.terms())

    def trade(self):
        """A trade of one of the last orders, now and then above its price or its leaves."""
        quantity = self.random.choice((1, 5, 20, 100))
        price = self.random.choice(("0.5", "1", "9.5", "12.0001"))
        return self.from_venue("8", [(17, f"E{self.told}"), (150, "F"), (11, self.known()),
                                     (32, quantity), (31, price)])

    def report(self):
        """A report on one of the last requests or orders."""
        own = self.known()
        if self.random.random() < 0.7:
            own = self.random.choice(self.requests[-4:] or ["none"])
        exec_type = self.random.choice("0458C5A")
        return self.from_venue("8", [(17, f"E{self.told}"), (150, exec_type), (11, own)])

    def refusal(self):
        """An OrderCancelReject of one of the last requests."""
        own = self.random.choice(self.requests[-4:] or ["none"])
        return self.from_venue("9", [(11, own), (41, self.known()), (39, 0), (434, 1), (102, 2)])

    def odd(self):
        """A heartbeat, another type, a field fault, or a frame whose checksum is one too high."""
        choice = self.random.randrange(5)
        if choice == 4:
            return self.from_venue("8", [(150, "F")])
        if choice == 3:
            frame = self.from_client("D", [(11, "odd"), (1, "ACC")] + self.terms())
            return frame[:-4] + b"%03d\x01" % ((int(frame[-4:-1]) + 1) % 256)
        return self.from_client("0jD"[choice], [])

    def next(self):
        """The next message, half of them orders."""
        kinds = ((self.order, 40), (self.cancel, 8), (self.replace, 12), (self.trade, 18),
                 (self.report, 14), (self.refusal, 4), (self.odd, 4))
        calls, weights = zip(*kinds)
        return self.random.choices(calls, weights)[0]()


def session(random, number, messages):
    """A session's input: so many messages, now and then with line ends, or cut or broken."""
    client = Client(random, number)
    between = random.choice((b"", b"\n", b"\r\n"))
    data = between.join(client.next() for _ in range(messages))
    end = random.random()
    if end < 0.05:
        data = data[:-random.randint(1, 40)]
    elif end < 0.08:
        data += b"8=FIX.4.2\x01"
    return data
