"""A large run from a number: `python3 -m report.tests.load NUMBER SESSIONS ORDERS FOLDER`.

A plain play of a gate: sessions in any interleaving over shared sums, each order a post in three
trees, four reads, and where a limit refuses three posts back. It is there to give the report work.
"""

import random
import sys
from pathlib import Path

from report.tests.runs import forward, frame, order, refusal

ACCOUNTS, SYMBOLS = 4, 8
FIRM_LIMIT, ACCOUNT_LIMIT, SYMBOL_LIMIT = 2_000_000, 800_000, 500_000
CODES = ((1, "FIRM"), (2, "ACCOUNT"), (3, "SYMBOL"))


class Tree:
    """The sum of what sessions posted, with its lines."""

    def __init__(self, number: int, limit: int):
        self.number, self.limit, self.root = number, limit, 0
        self.lines, self.last, self.counts = [], {}, {}

    def post(self, session: int, value: int) -> str:
        """Posts a value; the row of the post."""
        self.root += value - self.last.get(session, 0)
        self.last[session] = value
        index = self.counts[session] = self.counts.get(session, 0) + 1
        self.lines.append(f"line,{session},{self.number},{len(self.lines) + 1},{index},{value}")
        return f"post,{session},{self.number},{index},{value},"

    def read(self, session: int) -> tuple[str, bool]:
        """Reads the root; the row of the read, and whether the root is above the limit."""
        place = len(self.lines)
        return f"read,{session},{self.number},{place},{place},{self.root}", self.root > self.limit


class Session:
    """A session that sends buy orders; each of its steps is a post or a read of one of them."""

    def __init__(self, number: int, orders: int, trees: list[Tree], draw: random.Random):
        self.number, self.orders, self.trees, self.draw = number, orders, trees, draw
        self.acts, self.file, self.venue, self.client = [], [], [], []
        self.steps = self.play()

    def play(self):
        """All steps, one at a time."""
        for frame_number in range(self.orders):
            account, symbol = self.draw.randrange(ACCOUNTS), self.draw.randrange(SYMBOLS)
            quantity, price = 1 + self.draw.randrange(50), 1 + self.draw.randrange(90)
            of = (f"o{self.number:02d}-{frame_number}", f"A{account}", f"S{symbol}", str(quantity))
            self.file.append(frame(order(frame_number + 1, f"C{self.number:02d}", *of,
                                         f"{price}.00")))
            trees = [self.trees[0], self.trees[1 + account], self.trees[1 + ACCOUNTS + symbol]]
            before = [tree.last.get(self.number, 0) for tree in trees]
            yield from self.post(trees, [value + quantity * price for value in before])
            above = yield from self.read(trees)
            if True not in above:
                self.acts.append(f"sent,{self.number},{frame_number},,,")
                self.venue.append(forward(len(self.venue) + 1, *of, f"{price}.00"))
                continue
            yield from self.post(trees, before)
            code, text = CODES[above.index(True)]
            self.acts.append(f"refused,{self.number},{frame_number},{code},0,0")
            self.client.append(refusal(len(self.client) + 1, f"C{self.number:02d}", of[0], 3,
                                       *of[1:], text))
        self.acts.append(f"ended,{self.number},0,,,")

    def post(self, trees: list[Tree], values: list[int]):
        """A post in each tree, a step each."""
        for tree, value in zip(trees, values):
            self.acts.append(tree.post(self.number, value))
            yield

    def read(self, trees: list[Tree]):
        """A read of the halt tree and of each tree, a step each; which roots are above."""
        self.acts.append(f"read,{self.number},{len(self.trees)},0,0,0")
        above = []
        for tree in trees:
            row, is_above = tree.read(self.number)
            self.acts.append(row)
            above.append(is_above)
            yield
        return above


def make(number: int, sessions: int, orders: int, folder: Path) -> list[str]:
    """Makes a run in a folder; the words of its report."""
    draw = random.Random(number)
    limits = [FIRM_LIMIT] + [ACCOUNT_LIMIT] * ACCOUNTS + [SYMBOL_LIMIT] * SYMBOLS
    trees = [Tree(tree, limit) for tree, limit in enumerate(limits)]
    players = [Session(session, orders, trees, draw) for session in range(sessions)]
    left = list(players)
    while left:
        at = draw.randrange(len(left))
        if next(left[at].steps, left) is left:
            left.pop(at)
    rows = [act for player in players for act in player.acts]
    rows += [line for tree in trees for line in tree.lines]
    (folder / "journal.csv").write_text("\n".join(["kind,session,a,b,c,d", *rows, ""]))
    (folder / "limits.csv").write_text(limit_file())
    for player in players:
        name = f"s{player.number:02d}"
        (folder / f"{name}.fix").write_bytes(b"\n".join(player.file))
        (folder / f"{name}.venue").write_bytes(b"".join(player.venue))
        (folder / f"{name}.client").write_bytes(b"".join(player.client))
    return [str(folder / "limits.csv"), str(folder),
            *(str(folder / f"s{player.number:02d}.fix") for player in players)]


def limit_file() -> str:
    """The limit file of the load."""
    accounts = "".join(f"account,A{n},{ACCOUNT_LIMIT},,,\n" for n in range(ACCOUNTS))
    symbols = "".join(f"symbol,S{n},{SYMBOL_LIMIT},1,100,1000\n" for n in range(SYMBOLS))
    return f"firm,,{FIRM_LIMIT},,,\n{accounts}{symbols}quota,,200000,,,\n"


if __name__ == "__main__":
    print(" ".join(make(*map(int, sys.argv[1:4]), Path(sys.argv[4]))))
