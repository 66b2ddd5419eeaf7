"""Whether a journal is that of a run over given limits and sessions, and what is wrong with it: the
first of seven kinds of fault that applies, and its row, from 1 with the header.

1 Text: it is too long or no journal.     2 Count: it has another number of sessions.
3 Early: a session ended by a fault.      4 Tree: an act or a line is of no tree.
5 Acts: a session's acts aren't those of its input and its reads.
6 Lines: a line is of no post, or a post has no line.       7 Read: a read isn't right.
"""
from itertools import zip_longest

from .journal import Fault, read_journal
from .session import run_session

TEXT, COUNT, EARLY, TREE, ACTS, LINES, READ = range(1, 8)
BYTES_MOST = 1_073_741_824
# Ends by a failed read, by a failed write, and for want of memory.
EARLY_ENDS = (4, 5, 6)
# The row of the first act.
FIRST = 2


class Journal:
    """A journal over limits: its acts as (row, session, act), its lines as (row, tree, line), and the
    values that each session posted in each tree."""

    def __init__(self, limits, acts, lines):
        self.limits, self.sessions, self.trees, self.posts = limits, acts, lines, {}
        for session, own in enumerate(acts):
            for act in own:
                if act[0] == "post":
                    self.posts.setdefault((session, act[1]), []).append(act[3])
        numbered = [(session, act) for session, own in enumerate(acts) for act in own]
        self.acts = [(row, *one) for row, one in enumerate(numbered, FIRST)]
        placed = [(tree, line) for tree, own in lines.items() for line in own]
        self.lines = [(row, *one) for row, one in enumerate(placed, FIRST + len(self.acts))]

    def whole(self, tree, place):
        """The root of a tree after so many lines: the sum of what each session last posted, in the
        halt tree the largest."""
        last = {session: value for session, _, value in self.trees.get(tree, [])[:place]}
        fold = max if tree == self.limits.halt_tree() else sum
        return fold(last.values()) if last else 0


def early(journal):
    """The rows of ends by a fault or for want of memory."""
    return (row for row, _, act in journal.acts if act[0] == "ended" and act[1] in EARLY_ENDS)


def far(journal):
    """The rows of a tree that the limits haven't."""
    most = journal.limits.halt_tree()
    yield from (row for row, _, act in journal.acts if act[0] in ("post", "read") and act[1] > most)
    yield from (row for row, tree, _ in journal.lines if tree > most)


def other_acts(journal, inputs, screens):
    """The rows at which a session's acts begin to differ from the session function's."""
    row = FIRST
    for session, (own, data) in enumerate(zip(journal.sessions, inputs)):
        reads = [act[2:] for act in own if act[0] == "read"]
        model, _ = run_session(journal.limits, data, reads, screens and screens(session))
        for place, (act, right) in enumerate(zip_longest(own, model.acts)):
            if act != right:
                yield row + place
                break
        row += len(own)


def wrong_lines(journal):
    """The rows of lines that aren't their session's next post in the tree; then 0 where a post has
    no line."""
    counts = {}
    for row, tree, (session, index, value) in journal.lines:
        count = counts[tree, session] = counts.get((tree, session), 0) + 1
        posts = journal.posts.get((session, tree), [])
        if index != count or index > len(posts) or posts[index - 1] != value:
            yield row
    if any(counts.get((tree, session), 0) < len(posts)
           for (session, tree), posts in journal.posts.items()):
        yield 0


def wrong_reads(journal):
    """The rows of reads that aren't right."""
    seen, posts, stamps = {}, {}, {}
    for row, session, act in journal.acts:
        if act[0] == "post":
            posts[session, act[1]] = posts.get((session, act[1]), 0) + 1
        elif act[0] == "read":
            _, tree, stamp, place, value = act
            lines = journal.trees.get(tree, [])
            own = sum(line[0] == session for line in lines[:place])
            before = seen.setdefault(tree, [])
            if not (place <= len(lines)
                    and value == journal.whole(tree, place)
                    and own == posts.get((session, tree), 0)
                    and stamp >= stamps.get((session, tree), 0)
                    and all(agree((stamp, place), other) for other in before)):
                yield row
            before.append((stamp, place))
            stamps[session, tree] = stamp


def agree(one, other):
    """Whether the places of two reads of a tree, each (stamp, place), stand as their stamps do."""
    (stamp, place), (other_stamp, other_place) = one, other
    if stamp == other_stamp:
        return place == other_place
    return place <= other_place if stamp < other_stamp else place >= other_place


def first_fault(limits, data, inputs, screens=None):
    """The kind and the row of a journal's fault, None where it has none. `data` are its bytes,
    `inputs` those of the sessions; `screens`, of a session's number, makes its set, where it isn't
    the program's."""
    if len(data) > BYTES_MOST:
        return TEXT, 0
    try:
        acts, lines = read_journal(data.decode("latin-1"))
    except Fault as fault:
        return TEXT, fault.args[0]
    if len(acts) != len(inputs):
        return COUNT, 0
    journal = Journal(limits.counted(len(inputs)), acts, lines)
    kinds = ((EARLY, early(journal)), (TREE, far(journal)),
             (ACTS, other_acts(journal, inputs, screens)), (LINES, wrong_lines(journal)),
             (READ, wrong_reads(journal)))
    return next(((kind, row) for kind, rows in kinds for row in rows), None)
