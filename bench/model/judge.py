"""Whether a journal is legal and admits within its limits, and whether a run is the model's."""
from .journal import Fault, read_journal
from .limits import Limits
from .session import marks_of, run_session


# The root over no post, and what joins values, by fold.
UNITS = {"sum": 0, "max": 0, "min": 2 ** 38 - 1}
FOLDS = {"max": max, "min": min}


class Wrong(Exception):
    """What is wrong with a run."""


def demand(holds, *what):
    """Raises where something doesn't hold."""
    if not holds:
        raise Wrong(*what)


def walk(lines, sessions, fold):
    """The array behind each number of lines, as (own posts of each session, root)."""
    root = UNITS[fold]
    array, counts = [root] * sessions, [0] * sessions
    yield counts, root, None
    for session, index, value in lines:
        counts[session] += 1
        demand(index == counts[session], "a session's posts aren't in their order", session, index)
        old, array[session] = array[session], value
        root = root - old + value if fold == "sum" else FOLDS[fold](array)
        yield counts, root, session


def judge_posts(acts, lines, tree):
    """Each post of each session stands in the tree's lines once, and no other line does."""
    for session, own in enumerate(acts):
        posts = [act[2:] for act in own if act[0] == "post" and act[1] == tree]
        found = [line[1:] for line in lines if line[0] == session]
        demand(posts == found, "posts aren't the lines", tree, session)


def reads_of(acts, tree):
    """The reads of a tree, as (place, stamp, value, session, own posts before)."""
    for session, own in enumerate(acts):
        posts, last = 0, 0
        for act in own:
            if act[0] == "post" and act[1] == tree:
                posts += 1
            elif act[0] == "read" and act[1] == tree:
                _, _, stamp, place, value = act
                demand(stamp >= last, "a session's stamps fall", tree, session)
                last = stamp
                yield place, stamp, value, session, posts


def judge_tree(acts, lines, tree, fold, limit):
    """Raises where a tree isn't legal, or somewhere admits more than its limit, if it has one."""
    judge_posts(acts, lines, tree)
    reads = sorted(reads_of(acts, tree))
    for before, after in zip(reads, reads[1:]):
        demand(before[1] <= after[1], "stamps fall", tree, before, after)
        if before[1] == after[1]:
            demand(before[0] == after[0], "one stamp has two places", tree, before, after)
    posted, admitted, at = [0] * len(acts), [0] * len(acts), 0
    for place, (counts, root, poster) in enumerate(walk(lines, len(acts), fold)):
        if poster is not None:
            posted[poster] = lines[place - 1][2]
            admitted[poster] = min(admitted[poster], posted[poster])
        while at < len(reads) and reads[at][0] == place:
            _, _, value, session, posts = reads[at]
            demand(value == root, "a read isn't the fold at its place", tree, reads[at], root)
            demand(counts[session] == posts, "a read hasn't its own posts", tree, reads[at])
            if limit is not None and value <= limit:
                admitted[session] = posted[session]
            at += 1
        demand(limit is None or sum(admitted) <= limit, "admitted above the limit", tree, place)
    demand(at == len(reads), "a read's place is behind the lines", tree, reads[at:at + 1])


def judge_journal(text, limits):
    """The acts and lines of a legal journal."""
    try:
        acts, lines = read_journal(text)
    except Fault as fault:
        raise Wrong("no journal", *fault.args) from fault
    demand(max(lines, default=0) <= limits.halt_tree(), "too many trees")
    lines = [lines.get(tree, []) for tree in range(limits.halt_tree() + 1)]
    for tree, (word, _, limit) in enumerate(limits.trees()):
        fold, most = ("max", None) if word == "halt" else ("sum", limit)
        judge_tree(acts, lines[tree], tree, fold, most)
    return acts, lines


def judge_session(number, limits, data, acts, venue, client, run=run_session):
    """A session's acts and streams are those that its model, run so, has of its input and its reads.
    Gives its end."""
    reads = [act[2:] for act in acts if act[0] == "read"]
    model, end = run(limits, data, reads)
    for place, (wanted, found) in enumerate(zip(model.acts, acts)):
        demand(wanted == found, "an act", number, place, "wanted", wanted, "found", found)
    demand(len(model.acts) == len(acts), "how many acts", number, len(model.acts), len(acts))
    demand(model.venue.data == venue, "the venue's stream", number)
    demand(model.client.data == client, "the client's stream", number)
    return end


def judge_early(number, limits, data, acts, venue, client):
    """The acts of a session that a fault or want of memory ended are those of a number of first
    frames; its streams hold their messages, the last of them whole, in part or not at all."""
    reads = [act[2:] for act in acts if act[0] == "read"]
    model, marks = marks_of(limits, data, reads)
    streams = ((model.venue.data, venue, 1), (model.client.data, client, 2))
    for before, behind in zip([marks[0]] + marks, marks):
        are_acts = len(acts) == behind[0] + 1 and acts[:-1] == model.acts[:behind[0]]
        if are_acts and all(before[at] <= len(found) <= behind[at] and wanted.startswith(found)
                            for wanted, found, at in streams):
            return
    raise Wrong("no number of first frames gives the acts and streams", number, acts)


def totals_of(limits, acts, lines, ends, status):
    """The text of the totals."""
    out = []
    for number, (own, (word, place)) in enumerate(zip(acts, ends)):
        counts = [sum(act[0] == kind for act in own) for kind in ("sent", "refused", "noted")]
        words = word if place is None else f"{word} {place}"
        out.append("session {} {} sent {} refused {} noted {}".format(number, words, *counts))
    for number, (word, name, limit) in enumerate(limits.trees()):
        last = {session: value for session, _, value in lines[number]}.values()
        root = max(last, default=0) if word == "halt" else sum(last)
        posts = len(lines[number])
        out.append(f"tree {number} {word} {name} posts {posts} root {root} limit {limit}")
    return "\n".join(out + [f"status {status}", ""])


def judge_run(limit_text, inputs, venues, clients, journal, told, status):
    """Raises `Wrong` where a run isn't the model's. Gives the sessions' acts."""
    limits = Limits(limit_text).counted(len(inputs))
    acts, lines = judge_journal(journal, limits)
    demand(len(acts) == len(inputs), "how many sessions", len(acts))
    ends = [judge_session(number, limits, *one)
            for number, one in enumerate(zip(inputs, acts, venues, clients))]
    wanted = 0 if all(word == "whole" for word, _ in ends) else 4
    demand(status == wanted, "the status", status, wanted)
    totals = totals_of(limits, acts, lines, ends, wanted)
    demand(told == totals, "the totals", told, totals)
    return acts
