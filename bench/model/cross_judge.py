"""Whether a run of the guard against crossing orders is the model's: each symbol's tree is legal, no
buy that is admitted crosses a sell that is, and each session did what its input and its reads say."""
from .cross import is_at_most, is_clear, join, meet, run_cross
from .journal import Fault, read_journal
from .judge import Wrong, demand, judge_posts, reads_of
from .limits import Limits


class Standing:
    """What the sessions have posted in a tree, and what of it is admitted."""

    def __init__(self, sessions):
        self.posted, self.admitted, self.counts = [0] * sessions, [0] * sessions, [0] * sessions

    def post(self, session, value):
        """A post sets what is posted, and lowers by halves what is admitted."""
        self.counts[session] += 1
        self.posted[session] = value
        self.admitted[session] = meet(self.admitted[session], value)

    def read(self, session, value):
        """A read of a clear value admits what its session has posted."""
        if is_clear(value):
            self.admitted[session] = self.posted[session]


def judge_tree(acts, lines, tree):
    """Raises where a tree isn't legal, or where admitted orders cross."""
    judge_posts(acts, lines, tree)
    reads, standing, at = sorted(reads_of(acts, tree)), Standing(len(acts)), 0
    for before, after in zip(reads, reads[1:]):
        demand(before[1] <= after[1], "stamps fall", tree, before, after)
        demand(before[1] < after[1] or before[0] == after[0], "one stamp has two places", tree)
    for place in range(len(lines) + 1):
        if place:
            session, index, value = lines[place - 1]
            standing.post(session, value)
            demand(index == standing.counts[session], "posts aren't in their order", tree, place)
        while at < len(reads) and reads[at][0] == place:
            _, _, value, session, posts = reads[at]
            demand(value == join(*standing.posted), "a read isn't the root", tree, reads[at])
            demand(posts == standing.counts[session], "a read hasn't its own posts", tree, reads[at])
            standing.read(session, value)
            at += 1
        demand(is_clear(join(*standing.admitted)), "admitted orders cross", tree, place)
    demand(at == len(reads), "a read's place is behind the lines", tree, reads[at:at + 1])


class Own:
    """What a session's acts admit by themselves, looked at behind each frame."""

    def __init__(self, symbols):
        self.symbols, self.trees, self.seen = symbols, [Standing(1) for _ in symbols], 0

    def see(self, session):
        """What the session's orders rest as is admitted in each symbol."""
        for act in session.acts[self.seen:]:
            if act[0] == "post":
                self.trees[act[1]].post(0, act[3])
            elif act[0] == "read":
                self.trees[act[1]].read(0, act[4])
        self.seen = len(session.acts)
        for tree, symbol in enumerate(self.symbols):
            resting, admitted = session.value(symbol), self.trees[tree].admitted[0]
            demand(is_at_most(resting, admitted), "what rests isn't admitted", session.frame, symbol)


def judge_session(number, limits, data, acts, passed, client):
    """A session's acts and both outputs are those of its input and its reads. Gives its end."""
    reads = [act[2:] for act in acts if act[0] == "read"]
    model, end = run_cross(limits, data, reads, Own(list(limits.symbols)).see)
    for place, (wanted, found) in enumerate(zip(model.acts, acts)):
        demand(wanted == found, "an act", number, place, "wanted", wanted, "found", found)
    demand(len(model.acts) == len(acts), "how many acts", number, len(model.acts), len(acts))
    demand(model.passed == passed, "what is passed", number)
    demand(model.client.data == client, "the client's stream", number)
    return end


def judge_run(limit_text, inputs, passes, clients, journal, told, status):
    """Raises `Wrong` where a run isn't the model's. Gives the sessions' acts."""
    limits = Limits(limit_text).counted(len(inputs))
    try:
        acts, lines = read_journal(journal)
    except Fault as fault:
        raise Wrong("no journal", *fault.args) from fault
    demand(max(lines, default=0) < max(1, len(limits.symbols)), "too many trees")
    demand(len(acts) == len(inputs), "how many sessions", len(acts))
    for tree in range(max(1, len(limits.symbols))):
        judge_tree(acts, lines.get(tree, []), tree)
    ends = [judge_session(number, limits, *one)
            for number, one in enumerate(zip(inputs, acts, passes, clients))]
    wanted = 0 if all(word == "whole" for word, _ in ends) else 4
    demand((status, told) == (wanted, f"status {wanted}\n"), "the status", status, told)
    return acts
