"""The parts of the page that stand without its script: figures, pictures, sessions, trees."""

from html import escape
from pathlib import PurePath

from report import verdicts
from report.histories import History
from report.limits import FIRM, HALT, Tree
from report.markup import bar, element, facts, table
from report.run import Run, SessionSummary
from report.text import counted, grouped, readable
from report.trees import FirstRefusal, TreeView, first_refusal

SHOWN = 12
STANDING_SHOWN = 8
COLUMNS = 480
COLUMNS_OF_OTHERS = 160


def file_text(name: str) -> str:
    """A file's name as text."""
    return readable(name.encode("utf-8", "surrogateescape"))


def session_names(run: Run) -> list[str]:
    """The sessions' files: their last parts, where these tell all of them apart."""
    names = [session.name for session in run.sessions]
    last_parts = [PurePath(name).name for name in names]
    told_apart = len(set(last_parts)) == len(names)
    return [file_text(name) for name in (last_parts if told_apart else names)]


def views_of(run: Run) -> list[TreeView]:
    """The trees with a limit: the firm's first; where they are many, then those that refused most,
    and then those that were used most."""
    limited = [history for history in run.histories if history.tree.kind != HALT]
    if len(limited) > SHOWN:
        limited.sort(key=lambda history: rank(run, history))
    return [TreeView(run, history.tree.number, COLUMNS if at < SHOWN else COLUMNS_OF_OTHERS)
            for at, history in enumerate(limited)]


def rank(run: Run, history: History) -> tuple:
    """The order of trees where they are many."""
    tree = history.tree
    used = run.highest_sent[tree.number] / max(tree.limit, 1)
    return tree.kind != FIRM, -len(run.rows.refusals.get(tree.number, ())), -used, tree.number


def halted_by(run: Run) -> str:
    """Which session halted the firm."""
    halt = run.histories[-1]
    return f"by session {halt.sessions[0]}" if len(halt) else "no"


def figures(run: Run, firm: TreeView) -> str:
    """The figures of the whole run."""
    sessions = run.sessions
    return facts([
        ("requests", grouped(sum(s.requests for s in sessions))),
        ("sent", grouped(sum(s.sent for s in sessions))),
        ("refused", grouped(sum(s.refused for s in sessions))),
        ("of the firm's limit used at most", firm.used()),
        ("halted", halted_by(run)),
    ], "figures")


def card(run: Run, view: TreeView) -> str:
    """A tree: its picture, its figures, and what stood there at its first refusal."""
    tree, heading = view.tree, f"tree-{view.tree.number}"
    parts = [
        f'<article class="card" aria-labelledby="{heading}"><div>',
        f'<h3 id="{heading}">{heading_text(tree)}</h3>',
        facts([("limit", grouped(tree.limit)),
               ("highest sent", f"{grouped(view.highest_sent)} ({view.used()})"),
               ("highest posted", grouped(view.highest_posted)),
               ("at the end", grouped(view.at_end)),
               ("refused", grouped(len(view.refusals)))], "stats"),
        f'<svg class="plot" role="img" aria-label="{escape(view.summary())}">{view.markup()}</svg>',
        '<p class="axis" aria-hidden="true"><span>0</span>'
        f'<span>{counted(len(view.history), "post")}</span></p>',
        element("p", thinning_text(view), class_="note") if view.plot.is_thinned() else "",
        "</div>",
    ]
    first = first_refusal(view, run.rows)
    if first is not None:
        parts.append(first_block(view, first))
    return "".join(parts) + "</article>"


def heading_text(tree: Tree) -> str:
    """What a tree is of: its name, behind its kind."""
    if not tree.name:
        return escape(tree.kind.capitalize())
    kind = f"net {tree.kind}" if tree.is_net else tree.kind
    return f"{element('span', kind, class_='kind')} {escape(tree.name)}"


def thinning_text(view: TreeView) -> str:
    """What was left out of a picture, and what wasn't."""
    plot = view.plot
    text = (f"Drawn with {grouped(len(plot.points))} of {grouped(len(view.history.roots))} points:"
            " each column keeps its first, last, highest and lowest, so no peak is lost.")
    if len(plot.marks) < len(view.refusals):
        text += (f" {counted(len(plot.marks), 'mark stands', 'marks stand')} for"
                 f" {counted(len(view.refusals), 'refusal')}, each at the highest of its column.")
    return text


def first_block(view: TreeView, first: FirstRefusal) -> str:
    """The first refusal of a tree, with what each session had posted there."""
    above = first.root - view.tree.limit
    lead = (f"First refused: {first.order_id} of session {first.session}, after"
            f" {counted(first.place, 'post')}. With it the root was {grouped(first.root)},"
            f" {grouped(above)} above the limit. There stood:")
    standing = {session: value for session, value in first.standing.items() if value}
    items = "".join(standing_item(session, value, first) for session, value in standing.items())
    scrolls = ""
    if len(standing) > STANDING_SHOWN:
        scrolls = ' tabindex="0" aria-label="what stood there"'
    button = element("button", f"Show the {counted(len(view.refusals), 'refusal')}", type="button",
                     class_="quiet needs-script", data_tree=view.tree.number)
    return (f'<div class="first">{element("p", lead)}<ul class="standing"{scrolls}>{items}</ul>'
            f'{button}</div>')


def standing_item(session: int, value: int, first: FirstRefusal) -> str:
    """What a session had posted where a request was refused."""
    is_own = session == first.session
    text = f"session {session}, with this request" if is_own else f"session {session}"
    return (f'<li class="{"own" if is_own else "other"}">{element("span", text)}'
            f'{element("b", grouped(value))}{bar(value, first.root)}</li>')


def pictures(run: Run, views: list[TreeView]) -> str:
    """All trees with a limit; the later ones of many are folded away."""
    shown = "".join(card(run, view) for view in views[:SHOWN])
    others = "".join(card(run, view) for view in views[SHOWN:])
    if others:
        title = counted(len(views) - SHOWN, "other tree")
        others = (f'<details class="others">{element("summary", title)}'
                  f'<div class="grid">{others}</div></details>')
    return f'<div class="grid">{shown}</div>{others}'


def sessions_table(run: Run) -> str:
    """A row for each session."""
    firm = run.histories[0]
    standing = firm.standing(len(firm))
    heads = [("session", "key"), ("file", "two"), ("client (49)", ""), ("ended", "two"),
             ("requests", "number"), ("sent", "number"), ("refused", "number"),
             ("reports", "number"), ("other frames", "two"), ("posted at the end, firm", "number")]
    rows = [
        session_cells(number, name, run.sessions[number], standing.get(number, 0), firm.tree.limit)
        for number, name in enumerate(session_names(run))]
    return table("What each session did", heads, rows)


def session_cells(number: int, name: str, session: SessionSummary, posted: int,
                  limit: int) -> list[str]:
    """The cells of a session."""
    end = verdicts.end_text(session.end)
    whole = session.end.number == 0
    return [str(number), escape(name), escape(session.client()),
            element("span", end, class_="" if whole else "alert"),
            *(grouped(count) for count in (session.requests, session.sent, session.refused,
                                           session.reports)),
            escape(other_frames(session)),
            f"{grouped(posted)}{bar(posted, limit)}"]


def other_frames(session: SessionSummary) -> str:
    """The frames that are neither requests nor reports."""
    tally = session.tally
    parts = [(tally.of_the_session, "of the session"), (tally.other, "of another type"),
             (tally.not_sound, "not sound")]
    return ", ".join(f"{grouped(count)} {text}" for count, text in parts if count) or "none"


def trees_table(run: Run, views: list[TreeView]) -> str:
    """A row for each tree, the halt tree last."""
    heads = [("tree", "key"), ("of", "two"), ("limit", "number"), ("highest sent", "number"),
             ("used at most", "number"), ("highest posted", "number"), ("at the end", "number"),
             ("posts", "number"), ("refused", "number")]
    rows = [[str(view.tree.number), escape(view.tree.title()), grouped(view.tree.limit),
             grouped(view.highest_sent), view.used() + bar(view.highest_sent, view.tree.limit),
             grouped(view.highest_posted), grouped(view.at_end), grouped(len(view.history)),
             grouped(len(view.refusals))]
            for view in sorted(views, key=lambda view: view.tree.number)]
    halt = run.histories[-1]
    refused = len(run.rows.refusals.get(halt.tree.number, ()))
    tripped = f"halt, tripped {halted_by(run)}" if len(halt) else "halt, not tripped"
    rows.append([str(halt.tree.number), tripped, "none", "–", "–", "–",
                 grouped(halt.roots[-1]), grouped(len(halt)), grouped(refused)])
    return table("How far each limit was used", heads, rows)
