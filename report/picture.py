"""The firm's picture alone, as one SVG: `python3 -m report.picture FILE LIMITS OUT SESSION...`."""

import os
import sys
from html import escape
from pathlib import Path

from report.assets import asset
from report.run import Run, read_run
from report.text import counted, grouped
from report.trees import TreeView, first_refusal

WIDTH, HEIGHT = 760, 372
COLUMNS = 480
STYLE = """text { font: 14px system-ui, sans-serif; fill: var(--ink); }
.ground { fill: var(--paper); }
.heading { font-size: 18px; font-weight: 600; }
.soft { fill: var(--soft); }
"""


def line(y: int, text: str, name: str = "") -> str:
    """A line of text at a height."""
    return f'<text x="24" y="{y}" class="{name}">{escape(text)}</text>\n'


def standing_text(view: TreeView, run: Run) -> str:
    """What stood at the first refusal, in a sentence."""
    first = first_refusal(view, run.rows)
    if first is None:
        return "No request was refused by this limit."
    stood = ", ".join(f"{grouped(value)} of session {session}"
                      for session, value in first.standing.items() if value)
    return (f"First refused: {first.order_id} of session {first.session}, root"
            f" {grouped(first.root)}. There stood: {stood}.")


def picture(run: Run) -> str:
    """The picture of the firm's tree, with what it shows in words."""
    view = TreeView(run, 0, COLUMNS)
    facts = (f"limit {grouped(view.tree.limit)}  ·  highest sent {grouped(view.highest_sent)}"
             f" ({view.used()})  ·  highest posted {grouped(view.highest_posted)}  ·  ▼ refused"
             f" {grouped(len(view.refusals))}")
    return (
        f'<svg xmlns="http://www.w3.org/2000/svg" viewBox="0 0 {WIDTH} {HEIGHT}" width="{WIDTH}"'
        f' role="img" aria-label="{escape(view.summary())}">\n'
        f"<style>\n{asset('plot.css')}{STYLE}</style>\n"
        f'<rect class="ground" width="{WIDTH}" height="{HEIGHT}" rx="10"/>\n'
        + line(40, "Firm: what was posted against its limit", "heading") + line(64, facts, "soft")
        + f'<svg x="24" y="82" width="{WIDTH - 48}" height="210" overflow="visible">'
        + view.markup() + "</svg>\n"
        + line(314, "0", "soft") + f'<text x="{WIDTH - 24}" y="314" text-anchor="end" class="soft">'
        f"{counted(len(view.history), 'post')}</text>\n"
        + line(346, standing_text(view, run)) + "</svg>\n")


def main(words: list[str]) -> None:
    """Writes the picture of a run into a file."""
    file, limits, out, *sessions = map(Path, words)
    with open(os.devnull, "w", encoding="utf-8") as nowhere:
        run = read_run(limits, out, sessions, nowhere)
    file.write_text(picture(run), encoding="utf-8")


if __name__ == "__main__":
    main(sys.argv[1:])
