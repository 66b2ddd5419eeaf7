"""The page: one file that needs no network, with its style, its script and its data inside."""

import base64
import hashlib
import json
import zlib
from html import escape
from typing import Iterator

from report import sections
from report.assets import asset
from report.run import Run
from report.text import counted

LEVEL = 6
SCRIPTS = ("rows.js", "filters.js", "standing.js", "page.js")


def allowed(text: str) -> str:
    """How the page's policy names a style or a script that may apply: by its hash."""
    return "'sha256-" + base64.b64encode(hashlib.sha256(text.encode()).digest()).decode() + "'"


def packed(name: str, pieces: Iterator[str]) -> Iterator[str]:
    """Data for the script: pieces of a JSON text, compressed, in base 64."""
    compressor = zlib.compressobj(LEVEL)
    data = bytearray()
    for piece in pieces:
        data += compressor.compress(piece.encode())
    data += compressor.flush()
    yield f'<script type="application/octet-stream" id="{name}">'
    yield base64.b64encode(data).decode()
    yield "</script>\n"


def requests_json(run: Run) -> Iterator[str]:
    """The rows, a column at a time, with the words, fates, trees and sessions that they name."""
    rows = run.rows
    heads = {
        "words": rows.rows.words.texts, "fates": rows.rows.fates,
        "trees": [[history.tree.title(), history.tree.limit] for history in run.histories],
        "sessions": sections.session_names(run),
    }
    yield json.dumps(heads)[:-1]
    for name, column in rows.columns():
        yield f',"{name}":' + json.dumps(column.tolist(), separators=(",", ":"))
    yield "}"


def lines_json(run: Run) -> Iterator[str]:
    """The lines of each tree: the sessions and the values, in order of place."""
    for at, history in enumerate(run.histories):
        lines = {"sessions": history.sessions.tolist(), "values": history.values.tolist()}
        yield ("," if at else "[") + json.dumps(lines, separators=(",", ":"))
    yield "]"


def head(style: str, script: str) -> str:
    """The head of the page. Its policy lets nothing in but this style and this script."""
    policy = f"default-src 'none'; style-src {allowed(style)}; script-src {allowed(script)}"
    return ('<!doctype html>\n<html lang="en">\n<head>\n<meta charset="utf-8">\n'
            f'<meta http-equiv="Content-Security-Policy" content="{policy}">\n'
            '<meta name="viewport" content="width=device-width, initial-scale=1">\n'
            '<meta name="color-scheme" content="light dark">\n'
            "<title>Report of a run of the gate</title>\n"
            f"<style>{style}</style>\n</head>\n")


def page(run: Run, limits_name: str) -> Iterator[str]:
    """The pieces of the page, in order."""
    style = asset("plot.css") + asset("page.css")
    script = "".join(map(asset, SCRIPTS))
    views = sections.views_of(run)
    yield head(style, script)
    body = asset("page.html").split("<!-- cut -->")
    title = f"{counted(len(run.sessions), 'session')} over {sections.file_text(limits_name)}"
    parts = (escape(title), sections.figures(run, views[0]), sections.pictures(run, views),
             sections.sessions_table(run), sections.trees_table(run, views))
    for text, part in zip(body, parts):
        yield text
        yield part
    yield body[len(parts)]
    yield from packed("requests-data", requests_json(run))
    yield from packed("lines-data", lines_json(run))
    yield f"<script>{script}</script>\n</body>\n</html>\n"

