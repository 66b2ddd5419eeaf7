"""Small pieces of a page. All text that is given is escaped."""

from html import escape
from typing import Iterable


def element(name: str, text: object, **attributes: str) -> str:
    """An element with a text."""
    return f"<{name}{spelled(attributes)}>{escape(str(text))}</{name}>"


def spelled(attributes: dict[str, str]) -> str:
    """Attributes of an element; `class_` is `class`, and `_` within a name a dash."""
    return "".join(f' {name.rstrip("_").replace("_", "-")}="{escape(str(value))}"'
                   for name, value in attributes.items())


def facts(pairs: Iterable[tuple[str, object]], class_: str) -> str:
    """A list of names with their values."""
    items = "".join(
        f"<div>{element('dt', name)}{element('dd', value)}</div>" for name, value in pairs)
    return f'<dl class="{class_}">{items}</dl>'


def bar(part: int, whole: int) -> str:
    """A bar that shows how much of the whole the part is. Its text stands beside it."""
    width = 0 if whole <= 0 else min(100, 100 * part / whole)
    return ('<svg class="bar" aria-hidden="true" width="100%" height="6">'
            '<rect class="rail" width="100%" height="6" rx="3"/>'
            f'<rect class="part" width="{width:.1f}%" height="6" rx="3"/></svg>')


def table(caption: str, heads: Iterable[tuple[str, str]], rows: Iterable[Iterable[str]]) -> str:
    """A table of cells that are markup; a head is a text and the class of its column. On a narrow
    page a row is a card, so the roles are said."""
    heads = list(heads)
    top = "".join(element("th", text, scope="col", role="columnheader", class_=class_)
                  for text, class_ in heads)
    body = "".join(
        '<tr role="row">' + "".join(
            f'<td role="cell"{spelled({"class": class_, "data-label": text})}>{cell}</td>'
            for (text, class_), cell in zip(heads, row)) + "</tr>"
        for row in rows)
    return (f'<table class="cards" role="table">{element("caption", caption)}'
            f'<thead role="rowgroup"><tr role="row">{top}</tr></thead>'
            f'<tbody role="rowgroup">{body}</tbody></table>')
