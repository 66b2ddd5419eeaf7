"""Bytes and numbers as text that is safe to show: in a page, and in a spreadsheet."""

import re

NUMBER = re.compile(r"-?[0-9]+(?:\.[0-9]*)?|-?\.[0-9]+")
# How a formula begins, in narrow and in wide letters.
FORMULA = frozenset("=+-@\t\r\n\uff1d\uff0b\uff0d\uff20")
QUOTED = re.compile(r"[,\"\r\n]")


def readable(value: bytes) -> str:
    """The value as text. What isn't UTF-8 or can't be printed stands as an escape, as `\\x07`."""
    text = value.decode("utf-8", "backslashreplace")
    if text.isprintable():
        return text
    return "".join(c if c.isprintable() else c.encode("unicode_escape").decode() for c in text)


def spreadsheet_cell(text: str) -> str:
    """The text for a cell that a spreadsheet doesn't take for a formula: behind a quote where it
    begins like one. A plain number stays a number."""
    if text.lstrip(" ")[:1] in FORMULA and not NUMBER.fullmatch(text):
        return "'" + text
    return text


def csv_cell(text: str) -> str:
    """The text as a cell of comma-separated values: in quotes where it has to be."""
    return '"' + text.replace('"', '""') + '"' if QUOTED.search(text) else text


def grouped(number: int) -> str:
    """A whole number with a comma between each three digits."""
    return f"{number:,}"


def share(part: int, whole: int) -> str:
    """How much of the whole the part is, in percent, rounded down: `90 %`, `99.9 %`; below 10 and
    from 99 on with one decimal. Of nothing it is a dash."""
    if whole == 0:
        return "–"
    tenths = 1000 * part // whole
    if tenths % 10 and (tenths < 100 or tenths > 990):
        return f"{tenths // 10}.{tenths % 10} %"
    return f"{tenths // 10} %"


def counted(number: int, one: str, more: str = "") -> str:
    """The number with its noun: `1 refusal`, `2 refusals`."""
    return f"{grouped(number)} {one if number == 1 else more or one + 's'}"
