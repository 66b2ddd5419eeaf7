"""Tables of figures in Markdown, and the marked parts of a document in which they stand."""
import re


def table(head, rows):
    """The lines of a table, each with its line end."""
    lines = [head, ["---"] * len(head), *rows]
    written = ["| " + " | ".join(cells) + " |\n" for cells in lines]
    written[1] = "|" + "---|" * len(head) + "\n"
    return "".join(written)


def read_table(text):
    """The head and the rows of the one table in a text; ValueError where it isn't one."""
    lines = [line for line in text.splitlines() if line.startswith("|")]
    cells = [[cell.strip() for cell in line.strip("|").split("|")] for line in lines]
    if len(lines) < 3 or not re.fullmatch(r"\|(?:---\|)+", lines[1]):
        raise ValueError("there is no table")
    if any(len(row) != len(cells[0]) for row in cells):
        raise ValueError("a row has other cells than the head")
    return cells[0], cells[2:]


def marks(name):
    """The comments around a part."""
    return f"<!-- bench/run {name} -->\n", f"<!-- end of {name} -->\n"


def part_of(text, name):
    """What stands in a marked part; ValueError where there isn't exactly one of this name."""
    begin, end = marks(name)
    if text.count(begin) != 1 or text.count(end) != 1 or text.index(end) < text.index(begin):
        raise ValueError(f"there is no marked part {name}")
    return text[text.index(begin) + len(begin):text.index(end)]


def with_part(text, name, part):
    """The text with this in its marked part; ValueError where there isn't exactly one."""
    begin, end = marks(name)
    return text.replace(begin + part_of(text, name) + end, begin + part + end)
