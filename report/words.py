"""The texts of a run, each kept once and numbered."""

from report.text import csv_cell, readable, spreadsheet_cell


class Words:
    """Values of fields by number: `texts` as a page shows them, `cells` as a spreadsheet's file has
    them. Number 0 is the empty text, and that of a field that isn't there."""

    def __init__(self):
        self.numbers = {b"": 0}
        self.texts = [""]
        self.cells = [""]

    def number(self, value: bytes) -> int:
        """The number of a value, a new one where it wasn't met before."""
        number = self.numbers.get(value)
        if number is None:
            number = self.numbers[value] = len(self.texts)
            text = readable(value)
            self.texts.append(text)
            self.cells.append(csv_cell(spreadsheet_cell(text)))
        return number

    def numbers_of(self, body: bytes, tags: tuple[bytes, ...]) -> list[int]:
        """The numbers of the values that a body has first for these tags."""
        known, find, numbers = self.numbers, body.find, []
        for tag in tags:
            start = find(tag)
            if start < 0:
                numbers.append(0)
                continue
            start += len(tag)
            value = body[start:find(1, start)]
            number = known.get(value)
            numbers.append(self.number(value) if number is None else number)
        return numbers
