"""Messages of FIX in a log: with SOH, `|`, `^A`, `<SOH>` or the like between fields, and with or
without something before them on their line."""
import re

BEGIN = re.compile(rb"8=FIXT?\.[0-9]\.[0-9](?:SP[0-9])?")
SEPARATOR = re.compile(rb"(\^A|<SOH>|\\x01|\\u0001|[^0-9A-Za-z]{1,3})9=[0-9]")
SOH = b"\x01"


class Message:
    """One message with SOH between its fields, and the line of the log that it is in, from 1."""

    def __init__(self, text, line):
        self.text = text
        self.line = line

    def value(self, tag):
        """The value of the first field with this tag, or None."""
        for field in self.text.split(SOH):
            if field.startswith(tag + b"="):
                return field[len(tag) + 1 :]
        return None

    def fault(self):
        """What is wrong with BodyLength or CheckSum, or None."""
        found = re.fullmatch(
            rb"8=[^\x01]*\x019=([0-9]+)\x01(.*\x01)10=([0-9]{3})\x01", self.text, re.DOTALL
        )
        if not found:
            return "it doesn't begin with 8 and 9 or end with 10"
        if int(found.group(1)) != len(found.group(2)):
            length, body = int(found.group(1)), len(found.group(2))
            return f"BodyLength (9) is {length}, and the body has {body} bytes"
        total = sum(self.text[: found.start(3) - 3]) % 256
        if int(found.group(3)) != total:
            return f"CheckSum (10) is {found.group(3).decode()}, and the bytes come to {total:03}"
        return None


def messages(data):
    """The messages of a log, in order, and the numbers of the lines that have none."""
    found, without = [], []
    for number, line in enumerate(re.split(rb"\r\n|\r|\n", data), 1):
        here = list(messages_of(line, number))
        found += here
        if not here and line.strip():
            without.append(number)
    return found, without


def messages_of(line, number):
    """The messages that stand in one line. A message begins with fields 8 and 9."""
    begins = [one for one in BEGIN.finditer(line) if SEPARATOR.match(line, one.end())]
    ends = [one.start() for one in begins[1:]] + [len(line)]
    for begin, end in zip(begins, ends):
        yield Message(with_soh(line[begin.start() : end]), number)


def with_soh(text):
    """A message with SOH in place of what separates its fields, up to its CheckSum."""
    begin = BEGIN.match(text)
    separator = SEPARATOR.match(text, begin.end()).group(1)
    whole = re.compile(rb".*?" + re.escape(separator) + rb"10=[0-9]*", re.DOTALL).match(
        text, begin.end()
    )
    message = whole.group() if whole else text[begin.end() :].removesuffix(separator)
    return begin.group() + message.replace(separator, SOH) + SOH
