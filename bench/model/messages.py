"""What a sound frame says, by the table of fields: its values, or its first field fault."""
import re
from collections import namedtuple

# The tag of the field that is at fault, and SessionRejectReason (373).
Fault = namedtuple("Fault", "tag reason")
# A kind (D, F, G, 8, 9, admin or other) and the values by tag.
Message = namedtuple("Message", "kind values")

MISSING, RANGE, EMPTY, FORM, TWICE = 1, 5, 4, 6, 13
ADMIN = (b"0", b"1", b"2", b"3", b"4", b"5", b"A")
READ = (b"D", b"F", b"G", b"8", b"9")
DECIMAL = re.compile(rb"(-?)([0-9]*)(?:\.([0-9]*))?")


class Form(Exception):
    """The text isn't spelled so."""


class Range(Exception):
    """It is, and is out of range."""


def read_id(text):
    """1 to 64 bytes of 32 to 126."""
    if any(not 32 <= byte <= 126 for byte in text):
        raise Form
    if not 1 <= len(text) <= 64:
        raise Range
    return text


def read_seq(text):
    """Digits alone, 1 to 999,999,999, at most 32 bytes."""
    if not re.fullmatch(rb"[0-9]+", text):
        raise Form
    if len(text) > 32 or not 1 <= int(text) <= 999_999_999:
        raise Range
    return int(text)


def decimal(text, places, least, most):
    """A decimal in units of its last place, within bounds."""
    match = DECIMAL.fullmatch(text)
    if not match or not (match.group(2) or match.group(3)):
        raise Form
    minus, whole, part = match.group(1), match.group(2), match.group(3) or b""
    if minus or len(text) > 32 or part[places:].strip(b"0"):
        raise Range
    number = int((whole + part[:places].ljust(places, b"0")) or b"0")
    if not least <= number <= most:
        raise Range
    return number


def read_price(text):
    """Ten-thousandths: 0.0001 to 999,999.9999."""
    return decimal(text, 4, 1, 9_999_999_999)


def read_quantity(text):
    """1 to 1,000,000,000, whole."""
    return decimal(text, 0, 1, 1_000_000_000)


def one_of(*values):
    """A reader of one of these values."""
    def read(text):
        if text not in values:
            raise Range
        return text
    return read


def same(text):
    """The text."""
    return text


ALL = {kind: "required" for kind in READ}
# Tag; in which kind it is required, optional, or required with another field's value; its reader.
TABLE = (
    (34, ALL, read_seq),
    (49, ALL, read_id),
    (56, ALL, read_id),
    (52, ALL, read_id),
    (35, ALL, same),
    (150, {b"8": "required"}, read_id),
    (11, {**ALL, b"8": "optional"}, read_id),
    (41, {b"F": "required", b"G": "required"}, read_id),
    (1, {b"D": "required", b"G": "optional"}, read_id),
    (55, {b"D": "required", b"G": "required"}, read_id),
    (54, {b"D": "required", b"G": "required"}, one_of(b"1", b"2", b"5", b"6")),
    (38, {b"D": "required", b"G": "required"}, read_quantity),
    (40, {b"D": "required", b"G": "required"}, one_of(b"1", b"2")),
    (44, {b"D": (40, b"2"), b"G": (40, b"2")}, read_price),
    (32, {b"8": (150, b"F")}, read_quantity),
    (31, {b"8": (150, b"F")}, read_price),
)


def read_field(need, texts, read):
    """The value of a field that stands with these texts, None where there is none; or a reason."""
    if not texts:
        return None, (MISSING if need == "required" else None)
    if len(texts) > 1:
        return None, TWICE
    if not texts[0]:
        return None, EMPTY
    try:
        return read(texts[0]), None
    except Form:
        return None, FORM
    except Range:
        return None, RANGE


def read_message(fields):
    """The message of a sound frame's fields, or its first fault."""
    kind = fields[0][1]
    if kind not in READ:
        return Message("admin" if kind in ADMIN else "other", {})
    values = {}
    for tag, needs, read in TABLE:
        need = needs.get(kind)
        if isinstance(need, tuple):
            need = "required" if values.get(need[0]) == need[1] else None
        if need is None:
            continue
        value, reason = read_field(need, [text for own, text in fields if own == tag], read)
        if reason:
            return Fault(tag, reason)
        if value is not None:
            values[tag] = value
    return Message(kind.decode(), values)


def id_of(fields, tag):
    """The value of a field that stands once as an id, else None."""
    value, reason = read_field("required", [text for own, text in fields if own == tag], read_id)
    return None if reason else value
