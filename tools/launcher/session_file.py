"""Where a session file ended before its end, what stands there, and what is likely the cause.
docs/FORMATS.md tells what a frame is."""
import re

from launcher.say import counted, shown

MOST = 33_554_432
LONGEST_BODY = 8_192
HEAD = b"8=FIX.4.4\x019="
BETWEEN = re.compile(rb"[\r\n]*")
TAIL = re.compile(rb"\x0110=[0-9]{3}\x01")
RECIPE = "tools/session_from_log.py makes a session file of such a log"


class End:
    """How a file ends: `whole`, `cut`, `broken` or `long`, and where, a byte from 0."""

    def __init__(self, kind, place):
        self.kind = kind
        self.place = place


def end_of(path):
    """How the session file at this path ends."""
    with open(path, "rb") as file:
        data = file.read(MOST + 1)
    goes_on = len(data) > MOST
    end = end_of_input(data[:MOST])
    if goes_on and end.kind in ("whole", "cut"):
        return End("long", MOST if end.kind == "whole" else end.place)
    return end


def end_of_input(data):
    """How these bytes end, taken for a whole file."""
    at = 0
    while True:
        at = BETWEEN.match(data, at).end()
        if at == len(data):
            return End("whole", at)
        kind, behind = frame_at(data, at)
        if kind != "frame":
            return End(kind, at)
        at = behind


def frame_at(data, at):
    """What stands at a place, and for a frame the place behind it."""
    head = data[at : at + len(HEAD)]
    if head != HEAD:
        return ("cut" if HEAD.startswith(head) else "broken"), at
    digits = re.compile(rb"[0-9]{0,8}").match(data, at + len(HEAD)).group()
    behind = at + len(HEAD) + len(digits)
    if behind == len(data) and len(digits) <= 7:
        return "cut", at
    if not 1 <= len(digits) <= 7 or data[behind : behind + 1] != b"\x01":
        return "broken", at
    return body_at(data, at, behind + 1, int(digits))


def body_at(data, at, body, length):
    """What stands at a place, with a body of this length behind its head."""
    if length > LONGEST_BODY:
        return "long", at
    end = body + length
    if len(data) < end + 7:
        return "cut", at
    if length == 0 or data[end - 1 : end] != b"\x01" or not TAIL.match(data, end - 1):
        return "broken", at
    return "frame", end + 7


def told(path, end):
    """The lines for standard error about a file that ended so."""
    with open(path, "rb") as file:
        before = file.read(end.place)
        rest = file.read(min(2 * LONGEST_BODY, MOST - end.place))
    line = 1 + before.count(b"\n")
    lines = [f"{path}, byte {counted(end.place)}, line {counted(line)}: {WHAT[end.kind]}"]
    if rest:
        lines.append(f"from there the file has {shown(rest)}")
    return [*lines, cause(end, rest)]


WHAT = {
    "cut": "the file ends within a message",
    "broken": "no message of FIX 4.4 begins here",
    "long": "the message, or the file, is too long",
}


def cause(end, rest):
    """What is likely the cause."""
    if end.kind == "long" and not has_long_body(rest):
        return f"only the first {counted(MOST)} bytes of a file are read: split it at a message"
    for likely in (
        packed,
        separator,
        other_version,
        prefix,
        no_length,
        too_long,
        wrong_length,
        no_last_separator,
        wrong_tail,
        cut_short,
    ):
        found = likely(rest)
        if found:
            return found
    return "a message has to begin here, with `8=FIX.4.4`, SOH (byte 1) and `9=`"


def packed(rest):
    marks = {b"\x1f\x8b": "gzip", b"PK": "zip", b"\xff\xfe": "UTF-16", b"\xfe\xff": "UTF-16"}
    for mark, kind in marks.items():
        if rest.startswith(mark):
            return f"the file is {kind}: unpack it, or write it as plain bytes"
    if rest.startswith(b"\xef\xbb\xbf"):
        return "the file begins with a byte order mark: take its first three bytes away"
    return None


def separator(rest):
    found = re.match(rb"8=FIXT?\.[0-9.]*[0-9]([^\x01]{1,6}?)9=", rest)
    if not found:
        return None
    return f"{shown(found.group(1))} is where SOH (byte 1) has to be: {RECIPE}"


def other_version(rest):
    found = re.match(rb"8=([^\x01\r\n]{1,20})\x01", rest)
    if not found or found.group(1) == b"FIX.4.4":
        return None
    return f"BeginString (8) is {shown(found.group(1))}: the gate reads FIX.4.4"


def prefix(rest):
    line = re.split(rb"[\r\n]", rest, maxsplit=1)[0]
    found = re.search(rb"8=FIXT?\.[0-9]", line)
    if not found or found.start() == 0:
        return None
    before = shown(line[: found.start()])
    return f"{before} comes before the message, as in a log with times: {RECIPE}"


def no_length(rest):
    if not rest.startswith(HEAD) or re.match(rb"[0-9]{1,7}\x01", rest[len(HEAD) :]):
        return None
    text = re.split(rb"\x01", rest[len(HEAD) :], maxsplit=1)[0]
    if b"\x01" not in rest[len(HEAD) :] and re.fullmatch(rb"[0-9]{0,7}", text):
        return None
    return f"BodyLength (9) is {shown(text)}: it has to be 1 to 7 digits"


def head_of(rest):
    """BodyLength and the place of the body, or None where no head stands there."""
    found = re.match(re.escape(HEAD) + rb"([0-9]{1,7})\x01", rest)
    return (int(found.group(1)), found.end()) if found else None


def right_length(rest):
    """The BodyLength that leads to the first CheckSum, or None where none follows before the next
    message."""
    _, body = head_of(rest)
    tail = TAIL.search(rest, body - 1)
    begun = rest.find(b"8=FIX", body)
    if not tail or (0 <= begun < tail.start()):
        return None
    return tail.start() + 1 - body


def has_long_body(rest):
    head = head_of(rest)
    return head is not None and head[0] > LONGEST_BODY


def too_long(rest):
    head = head_of(rest)
    if not has_long_body(rest):
        return None
    right = right_length(rest)
    if right is not None and right <= LONGEST_BODY:
        return f"BodyLength (9) is {head[0]}, and {right} would be right"
    return f"BodyLength (9) is {counted(head[0])}: the gate takes at most {counted(LONGEST_BODY)}"


def wrong_length(rest):
    head = head_of(rest)
    right = right_length(rest) if head else None
    if right is None or right == head[0]:
        return None
    return f"BodyLength (9) is {head[0]}, and {right} would be right"


def no_last_separator(rest):
    """A message of its right length whose CheckSum has no SOH behind it, as in many logs."""
    head = head_of(rest)
    if not head or not re.match(rb"\x0110=[0-9]{3}(?![0-9\x01])", rest[head[1] + head[0] - 1 :]):
        return None
    return f"SOH (byte 1) is missing behind CheckSum (10), at the end of the message: {RECIPE}"


def wrong_tail(rest):
    """A body of its right length with no CheckSum of three digits behind it."""
    head = head_of(rest)
    if not head or len(rest) < head[1] + head[0] + 7:
        return None
    tail = rest[head[1] + head[0] :][:7]
    if tail.startswith(b"10="):
        return f"CheckSum (10) is {shown(tail[3:].split(bytes([1]))[0])}: it has to be three digits"
    return (
        f"no CheckSum (10) comes {head[0]} bytes behind BodyLength (9), "
        "and none follows before the next message"
    )


def cut_short(rest):
    head = head_of(rest)
    if not head:
        in_head = HEAD.startswith(rest) or rest.startswith(HEAD)
        return "the file ends in the head of a message" if in_head else None
    lacks = head[1] + head[0] + 7 - len(rest)
    if lacks <= 0:
        return None
    missing = "1 byte is missing" if lacks == 1 else f"{counted(lacks)} bytes are missing"
    return f"{missing} of the message that begins here"
