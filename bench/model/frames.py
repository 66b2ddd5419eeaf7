"""Frames of FIX 4.4 in bytes, and the fields of a sound one."""
import re
from collections import namedtuple

SOH = b"\x01"
HEAD = b"8=FIX.4.4\x019="
BODY_MOST = 8_192
FIELDS = re.compile(rb"(?:[1-9][0-9]{0,5}=[^\x01]*\x01)+")
TAIL = re.compile(rb"10=([0-9]{3})\x01")

# A frame: where it starts and ends, its body, and its fields as (tag, value); None if not sound.
Frame = namedtuple("Frame", "start end body fields")
# What is no frame, by the word of the totals (whole, cut, broken, long), and its place.
Rest = namedtuple("Rest", "word place")


def checksum(data):
    """The sum of all bytes, modulo 256."""
    return sum(data) % 256


def framed(body):
    """The frame of a body."""
    front = HEAD + str(len(body)).encode() + SOH + body
    return front + b"10=%03d\x01" % checksum(front)


def length_at(data, at):
    """The number of BodyLength (9) and the place behind its SOH; a word where there is none."""
    digits = re.compile(rb"[0-9]*").match(data, at).group()
    behind = at + len(digits)
    if behind == len(data):
        return "cut" if len(digits) <= 7 else "broken"
    if data[behind:behind + 1] != SOH or not 1 <= len(digits) <= 7:
        return "broken"
    return int(digits), behind + 1


def next_frame(data, start):
    """The frame at or after `start`, or what stands there instead. CR and LF are passed over."""
    while data[start:start + 1] in (b"\r", b"\n"):
        start += 1
    if start == len(data):
        return Rest("whole", None)
    head = data[start:start + len(HEAD)]
    if not HEAD.startswith(head):
        return Rest("broken", start)
    if len(head) < len(HEAD):
        return Rest("cut", start)
    found = length_at(data, start + len(HEAD))
    if isinstance(found, str):
        return Rest(found, start)
    length, at = found
    if length > BODY_MOST:
        return Rest("long", start)
    if len(data) - at < length + 7:
        return Rest("cut", start)
    body = data[at:at + length]
    tail = TAIL.fullmatch(data, at + length, at + length + 7)
    if not body.endswith(SOH) or not tail:
        return Rest("broken", start)
    is_summed = int(tail.group(1)) == checksum(data[start:at + length])
    return Frame(start, at + length + 7, body, fields_of(body) if is_summed else None)


def fields_of(body):
    """The fields of a body as (tag, value); None where it has none, or 35 isn't the first."""
    if not FIELDS.fullmatch(body):
        return None
    parts = (part.split(b"=", 1) for part in body[:-1].split(SOH))
    fields = [(int(tag), value) for tag, value in parts]
    return fields if fields[0][0] == 35 and fields[0][1] else None
