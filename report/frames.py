"""Frames of FIX 4.4 in a file: BeginString (8), BodyLength (9), a body and CheckSum (10).

Read as the gate reads them: CR and LF between frames are passed over, and the first rest of the
file that is no frame ends it.
"""

import re
from typing import NamedTuple

BEGIN = b"8=FIX.4.4\x019="
HEAD = re.compile(rb"[\r\n]*(8)=FIX\.4\.4\x019=([0-9]{1,7})\x01")
TRAILER = re.compile(rb"10=([0-9]{3})\x01")
TRAILER_CUT = re.compile(rb"(?:1(?:0(?:=[0-9]{0,3})?)?)?")
LENGTH_CUT = re.compile(rb"[0-9]{0,7}")
LINE_ENDS = re.compile(rb"[\r\n]*")
FIELDS = re.compile(rb"35=[^\x01]+\x01(?:[1-9][0-9]{0,5}=[^\x01]*\x01)*")
BODY_MOST = 8192
INPUT_MOST = 33_554_432

WHOLE, CUT, BROKEN, TOO_LONG, READ_FAULT, WRITE_FAULT, MEMORY = range(7)


class End(NamedTuple):
    """How a file, or a session, ended: the number of the end, and the place of a rest that is no
    frame, in bytes from 0."""

    number: int
    place: int | None


def read_frames(data: bytes, most: int = INPUT_MOST) -> tuple[list[bytes | None], End]:
    """The body of each frame in order, and how the file ends. A frame that isn't sound has None:
    its checksum is wrong, or its body isn't fields, MsgType (35) first with a value."""
    text, place, bodies = data[:most], 0, []
    while True:
        head = HEAD.match(text, place)
        if head is None:
            break
        body_from = head.end()
        body_to = body_from + int(head[2])
        trailer = TRAILER.match(text, body_to)
        if trailer is None or not is_body_length(body_to - body_from) or text[body_to - 1] != 1:
            break
        sound = sum(text[head.start(1):body_to]) & 255 == int(trailer[1]) and FIELDS.fullmatch(
            text, body_from, body_to)
        bodies.append(sound[0] if sound else None)
        place = trailer.end()
    return bodies, end_of(text, LINE_ENDS.match(text, place).end(), len(data) > most)


def is_body_length(length: int) -> bool:
    """Whether a body may have so many bytes."""
    return 1 <= length <= BODY_MOST


def end_of(text: bytes, place: int, is_longer: bool) -> End:
    """How the file ends where no frame stands at the place; `is_longer`: bytes behind the text
    were left out."""
    if place == len(text):
        return End(TOO_LONG, place) if is_longer else End(WHOLE, None)
    number = no_frame(text[place:place + BODY_MOST + 64])
    return End(TOO_LONG if is_longer and number == CUT else number, place)


def no_frame(rest: bytes) -> int:
    """Why the rest begins with no frame: it is cut, broken, or its body is too long."""
    if not rest.startswith(BEGIN):
        return CUT if BEGIN.startswith(rest) else BROKEN
    head = HEAD.match(rest)
    if head is None:
        return CUT if LENGTH_CUT.fullmatch(rest, len(BEGIN)) else BROKEN
    length = int(head[2])
    if length > BODY_MOST:
        return TOO_LONG
    body, trailer = rest[head.end():head.end() + length], rest[head.end() + length:]
    if len(body) < length:
        return CUT
    if not body.endswith(b"\x01"):
        return BROKEN
    return CUT if TRAILER_CUT.fullmatch(trailer) else BROKEN
