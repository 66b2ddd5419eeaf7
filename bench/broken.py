"""Inputs with something wrong or at a limit: each change is one of a frame, or of a field of it.

A change takes the dice and a session's frames, changes one of them in place, and is told by its
name. Changes of a frame leave it as it is otherwise; those of a field make it a frame again, with
its length and its checksum.
"""
from model.frames import SOH, Frame, framed, next_frame

HEAD = b"8=FIX.4.4\x019="
IDS = (b"a", b"a" * 64, b"a" * 65, b"\x1f", b"\x20", b"\x7e", b"\x7f", b"a\x80", b"a1")
DECIMALS = (b"", b".", b"-", b"-1", b"-0", b"1e3", b" 1", b"1,000", b"..1", b"1.2.3",
            b"0" * 31 + b"1", b"0" * 32 + b"1", b"1." + b"0" * 30, b"1." + b"0" * 31)
QUANTITIES = DECIMALS + (b"0", b"0.0", b"1", b"1.", b"1.0", b".5", b"1.5", b"500", b"501", b"0001",
                         b"1000000000", b"1000000001", b"1000000000.0")
PRICES = DECIMALS + (b"0", b"0.00001", b"0.0001", b"0.00010", b"0.00011", b".5", b"5.", b"010.50",
                     b"0.9999", b"1", b"12", b"12.0000", b"12.0001", b"999999.9999",
                     b"999999.99990", b"999999.99991", b"1000000", b"1000000.0")
# By tag, values on both sides of each limit.
VALUES = {
    34: (b"", b"0", b"1", b"+1", b"1.0", b"999999999", b"1000000000", b"0" * 31 + b"1",
         b"0" * 32 + b"1"),
    35: (b"", b"0", b"5", b"6", b"A", b"B", b"D", b"DD", b"d", b"F", b"G", b"8", b"9", b"j", b"AE"),
    38: QUANTITIES, 32: QUANTITIES, 44: PRICES, 31: PRICES,
    54: (b"", b"0", b"1", b"2", b"3", b"5", b"6", b"7", b"11", b"1 "),
    40: (b"", b"0", b"1", b"2", b"3", b"P", b"22"),
    150: (b"", b"FF", b"f") + tuple(letter.encode() for letter in "0123456789ABCDEFGHI"),
    **{tag: (b"",) + IDS for tag in (49, 56, 52, 11, 41, 1, 55)},
}
# Cells of a limit file, by column.
NUMBERS = ("", "0", "1", "16", "64", "65", "200000", "200001", "1000000", "1000001", "1000000000",
           "1000000001", "999999999999", "1000000000000", "000000000001", "0000000000001", "-1",
           "+1", "1.0", " 1", "1e3")
NAMES = ("", "A", "ACC", "XYZ", " ", "a" * 64, "a" * 65, "\x1f", "\x7f", "\u00e9", "size")
KINDS = ("firm", "account", "symbol", "trip", "quota", "repeat", "off", "version", "", "Firm",
         "firm ", "size")
MODES = ("", "net", "gross", "both", "Net", "net ", "\u00e9")
VERSIONS = ("version,2,,,,,", "version,2,,,,", "version,1,,,,,", "version,3,,,,,", "version,02,,,,,",
            'version,"2",,,,,', "version,2,,,,,net", "Version,2,,,,,", "version,2 ,,,,,")
BOUNDS = tuple(price.decode() for price in PRICES if b"," not in price)
CELLS = (KINDS, NAMES, NUMBERS, BOUNDS, BOUNDS, NUMBERS, MODES)
LENGTHS = (b"", b"0", b"x", b"-1", b" 5", b"8192", b"8193", b"9999999", b"10000000", b"00000000")


def split(data):
    """The frames of an input, each with what is passed over before it, and what stands behind."""
    frames, at = [], 0
    found = next_frame(data, at)
    while isinstance(found, Frame):
        frames.append(data[at:found.end])
        at = found.end
        found = next_frame(data, at)
    return frames + ([data[at:]] if at < len(data) else [])


def parts(frame):
    """What stands before BodyLength's digits, the digits, the body and CheckSum; None where the
    frame has been broken before."""
    front, _, rest = frame.partition(HEAD)
    digits, _, rest = rest.partition(SOH)
    if not digits.isdigit() or len(rest) < 8:
        return None
    return front + HEAD, digits, rest[:-7], rest[-7:]


def wrong_length(dice, frames, at):
    """BodyLength is off by a little, at a limit, with zeros, or no number."""
    found = parts(frames[at])
    if found:
        front, digits, body, tail = found
        near = [str(max(0, int(digits) + by)).encode() for by in (-2, -1, 1, 2, 7)]
        zeros = [digits.zfill(count) for count in (4, 7, 8)]
        frames[at] = front + dice.choice([*near, *zeros, *LENGTHS]) + SOH + body + tail


def wrong_checksum(dice, frames, at):
    """CheckSum is one too high, or isn't three digits."""
    found = parts(frames[at])
    if found:
        front, digits, body, tail = found
        one_more = b"%03d" % ((int(tail[3:6]) + 1) % 256) if tail[3:6].isdigit() else b"000"
        other = dice.choice((one_more, b"256", b"999", tail[3:5], tail[3:6] + b"0", b"1a3", b"   "))
        frames[at] = front + digits + SOH + body + b"10=" + other + SOH


def cut(dice, frames, at):
    """A frame without its last bytes, its first or some between; often the input ends there."""
    frame = frames[at]
    low, high = sorted(dice.randint(0, len(frame)) for _ in range(2))
    choice = dice.randrange(4)
    if choice == 0:
        frames[at] = frame[:low] + frame[high:]
    elif choice == 1:
        frames[at] = frame[low:]
    else:
        frames[at] = frame[:high]
        if choice == 2:
            del frames[at + 1:]


def doubled(dice, frames, at):
    """A frame that stands twice, or whose front or end does."""
    frame = frames[at]
    place = dice.randint(0, len(frame))
    frames[at] = dice.choice((frame + frame, frame[:place] + frame, frame + frame[place:]))


def between(dice, frames, at):
    """Bytes before a frame: some, also more than a buffer holds, are passed over; others aren't."""
    many = b"\n" * dice.choice((16_383, 16_384, 40_000))
    some = (b"\n", b"\r\n", b"\r\r\n\n", many, b" ", b"\x00", b"\xff", SOH,
            b"8=FIX.4.2\x019=5\x01", b"8")
    frames[at] = dice.choice(some) + frames[at]


def one_byte(dice, frames, at):
    """A byte of a frame is another, is gone or is new, and nothing else is mended."""
    frame = frames[at]
    place = dice.randrange(len(frame) or 1)
    byte = dice.choice((b"\x00", b"\xff", SOH, b"=", b"0", b"9", b"\n", b""))
    frames[at] = frame[:place] + byte + frame[place + dice.randrange(2):]


def swapped(dice, frames, at):
    """Two frames stand in the other order."""
    other = dice.randrange(len(frames))
    frames[at], frames[other] = frames[other], frames[at]


def of_fields(change):
    """A change of a frame's fields, each as bytes without SOH, as one of a frame."""
    def changed(dice, frames, at):
        found = parts(frames[at])
        if found:
            before = frames[at].partition(HEAD)[0]
            fields = found[2].split(SOH)[:-1]
            if fields:
                frames[at] = before + framed(change(dice, fields))
    changed.__name__, changed.__doc__ = change.__name__, change.__doc__
    return changed


def body_of(fields):
    """The bytes of fields."""
    return b"".join(field + SOH for field in fields)


def tag_of(field):
    """The number of a field's tag; None where it has none."""
    tag = field.partition(b"=")[0]
    return int(tag) if tag.isdigit() else None


def with_value(frame, tag, value):
    """The frame with another value of its first field of this tag."""
    fields = parts(frame)[2].split(SOH)[:-1]
    at = next(at for at, field in enumerate(fields) if tag_of(field) == tag)
    fields[at] = b"%d=%s" % (tag, value)
    return framed(body_of(fields))


@of_fields
def odd_tag(dice, fields):
    """A tag with zeros before it, too long, empty or no number; or a field without `=`."""
    at = dice.randrange(len(fields))
    tag, _, value = fields[at].partition(b"=")
    other = dice.choice((b"0" + tag, b"00" + tag, b"0", b"", b"+" + tag, tag + b" ", b"x",
                         b"999999", b"1000000", tag + b"\x00"))
    fields[at] = dice.choice((other + b"=" + value, other + b"=" + value, tag + value, tag + b"=="))
    return body_of(fields)


@of_fields
def odd_byte(dice, fields):
    """A value with a byte that few values may have."""
    at = dice.randrange(len(fields))
    tag, _, value = fields[at].partition(b"=")
    place = dice.randint(0, len(value))
    byte = bytes([dice.choice((0, 10, 13, 31, 32, 61, 126, 127, 128, 255))])
    fields[at] = tag + b"=" + value[:place] + byte + value[place + dice.randrange(2):]
    return body_of(fields)


@of_fields
def limit_value(dice, fields):
    """A field at a limit or one above; also one that isn't there, or stands there already."""
    places = [at for at, field in enumerate(fields) if tag_of(field) in VALUES]
    if places and dice.random() < 0.9:
        at = dice.choice(places)
        tag = tag_of(fields[at])
        fields[at] = b"%d=%s" % (tag, dice.choice(VALUES[tag]))
    else:
        tag = dice.choice(sorted(VALUES))
        value = b"%d=%s" % (tag, dice.choice(VALUES[tag]))
        fields.insert(dice.randint(1, len(fields)), value)
    return body_of(fields)


@of_fields
def moved_field(dice, fields):
    """A field that is gone, stands twice, or stands elsewhere; MsgType (35) too."""
    at = dice.randrange(len(fields))
    choice = dice.randrange(3)
    if choice == 0 or choice == 2:
        field = fields.pop(at)
    else:
        field = fields[at]
    if choice:
        fields.insert(dice.randint(0, len(fields)), field)
    return body_of(fields)


@of_fields
def odd_body(dice, fields):
    """A body that is empty, has no last SOH, has two, or is of a length at the limit."""
    body = body_of(fields)
    choice = dice.randrange(4)
    if choice == 3:
        room = dice.choice((8_191, 8_192, 8_193)) - len(body) - 4
        return body + b"58=" + b"x" * max(1, room) + SOH
    return (b"", body[:-1], body + SOH)[choice]


CHANGES = (wrong_length, wrong_checksum, cut, doubled, between, one_byte, swapped, odd_tag,
           odd_byte, limit_value, limit_value, limit_value, moved_field, odd_body)


def change(dice, data):
    """An input with one change more, and the name of the change."""
    frames = split(data) or [b""]
    made = dice.choice(CHANGES)
    made(dice, frames, dice.randrange(len(frames)))
    return b"".join(frames), made.__name__


def change_limits(dice, text):
    """A limit file with a row or a cell changed; now and then with more rows than there may be, or
    with a row that tells a version."""
    rows = text.split("\n")[:-1]
    at, choice = dice.randrange(len(rows)), dice.randrange(11)
    if choice < 6:
        cells = rows[at].split(",")
        column = dice.randrange(len(cells))
        cells[column] = dice.choice(CELLS[min(column, 6)])
        rows[at] = ",".join(cells)
    elif choice == 6:
        rows[at] = dice.choice((rows[at] + ",", rows[at][:-1], ""))
    elif choice == 7:
        del rows[at]
    elif choice == 8:
        rows.insert(dice.randint(0, len(rows)), rows[at])
    elif choice == 9:
        rows.insert(dice.choice((0, 0, at)), dice.choice(VERSIONS))
    else:
        kind, most, rest = dice.choice((("off", 16, "1,,,"), ("account", 100, "1,,,"),
                                        ("symbol", 400, "1,1,2,3")))
        rest += "," * rows[0].startswith("version,")
        rows += [f"{kind},N{number},{rest}" for number in range(most - dice.randrange(3))]
    return "".join(row + "\n" for row in rows)
