"""What the journal's codes say of a request, of a report and of a session's end."""

from report.frames import BROKEN, CUT, End, MEMORY, READ_FAULT, TOO_LONG, WHOLE, WRITE_FAULT
from report.messages import CANCEL, NEW, REPLACE

FIRM, ACCOUNT, SYMBOL, HALT, QUOTA, CAP, DUPLICATE, NO_ACCOUNT, NO_SYMBOL, SCREEN = range(1, 11)
UNKNOWN, CLOSED, PENDING, MISMATCH, QUANTITY, FIELD = range(11, 17)

# The word that the gate's answer has in Text (58), and what it says.
REFUSALS = {
    FIRM: ("FIRM", "the firm's limit would be exceeded"),
    ACCOUNT: ("ACCOUNT", "the account's limit would be exceeded"),
    SYMBOL: ("SYMBOL", "the symbol's limit would be exceeded"),
    HALT: ("HALT", "a session has halted the firm"),
    QUOTA: ("QUOTA", "the session's posts are used up; beyond 32 sessions at 100,000 in a tree"),
    CAP: ("CAP", "the value is too large to be posted"),
    DUPLICATE: ("DUPLICATE", "the ClOrdID was used before"),
    NO_ACCOUNT: ("UNKNOWN ACCOUNT", "the limit file has no such account"),
    NO_SYMBOL: ("UNKNOWN SYMBOL", "the limit file has no such symbol"),
    SCREEN: ("SCREEN", "a screen refused it"),
    UNKNOWN: ("UNKNOWN", "there is no such order"),
    CLOSED: ("CLOSED", "the order is closed"),
    PENDING: ("PENDING", "a request is pending on the order"),
    MISMATCH: ("MISMATCH", "account, symbol or side isn't the order's"),
    QUANTITY: ("QUANTITY", "the quantity is at most what is filled"),
    FIELD: ("FIELD", "a field is wrong"),
}
SCREENS = {1: "the quantity is above the symbol's size", 2: "the price is outside the collar",
           3: "the order repeats one of the last"}
REASONS = {1: "required tag missing", 4: "tag without a value", 5: "value out of range",
           6: "incorrect format", 13: "tag appears more than once"}

NOT_SOUND, OTHER_TYPE, NO_ORDER, BEYOND, REPORT_FIELD, NO_POST_LEFT = range(1, 7)
NOTES = {
    NO_ORDER: "of no order",
    BEYOND: "a trade beyond the reserve",
    NO_POST_LEFT: "a lower value that no post was left for",
}
TREES_REFUSE = frozenset({FIRM, ACCOUNT, SYMBOL, HALT})
BEFORE_TREES = frozenset({QUOTA, CAP, DUPLICATE, SCREEN, FIELD})
CODES = {
    NEW: TREES_REFUSE | BEFORE_TREES | {NO_ACCOUNT, NO_SYMBOL},
    CANCEL: frozenset({DUPLICATE, UNKNOWN, CLOSED, PENDING, FIELD}),
    REPLACE: TREES_REFUSE | BEFORE_TREES | {UNKNOWN, CLOSED, PENDING, MISMATCH, QUANTITY},
}
REPORT_NOTES = frozenset({NO_ORDER, BEYOND, REPORT_FIELD, NO_POST_LEFT})

ENDS = {
    WHOLE: "took its whole file",
    CUT: "a frame is cut",
    BROKEN: "no frame stands there",
    TOO_LONG: "a frame, or the file, is too long",
    READ_FAULT: "a read failed",
    WRITE_FAULT: "a write failed",
    MEMORY: "memory was wanting",
}
STOPPED = frozenset({READ_FAULT, WRITE_FAULT, MEMORY})


def refusal_word(code: int, first: int) -> str:
    """The text of the gate's answer (58): `FIRM`, `SCREEN 3`."""
    word = REFUSALS[code][0]
    return f"{word} {first}" if code == SCREEN else word


def field_fault(tag: int, reason: int) -> str:
    """A field fault in words: its tag and SessionRejectReason (373)."""
    return f"field {tag} ({REASONS.get(reason) or f'reason {reason}'})"


def refusal_text(code: int, first: int, second: int) -> str:
    """What became of a refused request: `refused: FIRM`."""
    word = field_fault(first, second) if code == FIELD else refusal_word(code, first)
    return f"refused: {word}"


def refusal_cause(code: int, first: int) -> str:
    """Why, in a sentence without its full stop."""
    return SCREENS.get(first, REFUSALS[code][1]) if code == SCREEN else REFUSALS[code][1]


def note_text(code: int, first: int, second: int) -> str:
    """What became of a report that was noted."""
    if code == REPORT_FIELD:
        return f"rejected to the venue: {field_fault(first, second)}"
    return f"passed on and noted: {NOTES[code]}"


def end_text(end: End) -> str:
    """How a session ended, with the place in its file."""
    text = ENDS[end.number]
    return text if end.place is None else f"{text}, at byte {end.place:,}"
