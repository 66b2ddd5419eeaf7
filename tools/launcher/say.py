"""Lines for the person who called, on standard error."""
import os
import sys

UNWRITTEN = 6


def say(text):
    """Writes one line, marked as the launcher's."""
    write(f"gate: {text}")


def write(text):
    """Writes a line, where standard error is there to be written."""
    try:
        if sys.stderr is not None:
            print(text, file=sys.stderr, flush=True)
    except OSError:
        pass  # There is no one to tell.


def put(text, status):
    """Writes a line to standard output; the status, or 6 where it couldn't be written."""
    if sys.stdout is None:
        say("standard output couldn't be written: it is closed")
        return UNWRITTEN
    try:
        print(text, flush=True)
        return status
    except OSError as error:
        say(f"standard output couldn't be written: {error.strerror.lower()}")
        # What is left in its buffer would fail once more as this call ends.
        os.dup2(os.open(os.devnull, os.O_WRONLY), sys.stdout.fileno())
        return UNWRITTEN


def shown(data, most=60):
    """Bytes as text for one line: what can't be printed as \\x.., cut behind `most` bytes."""
    text = "".join(chr(b) if 32 <= b < 127 and b != 92 else f"\\x{b:02x}" for b in data[:most])
    return f"`{text}`" + (" .." if len(data) > most else "")


def counted(number):
    """A number with commas: 33,554,432."""
    return f"{number:,}"


def name(path):
    """A path for one line, also where it isn't UTF-8."""
    return os.fsencode(path).decode("utf-8", "backslashreplace")


def listed(words):
    """Words as a list in a sentence: a, b and c."""
    *front, last = words
    return f"{', '.join(front)} and {last}" if front else last
