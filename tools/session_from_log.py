#!/usr/bin/env python3
"""Makes a session file of a log: takes each message out of its line, and puts SOH between its
fields.

usage: session_from_log.py LOG SESSION

LOG is text with any number of messages on a line: with `|`, `^A`, `;` or SOH between fields, and
with anything before a message on its line, as a time. SESSION is written anew, a message a line.
The status is 0 where each message's BodyLength and CheckSum fit, 1 where one's don't (it is
written all the same, and the gate says what it makes of it) or there is no message, and 2 where
LOG can't be read or SESSION can't be written.
"""
import os
import sys

sys.dont_write_bytecode = True
sys.path.insert(0, os.path.dirname(os.path.realpath(__file__)))

from fix_log import messages  # noqa: E402


def main(words):
    if len(words) != 2:
        return usage(__doc__, words)
    log, session = words
    try:
        if os.path.exists(session) and os.path.samefile(log, session):
            print(f"{log} and {session} are the same file", file=sys.stderr)
            return 2
        with open(log, "rb") as file:
            found, without = messages(file.read())
        with open(session, "wb") as file:
            file.writelines(message.text + b"\n" for message in found)
    except OSError as error:
        print(f"{error.filename}: {error.strerror}", file=sys.stderr)
        return 2
    return tell(log, found, without)


def usage(text, words):
    """Tells how the tool is called: on standard output where that was asked for, with 0."""
    asked = words in (["--help"], ["-h"])
    print(text, file=sys.stdout if asked else sys.stderr, end="")
    return 0 if asked else 2


def tell(log, found, without):
    """Says what was found, and which messages aren't sound."""
    lines = f", {len(without)} lines without one: {shortened(without)}" if without else ""
    print(f"{log}: {len(found)} messages{lines}", file=sys.stderr)
    faults = [(message.line, message.fault()) for message in found if message.fault()]
    for line, fault in faults:
        print(f"{log}, line {line}: {fault}", file=sys.stderr)
    return 1 if faults or not found else 0


def shortened(numbers, most=8):
    return ", ".join(map(str, numbers[:most])) + (" .." if len(numbers) > most else "")


if __name__ == "__main__":
    sys.exit(main(sys.argv[1:]))
