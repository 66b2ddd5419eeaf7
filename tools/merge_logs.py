#!/usr/bin/env python3
"""Puts a client's log and a venue's together, in order of time, into one session file.

usage: merge_logs.py CLIENT VENUE SESSION

The logs are as session_from_log.py reads them; session files are such logs. Messages are put in
order by SendingTime (52). Each log keeps its own order, and of two messages with one time the
client's comes first: a report of an order can't come before the order. A message without a time,
or with one before that of the message above it in its log, counts at that one's time, which is
said. The status is as of session_from_log.py.
"""
import heapq
import os
import re
import sys

sys.dont_write_bytecode = True
sys.path.insert(0, os.path.dirname(os.path.realpath(__file__)))

from fix_log import messages  # noqa: E402
from session_from_log import tell, usage  # noqa: E402

TIME = re.compile(rb"([0-9]{8}-[0-9]{2}:[0-9]{2}:[0-9]{2})(?:\.([0-9]{1,9}))?")


def main(words):
    if len(words) != 3:
        return usage(__doc__, words)
    *logs, session = words
    try:
        if os.path.exists(session) and any(os.path.samefile(log, session) for log in logs):
            print(f"{session} is one of the logs", file=sys.stderr)
            return 2
        read = []
        for log in logs:
            with open(log, "rb") as file:
                read.append(messages(file.read()))
        timed = [with_times(log, found) for log, (found, _) in zip(logs, read)]
        with open(session, "wb") as file:
            file.writelines(
                message.text + b"\n" for _, message in heapq.merge(*timed, key=lambda pair: pair[0])
            )
    except OSError as error:
        print(f"{error.filename}: {error.strerror}", file=sys.stderr)
        return 2
    return max(tell(log, found, without) for log, (found, without) in zip(logs, read))


def with_times(log, found):
    """The messages of one log, each with the time at which it counts."""
    now = b""
    timed = []
    for message in found:
        time = time_of(message)
        if time is None or time < now:
            what = "has no SendingTime (52)" if time is None else "goes back in time"
            print(
                f"{log}, line {message.line}: the message {what}, and stays behind the one before",
                file=sys.stderr,
            )
        else:
            now = time
        timed.append((now, message))
    return timed


def time_of(message):
    """SendingTime with nine decimals, so that times compare as texts. None where there is none."""
    found = TIME.fullmatch(message.value(b"52") or b"")
    return found.group(1) + b"." + (found.group(2) or b"").ljust(9, b"0") if found else None


if __name__ == "__main__":
    sys.exit(main(sys.argv[1:]))
