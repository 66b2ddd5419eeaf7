"""Why a run or a filter ended with a status other than 0: read from the files themselves,
afterwards."""
import os
import re
import signal
import stat

from launcher import limit_file, session_file
from launcher.files import is_full, why_not_read, why_not_written
from launcher.outputs import was_written
from launcher.say import name

# The row of a session's end in the journal, and the ends that aren't that of a whole file.
ENDED = re.compile(r"ended,([0-9]+),([1-6]),([0-9]*),,\n")
ENDS = {"1": "cut", "2": "broken", "3": "long", "4": "read", "5": "write", "6": "memory"}

# How many outputs that can't be written are named.
MOST_NAMED = 3


def reasons(run, status, before):
    """The lines for standard error about a run that ended with this status. `before` are the marks
    of OUT at its beginning."""
    try:
        return reasons_of(run, status, before)
    except OSError as error:
        return [f"the cause can't be found any more: {error}"]


def reasons_of(run, status, before):
    """The same, where the files can still be read."""
    if status < 0:
        return [killed(-status)]
    told = {3: of_limits, 4: of_sessions, 5: of_reads, 6: of_writes, 8: of_memory}
    if status not in told:
        return [f"the program ended with {status}, which is no status of a run"]
    return told[status](run, before)


def killed(number):
    """A program that a signal ended."""
    known = signal.Signals(number).name if number in list(signal.Signals) else f"signal {number}"
    more = ": maybe the machine ran out of memory" if number == signal.SIGKILL else ""
    return f"the program was ended by {known}{more}"


def of_limits(run, _):
    try:
        with open(run.limits, "rb") as file:
            fault = limit_file.first_fault(file.read(limit_file.LONGEST + 1))
    except OSError as error:
        return [f"{name(run.limits)} can't be read again: {error.strerror}"]
    if fault is None:
        return [f"{name(run.limits)} has no fault now: it was changed meanwhile"]
    return fault.told(name(run.limits))


def of_sessions(run, before):
    """For each session that ended before its file did: where and why."""
    lines = []
    for session, end in ends(run, before):
        lines += of_session(run, session, end)
    return lines or ["no session file ends early now: one was changed meanwhile"]


def of_session(run, session, end):
    kind, place = end
    path = run.sessions[session]
    if kind == "read":
        return [
            f"{name(path)}: session {session} ended, since a read failed"
            + because(why_not_read(path))
        ]
    if kind == "write":
        streams = run.streams(session)
        return [
            f"session {session} ended, since a write failed, "
            f"of {name(streams[0])} or {name(streams[1])}"
            + because(next((why for why in map(why_not_written, streams) if why), room(run.out)))
        ]
    if kind == "memory":
        return [f"{name(path)}: session {session} ended, since memory was refused"]
    if not is_plain(path):
        return [
            f"{name(path)}, byte {place:,}: {session_file.WHAT[kind]}. "
            "It is no plain file, and can't be read again"
        ]
    return session_file.told(path, session_file.End(kind, place))


def because(why):
    return f": {why}" if why else ""


def room(out):
    return "no room is left on the disk" if is_full(out) else None


def is_plain(path):
    try:
        return stat.S_ISREG(os.stat(path).st_mode)
    except OSError:
        return False


def ends(run, before):
    """Each session whose end isn't that of its whole file, with that end: from the journal of this
    run, or from the session files where it wrote none."""
    if was_written(run, before):
        found = list(journal_ends(run))
        if found:
            return found
    return list(file_ends(run))


def journal_ends(run):
    """The ends that the journal tells."""
    with open(run.journal(), encoding="ascii", errors="replace") as journal:
        for line in journal:
            row = ENDED.fullmatch(line)
            if row and int(row.group(1)) < len(run.sessions):
                yield int(row.group(1)), (ENDS[row.group(2)], int(row.group(3) or 0))


def file_ends(run):
    """The ends that the session files have by themselves."""
    for session, path in enumerate(run.inputs()[1:]):
        if is_plain(path) and not why_not_read(path):
            end = session_file.end_of(path)
            if end.kind != "whole":
                yield session, (end.kind, end.place)


def of_reads(run, before):
    """The files that can't be read, or the sessions that ended so."""
    unread = [(path, why_not_read(path)) for path in run.inputs()]
    lines = [f"{name(path)} can't be read: {why}" for path, why in unread if why]
    for session, end in ends(run, before) if not lines else ():
        lines += of_session(run, session, end)
    names = ", ".join(name(path) for path in run.inputs())
    return lines or [f"a read failed, of {names}; each can be read now"]


def of_writes(run, before):
    """The files that can't be written, or the sessions that ended so, or else the journal, or else
    standard output, which comes last."""
    unwritten = [(path, why) for path in run.outputs() if (why := why_not_written(path))]
    lines = [f"{name(path)} can't be written: {why}" for path, why in unwritten[:MOST_NAMED]]
    if len(unwritten) > MOST_NAMED:
        lines.append(f"nor can {len(unwritten) - MOST_NAMED} more outputs")
    if was_written(run, before):
        lines += [
            line for session, end in ends(run, before) for line in of_session(run, session, end)
        ]
    if lines:
        return lines
    if not was_written(run, before):
        which = f"{name(run.journal())}, or an output of a session, couldn't be written"
        return [which + because(room(run.out))]
    if not is_whole(run):
        return [f"{name(run.journal())} couldn't be written whole" + because(room(run.out))]
    return ["standard output couldn't be written: it is closed or full"]


def is_whole(run):
    """Whether each session has ended in the journal."""
    with open(run.journal(), encoding="ascii", errors="replace") as journal:
        ended = {line.split(",")[1] for line in journal if line.startswith("ended,")}
    return ended == {str(session) for session in range(len(run.sessions))}


def of_memory(run, _):
    return [
        "out of memory: give it more, or run fewer or shorter sessions at once. "
        "What OUT holds now is of no use"
    ]
