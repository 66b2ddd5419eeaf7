"""A check of a journal: the program's text, handed on, and where its status and its fault come
from."""
import re
import subprocess

from launcher.files import why_not_read
from launcher.processes import hand_on
from launcher.reasons import killed, of_limits
from launcher.say import name, put, say, shown

FAULT = re.compile(r"check fault ([1-7]) row ([0-9]+)\n")

# Of each kind of fault what is wrong with its row, and with the journal where it has none.
IN_ROW = {
    1: "no journal goes on with this row",
    3: "the session ended by a failed read or write, or for want of memory: such a run can't be "
       "checked",
    4: "the limit file has no such tree",
    5: "by its file and by what it read the session did something else here",
    6: "it isn't the next post of its session in this tree, with that post's value",
    7: "this read isn't what the tree's history has at its place",
}
IN_NONE = {
    1: "it has more bytes than the 1,073,741,824 that are read",
    2: "it has another number of sessions than the {sessions} that were given",
    6: "a post has no line",
}
NO_FAULT = "the text tells no fault"


def check_journal(program, words, asked):
    """Has the program check a journal, hands its text on, and says why where its status isn't 0.
    The status, 6 where the text couldn't be handed on."""
    status, text = told_by([program, *words])
    if text:
        status = put(text.removesuffix("\n"), status)
    for line in why(asked, status, text) if status else ():
        say(line)
    return status if status >= 0 else 128 - status


def told_by(command):
    """The status and the text of a command, which gets this call's input, and what would end this
    call."""
    started = subprocess.Popen(command, stdout=subprocess.PIPE)
    hand_on(started)
    text = b""
    while True:
        try:
            text += started.stdout.read()
            return started.wait(), text.decode("utf-8", "replace")
        except KeyboardInterrupt:
            continue  # The program got it too, and ends by it.


def why(asked, status, text):
    """The lines for standard error about a check that ended with this status and told this text."""
    if status < 0:
        return [killed(-status)]
    if status == 3:
        return of_limits(asked, None)
    if status == 5:
        return unread(asked)
    if status == 6:
        return []  # Standard output, of which `put` tells.
    if status == 7:
        return fault_of(asked, text)
    if status == 8:
        return ["out of memory: give it more. What the journal is worth isn't known"]
    return [f"the program ended with {status}, which is no status of a check"]


def unread(asked):
    """The files that can't be read."""
    found = [(path, why_not_read(path)) for path in asked.inputs()]
    lines = [f"{name(path)} can't be read: {why}" for path, why in found if why]
    names = ", ".join(map(name, asked.inputs()))
    return lines or [f"a read failed, of {names}; each can be read now"]


def fault_of(asked, text):
    """The row of a fault, and what is wrong with it."""
    found = FAULT.fullmatch(text)
    if not found:
        return [f"{name(asked.journal)}: {NO_FAULT}"]
    kind, row = map(int, found.groups())
    meaning = (IN_ROW if row else IN_NONE).get(kind, NO_FAULT).format(sessions=len(asked.sessions))
    if not row:
        return [f"{name(asked.journal)}: fault {kind}: {meaning}"]
    return [
        f"{name(asked.journal)}, row {row}: {row_of(asked.journal, row)}",
        f"fault {kind}: {meaning}",
    ]


def row_of(path, number):
    """A row of a journal, from 1 with its header, as it can be shown."""
    try:
        with open(path, "rb") as file:
            for place, line in enumerate(file, 1):
                if place == number:
                    return shown(line.removesuffix(b"\n"))
    except OSError as error:
        return f"it can't be read again: {error.strerror}"
    return "nothing stands there"
