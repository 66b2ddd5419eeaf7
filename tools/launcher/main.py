"""One call of the launcher, from its words to its status."""
import os
import subprocess
import sys

from launcher.building import is_due, program_of
from launcher.files import drop_empty, make_folder, why_not_read
from launcher.journal_check import check_journal
from launcher.outputs import left_over, marks
from launcher.processes import hand_on
from launcher.reasons import reasons
from launcher.say import name, put, say
from launcher.usage import HELP, USAGE, version
from launcher.words import SESSIONS, Check, read_run

DONE, NO_PROGRAM, MALFORMED, UNREAD = 0, 1, 2, 5


def main(top, words):
    """Does what the words ask for; the status of the call."""
    try:
        if {"--help", "-h"}.intersection(words[:2]):
            return put(HELP.format(top=top, sessions=SESSIONS), DONE)
        if words and words[0] == "--version":
            return put(version(top), DONE)
        if words and words[0] == "report":
            return report(top, words[1:])
        return run(top, words)
    except KeyboardInterrupt:
        return 130


def run(top, words):
    """A run, a load, a filter or a check, or what is wrong with the words."""
    asked, fault = read_run(words)
    if fault:
        say(f"{fault}. Nothing was read or written; `gate --help` tells more")
        return put(USAGE, MALFORMED)
    if is_due(top):
        unread = next(((path, why) for path in asked.inputs() if (why := why_not_read(path))), None)
        if unread:
            say(f"{name(unread[0])} can't be read: {unread[1]}. Nothing was built or written")
            return put("read fault", UNREAD)
    program = program_of(top)
    if not program:
        return NO_PROGRAM
    try:
        call = check_journal if isinstance(asked, Check) else run_program
        return call(program, words, asked)
    except OSError as error:
        say(f"{program} can't be started: {(error.strerror or str(error)).lower()}")
        return NO_PROGRAM


def report(top, words):
    """A report on a run, made by the script beside the program. It needs no program."""
    script = os.path.join(top, "report")
    if not os.path.isdir(script):
        say(f"there is no report in {top}")
        return NO_PROGRAM
    return subprocess.call([sys.executable, "-B", script, *words])


def run_program(program, words, asked):
    """Runs the program, and says why where its status isn't 0, and what lies in OUT of an earlier
    run. Where OUT can't be made the program says that it can't write there, and `reasons` why."""
    made = make_folder(asked.out)
    before = marks(asked)
    try:
        status = status_of([program, *words])
        if status != 0:
            for line in reasons(asked, status, before):
                say(line)
        tell_left_over(asked, before, status)
        return status if status >= 0 else 128 - status
    finally:
        drop_empty(made)


def status_of(command):
    """The status of a command, which gets this call's input and output, and what would end this
    call."""
    started = subprocess.Popen(command)
    hand_on(started)
    while True:
        try:
            return started.wait()
        except KeyboardInterrupt:
            continue  # The program got it too, and ends by it.


def tell_left_over(asked, before, status):
    """Names the outputs of an earlier run, which aren't this one's."""
    old = left_over(asked, before, status)
    if old:
        say(
            "warning: of an earlier run, and not written by this one: "
            + ", ".join(f"{name(asked.out)}/{one}" for one in old)
        )
