"""What `--help` and `--version` tell, and the line that a wrong call gets on standard output."""
import os
import shutil
import subprocess

USAGE = (
    "usage: gate run LIMITS OUT SESSION... | gate make NUMBER SESSIONS ORDERS"
    " | gate check LIMITS JOURNAL SESSION... | gate cross LIMITS OUT SESSION..."
)

KIT = "rattle-kit-13f logic dac8208d650f15bf"

HELP = """\
usage: gate run LIMITS OUT SESSION...
       gate make NUMBER SESSIONS ORDERS
       gate check LIMITS JOURNAL SESSION...
       gate cross LIMITS OUT SESSION...
       gate report LIMITS OUT SESSION...
       gate --help | --version

Reads a limit file and 1 to {sessions} session files in FIX 4.4, sends each order on or refuses it, and
writes OUT/s00.venue and OUT/s00.client for the first session, s01 for the second and so on, and
OUT/journal.csv. OUT is made where it isn't there. In a run of more than 32 sessions a quota above
100,000 counts as 100,000. The program is proved and built first, where that has to be.

`make` makes a load from a NUMBER below 4,294,967,296, of 1 to {sessions} SESSIONS with 1 to 10,000 ORDERS
each, and runs it in memory: it reads no file, and writes the outputs into the folder load. Then it
compares what every session read with a walk along each tree's history, and tells what it found. It
ends with 0, 1, 2, 6 or 8 alone.

`check` judges a journal, whoever made it, by the limit file and by the session files, which are
given in the order of the journal's sessions. It tells `LAWFUL`, or the kind of the first fault and
its row, and writes nothing. It ends with 0, 1, 2, 3, 5, 6, 7 or 8 alone.

`cross` filters session files before a run, so that no order of the firm meets another one of its
own: an order that would cross one that may rest is refused, and what else there is in a session is
passed on as it is. It writes OUT/s00.pass, which can be a session of a run, and OUT/s00.client for
the first session and so on, and OUT/cross.csv. It ends with 0, 1, 2, 3, 4, 5, 6 or 8 alone.

`report`, with the words of a run that has ended, writes OUT/report.html and
OUT/requests.csv about it.

status of a run, a load, a check or a filter
  0  every session file was read to its end, and everything was written; or the journal is lawful
  1  the program couldn't be built or started
  2  the command line is malformed, or names one file twice; nothing was read or written
  3  the limit file has a fault
  4  a session file ends within a message, or something in it is no message
  5  a file couldn't be read
  6  a file, or standard output, couldn't be written
  7  the journal that was checked has a fault
  8  out of memory
  128 and the number of a signal, where one ended the program

status of a report
  0  both files were written
  2  the command line is malformed
  3  a file can't be read or written, or isn't a limit file or a journal
  4  the files don't belong to one run

To try it: ./gate run examples/first/limits.csv out/first examples/first/session.fix
A log with `|` for SOH or with time prefixes: tools/session_from_log.py makes a session file of it,
and tools/merge_logs.py puts a client's and a venue's log together.
GATE_PROGRAM=PATH runs the program at PATH and builds nothing.

documents, in {top}
  README.md          what it is, and where to begin
  docs/FORMATS.md    limit files, messages, the journal, statuses
  docs/CLAIMS.md     what is proved"""


def version(top):
    """The version of this copy, the kit that it is proved with, and the kit that is here."""
    return f"gate, {commit(top)}\nproved with {KIT}\non this machine: {kit_here()}"


def commit(top):
    """Which commit this copy is of, and whether something in it was changed since."""
    where = ["git", "-C", top]
    head = answer([*where, "log", "-1", "--format=%h of %cs"])
    if not os.path.exists(os.path.join(top, ".git")) or head is None:
        return "a copy without its history"
    changed = answer([*where, "status", "--porcelain"])
    return f"commit {head}" + (", changed since" if changed else "")


def kit_here():
    return answer(["rt", "version"]) or "no `rt` on the PATH"


def answer(command):
    """What a command prints, or None where it can't be run or fails."""
    if shutil.which(command[0]) is None:
        return None
    done = subprocess.run(command, capture_output=True, text=True, stdin=subprocess.DEVNULL)
    return done.stdout.strip() if done.returncode == 0 else None
