"""The words of a call: which run, load, filter or check they ask for, and what is wrong where they
ask for none."""
import os
import re

from launcher.files import first_pair, identity
from launcher.say import counted, listed, name

SESSIONS = 64


class Run:
    """`run LIMITS OUT SESSION...`: the names as they were given."""

    # What the files of a session are called behind its number: what goes on, then the answers.
    kinds = ("venue", "client")
    journal_file = "journal.csv"
    # What a report makes of a run, beside its outputs.
    reports = ("report.html", "requests.csv")

    def __init__(self, limits, out, sessions):
        self.limits = limits
        self.out = out
        self.sessions = sessions

    def inputs(self):
        """The names that are read, LIMITS first."""
        return [self.limits, *self.sessions]

    def outputs(self):
        """The names that are written: two for each session, then the journal."""
        every = range(len(self.sessions))
        return [path for session in every for path in self.streams(session)] + [self.journal()]

    def streams(self, session):
        """The names of what goes on of a session to the venue, and of the answers for its client."""
        return [f"{self.out}/s{session:02}.{kind}" for kind in self.kinds]

    def journal(self):
        return f"{self.out}/{self.journal_file}"


class Load(Run):
    """`make NUMBER SESSIONS ORDERS`: a run over no files, whose outputs stand in the folder `load`."""

    def __init__(self, sessions):
        super().__init__(None, "load", [None] * sessions)

    def inputs(self):
        return []


class Filter(Run):
    """`cross LIMITS OUT SESSION...`: a run that passes messages on, and has a journal of its own."""

    kinds = ("pass", "client")
    journal_file = "cross.csv"
    reports = ()


class Check:
    """`check LIMITS JOURNAL SESSION...`: the names as they were given. Nothing is written."""

    def __init__(self, limits, journal, sessions):
        self.limits = limits
        self.journal = journal
        self.sessions = sessions

    def inputs(self):
        """The names that are read, in the order in which they are."""
        return [self.limits, self.journal, *self.sessions]


# What each word behind these commands is, the last of them once or more often.
NAMES = {
    "run": ("a limit file", "a folder for the outputs", "a session file"),
    "check": ("a limit file", "a journal", "a session file"),
    "cross": ("a limit file", "a folder for the outputs", "a session file"),
}

# What a command is called that takes sessions.
CALLED = {"run": "a run", "check": "a check", "cross": "a filter"}

# What each word behind `make` is: its name, and its least and its most.
NUMBERS = (
    ("NUMBER", 0, 4_294_967_295),
    ("SESSIONS", 1, SESSIONS),
    ("ORDERS", 1, 10_000),
)


def read_run(words):
    """The run, the load, the filter or the check that these words ask for and None, or None and
    what is wrong with them."""
    fault = wrong_word(words)
    if not fault and words[0] == "make":
        return read_load(words)
    fault = fault or wrong_number(words)
    if fault:
        return None, fault
    if words[0] == "check":
        return read_check(words)
    run = (Filter if words[0] == "cross" else Run)(words[1], words[2], words[3:])
    fault = repeated(run) or overwritten(run)
    return (None, fault) if fault else (run, None)


def read_load(words):
    """The same where the first word is `make`."""
    fault = wrong_count(words) or wrong_digits(words)
    if fault:
        return None, fault
    load = Load(int(words[2]))
    fault = overwritten(load)
    return (None, fault) if fault else (load, None)


def read_check(words):
    """The same where the first word is `check`. A file may be given under two names, since nothing
    is written; a name is given once."""
    fault = given_twice(words[3:])
    return (None, fault) if fault else (Check(words[1], words[2], words[3:]), None)


def given_twice(sessions):
    """Whether a session's name was given twice, or None."""
    places = {}
    for place, path in enumerate(sessions):
        if path in places:
            both = f"sessions {places[path]} and {place} are both {path}"
            return f"{both}: a session can't be given twice"
        places[path] = place
    return None


def wrong_count(words):
    """Whether there are too few words behind `make` or too many, or None."""
    missing = [which for which, _, _ in NUMBERS[len(words) - 1 :]]
    if missing:
        return "`make` lacks " + listed(missing)
    extra = len(words) - 1 - len(NUMBERS)
    return f"`make` takes three numbers, and {extra} more words were given" if extra else None


def wrong_digits(words):
    """The first word behind `make` that isn't a number in its range, or None."""
    for place, (word, (which, least, most)) in enumerate(zip(words[1:], NUMBERS), 2):
        if not re.fullmatch("0|[1-9][0-9]*", word) or not least <= int(word) <= most:
            return (
                f"word {place}, `{word}`, is no {which}: that is {counted(least)} to "
                f"{counted(most)}, in digits without a leading zero"
            )
    return None


def wrong_word(words):
    """What is wrong with one of the words, or None."""
    if not words:
        return "no words were given"
    for place, word in enumerate(words, 1):
        if not is_utf8(word):
            return f"word {place} isn't UTF-8: {name(word)}"
    if words[0] != "make" and words[0] not in NAMES:
        return f"`{words[0]}` is no command"
    for place, word in enumerate(words, 1):
        if not word:
            return f"word {place} is empty"
        if word.startswith("-"):
            hint = f": write `./{word}` for such a file" if words[0] in NAMES else ""
            return f"word {place}, `{word}`, begins with a dash{hint}"
    return None


def wrong_number(words):
    """Whether there are too few words or too many, or None."""
    if len(words) < 4:
        return f"`{words[0]}` lacks " + listed(NAMES[words[0]][len(words) - 1 :])
    count = len(words) - 3
    if count > SESSIONS:
        return f"{count} sessions were given: {CALLED[words[0]]} takes 1 to {SESSIONS}"
    return None


def repeated(run):
    """Whether one session was given twice, under whatever names, or None."""
    pair = first_pair([(label(run, place), path) for place, path in enumerate(run.sessions, 1)])
    if not pair:
        return None
    return f"{pair[0]} and {pair[1]} are the same file: a session can't be given twice"


def overwritten(run):
    """Whether the run would write two outputs to one file, or write what it reads, or None."""
    pair = first_pair([(path, path) for path in run.outputs()])
    if pair:
        return f"the outputs {pair[0]} and {pair[1]} are the same file"
    written = {identity(path): path for path in run.outputs()}
    for place, path in enumerate(run.inputs()):
        output = written.get(identity(path))
        if output:
            both = f"{label(run, place)} and the output {output}"
            return f"{both} are the same file: the run would overwrite what it reads"
    return None


def label(run, place):
    """How an input is called in a message: the word and what it is given as."""
    if place == 0:
        return f"{run.limits} (word 2, the limit file)"
    return f"{run.sessions[place - 1]} (word {place + 3}, session {place - 1})"


def is_utf8(word):
    try:
        os.fsencode(word).decode("utf-8")
        return True
    except UnicodeDecodeError:
        return False
