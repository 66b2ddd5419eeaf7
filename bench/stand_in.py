#!/usr/bin/env python3
"""A program that stands in for the gate in tests of the scripts that judge it: `run`, `cross` and
`check` by the plain models, over plain boards, with sessions that take turns frame by frame.

usage: stand_in.py run|cross LIMITS OUT SESSION...
       stand_in.py check LIMITS JOURNAL SESSION...

WRONG in the environment names what it does wrong:
lawful      every journal is lawful          faulty    every journal has a fault in its second row
late row    a fault is told a row too late   lonely    the guard looks at its own session alone
late        the guard reads before it posts  greedy    a refused order is passed on
"""
import os
import sys

from boards import Board, OnBoard, journal_of
from model.check import first_fault
from model.cross import CROSS, CrossSession, is_clear, join
from model.frames import Frame, next_frame
from model.judge import totals_of
from model.limits import Limits
from model.limits import first_fault as fault_of_limits
from model.screens import own_screens
from model.session import ENDS, INPUT_MOST, Session

WRONG = os.environ.get("WRONG", "")
USAGE = ("usage: gate run LIMITS OUT SESSION... | gate make NUMBER SESSIONS ORDERS"
         " | gate check LIMITS JOURNAL SESSION... | gate cross LIMITS OUT SESSION...\n")


class Turn(OnBoard, Session):
    """A session of the gate over a board."""

    def __init__(self, limits, number, board):
        super().__init__(limits, own_screens(limits), [])
        self.number, self.board = number, board

    def take_found(self, found, _):
        """Takes a frame."""
        self.take(found.fields)


class Guarding(OnBoard, CrossSession):
    """A session of the guard over a board."""

    def __init__(self, limits, number, board):
        super().__init__(limits, [])
        self.number, self.board = number, board

    def take_found(self, found, data):
        """Takes a frame."""
        self.take(data[found.start:found.end], found.fields)


class Lonely(Guarding):
    """A session that compares an order with its own alone."""

    def read(self, tree):
        super().read(tree)
        return self.board.arrays[tree][self.number]


class Late(Guarding):
    """A session that reads before it posts."""

    def guard(self, message):
        tree = self.limits.symbol_places[message.values[55]]
        old, asked = self.posted.get(tree, 0), self.value_asked(message.values)
        if not is_clear(join(self.read(tree), asked)):
            return CROSS
        self.post(tree, join(old, asked))
        return None


class Greedy(Guarding):
    """A session that passes on what it refused."""

    def refuse(self, message, fields, cause):
        super().refuse(message, fields, cause)
        self.passed += b"8=FIX.4.4\x01"


GUARDS = {"lonely": Lonely, "late": Late, "greedy": Greedy}


def end_of(found, data):
    """The end of a session behind its last frame, as (word, place)."""
    word, place = found
    if len(data) > INPUT_MOST and word in ("whole", "cut"):
        return "long", INPUT_MOST if word == "whole" else place
    return word, place


def play(sessions, inputs):
    """Takes the frames of all inputs, a frame of each session in turn. Gives the ends."""
    places, ends = [0] * len(inputs), [None] * len(inputs)
    while None in ends:
        for number, data in enumerate(inputs):
            if ends[number]:
                continue
            found = next_frame(data[:INPUT_MOST], places[number])
            if isinstance(found, Frame):
                sessions[number].take_found(found, data)
                sessions[number].frame += 1
                places[number] = found.end
            else:
                ends[number] = end_of(found, data)
    for session, (word, place) in zip(sessions, ends):
        session.acts.append(("ended", ENDS[word], place))
    return ends


def write(out, name, data):
    """Writes an output."""
    with open(os.path.join(out, name), "wb") as file:
        file.write(data)


def run(limits, out, inputs):
    """Runs the gate. Gives the text and the status."""
    limits = limits.counted(len(inputs))
    folds = [(max if word == "halt" else sum, 0) for word, _, _ in limits.trees()]
    board = Board(len(inputs), folds)
    sessions = [Turn(limits, number, board) for number in range(len(inputs))]
    ends = play(sessions, inputs)
    for number, session in enumerate(sessions):
        write(out, f"s{number:02}.venue", session.venue.data)
        write(out, f"s{number:02}.client", session.client.data)
    acts, status = [session.acts for session in sessions], status_of(ends)
    write(out, "journal.csv", journal_of(board, acts).encode())
    return totals_of(limits, acts, board.lines, ends, status), status


def cross(limits, out, inputs):
    """Runs the guard. Gives the text and the status."""
    limits = limits.counted(len(inputs))
    folds = [(lambda array: join(*array), 0)] * max(1, len(limits.symbols))
    board = Board(len(inputs), folds)
    kind = GUARDS.get(WRONG, Guarding)
    sessions = [kind(limits, number, board) for number in range(len(inputs))]
    status = status_of(play(sessions, inputs))
    for number, session in enumerate(sessions):
        write(out, f"s{number:02}.pass", session.passed)
        write(out, f"s{number:02}.client", session.client.data)
    write(out, "cross.csv", journal_of(board, [session.acts for session in sessions]).encode())
    return f"status {status}\n", status


def status_of(ends):
    """The status behind all sessions."""
    return 0 if all(word == "whole" for word, _ in ends) else 4


def check(limits, journal, inputs):
    """Checks a journal. Gives the text and the status."""
    with open(journal, "rb") as file:
        found = first_fault(limits, file.read(), inputs)
    if WRONG == "faulty":
        found = 5, 2
    if found is None or WRONG == "lawful":
        return "LAWFUL\n", 0
    kind, row = found
    return f"check fault {kind} row {row + (WRONG == 'late row')}\n", 7


COMMANDS = {"run": run, "cross": cross, "check": check}


def main(words):
    """Does what the words ask for. Gives the text and the status."""
    if len(words) < 4 or words[0] not in COMMANDS:
        return USAGE, 2
    data = []
    for name in (words[1], *words[3:]):
        with open(name, "rb") as file:
            data.append(file.read())
    text = data[0].decode()
    fault = fault_of_limits(text)
    if fault:
        return "limits fault {} row {}\n".format(*fault), 3
    return COMMANDS[words[0]](Limits(text), words[2], data[1:])


if __name__ == "__main__":
    TOLD, STATUS = main(sys.argv[1:])
    sys.stdout.write(TOLD)
    sys.exit(STATUS)
