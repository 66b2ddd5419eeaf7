"""The gate once more, plainly: what docs/FORMATS.md says, as short functions of whole bytes.

frames      frames and their fields         messages    what a frame says, and its first field fault
limits      a limit file, its first fault   book        orders and what they may cost
screens     the program's three screens     answers     the messages that are written
session     one session: input and reads in, acts and two streams out
journal     the text of a journal, read     judge       whether a run is legal, and the model's,
                                                        also of sessions that ended early
check       which fault a journal has first     cross, cross_judge      a guard against crossing orders
desk, desk_judge    limits that officers change while sessions run

No command has the last two yet: what they do is said where they stand.
"""
