"""Whether the files belong to one run: a session's frames, its acts and its two streams."""

from typing import Iterator, NamedTuple

from report import verdicts
from report.faults import Apart
from report.frames import End, WHOLE
from report.journal import Acts, Outcome
from report.limits import Limits
from report.messages import (
    ACCOUNT, CANCEL_REJECT, Fields, NEW, OF_THE_SESSION, ORDER_ID, REPLACE, REPORT, REPORTS,
    REQUESTS, SYMBOL, kind_name, kind_of)


class Step(NamedTuple):
    """A request or a report, with its act, where it has one. `is_told`: the journal says what
    became of it; it doesn't where the session stopped by a fault before or right behind it."""

    frame: int
    kind: bytes
    fields: Fields
    outcome: Outcome | None
    is_told: bool


class Tally:
    """How many frames of each sort a session has beside its requests and reports."""

    def __init__(self):
        self.not_sound = self.other = self.of_the_session = 0


def steps_of(session: str, bodies: list[bytes | None], acts: Acts, limits: Limits,
             tally: Tally) -> Iterator[Step]:
    """The requests and reports of a session, each with its act; ends where they part."""
    outcomes, at = acts.outcomes, 0
    stopped = acts.end.number in verdicts.STOPPED
    for frame, body in enumerate(bodies):
        outcome = outcomes[at] if at < len(outcomes) and outcomes[at].frame == frame else None
        at += outcome is not None
        is_told = outcome is not None or at < len(outcomes) or not stopped
        kind = None if body is None else kind_of(body)
        if is_told and not is_of_kind(kind, outcome):
            raise apart(session, frame, kind, outcome)
        if kind in REQUESTS or kind in REPORTS:
            step = Step(frame, kind, Fields(body), outcome, is_told)
            agree_with_limits(session, step, limits)
            yield step
        else:
            count(tally, kind)
    if at < len(outcomes):
        raise Apart(f"{session}: the journal has an act of frame {outcomes[at].frame}, where the"
                    f" file has {len(bodies)} frames, or acts before it")


def count(tally: Tally, kind: bytes | None) -> None:
    """Counts a frame that is neither a request nor a report."""
    if kind is None:
        tally.not_sound += 1
    elif kind in OF_THE_SESSION:
        tally.of_the_session += 1
    else:
        tally.other += 1


def is_of_kind(kind: bytes | None, outcome: Outcome | None) -> bool:
    """Whether a frame of this kind can have this act."""
    act = None if outcome is None else (outcome.word, outcome.code)
    if kind is None:
        return act == ("noted", verdicts.NOT_SOUND)
    if kind in REQUESTS:
        return act is not None and (act[0] == "sent" or (
            act[0] == "refused" and act[1] in verdicts.CODES[kind]))
    if kind in REPORTS:
        return act is None or (act[0] == "noted" and act[1] in verdicts.REPORT_NOTES)
    if kind in OF_THE_SESSION:
        return act is None
    return act == ("noted", verdicts.OTHER_TYPE)


def apart(session: str, frame: int, kind: bytes | None, outcome: Outcome | None) -> Apart:
    """What is said where a frame and its act part."""
    act = "no act of it" if outcome is None else f"'{outcome.word}'"
    if outcome is not None and outcome.word != "sent":
        act += f" with code {outcome.code}"
    return Apart(f"{session}, frame {frame}: the file has {kind_name(kind)}, the journal has {act}")


def agree_with_limits(session: str, step: Step, limits: Limits) -> None:
    """The roots that a request stands on are those of its trees, and the first of them above its
    limit is what refused it."""
    outcome = step.outcome
    if outcome is None or step.kind not in (NEW, REPLACE):
        return
    by_tree = outcome.word == "refused" and outcome.code in verdicts.TREES_REFUSE
    if not outcome.reads:
        if by_tree or (outcome.word == "sent" and step.kind == NEW):
            raise Apart(f"{session}, frame {step.frame}: the journal has no reads for it")
        return
    kinds = [limits.trees[read.tree].kind for read in outcome.reads]
    if kinds != ["halt", "firm", "account", "symbol"]:
        raise Apart(f"{session}, frame {step.frame}: the reads aren't those of the halt tree and of"
                    " the firm's, an account's and a symbol's")
    trees = (limits.accounts.get(step.fields.get(ACCOUNT)),
             limits.symbols.get(step.fields.get(SYMBOL)))
    if step.kind == NEW and trees != (outcome.reads[2].tree, outcome.reads[3].tree):
        raise Apart(f"{session}, frame {step.frame}: the journal's trees aren't those of the"
                    " order's account and symbol")
    if first_above(outcome, limits) != (outcome.code if by_tree else 0):
        raise Apart(f"{session}, frame {step.frame}: by the limit file the order isn't"
                    f" {outcome.word} as the journal says")


def first_above(outcome: Outcome, limits: Limits) -> int:
    """The code of the first root that is above its limit, in the order of the reads, else 0."""
    codes = (verdicts.HALT, verdicts.FIRM, verdicts.ACCOUNT, verdicts.SYMBOL)
    for code, read in zip(codes, outcome.reads):
        if read.value > (limits.trees[read.tree].limit or 0):
            return code
    return 0


def agree_on_end(session: str, end: End, acts: Acts) -> None:
    """The session ended as its file does, or stopped by a fault before."""
    if acts.end.number not in verdicts.STOPPED and acts.end != end:
        raise Apart(f"{session}: its file ends so: {verdicts.end_text(end)}; by the journal it"
                    f" ended so: {verdicts.end_text(acts.end)}")


class Stream:
    """What the gate wrote to the venue or to the client of a session, taken message by message."""

    def __init__(self, session: str, name: str, bodies: list[bytes | None], end: End,
                 stopped: bool):
        self.session, self.name = session, name
        self.bodies, self.end, self.stopped = bodies, end, stopped
        self.at = 0

    def take(self, step: Step, kind: bytes, order_id: bytes | None, ending: bytes) -> None:
        """The next message has to be of this kind, with this ClOrdID and this ending."""
        if self.at == len(self.bodies) and self.stopped:
            return
        body = self.bodies[self.at] if self.at < len(self.bodies) else None
        is_it = body is not None and body.startswith(b"35=%b\x01" % kind) and (
            order_id is None or b"%b%b\x01" % (ORDER_ID, order_id) in body)
        if not is_it or not body.endswith(ending):
            raise Apart(f"{self.session}, frame {step.frame}: message {self.at} of {self.name}"
                        " isn't what the gate wrote of it")
        self.at += 1

    def close(self) -> None:
        """Nothing is left but what a failing write left."""
        if self.at < len(self.bodies) or (self.end.number != WHOLE and not self.stopped):
            raise Apart(f"{self.session}: {self.name} has more than the journal tells of")


def follow(step: Step, venue: Stream, client: Stream) -> None:
    """Takes what the gate wrote of a request or a report from its stream."""
    if not step.is_told:
        return
    outcome, order_id = step.outcome, step.fields.get(ORDER_ID)
    is_report = step.kind in (REPORT, CANCEL_REJECT)
    if outcome is not None and outcome.word != "sent" and outcome.code == (
            verdicts.REPORT_FIELD if is_report else verdicts.FIELD):
        ending = b"\x01371=%d\x01372=%b\x01373=%d\x01" % (outcome.first, step.kind, outcome.second)
        (venue if is_report else client).take(step, b"3", None, ending)
    elif is_report:
        client.take(step, step.kind, order_id, b"")
    elif outcome.word == "sent":
        venue.take(step, step.kind, order_id, b"")
    else:
        word = verdicts.refusal_word(outcome.code, outcome.first).encode()
        kind = REPORT if step.kind == NEW else CANCEL_REJECT
        client.take(step, kind, order_id, b"\x0158=%b\x01" % word)
