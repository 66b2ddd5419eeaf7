"""A run as its files tell it: reads them, sees that they belong together, and keeps what a report
shows. A large run's sessions are read by several processes."""

import os
from collections import Counter
from concurrent.futures import ProcessPoolExecutor
from contextlib import contextmanager
from io import StringIO
from pathlib import Path
from typing import Iterable, Iterator, NamedTuple, TextIO

from report import verdicts
from report.agreement import Step, Stream, Tally, agree_on_end, follow, steps_of
from report.faults import Unreadable
from report.frames import End, read_frames
from report.histories import History
from report.journal import Calls, read_acts, read_histories
from report.journal_rows import JournalRows, Start, session_starts
from report.limits import Limits, read_limits
from report.messages import REQUESTS, SENDER
from report.requests import HEADER, Columns, REFUSED, RequestsFile, Rows, SENT
from report.text import readable

STREAM_MOST = 1 << 62
CLIENTS_SHOWN = 3
LARGE = 8 << 20
PROCESSES_MOST = 4


class SessionSummary:
    """What a session did: its file, its clients (49), its end, and how many of its requests and
    reports had which fate."""

    def __init__(self, name: str, end: End, tally: Tally):
        self.name, self.end, self.tally = name, end, tally
        self.clients = {}
        self.requests = self.sent = self.refused = self.reports = 0

    def add(self, step: Step, sort: str) -> None:
        """Counts a request, or a report, with what became of it."""
        if step.kind not in REQUESTS:
            self.reports += 1
            return
        self.requests += 1
        self.sent += sort == SENT
        self.refused += sort == REFUSED
        self.clients.setdefault(step.fields.get(SENDER) or b"")

    def client(self) -> str:
        """The SenderCompID (49) of its requests; where there are more than three, how many more."""
        names = [readable(name) for name in self.clients if name]
        more = len(names) - CLIENTS_SHOWN
        return ", ".join(names[:CLIENTS_SHOWN]) + (f" and {more} more" if more > 0 else "")


class Part(NamedTuple):
    """What is read of one session: its summary, its rows as the page and as the spreadsheet have
    them, its calls, and of each tree the highest root at which it sent an order."""

    summary: SessionSummary
    rows: Columns
    table: str
    calls: Calls
    highest_sent: Counter


class Run(NamedTuple):
    """A run: its trees with their histories, its sessions, its requests and reports, and of each
    tree the highest root at which an order was sent."""

    limits: Limits
    histories: list[History]
    sessions: list[SessionSummary]
    rows: Columns
    highest_sent: Counter


class Job(NamedTuple):
    """A session that is to be read: its number, its file, the folder of the outputs, where its acts
    begin, and the limits."""

    number: int
    path: Path
    out: Path
    start: Start
    limits: Limits


@contextmanager
def faults_of(path: Path) -> Iterator[None]:
    """A fault of the file becomes one of the report."""
    try:
        yield
    except OSError as fault:
        raise Unreadable(f"{path}: {fault.strerror or fault}") from fault


def read_bytes(path: Path) -> bytes:
    """The bytes of a file."""
    with faults_of(path):
        return path.read_bytes()


def read_run(limits_path: Path, out: Path, session_paths: list[Path], table: TextIO) -> Run:
    """The run of these files; its requests go to the table as they are read."""
    limits, journal = read_limits(read_bytes(limits_path)), out / "journal.csv"
    rows, sessions, calls, highest_sent = Columns(Rows(limits.trees)), [], [], Counter()
    table.write(",".join(HEADER) + "\n")
    with faults_of(journal), open(journal, "rb") as file:
        starts, size = session_starts(file, len(session_paths)), os.fstat(file.fileno()).st_size
    jobs = [Job(number, path, out, starts[number], limits)
            for number, path in enumerate(session_paths)]
    for part in parts_of(jobs, is_large=size > LARGE):
        sessions.append(part.summary)
        calls.append(part.calls)
        rows.take(part.rows)
        table.write(part.table)
        highest_sent |= part.highest_sent
    with faults_of(journal), open(journal, "rb") as file:
        histories = read_histories(JournalRows(file, starts[-1]), limits.trees, calls)
    return Run(limits, histories, sessions, rows, highest_sent)


def parts_of(jobs: list[Job], is_large: bool) -> Iterable[Part]:
    """The sessions in order, those of a large run read by several processes, where the machine has
    means for them."""
    pool = process_pool() if is_large else None
    if pool is None:
        yield from map(read_session, jobs)
        return
    with pool:
        yield from pool.map(read_session, jobs)


def process_pool() -> ProcessPoolExecutor | None:
    """Processes that share the work, or none where the machine has no means for them."""
    try:
        return ProcessPoolExecutor(min(PROCESSES_MOST, os.cpu_count() or 1))
    except (OSError, NotImplementedError, ImportError):
        return None


def read_session(job: Job) -> Part:
    """Reads a session's acts, and its file and its two streams along them."""
    title = f"session {job.number} ({readable(os.fsencode(job.path))})"
    journal, trees = job.out / "journal.csv", job.limits.trees
    with faults_of(journal), open(journal, "rb") as file:
        acts = read_acts(JournalRows(file, job.start), job.number, len(trees))
    bodies, end = read_frames(read_bytes(job.path))
    agree_on_end(title, end, acts)
    stopped = acts.end.number in verdicts.STOPPED
    venue, client = (open_stream(title, job.out / f"s{job.number:02d}.{name}", stopped)
                     for name in ("venue", "client"))
    summary, rows, text = SessionSummary(str(job.path), acts.end, Tally()), Rows(trees), StringIO()
    table, columns, highest_sent = RequestsFile(text, rows), Columns(rows), Counter()
    for step in steps_of(title, bodies, acts, job.limits, summary.tally):
        follow(step, venue, client)
        row = rows.row_of(job.number, step)
        sort = rows.fates[row.fate].sort
        summary.add(step, sort)
        table.add(row)
        columns.add(row)
        if sort == SENT:
            for tree, _, value in step.outcome.reads:
                highest_sent[tree] = max(highest_sent[tree], value)
    venue.close()
    client.close()
    return Part(summary, columns, text.getvalue(), acts.calls, highest_sent)


def open_stream(session: str, path: Path, stopped: bool) -> Stream:
    """A stream that the gate wrote."""
    return Stream(session, path.name, *read_frames(read_bytes(path), STREAM_MOST), stopped)
