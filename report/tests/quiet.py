"""Standard output and standard error kept, for tests of the words of a report."""

import io
from contextlib import contextmanager, redirect_stderr, redirect_stdout


@contextmanager
def quiet():
    """What is said inside, in one text."""
    said = io.StringIO()
    with redirect_stdout(said), redirect_stderr(said):
        yield said
