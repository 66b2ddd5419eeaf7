"""What ends a report before it is written."""


class Unreadable(Exception):
    """A file can't be read or written, or isn't what it should be: a limit file, a journal."""


class Apart(Exception):
    """The files are each of their form, but don't belong to one run; the text says where they
    part."""
